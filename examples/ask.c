/* Asks one plan and prints one line: its verdict, or why there is none.

     cc -std=c11 -O2 -o ask examples/ask.c crates/gateway/out/libgateway.a
     ./ask [--words] [FILE]     FILE is a plan's text; `-` or no FILE reads standard input

   With --words the line is the word sheet, which has the plan's own labels. Exit status, as that of ./sheet: 0 clear, 1 a breach, 2 refused,
   3 trouble of its own. */
#include "gateway.h"

#include <stdio.h>
#include <stdlib.h>
#include <string.h>

enum { CLEAR, BREACH, REFUSED, TROUBLE };

static void trouble(const char *what) {
    fprintf(stderr, "ask: %s\n", what);
    exit(TROUBLE);
}

/* The last two lines of a sheet that is a string. */
static const char *last_lines(const char *sheet) {
    const char *from = sheet + strlen(sheet);
    for (int feeds = 0; from != sheet; from--) {
        feeds += from[-1] == '\n';
        if (feeds == 3) {
            break;
        }
    }
    return from;
}

/* Writes what a sheet says to a line; the exit status. */
static int read_verdict(const char *sheet, char *said, size_t room) {
    const char *lines = last_lines(sheet);
    const char *last = strchr(lines, '\n');
    unsigned higher, lower, channel, handle, number, line;
    if (strcmp(lines, "3001\nflow clear\n") == 0) {
        snprintf(said, room, "flow clear\n");
        return CLEAR;
    }
    if (last != NULL && strcmp(last, "\nflow breach\n") == 0 && sscanf(lines, "3000%2x%2x%2x%2x", &higher, &lower, &channel, &handle) == 4) {
        snprintf(said, room, "flow breach: level %u may send handle %u on channel %u, where level %u may receive it\n", higher, handle, channel,
                 lower);
        return BREACH;
    }
    if (last != NULL && strcmp(last, "\nrefused\n") == 0 && sscanf(lines, "3f%2x%4x", &number, &line) == 2) {
        snprintf(said, room, "refused: number %u, line %u\n", number, line);
        return REFUSED;
    }
    trouble("no sheet came back");
    return TROUBLE;
}

/* Writes the word sheet of a text to a line; it has to say what the exit status says. */
static void ask_words(const uint8_t *text, size_t length, int status, char *said, size_t room) {
    const char *opening = status == CLEAR ? "clear\n" : status == BREACH ? "breach " : "refused\n";
    size_t size = hjaltropa_words(text, length, HJALTROPA_ROUNDS, (uint8_t *)said, room - 1);
    if (room - 1 < size) {
        trouble("the word sheet is longer than any should be");
    }
    said[size] = '\0';
    if (strncmp(said, opening, strlen(opening)) != 0) {
        trouble("the word sheet says something else than the sheet");
    }
}

int main(int count, char **words) {
    /* A byte more than a plan may have: a longer text is refused by what was read of it. The sheet and the line get a zero behind them, as strings
       have; a line with numbers is shorter than a word sheet may be. */
    static uint8_t text[HJALTROPA_TEXT + 1];
    static uint8_t sheet[HJALTROPA_SHEET + 1];
    static char said[HJALTROPA_WORDS + 1];
    int in_words = 1 < count && strcmp(words[1], "--words") == 0;
    const char *file = 1 + in_words < count ? words[1 + in_words] : "-";
    if (2 + in_words < count) {
        trouble("usage: ask [--words] [FILE]");
    }
    FILE *input = strcmp(file, "-") == 0 ? stdin : fopen(file, "rb");
    if (input == NULL) {
        trouble("the file can't be opened");
    }
    size_t length = fread(text, 1, sizeof text, input);
    if (ferror(input)) {
        trouble("the plan can't be read");
    }
    if (HJALTROPA_SHEET < hjaltropa_sheet(text, length, HJALTROPA_ROUNDS, sheet, HJALTROPA_SHEET)) {
        trouble("the sheet is longer than any should be");
    }
    int status = read_verdict((const char *)sheet, said, sizeof said);
    if (in_words) {
        ask_words(text, length, status, said, sizeof said);
    }
    if (fputs(said, stdout) == EOF || fclose(stdout) != 0) {
        trouble("the verdict can't be printed");
    }
    return status;
}
