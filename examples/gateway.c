/* A gateway in C: prints the sheet, or the reach sheet or the word sheet, of the plan on standard input, after trying buffers of many lengths, with
   bytes around them that have to stay.

     cc -std=c11 -O2 -o gateway examples/gateway.c crates/gateway/out/libgateway.a
     ./gateway [reach | words] [ALLOWANCE]     ALLOWANCE is the rounds allowed, 0 to 65,535; without it, as many as any plan needs

   Exit status 0 if each try was as the header says, 1 if not, 2 if the words are others. */
#include "gateway.h"

#include <stdio.h>
#include <stdlib.h>
#include <string.h>

enum { TEXT = 65536, AROUND = 16, FILL = 0xa5, ALL = 300, NEAR = 8, STEPS = 8 };

/* A function of the header, the word that asks for it, and the bytes that suffice for its sheets. */
struct function {
    const char *word;
    size_t (*ask)(const uint8_t *, size_t, uint16_t, uint8_t *, size_t);
    size_t longest;
};

static const struct function functions[] = {
    {"reach", hjaltropa_reach, HJALTROPA_SHEET},
    {"words", hjaltropa_words, HJALTROPA_WORDS},
    {NULL, hjaltropa_sheet, HJALTROPA_SHEET},
};

static uint8_t text[TEXT];
static uint8_t whole[HJALTROPA_SHEET];
static uint8_t tried[AROUND + HJALTROPA_SHEET + 1 + AROUND];

/* Whether so many bytes are all as they were filled. */
static int untouched(const uint8_t *bytes, size_t count) {
    for (size_t i = 0; i < count; i++) {
        if (bytes[i] != FILL) {
            return 0;
        }
    }
    return 1;
}

/* Whether buffers of this length are tried: up to a byte more than the sheet has all for a short sheet, and for a long one those near 0 and near
   the sheet's length, and some in between; and past that those with room for the longest sheet. */
static int worth_trying(size_t room, size_t size, size_t longest) {
    if (size + 1 < room) {
        return longest <= room;
    }
    return size <= ALL || room <= NEAR || size <= room + NEAR || room % (size / STEPS) == 0;
}

/* The function that the words ask for. */
static const struct function *asked(int count, char **words) {
    const struct function *function = functions;
    while (function->word != NULL && (count < 2 || strcmp(words[1], function->word) != 0)) {
        function++;
    }
    return function;
}

/* The allowance that the words ask for. */
static uint16_t allowed(int count, char **words) {
    char *end = NULL;
    unsigned long number = count < 2 ? HJALTROPA_ROUNDS : strtoul(words[1], &end, 10);
    if (2 < count || (end != NULL && (end == words[1] || *end != '\0')) || UINT16_MAX < number) {
        fprintf(stderr, "usage: gateway [reach | words] [ALLOWANCE]\n");
        exit(2);
    }
    return (uint16_t)number;
}

int main(int count, char **words) {
    const struct function *function = asked(count, words);
    int worded = function->word != NULL;
    uint16_t allowance = allowed(count - worded, words + worded);
    size_t length = fread(text, 1, TEXT, stdin);
    size_t size = function->ask(text, length, allowance, whole, sizeof whole);
    if (ferror(stdin) || function->longest < size) {
        fprintf(stderr, "gateway: the plan can't be read, or its sheet is longer than the header says\n");
        return 1;
    }
    for (size_t room = 0; room <= function->longest + 1; room++) {
        if (!worth_trying(room, size, function->longest)) {
            continue;
        }
        uint8_t *buffer = tried + AROUND;
        memset(tried, FILL, sizeof tried);
        size_t answered = function->ask(text, length, allowance, buffer, room);
        size_t written = room < size ? 0 : size;
        size_t behind = sizeof tried - AROUND - written;
        if (answered != size || memcmp(buffer, whole, written) != 0 || !untouched(tried, AROUND) || !untouched(buffer + written, behind)) {
            fprintf(stderr, "gateway: a buffer of %zu bytes is not left as promised\n", room);
            return 1;
        }
    }
    return fwrite(whole, 1, size, stdout) == size && fclose(stdout) == 0 ? 0 : 1;
}
