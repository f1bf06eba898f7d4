/* Asks the plans in files, all at once, and prints their sheets, or their reach sheets or word sheets, in the files' order.

     cc -std=c11 -O2 -pthread -o threads examples/threads.c crates/gateway/out/libgateway.a
     ./threads [reach | words] FILE..

   Each plan is asked in a thread that has HJALTROPA_STACK bytes of stack and below them a page that nobody may touch, again and again until all
   have been asked many times, and each time the sheet has to be the one that it had when no other plan was asked. Before that the stack which a
   call takes is measured, in a thread with plenty of it; it has to leave a quarter of itself free below HJALTROPA_STACK. Exit status 0 if all
   this was so. */
#define _DEFAULT_SOURCE
#include "gateway.h"

#include <pthread.h>
#include <stdatomic.h>
#include <stdio.h>
#include <stdlib.h>
#include <string.h>
#include <sys/mman.h>
#include <unistd.h>

enum { TIMES = 8, FILL = 0xa5, PLENTY = 8 * 1024 * 1024 };

/* A plan, its sheet, and how it is asked. */
struct asking {
    uint8_t text[HJALTROPA_TEXT + 1];
    size_t length;
    uint8_t sheet[HJALTROPA_SHEET];
    size_t size;
    uint8_t again[HJALTROPA_SHEET];
    int same;
    pthread_t thread;
    uint8_t *stack;
    size_t stack_size;
    uintptr_t began; /* where in the stack the thread's own function stands */
};

/* The function of the header that is asked. */
static size_t (*ask)(const uint8_t *, size_t, uint16_t, uint8_t *, size_t) = hjaltropa_sheet;

static pthread_barrier_t start;
static atomic_size_t unfinished; /* threads that have asked fewer than TIMES times */

static void trouble(const char *what) {
    fprintf(stderr, "threads: %s\n", what);
    exit(1);
}

static void *ask_alone(void *given) {
    struct asking *asking = given;
    uint8_t here;
    asking->began = (uintptr_t)&here;
    asking->size = ask(asking->text, asking->length, HJALTROPA_ROUNDS, asking->sheet, sizeof asking->sheet);
    return NULL;
}

static void *ask_among_others(void *given) {
    struct asking *asking = given;
    asking->same = 1;
    pthread_barrier_wait(&start);
    for (int times = 0; times < TIMES || 0 < unfinished; times++) {
        memset(asking->again, FILL, sizeof asking->again);
        size_t size = ask(asking->text, asking->length, HJALTROPA_ROUNDS, asking->again, sizeof asking->again);
        asking->same &= size == asking->size && memcmp(asking->again, asking->sheet, size) == 0;
        unfinished -= times + 1 == TIMES;
    }
    return NULL;
}

/* Starts a thread on a new stack of so many bytes, all filled, above a page that nobody may touch. */
static void begin(struct asking *asking, void *(*function)(void *), size_t stack_size) {
    size_t page = (size_t)sysconf(_SC_PAGESIZE);
    uint8_t *pages = mmap(NULL, page + stack_size, PROT_READ | PROT_WRITE, MAP_PRIVATE | MAP_ANONYMOUS, -1, 0);
    if (pages == MAP_FAILED || mprotect(pages, page, PROT_NONE) != 0) {
        trouble("no memory for a stack");
    }
    asking->stack = pages + page;
    asking->stack_size = stack_size;
    memset(asking->stack, FILL, stack_size);
    pthread_attr_t attributes;
    if (pthread_attr_init(&attributes) != 0 || pthread_attr_setstack(&attributes, asking->stack, stack_size) != 0 ||
        pthread_create(&asking->thread, &attributes, function, asking) != 0) {
        trouble("no thread");
    }
    pthread_attr_destroy(&attributes);
}

/* Waits for the thread's end and gives its stack back; the bytes of stack that were written below the thread's own function. */
static size_t end(struct asking *asking) {
    size_t page = (size_t)sysconf(_SC_PAGESIZE);
    size_t untouched = 0;
    if (pthread_join(asking->thread, NULL) != 0) {
        trouble("a thread did not end");
    }
    while (untouched < asking->stack_size && asking->stack[untouched] == FILL) {
        untouched++;
    }
    size_t taken = (size_t)(asking->began - (uintptr_t)(asking->stack + untouched));
    munmap(asking->stack - page, page + asking->stack_size);
    return taken;
}

static void read_plan(const char *file, struct asking *asking) {
    FILE *input = fopen(file, "rb");
    if (input == NULL) {
        trouble("a file can't be opened");
    }
    asking->length = fread(asking->text, 1, sizeof asking->text, input);
    if (ferror(input)) {
        trouble("a file can't be read");
    }
    fclose(input);
}

int main(int count, char **words) {
    if (1 < count && strcmp(words[1], "reach") == 0) {
        ask = hjaltropa_reach;
    } else if (1 < count && strcmp(words[1], "words") == 0) {
        ask = hjaltropa_words;
    }
    if (ask != hjaltropa_sheet) {
        count--;
        words++;
    }
    size_t plans = count < 2 ? 0 : (size_t)count - 1;
    size_t deepest = 0;
    struct asking *askings = calloc(plans, sizeof *askings);
    if (plans == 0 || askings == NULL || pthread_barrier_init(&start, NULL, (unsigned)plans) != 0) {
        trouble("usage: threads [reach | words] FILE..");
    }
    for (size_t i = 0; i < plans; i++) {
        read_plan(words[i + 1], &askings[i]);
        begin(&askings[i], ask_alone, PLENTY);
        size_t taken = end(&askings[i]);
        deepest = deepest < taken ? taken : deepest;
        if (sizeof askings[i].sheet < askings[i].size) {
            trouble("a sheet is longer than HJALTROPA_SHEET");
        }
    }
    fprintf(stderr, "threads: the deepest call took %zu bytes of stack\n", deepest);
    if (HJALTROPA_STACK < deepest + deepest / 4) {
        trouble("HJALTROPA_STACK leaves no margin over that");
    }
    unfinished = plans;
    for (size_t i = 0; i < plans; i++) {
        begin(&askings[i], ask_among_others, HJALTROPA_STACK);
    }
    for (size_t i = 0; i < plans; i++) {
        end(&askings[i]);
    }
    for (size_t i = 0; i < plans; i++) {
        if (!askings[i].same) {
            trouble("a plan had another sheet while others were asked");
        }
        if (fwrite(askings[i].sheet, 1, askings[i].size, stdout) != askings[i].size) {
            trouble("a sheet can't be printed");
        }
    }
    return fclose(stdout) == 0 ? 0 : 1;
}
