/* How much stack a call takes: a thread runs it on a stack that was painted before, and the paint that is gone is counted. */
#define _GNU_SOURCE
#include "dimpsyholt.h"

#include <pthread.h>
#include <stdio.h>
#include <stdlib.h>
#include <string.h>

enum { STACK = 1 << 20, PAINT = 0xA5, PROMISED = 16 * 1024 };

static const int32_t *model, *lines;
static size_t model_len, lines_len;
static uint32_t places[DIMPSYHOLT_PLACES];

static void *nothing(void *unused) { return unused; }

static void *check(void *unused) {
    dimpsyholt_check(model, model_len, lines, lines_len, places, DIMPSYHOLT_PLACES);
    return unused;
}

static void *recheck(void *unused) {
    dimpsyholt_recheck(model, model_len, model, model_len, lines, lines_len, places, DIMPSYHOLT_PLACES);
    return unused;
}

/* How many bytes from the top of the stack on were written. */
static size_t used(void *(*run)(void *)) {
    static unsigned char *stack;
    pthread_attr_t attributes;
    pthread_t thread;
    size_t untouched = 0;
    if (stack == NULL) stack = aligned_alloc(65536, STACK);
    memset(stack, PAINT, STACK);
    if (pthread_attr_init(&attributes) != 0 || pthread_attr_setstack(&attributes, stack, STACK) != 0 ||
        pthread_create(&thread, &attributes, run, NULL) != 0 || pthread_join(thread, NULL) != 0) {
        puts("no thread");
        exit(1);
    }
    while (untouched < STACK && stack[untouched] == PAINT) untouched++;
    return STACK - untouched;
}

static int within(const char *what) {
    const size_t empty = used(nothing), one = used(check), two = used(recheck);
    const size_t most = (one > two ? one : two) - empty;
    if (getenv("STACK_SHOWN")) fprintf(stderr, "%s: %zu bytes\n", what, most);
    if (most > PROMISED) printf("%s: %zu bytes\n", what, most);
    return most <= PROMISED;
}

int main(void) {
    /* 64 variables of every value; a row of each kind over 16 of them, and a step for each row */
    static int32_t m[DIMPSYHOLT_MODEL_WORDS], l[DIMPSYHOLT_LOG_WORDS];
    size_t n = 0, k = 0;
    int good = 1;
    int32_t i, row;
    m[n++] = 64;
    for (i = 0; i < 64; i++) { m[n++] = -100000; m[n++] = 100000; }
    m[n++] = 4;
    m[n++] = 1, m[n++] = 16, m[n++] = 0;
    for (i = 0; i < 16; i++) { m[n++] = 1; m[n++] = i; }
    m[n++] = 2, m[n++] = 16;
    for (i = 0; i < 16; i++) m[n++] = i;
    m[n++] = 3, m[n++] = 16, m[n++] = 5;
    for (i = 0; i < 16; i++) { m[n++] = i; m[n++] = 10000; m[n++] = 1; }
    m[n++] = 4, m[n++] = 16;
    for (i = 0; i < 16; i++) m[n++] = i;
    model = m, model_len = n, lines = l;
    for (row = 0; row < 4; row++) {
        static const char *const names[] = {"linear", "all-different", "cumulative", "circuit"};
        k = 0;
        l[k++] = 1, l[k++] = row, l[k++] = 16;
        for (i = 0; i < 16; i++) { l[k++] = i; l[k++] = 4; l[k++] = 7 * i; }
        l[k++] = 0;
        lines_len = k;
        good &= within(names[row]);
    }
    if (good) puts("a call keeps within 16 KiB of stack");
    return !good;
}
