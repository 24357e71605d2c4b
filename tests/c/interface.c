/* What the header promises, in words that are C and C++: its names, its texts, and tables of length 0. */
#include "dimpsyholt.h"

#include <stdio.h>
#include <string.h>

static uint32_t places[DIMPSYHOLT_PLACES];

static int same(dimpsyholt_answer a, uint32_t kind, uint32_t number) {
    return a.kind == kind && a.number == number && a.step == 0 && a.position == 0;
}

static int fault(const char *what) {
    printf("wrong: %s\n", what);
    return 1;
}

int main(void) {
    static const int32_t model[] = {3, 1, 2, 1, 2, 1, 2, 1, 2, 3, 0, 1, 2};
    static const int32_t log[] = {1, 0, 3, 0, 2, 1, 1, 2, 1, 2, 2, 1, 0, 2, 0, 0, 1, 0, 3, 1};
    const size_t words = sizeof model / sizeof *model;
    const size_t steps = sizeof log / sizeof *log;
    uint32_t number;
    int named = 0;

    if (dimpsyholt_version() != DIMPSYHOLT_VERSION) return fault("the version");

    /* a table of length 0 may be NULL: model, log and places, in both functions */
    if (!same(dimpsyholt_check(NULL, 0, log, steps, places, DIMPSYHOLT_PLACES),
              DIMPSYHOLT_REFUSED, DIMPSYHOLT_MODEL_ENDS_EARLY)) return fault("no model");
    if (!same(dimpsyholt_check(model, words, NULL, 0, places, DIMPSYHOLT_PLACES),
              DIMPSYHOLT_REFUSED, DIMPSYHOLT_NO_CONCLUSION)) return fault("no log");
    if (!same(dimpsyholt_check(model, words, log, steps, NULL, 0),
              DIMPSYHOLT_REFUSED, DIMPSYHOLT_TOO_FEW_PLACES)) return fault("no places");
    if (!same(dimpsyholt_check(NULL, 0, NULL, 0, NULL, 0),
              DIMPSYHOLT_REFUSED, DIMPSYHOLT_TOO_FEW_PLACES)) return fault("nothing");
    if (!same(dimpsyholt_recheck(NULL, 0, model, words, log, steps, places, DIMPSYHOLT_PLACES),
              DIMPSYHOLT_ACCEPTED, 0)) return fault("no old model");
    if (!same(dimpsyholt_recheck(model, words, NULL, 0, log, steps, places, DIMPSYHOLT_PLACES),
              DIMPSYHOLT_REFUSED, DIMPSYHOLT_MODEL_ENDS_EARLY)) return fault("no new model");
    if (!same(dimpsyholt_recheck(NULL, 0, NULL, 0, NULL, 0, NULL, 0),
              DIMPSYHOLT_REFUSED, DIMPSYHOLT_TOO_FEW_PLACES)) return fault("nothing to recheck");

    for (number = 0; number < 1000; number++) {
        const char *text = dimpsyholt_refusal_text(number);
        if (text != NULL && strlen(text) > 0) named++;
    }
    printf("%d refusals have a text\n", named);
    printf("21: %s\n", dimpsyholt_refusal_text(DIMPSYHOLT_ROW_DOES_NOT_CONFLICT));
    return 0;
}
