/* Three variables with two values between them cannot all be different: asks the library about
   the log that shows it, and prints the answer and the places that were written. */
#include "dimpsyholt.h"

#include <stdio.h>

int main(void) {
    static const int32_t model[] = {3, 1, 2, 1, 2, 1, 2, 1, 2, 3, 0, 1, 2};
    static const int32_t log[] = {1, 0, 3, 0, 2, 1, 1, 2, 1, 2, 2, 1, 0,
                                  2, 0, 0, 1, 0,
                                  3, 1};
    static uint32_t places[DIMPSYHOLT_PLACES];
    for (size_t k = 0; k < DIMPSYHOLT_PLACES; k++) {
        places[k] = UINT32_MAX;
    }

    dimpsyholt_answer answer =
        dimpsyholt_check(model, sizeof model / sizeof *model, log, sizeof log / sizeof *log,
                         places, DIMPSYHOLT_PLACES);

    if (answer.kind != DIMPSYHOLT_ACCEPTED) {
        printf("not accepted: number %u, step %u, position %u\n", (unsigned)answer.number,
               (unsigned)answer.step, (unsigned)answer.position);
        return 1;
    }
    printf("accepted: conclusion %u\n", (unsigned)answer.conclusion);
    for (size_t k = 0; k < DIMPSYHOLT_PLACES && places[k] != UINT32_MAX; k++) {
        printf("step %zu begins at word %u\n", k, (unsigned)places[k]);
    }
    return 0;
}
