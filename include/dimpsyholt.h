/*
 * Dimpsyholt: a checker for the logs of a constraint solver.
 *
 * A model (variables with bounds, and rows) and a log (the solver's reasoning, step by step) are tables of
 * signed 32-bit words. The checker reads both and answers "accepted" only where every step of the log holds
 * and the log ends in its conclusion. Everything else is refused by number, step and position.
 *
 * The caller owns every table. The library reads the model and the log, writes into the places alone, keeps
 * nothing after it has returned, allocates nothing and reads no file. Any words get an answer: a table that
 * is too long, too short or full of nonsense is refused, never a fault.
 *
 * Threads: the functions keep no state and may run in any number of threads at once. Stack: a call needs
 * at most 16 KiB.
 *
 * What the caller sees to: a pointer is good for as many entries as its length says, and is aligned for its
 * type; the places overlap no other table; no other thread writes a table during the call. A table of length
 * 0 may be any pointer, NULL too.
 */
#ifndef DIMPSYHOLT_H
#define DIMPSYHOLT_H

#include <stddef.h>
#include <stdint.h>

#ifdef __cplusplus
extern "C" {
#endif

/* The version of this header, 1.0.0: two digits each for minor and patch. */
#define DIMPSYHOLT_VERSION 10000

/* The number of the table format. */
#define DIMPSYHOLT_FORMAT 1

/* At most so many words of a model and of a log; at least so many places. */
#define DIMPSYHOLT_MODEL_WORDS 4096
#define DIMPSYHOLT_LOG_WORDS 16384
#define DIMPSYHOLT_PLACES 4096

/* The kinds of answer. Open the gate on DIMPSYHOLT_ACCEPTED; on DIMPSYHOLT_CARRIED where the same log was
 * accepted against the old model before; on nothing else, and only for the conclusion that is needed. */
#define DIMPSYHOLT_REFUSED 0
#define DIMPSYHOLT_ACCEPTED 1
#define DIMPSYHOLT_CARRIED 2

/* The conclusions: no assignment within the bounds meets every row of the model; every assignment that does
 * keeps the variable at or above the value. */
#define DIMPSYHOLT_NO_ASSIGNMENT 3
#define DIMPSYHOLT_NEVER_BELOW 4

/* The numbers of a refusal, and what its position is. Words, steps, rows, variables and hints are counted
 * from 0. Refusals 1 to 7 have step 0. */
#define DIMPSYHOLT_MODEL_TOO_LONG 1           /* 0 */
#define DIMPSYHOLT_LOG_TOO_LONG 2             /* 0 */
#define DIMPSYHOLT_TOO_FEW_PLACES 3           /* 0 */
#define DIMPSYHOLT_MODEL_ENDS_EARLY 4         /* the model's length */
#define DIMPSYHOLT_MODEL_WORD_OUT_OF_RANGE 5  /* that word of the model */
#define DIMPSYHOLT_VARIABLE_TWICE 6           /* the second one, a word of the model */
#define DIMPSYHOLT_WORDS_AFTER_MODEL 7        /* the first of them */
#define DIMPSYHOLT_NO_CONCLUSION 10           /* the log's length; the step is the one that is missing */
#define DIMPSYHOLT_LOG_ENDS_INSIDE_STEP 11    /* the log's length */
#define DIMPSYHOLT_LOG_WORD_OUT_OF_RANGE 12   /* that word of the log */
#define DIMPSYHOLT_WORDS_AFTER_CONCLUSION 13  /* the first of them */
#define DIMPSYHOLT_BOX_EMPTY 20               /* 0 */
#define DIMPSYHOLT_ROW_DOES_NOT_CONFLICT 21   /* 0 */
#define DIMPSYHOLT_HINT_DOES_NOT_APPLY 22     /* its index among the step's hints */
#define DIMPSYHOLT_HINTS_USED_UP 23           /* 0 */
#define DIMPSYHOLT_FACT_DOES_NOT_FIT 24       /* 0 */

/*
 * The answer, by value. A field that says nothing about the case at hand is 0.
 *
 * An answer that is all zeros is a refusal with number 0. No tables give it, so a caller that forgets to
 * call, or to look, opens nothing.
 */
typedef struct {
  uint32_t kind;        /* refused, accepted or carried */
  uint32_t number;      /* the refusal's number, else 0 */
  uint32_t step;        /* of a refusal, else 0 */
  uint32_t position;    /* of a refusal, else 0 */
  uint32_t conclusion;  /* where accepted or carried, else 0 */
  uint32_t variable;    /* of DIMPSYHOLT_NEVER_BELOW, else 0 */
  int32_t  value;       /* of DIMPSYHOLT_NEVER_BELOW, else 0 */
  uint32_t changed;     /* recheck: the size of the changed set, else 0 */
  uint32_t judged;      /* recheck: the steps judged, else 0 */
} dimpsyholt_answer;

#if defined(__cplusplus)
static_assert(sizeof(dimpsyholt_answer) == 36, "an answer is nine numbers");
#elif defined(__STDC_VERSION__) && __STDC_VERSION__ >= 201112L
_Static_assert(sizeof(dimpsyholt_answer) == 36, "an answer is nine numbers");
#else
typedef char dimpsyholt_answer_is_nine_numbers[sizeof(dimpsyholt_answer) == 36 ? 1 : -1];
#endif

/* The places overlap no other table; where the language can say so, it is said. */
#if defined(__cplusplus) && (defined(__GNUC__) || defined(_MSC_VER))
#define DIMPSYHOLT_RESTRICT __restrict
#elif !defined(__cplusplus) && defined(__STDC_VERSION__) && __STDC_VERSION__ >= 199901L
#define DIMPSYHOLT_RESTRICT restrict
#else
#define DIMPSYHOLT_RESTRICT
#endif

/* The version of the library that is linked. Its first digits are those of DIMPSYHOLT_VERSION, or it is
 * another library than this header describes. */
uint32_t dimpsyholt_version(void);

/*
 * Checks the log against the model. The answer is refused or accepted; changed and judged are 0.
 *
 * For each step that passed, places[k] becomes the position in the log of the first word of step k, the
 * conclusion included where the log is accepted. All other entries stay as they were lent: with a refusal
 * at step k those from k on, and all of them with refusals 1 to 7.
 */
dimpsyholt_answer dimpsyholt_check(
    const int32_t *model, size_t model_len,
    const int32_t *log, size_t log_len,
    uint32_t *DIMPSYHOLT_RESTRICT places, size_t places_len);

/*
 * Checks a log again after the model was amended.
 *
 * Where the old model is good and has the same bounds and the same number of rows as the new one, only the
 * inferences that cite a changed row are judged, and a log that gets through is "carried": as good as the
 * acceptance that it had against the old model, and no better. `changed` is the number of rows whose words
 * differ, `judged` the number of steps that were judged, a refused one included.
 *
 * Anywhere else it is the whole check of the new model: a log that gets through is "accepted", and `changed`
 * is the number of the new model's rows. Refusals 1 to 7 are about the new model, the log and the places,
 * and report 0 and 0. The places are left as dimpsyholt_check leaves them; a step that is not judged counts
 * as passed.
 */
dimpsyholt_answer dimpsyholt_recheck(
    const int32_t *old_model, size_t old_len,
    const int32_t *new_model, size_t new_len,
    const int32_t *log, size_t log_len,
    uint32_t *DIMPSYHOLT_RESTRICT places, size_t places_len);

#undef DIMPSYHOLT_RESTRICT

/* A refusal's number in a few words; NULL for a number that no refusal has. */
static inline const char *dimpsyholt_refusal_text(uint32_t number) {
  switch (number) {
    case DIMPSYHOLT_MODEL_TOO_LONG: return "the model has more than 4,096 words";
    case DIMPSYHOLT_LOG_TOO_LONG: return "the log has more than 16,384 words";
    case DIMPSYHOLT_TOO_FEW_PLACES: return "fewer than 4,096 places were lent";
    case DIMPSYHOLT_MODEL_ENDS_EARLY: return "the model ends early";
    case DIMPSYHOLT_MODEL_WORD_OUT_OF_RANGE: return "a word of the model is outside its range";
    case DIMPSYHOLT_VARIABLE_TWICE: return "a variable stands twice in a row of kind 2 or 4";
    case DIMPSYHOLT_WORDS_AFTER_MODEL: return "words follow the model";
    case DIMPSYHOLT_NO_CONCLUSION: return "the log ends between steps, without a conclusion";
    case DIMPSYHOLT_LOG_ENDS_INSIDE_STEP: return "the log ends inside a step";
    case DIMPSYHOLT_LOG_WORD_OUT_OF_RANGE: return "a word of the log is outside its range";
    case DIMPSYHOLT_WORDS_AFTER_CONCLUSION: return "words follow the conclusion";
    case DIMPSYHOLT_BOX_EMPTY: return "the box is empty: a variable has no value left";
    case DIMPSYHOLT_ROW_DOES_NOT_CONFLICT: return "the row does not conflict";
    case DIMPSYHOLT_HINT_DOES_NOT_APPLY: return "a hint does not apply";
    case DIMPSYHOLT_HINTS_USED_UP: return "the hints are used up without a conflict";
    case DIMPSYHOLT_FACT_DOES_NOT_FIT: return "the fact does not fit the conclusion";
    default: return NULL;
  }
}

#ifdef __cplusplus
}
#endif

#endif
