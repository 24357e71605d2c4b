/*
 * Asks the archive for every case of crates/bench/stdin, which is read from standard input, and says how many it answers as they are
 * written there: nine numbers, and every place. That file says how a case is written.
 */
#include "dimpsyholt.h"

int printf(const char *, ...);
long read(int, void *, size_t);

enum { TEXT = 1 << 18, LENT = DIMPSYHOLT_PLACES, UNTOUCHED = 0xA5A50000 };

static char text[TEXT + 1];
static int32_t old[DIMPSYHOLT_MODEL_WORDS + 1], model[DIMPSYHOLT_MODEL_WORDS + 1], log_words[DIMPSYHOLT_LOG_WORDS + 1];
static uint32_t places[LENT];
static int32_t numbers[LENT];
static size_t old_len, model_len, log_len, lent;
static int again;

static int starts_with(const char *line, const char *key) {
  while (*key)
    if (*line++ != *key++) return 0;
  return *line == ' ' || *line == '\n';
}

static long number(const char **at) {
  long sign = 1, n = 0;
  if (**at == '-') sign = -1, (*at)++;
  while (**at >= '0' && **at <= '9') n = 10 * n + (*(*at)++ - '0');
  return sign * n;
}

/* The words of a line after its key; 7*100 stands for a hundred words 7. */
static size_t words(const char *line, int32_t *table, size_t most) {
  size_t n = 0;
  while (*line != ' ' && *line != '\n') line++;
  while (*line == ' ') {
    line++;
    int32_t value = (int32_t)number(&line);
    long times = 1;
    if (*line == '*') line++, times = number(&line);
    while (times-- > 0 && n < most) table[n++] = value;
  }
  return n;
}

static dimpsyholt_answer ask(void) {
  for (size_t k = 0; k < LENT; k++) places[k] = UNTOUCHED ^ (uint32_t)k;
  if (again) return dimpsyholt_recheck(old, old_len, model, model_len, log_words, log_len, places, lent);
  return dimpsyholt_check(model, model_len, log_words, log_len, places, lent);
}

static int answers(dimpsyholt_answer a, const int32_t *n, size_t count) {
  return count == 9 && a.kind == (uint32_t)n[0] && a.number == (uint32_t)n[1] && a.step == (uint32_t)n[2] && a.position == (uint32_t)n[3] &&
         a.conclusion == (uint32_t)n[4] && a.variable == (uint32_t)n[5] && a.value == n[6] && a.changed == (uint32_t)n[7] && a.judged == (uint32_t)n[8];
}

static int places_are(const int32_t *starts, size_t count) {
  for (size_t k = 0; k < LENT; k++)
    if (places[k] != (k < count ? (uint32_t)starts[k] : UNTOUCHED ^ (uint32_t)k)) return 0;
  return 1;
}

int main(void) {
  long length = 0, got;
  while (length < TEXT && (got = read(0, text + length, (size_t)(TEXT - length))) > 0) length += got;
  text[length] = 0;
  unsigned passed = 0, failed = 0;
  const char *name = text;
  if (dimpsyholt_version() != DIMPSYHOLT_VERSION) failed++;
  for (const char *line = text; *line; ) {
    if (starts_with(line, "case")) name = line, again = 0, lent = LENT;
    if (starts_with(line, "old")) again = 1, old_len = words(line, old, DIMPSYHOLT_MODEL_WORDS + 1);
    if (starts_with(line, "model")) model_len = words(line, model, DIMPSYHOLT_MODEL_WORDS + 1);
    if (starts_with(line, "log")) log_len = words(line, log_words, DIMPSYHOLT_LOG_WORDS + 1);
    if (starts_with(line, "lent")) words(line, numbers, 1), lent = (size_t)numbers[0];
    int right = 1, asked = 0;
    if (starts_with(line, "answer")) asked = 1, right = answers(ask(), numbers, words(line, numbers, LENT));
    if (starts_with(line, "written")) asked = 1, right = places_are(numbers, words(line, numbers, LENT));
    if (!right) {
      const char *end = name;
      while (*end && *end != '\n') end++;
      printf("FAILED: %.*s\n", (int)(end - name), name);
    }
    if (asked) right ? passed++ : failed++;
    while (*line && *line != '\n') line++;
    if (*line) line++;
  }
  printf("%u passed, %u failed\n", passed, failed);
  return failed != 0 || passed == 0;
}
