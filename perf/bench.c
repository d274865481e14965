/* Times smbus_code against a table-driven routine in C, on the same messages, in one run. */
#include <stddef.h>
#include <stdint.h>
#include <stdio.h>
#include <stdlib.h>
#include <time.h>

enum { LENGTH = 16, MESSAGES = 4096, PASSES = 200, ROUNDS = 15 };

/* the packet error code of the crate smbus: the slice goes as a pointer and a length */
extern uint8_t smbus_code(const uint8_t *bytes, size_t length);

static uint8_t table[256];
static uint8_t messages[MESSAGES][LENGTH];

static void make_table(void) {
  for (unsigned i = 0; i < 256; i++) {
    unsigned c = i;
    for (int bit = 0; bit < 8; bit++)
      c = c & 0x80 ? (c << 1) ^ 0x107 : c << 1;
    table[i] = (uint8_t)c;
  }
}

static void make_messages(void) {
  uint32_t x = 1;
  for (size_t m = 0; m < MESSAGES; m++)
    for (size_t i = 0; i < LENGTH; i++) {
      x = x * 1664525u + 1013904223u;
      messages[m][i] = (uint8_t)(x >> 24);
    }
}

/* not inlined, as the call into the library is not */
__attribute__((noinline)) static uint8_t c_code(const uint8_t *bytes, size_t length) {
  uint8_t code = 0;
  for (size_t i = 0; i < length; i++)
    code = table[code ^ bytes[i]];
  return code;
}

static double seconds(void) {
  struct timespec t;
  clock_gettime(CLOCK_MONOTONIC, &t);
  return (double)t.tv_sec + 1e-9 * (double)t.tv_nsec;
}

/* nanoseconds per message; the codes are added to *sum */
static double timed(uint8_t (*code)(const uint8_t *, size_t), uint64_t *sum) {
  double start = seconds();
  uint64_t s = 0;
  for (int pass = 0; pass < PASSES; pass++)
    for (size_t m = 0; m < MESSAGES; m++)
      s += code(messages[m], LENGTH);
  *sum += s;
  return (seconds() - start) * 1e9 / ((double)PASSES * MESSAGES);
}

static int ascending(const void *a, const void *b) {
  double x = *(const double *)a, y = *(const double *)b;
  return (x > y) - (x < y);
}

static double median(double *times) {
  qsort(times, ROUNDS, sizeof *times, ascending);
  return times[ROUNDS / 2];
}

int main(void) {
  double rattle[ROUNDS], c[ROUNDS];
  uint64_t rattle_sum = 0, c_sum = 0;
  make_table();
  make_messages();
  for (int round = 0; round < ROUNDS; round++) {
    rattle[round] = timed(smbus_code, &rattle_sum);
    c[round] = timed(c_code, &c_sum);
  }
  if (rattle_sum != c_sum) {
    fprintf(stderr, "the codes differ: their sums are %llu and %llu\n", (unsigned long long)rattle_sum, (unsigned long long)c_sum);
    return 1;
  }
  double r = median(rattle), k = median(c);
  printf("input: %d messages of %d bytes, %d passes in each of %d alternating rounds; the median round\n", MESSAGES, LENGTH, PASSES, ROUNDS);
  printf("sum of the codes: %llu, the same of both\n", (unsigned long long)c_sum);
  printf("smbus_code: %.2f ns a message\n", r);
  printf("C, by a table, -O2: %.2f ns a message\n", k);
  printf("ratio, C's time to Rattle's: %.2f\n", k / r);
  return 0;
}
