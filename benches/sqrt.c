// Nanoseconds a call of the proved root and of the machine's, and their ratio, on 65,536 distinct operands.
#include <math.h>
#include <stdint.h>
#include <stdio.h>
#include <string.h>
#include <time.h>

#include "../bindings/millracer.h"

// Called, as the proved root is, and not inlined.
__attribute__((noinline)) static double machine_sqrt(double x) { return sqrt(x); }

enum { OPERANDS = 65536, ROUNDS = 64, RUNS = 9 };
static double operand[OPERANDS];

static double proved_sum(void) {
  double sum = 0;
  for (int i = 0; i < OPERANDS; i++) sum += millracer_sqrt(operand[i]).value;
  return sum;
}

static double machine_sum(void) {
  double sum = 0;
  for (int i = 0; i < OPERANDS; i++) sum += machine_sqrt(operand[i]);
  return sum;
}

static double now(void) {
  struct timespec t;
  clock_gettime(CLOCK_MONOTONIC, &t);
  return (double)t.tv_sec * 1e9 + (double)t.tv_nsec;
}

static volatile double sink;

// The least of several runs.
static double measure(double (*sum_of_roots)(void)) {
  double best = 1e300;
  for (int run = 0; run < RUNS; run++) {
    double sum = 0, start = now();
    for (int round = 0; round < ROUNDS; round++) sum += sum_of_roots();
    double took = (now() - start) / ((double)ROUNDS * OPERANDS);
    sink = sum;
    if (took < best) best = took;
  }
  return best;
}

static uint64_t state = 1;

static uint64_t draw(void) {
  state ^= state << 13;
  state ^= state >> 7;
  return state ^= state << 17;
}

static void report(const char *kind, uint64_t least, uint64_t count) {
  for (int i = 0; i < OPERANDS; i++) {
    uint64_t b = least + draw() % count;
    memcpy(&operand[i], &b, 8);
  }
  double proved = measure(proved_sum), machine = measure(machine_sum);
  printf("%-10s proved %6.2f ns, machine %6.2f ns, ratio %5.2f\n", kind, proved, machine, proved / machine);
}

int main(void) {
  const uint64_t normal = 0x0010000000000000u, infinity = 0x7ff0000000000000u;
  report("normal", normal, infinity - normal);
  report("near 1", 0x3fe0000000000000u, 0x0020000000000000u);
  report("subnormal", 1, normal - 1);
}
