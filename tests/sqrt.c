// Compares the proved root with the machine's own, bit for bit, its refusals with the operand, and whether it is
// inexact with the exact square of the machine's root.
// sqrt MILLIONS [SEED]
#include <math.h>
#include <stdint.h>
#include <stdio.h>
#include <stdlib.h>
#include <string.h>

#include "../bindings/millracer.h"

static uint64_t state;

static uint64_t draw(void) {
  uint64_t z = (state += 0x9e3779b97f4a7c15u);
  z = (z ^ (z >> 30)) * 0xbf58476d1ce4e5b9u;
  z = (z ^ (z >> 27)) * 0x94d049bb133111ebu;
  return z ^ (z >> 31);
}

static double of_bits(uint64_t b) {
  double x;
  memcpy(&x, &b, 8);
  return x;
}

static uint64_t to_bits(double x) {
  uint64_t b;
  memcpy(&b, &x, 8);
  return b;
}

static uint64_t compared, different, exact, inexact;

// The whole number that x, above zero, is of 2^exponent.
static uint64_t whole_number(double x, int *exponent) {
  uint64_t fraction = to_bits(x) & 0xfffffffffffffu, biased = to_bits(x) >> 52;
  *exponent = biased == 0 ? -1074 : (int)biased - 1075;
  return biased == 0 ? fraction : fraction | (uint64_t)1 << 52;
}

// Whether x is the square of its root r, both above zero, in whole numbers. r has 53 digits, so its square has 105 or
// 106, and x has as many once both are of the same power of two.
static int is_square(double x, double r) {
  int of_x, of_r;
  unsigned __int128 operand = whole_number(x, &of_x), root = whole_number(r, &of_r);
  return operand << (of_x - 2 * of_r) == root * root;
}

static millracer_root machine(double x) {
  // volatile: the machine's root, and not one folded by the compiler
  volatile double operand = x;
  if (!isfinite(x)) return (millracer_root){{MILLRACER_NOT_FINITE, 0, 0}, 0, 0};
  if (x < 0) return (millracer_root){{MILLRACER_STORED_NOT_FINITE, 0, 0}, 0, 0};
  double r = sqrt(operand);
  return (millracer_root){{MILLRACER_COMPLETE, 0, 0}, r, x != 0 && !is_square(x, r)};
}

static void print(const char *name, millracer_root root) {
  printf("%s %zu %016llx %zu", name, root.refusal.number, (unsigned long long)to_bits(root.value), root.inexact);
}

static void compare(double x) {
  millracer_root expected = machine(x), got = millracer_sqrt(x);
  compared++;
  if (expected.inexact)
    inexact++;
  else if (expected.refusal.number == MILLRACER_COMPLETE)
    exact++;
  if (memcmp(&expected, &got, sizeof got) == 0) return;
  if (different++ < 10) {
    printf("operand %016llx: ", (unsigned long long)to_bits(x));
    print("expected", expected), print(", got", got);
    printf("\n");
  }
}

// The pattern and the two on each side of it.
static void compare_around(double x) {
  uint64_t b = to_bits(x);
  for (int k = -2; k <= 2; k++) compare(of_bits(b + (uint64_t)k));
}

static void fixed(void) {
  const uint64_t ends[] = {0,
                           0x8000000000000000u,   // -0.0
                           1,                     // 2^-1074
                           0x000fffffffffffffu,   // the largest subnormal
                           0x0010000000000000u,   // the smallest normal
                           0x3ff0000000000000u,   // 1.0
                           0x7fefffffffffffffu,   // the largest double
                           0x7ff0000000000000u,   // infinity
                           0xfff0000000000000u,   // -infinity
                           0x7ff8000000000000u,   // NaN
                           0x8000000000000001u};  // -2^-1074
  for (size_t i = 0; i < sizeof ends / sizeof *ends; i++) compare(of_bits(ends[i]));
  for (int e = -1074; e <= 1023; e++) compare_around(ldexp(1.0, e));
  // the two significands whose roots lie nearest above halfway between two doubles (the cut-off remainder is 7), at every scale
  for (int e = -1075; e <= 971; e++) {
    compare_around(ldexp(6114741795106786.0, e));
    compare_around(ldexp(8233674359446949.0, e));
  }
}

// The square of a number of 1 to 26 digits, at every scale down to 2^-1074: it is a double, and its root is exact.
static void compare_square(void) {
  int digits = 1 + (int)(draw() % 26);
  double m = (double)(draw() >> (64 - digits) | (uint64_t)1 << (digits - 1));
  double r = ldexp(m, (int)(draw() % (uint64_t)(537 + 512 - digits)) - 537);
  if (machine(r * r).inexact && different++ < 10) printf("%a is taken for no square\n", r * r);
  compare_around(r * r);
}

int main(int argc, char **argv) {
  uint64_t wanted = (argc > 1 ? strtoull(argv[1], 0, 10) : 10) * 1000000;
  state = argc > 2 ? strtoull(argv[2], 0, 10) : 1;
  fixed();
  while (compared < wanted) {
    // any pattern at all
    compare(of_bits(draw()));
    // a positive one
    compare(of_bits(draw() >> 1));
    // subnormal, of every length
    compare(of_bits((draw() & 0xfffffffffffffu) >> (draw() % 52)));
    compare_square();
    // next to the square of a number of 26 digits, rounded where it is subnormal
    double r = ldexp((double)((draw() & 0x3ffffff) | 0x2000000), (int)(draw() % 1020) - 540);
    compare_around(r * r);
    // next to the rounded square of any number
    double w = of_bits((draw() & 0xfffffffffffffu) | (uint64_t)(512 + draw() % 1022) << 52);
    compare_around(w * w);
  }
  printf("sqrt: %llu compared, %llu different; %llu roots exact, %llu inexact, the rest refused\n",
         (unsigned long long)compared, (unsigned long long)different, (unsigned long long)exact,
         (unsigned long long)inexact);
  return different != 0;
}
