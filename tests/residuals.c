// Factors well-conditioned matrices of small whole numbers, solves, and prints what tests/residuals judges: a line for
// each system with n, the matrix, the solution meant, p, the lower part of L and y. -DWRONG=1 to 3 spoil it.
#include <stdint.h>
#include <stdio.h>

#include "../bindings/millracer.h"

#ifndef WRONG
#define WRONG 0
#endif

enum { MAX = MILLRACER_MAX_N };

static uint64_t state = 1;

// SplitMix64, from 0 to n - 1.
static long below(long n) {
  uint64_t z = state += 0x9e3779b97f4a7c15;
  z = (z ^ (z >> 30)) * 0xbf58476d1ce4e5b9;
  z = (z ^ (z >> 27)) * 0x94d049bb133111eb;
  return (long)((z ^ (z >> 31)) % (uint64_t)n);
}

// Symmetric; a diagonal entry exceeds the sum of the other magnitudes in its row.
static void draw(double *a, size_t n) {
  for (size_t i = 0; i < n; i++)
    for (size_t j = 0; j < i; j++) a[i * n + j] = a[j * n + i] = (double)(below(7) - 3);
  for (size_t i = 0; i < n; i++) {
    a[i * n + i] = (double)(1 + below(60));
    for (size_t j = 0; j < n; j++)
      if (j != i) a[i * n + i] += a[i * n + j] < 0 ? -a[i * n + j] : a[i * n + j];
  }
}

static void print(const double *list, size_t len) {
  for (size_t i = 0; i < len; i++) printf(" %a", list[i]);
}

static int solve(size_t method, size_t n) {
  static double a[MAX * MAX], l[MAX * MAX], work[MAX * MAX], e[MAX], x[MAX], b[MAX], y[MAX], other[MAX];
  size_t p[MAX];
  draw(a, n);
  for (size_t i = 0; i < n; i++) x[i] = (double)(below(2) ? 1 + below(99) : -1 - below(99)), b[i] = 0;
  for (size_t i = 0; i < n; i++)
    for (size_t j = 0; j < n; j++) b[i] += a[i * n + j] * x[j];
  millracer_factorization f = millracer_factor(method, a, n * n, n, l, n * n, work, n * n, e, n, p, n);
  if (f.refusal.number != MILLRACER_COMPLETE) return 1;
  for (size_t i = 0; i < n; i++)
    if (e[i] != 0) return 1;
  for (size_t t = 0; t < n; t++) other[p[t]] = b[t];
  const double *right_side = WRONG == 1 ? other : b;
  if (millracer_solve(l, n * n, n, p, n, right_side, n, y, n).number != MILLRACER_COMPLETE) return 1;
  for (size_t t = 0; t < n; t++) other[t] = y[p[t]];
  if (WRONG == 3) y[n - 1] *= 1 + 0x1p-42;
  printf("%zu", n);
  print(a, n * n), print(x, n);
  for (size_t t = 0; t < n; t++) printf(" %zu", p[t]);
  for (size_t i = 0; i < n; i++) print(&l[i * n], i + 1);
  print(WRONG == 2 ? other : y, n);
  printf("\n");
  return 0;
}

int main(void) {
  for (size_t n = 1; n <= MAX; n++)
    for (size_t method = MILLRACER_GMW81; method <= MILLRACER_SE99; method++)
      if (solve(method, n)) return printf("method %zu, n %zu: refused, or something was added\n", method, n), 1;
}
