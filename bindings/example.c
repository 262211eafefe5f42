/* Factors an indefinite matrix by SE99, solves with the factor and prints L, e, p and y; then shows a refusal, a tie
 * with and without contract numbers, and what is broken in records. */
#include <stdio.h>

#include "millracer.h"

enum { N = 3 };

static void print_row(const double *row) {
  for (size_t k = 0; k < N; k++) printf(" %9.6f", row[k]);
  printf("\n");
}

static void print_step(const char *name, size_t step) {
  if (step == MILLRACER_NO_STEP)
    printf("%s none\n", name);
  else
    printf("%s %zu\n", name, step);
}

static void print_refusal(millracer_refusal r) { printf("refusal %zu at %zu, %zu\n", r.number, r.row, r.column); }

static void factor(const double *a, const double *b) {
  double l[N * N], work[N * N], e[N], y[N];
  size_t p[N];
  millracer_factorization f = millracer_factor(MILLRACER_SE99, a, N * N, N, l, N * N, work, N * N, e, N, p, N);
  if (f.refusal.number != MILLRACER_COMPLETE) {
    print_refusal(f.refusal);
    return;
  }
  for (size_t i = 0; i < N; i++) {
    printf("L");
    print_row(&l[i * N]);
  }
  printf("e");
  print_row(e);
  printf("p %zu %zu %zu\n", p[0], p[1], p[2]);
  print_step("tied step", f.tied);
  print_step("phase-two step", f.phase2);
  printf("%zu of %d roots inexact\n", f.inexact, N);
  millracer_refusal solved = millracer_solve(l, N * N, N, p, N, b, N, y, N);
  if (solved.number != MILLRACER_COMPLETE) {
    print_refusal(solved);
    return;
  }
  printf("y");
  print_row(y);
}

/* numbers: one for each contract, or null for none. */
static void show_pivots(const double *a, const uint32_t *numbers) {
  double l[N * N], work[N * N], e[N];
  size_t p[N];
  millracer_factorization f =
      numbers ? millracer_factor_numbered(MILLRACER_GMW81, a, N * N, N, numbers, N, l, N * N, work, N * N, e, N, p, N)
              : millracer_factor(MILLRACER_GMW81, a, N * N, N, l, N * N, work, N * N, e, N, p, N);
  if (numbers)
    printf("numbers %u %u %u: ", numbers[0], numbers[1], numbers[2]);
  else
    printf("no numbers: ");
  if (f.refusal.number != MILLRACER_COMPLETE)
    print_refusal(f.refusal);
  else
    printf("p %zu %zu %zu, tied step %zu\n", p[0], p[1], p[2], f.tied);
}

static void show_record(const uint8_t *record, size_t record_len) {
  static uint8_t answer[MILLRACER_LONGEST_ANSWER];
  millracer_refusal refusal = millracer_record(record, record_len, answer, sizeof answer).refusal;
  size_t field = refusal.row;
  printf("refusal %zu", refusal.number);
  if (refusal.number == MILLRACER_FIELD_PAST_END) printf(": the transfer was cut in field %zu", field);
  if (refusal.number == MILLRACER_TAG_NOT_DUE) {
    unsigned tag = record[millracer_field_position(record, record_len, field)];
    printf(": field %zu has tag %02X, %02X", field, tag, millracer_tag_due(field));
    if (millracer_other_tag_due(field)) printf(" or %02X", millracer_other_tag_due(field));
    printf(" was due");
  }
  printf("\n");
}

int main(void) {
  const double indefinite[N * N] = {1, 2, 0.5, 2, 4, 1.5, 0.5, 1.5, 0.5};
  const double unsymmetric[N * N] = {1, 2, 0.5, 2, 4, 1.5, 0.5, 1.25, 0.5};
  /* The column of contract 1, for which nothing is added. */
  const double right_side[N] = {2, 4, 1.5};
  factor(indefinite, right_side);
  factor(unsymmetric, right_side);

  /* After the first swap contract 0 stands last, so that the first in position is contract 1. */
  const double tied[N * N] = {1, 0, 0, 0, 1, 0, 0, 0, 3};
  show_pivots(tied, NULL);
  show_pivots(tied, (uint32_t[N]){0, 1, 2});
  show_pivots(tied, (uint32_t[N]){7, 5, 6});
  show_pivots(tied, (uint32_t[N]){7, 5, 7});

  const uint8_t cut[] = {1, 1, 0, 1, 2, 1, 0, 3, 3, 8, 0, 0, 0, 0};
  const uint8_t without_method[] = {1, 1, 0, 1, 3, 8, 0, 0, 0, 0, 0, 0, 0, 0x10, 0x40};
  const uint8_t method_twice[] = {1, 1, 0, 1, 2, 1, 0, 3, 2, 1, 0, 3};
  show_record(cut, sizeof cut);
  show_record(without_method, sizeof without_method);
  show_record(method_twice, sizeof method_twice);
}
