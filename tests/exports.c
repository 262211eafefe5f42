// Each call of bindings/millracer.h, on operands that it accepts or refuses: those on doubles, then those on bytes.
#define _DEFAULT_SOURCE
#include <math.h>
#include <stdio.h>
#include <string.h>
#include <sys/mman.h>
#include <unistd.h>

#include "millracer.h"

static int failed;

#define EXPECT(test) \
  if (!(test)) failed = 1, printf("line %d: %s\n", __LINE__, #test)

static int is(millracer_refusal r, size_t number, size_t row, size_t column) {
  return r.number == number && r.row == row && r.column == column;
}

static int same(const double *x, const double *y, size_t n) { return memcmp(x, y, n * sizeof *x) == 0; }

static void values(void) {
  millracer_root root = millracer_sqrt(9);
  EXPECT(is(root.refusal, 0, 0, 0) && root.value == 3 && root.inexact == 0);
  root = millracer_sqrt(2);
  EXPECT(is(root.refusal, 0, 0, 0) && root.value == 0x1.6a09e667f3bcdp0 && root.inexact == 1);
  root = millracer_sqrt(-0.0);
  EXPECT(is(root.refusal, 0, 0, 0) && signbit(root.value) && root.inexact == 0);
  root = millracer_sqrt(INFINITY);
  EXPECT(is(root.refusal, MILLRACER_NOT_FINITE, 0, 0) && root.value == 0 && root.inexact == 0);
  root = millracer_sqrt(-4);
  EXPECT(is(root.refusal, MILLRACER_STORED_NOT_FINITE, 0, 0) && root.value == 0 && root.inexact == 0);

  millracer_eigenvalues eigen = millracer_eigenvalues_2x2(2, 1, 1, 2);
  EXPECT(is(eigen.refusal, 0, 0, 0) && eigen.hi == 3 && eigen.lo == 1);
  eigen = millracer_eigenvalues_2x2(2, 1, NAN, 2);
  EXPECT(is(eigen.refusal, MILLRACER_NOT_FINITE, 1, 0) && eigen.hi == 0 && eigen.lo == 0);

  const double c[] = {3, -5, 3};
  millracer_found_index found = millracer_index_of_largest(c, 3);
  EXPECT(is(found.refusal, 0, 0, 0) && found.index == 0);
  found = millracer_index_of_largest_abs(c, 3);
  EXPECT(is(found.refusal, 0, 0, 0) && found.index == 1);
  EXPECT(is(millracer_index_of_largest(c, 0).refusal, MILLRACER_SIZE_OUT_OF_RANGE, 0, 0));
}

static void matrices(void) {
  double mat[] = {1, 2, 3, 4};
  EXPECT(is(millracer_swap_rows(mat, 4, 2, 0, 1), 0, 0, 0));
  EXPECT(same(mat, (double[]){3, 4, 1, 2}, 4));
  EXPECT(is(millracer_swap_columns(mat, 4, 2, 0, 1), 0, 0, 0));
  EXPECT(same(mat, (double[]){4, 3, 2, 1}, 4));
  EXPECT(is(millracer_swap_columns(mat, 4, 2, 0, 2), MILLRACER_INDEX_OUT_OF_RANGE, 1, 0));
  EXPECT(is(millracer_swap_rows(mat, 3, 2, 0, 1), MILLRACER_MATRIX_LENGTH, 0, 0));
  EXPECT(same(mat, (double[]){4, 3, 2, 1}, 4));

  EXPECT(is(millracer_index_to_permutation_mat((size_t[]){1, 0}, 2, mat, 4), 0, 0, 0));
  EXPECT(same(mat, (double[]){0, 1, 1, 0}, 4));
  EXPECT(is(millracer_index_to_permutation_mat((size_t[]){1, 256}, 2, mat, 4), MILLRACER_INDEX_OUT_OF_RANGE, 1, 0));
  EXPECT(is(millracer_index_to_permutation_mat((size_t[300]){0}, 300, mat, 4), MILLRACER_SIZE_OUT_OF_RANGE, 0, 0));
  EXPECT(same(mat, (double[]){0, 1, 1, 0}, 4));
  EXPECT(is(millracer_diag_mat_from_arr((double[]){5, 6}, 2, mat, 4), 0, 0, 0));
  EXPECT(same(mat, (double[]){5, 0, 0, 6}, 4));
  EXPECT(is(millracer_diag_mat_from_arr((double[]){5, 6}, 2, mat, 3), MILLRACER_BUFFER_LENGTH, 0, 0));

  double centres[2], radii[2];
  EXPECT(is(millracer_gershgorin_circles((double[]){1, -2, 3, 4}, 4, 2, centres, 2, radii, 2), 0, 0, 0));
  EXPECT(same(centres, (double[]){1, 4}, 2) && same(radii, (double[]){2, 2}, 2));
}

static void factorizations(void) {
  double l[9], work[9], e[3];
  size_t p[3];
  const double a[] = {2, 2, 2, 4};
  millracer_factorization f = millracer_factor(MILLRACER_GMW81, a, 4, 2, l, 4, work, 4, e, 2, p, 2);
  EXPECT(is(f.refusal, 0, 0, 0) && f.tied == MILLRACER_NO_STEP && f.phase2 == MILLRACER_NO_STEP && f.inexact == 0);
  EXPECT(same(l, (double[]){2, 0, 1, 1}, 4) && same(work, (double[4]){0}, 4) && same(e, (double[2]){0}, 2));
  EXPECT(p[0] == 1 && p[1] == 0);
  f = millracer_factor(MILLRACER_SE90, (double[4]){0}, 4, 2, l, 4, work, 4, e, 2, p, 2);
  EXPECT(is(f.refusal, MILLRACER_STORED_NOT_FINITE, 0, 0) && f.tied == 0 && f.phase2 == 0 && f.inexact == 0);
  EXPECT(same(l, (double[4]){0}, 4) && p[0] == 0 && p[1] == 1);
  f = millracer_factor(MILLRACER_SE90, (double[]){-4}, 1, 1, l, 1, work, 1, e, 1, p, 1);
  EXPECT(is(f.refusal, 0, 0, 0) && f.tied == MILLRACER_NO_STEP && f.phase2 == 0 && f.inexact == 1);
  EXPECT(same(e, (double[]){0x1.0000659822e65p2}, 1) && same(l, (double[]){0x1.428a6f98f113fp-8}, 1));
  f = millracer_factor(MILLRACER_SE90, (double[]){-0.0}, 1, 1, l, 1, work, 1, e, 1, p, 1);
  EXPECT(is(f.refusal, 0, 0, 0) && f.phase2 == 0 && same(l, (double[1]){0}, 1) && same(e, (double[1]){0}, 1));
  f = millracer_factor(MILLRACER_SE99, (double[]){-4}, 1, 1, l, 1, work, 1, e, 1, p, 1);
  EXPECT(is(f.refusal, 0, 0, 0) && f.phase2 == 0 && e[0] > 4 && f.inexact == 1);
  f = millracer_factor(4, a, 4, 2, l, 4, work, 4, e, 2, p, 2);
  EXPECT(is(f.refusal, MILLRACER_UNKNOWN_METHOD, 0, 0) && f.inexact == 0);
  // the first root is inexact; the second pivot is zero, and phase two is refused at step 1
  f = millracer_factor(MILLRACER_SE90, (double[9]){0x1p-1073}, 9, 3, l, 9, work, 9, e, 3, p, 3);
  EXPECT(is(f.refusal, MILLRACER_STORED_NOT_FINITE, 1, 0) && f.tied == 1 && f.phase2 == 1 && f.inexact == 0);
}

// How many roots of a diagonal matrix of two rows are inexact, in each method.
static int inexact(double first, double second, size_t count) {
  double l[4], work[4], e[2];
  size_t p[2];
  int all = 1;
  for (size_t method = MILLRACER_GMW81; method <= MILLRACER_SE99; method++) {
    const double a[] = {first, 0, 0, second};
    millracer_factorization f = millracer_factor(method, a, 4, 2, l, 4, work, 4, e, 2, p, 2);
    all = all && is(f.refusal, 0, 0, 0) && f.inexact == count;
  }
  return all;
}

static void inexact_roots(void) {
  EXPECT(inexact(4, 1, 0));
  EXPECT(inexact(4, 3, 1));
  EXPECT(inexact(2, 9, 1));
  EXPECT(inexact(2, 3, 2));
}

static const double tied[] = {1, 0, 0, 0, 1, 0, 0, 0, 3};

// The refusal of a numbered call on the diagonal 1, 1, 3, which leaves all buffers as they were.
static millracer_refusal refused_numbers(const uint32_t *numbers, size_t numbers_len, size_t e_len) {
  double l[9], work[9], e[3];
  size_t p[3];
  memset(l, 7, sizeof l), memset(work, 7, sizeof work), memset(e, 7, sizeof e), memset(p, 7, sizeof p);
  millracer_factorization f =
      millracer_factor_numbered(MILLRACER_SE99, tied, 9, 3, numbers, numbers_len, l, 9, work, 9, e, e_len, p, 3);
  EXPECT(f.tied == MILLRACER_NO_STEP && f.phase2 == MILLRACER_NO_STEP && f.inexact == 0);
  EXPECT(memcmp(l, work, sizeof l) == 0 && memcmp(e, l, sizeof e) == 0 && memcmp(p, l, sizeof p) == 0);
  const uint8_t *bytes = (const uint8_t *)l;
  EXPECT(bytes[0] == 7 && memcmp(bytes, bytes + 1, sizeof l - 1) == 0);
  return f.refusal;
}

// Whether a tie is settled by these numbers so that p is 2, then first, then second.
static int settled(const uint32_t *numbers, size_t first, size_t second) {
  int all = 1;
  for (size_t method = MILLRACER_GMW81; method <= MILLRACER_SE99; method++) {
    double l[9], work[9], e[3];
    size_t p[3];
    millracer_factorization f = millracer_factor_numbered(method, tied, 9, 3, numbers, 3, l, 9, work, 9, e, 3, p, 3);
    all = all && is(f.refusal, 0, 0, 0) && f.tied == 1 && f.phase2 == MILLRACER_NO_STEP && f.inexact == 1;
    all = all && p[0] == 2 && p[1] == first && p[2] == second && l[4] == 1 && l[8] == 1 && work[8] == 0;
  }
  return all;
}

static void numbers(void) {
  EXPECT(settled((uint32_t[]){0, 1, 2}, 0, 1));
  EXPECT(settled((uint32_t[]){1, 0, 2}, 1, 0));
  EXPECT(settled((uint32_t[]){UINT32_MAX, 1, 0}, 1, 0));
  EXPECT(settled((uint32_t[]){0x00000002, 0x01000001, 7}, 0, 1));
  EXPECT(is(refused_numbers((uint32_t[]){0, 1, 2}, 2, 3), MILLRACER_NUMBERS_LENGTH, 0, 0));
  EXPECT(is(refused_numbers((uint32_t[]){0, 0, 0, 0}, 4, 2), MILLRACER_NUMBERS_LENGTH, 0, 0));
  EXPECT(is(refused_numbers((uint32_t[]){0}, 0, 3), MILLRACER_NUMBERS_LENGTH, 0, 0));
  EXPECT(is(refused_numbers((uint32_t[]){5, 5, 5}, 3, 2), MILLRACER_NUMBER_REPEATED, 1, 0));
  EXPECT(is(refused_numbers((uint32_t[]){5, 6, 5}, 3, 3), MILLRACER_NUMBER_REPEATED, 2, 0));
  EXPECT(is(refused_numbers((uint32_t[]){5, 6, 7}, 3, 2), MILLRACER_BUFFER_LENGTH, 0, 0));
}

// Four bytes a number, the low one first.
static void numbers_in_bytes(void) {
  uint8_t l[32], work[32], e[16], p[2];
  const uint8_t unit[32] = {[6] = 0xf0, [7] = 0x3f, [30] = 0xf0, [31] = 0x3f};
  const uint8_t wanted[] = {2, 0, 0, 0, 1, 0, 0, 0, 9}, high[] = {1, 0, 0, 1, 2, 0, 0, 0}, equal[8] = {0};
  const size_t lens[] = {0, 7, 9, 4};
  for (size_t i = 0; i < 4; i++) {
    millracer_factorization f =
        millracer_factor_numbered_bytes(MILLRACER_GMW81, unit, 32, 2, wanted, lens[i], l, 32, work, 32, e, 16, p, 2);
    EXPECT(is(f.refusal, MILLRACER_NUMBERS_LENGTH, 0, 0));
  }
  millracer_factorization f =
      millracer_factor_numbered_bytes(MILLRACER_GMW81, unit, 32, 2, wanted, 8, l, 32, work, 32, e, 16, p, 2);
  EXPECT(is(f.refusal, 0, 0, 0) && f.tied == 0 && p[0] == 1 && p[1] == 0);
  f = millracer_factor_numbered_bytes(MILLRACER_SE90, unit, 32, 2, high, 8, l, 32, work, 32, e, 16, p, 2);
  EXPECT(is(f.refusal, 0, 0, 0) && f.tied == 0 && p[0] == 1 && p[1] == 0);
  f = millracer_factor_numbered_bytes(MILLRACER_SE99, unit, 32, 2, equal, 8, l, 31, work, 32, e, 16, p, 2);
  EXPECT(is(f.refusal, MILLRACER_NUMBER_REPEATED, 1, 0) && p[0] == 1 && p[1] == 0);
}

static const double factor[] = {2, NAN, 1, 1}, right_side[] = {6, 10};

// The refusal of solving two rows, which leaves y as it was.
static millracer_refusal unsolved(const double *l, size_t l_len, size_t n, const size_t *p, size_t p_len,
                                  const double *b, size_t b_len, size_t y_len) {
  double y[3] = {7, 7, 7};
  millracer_refusal r = millracer_solve(l, l_len, n, p, p_len, b, b_len, y, y_len);
  EXPECT(same(y, (double[]){7, 7, 7}, 3));
  return r;
}

static void solutions(void) {
  const size_t p[] = {1, 0, 0}, indices[][2] = {{1, 1}, {0, 2}, {0, 256}, {1, SIZE_MAX}};
  const double nan[] = {NAN, NAN, NAN, NAN}, zero[] = {3, NAN, 1, -0.0}, low[] = {1, 0, 0, 0x1p-600};
  double y[2];
  EXPECT(is(millracer_solve(factor, 4, 2, p, 2, right_side, 2, y, 2), 0, 0, 0) && same(y, (double[]){1, 2}, 2));
  EXPECT(is(millracer_solve(low, 4, 2, p, 2, right_side, 2, y, 2), MILLRACER_STORED_NOT_FINITE, 1, 0));
  EXPECT(same(y, (double[2]){0}, 2));
  EXPECT(is(unsolved(nan, 3, 49, p, 3, nan, 1, 1), MILLRACER_SIZE_OUT_OF_RANGE, 0, 0));
  EXPECT(is(unsolved(nan, 3, 2, p, 3, nan, 1, 1), MILLRACER_MATRIX_LENGTH, 0, 0));
  EXPECT(is(unsolved(nan, 4, 2, p, 3, nan, 1, 1), MILLRACER_BUFFER_LENGTH, 0, 0));
  EXPECT(is(unsolved(nan, 4, 2, p, 3, nan, 2, 2), MILLRACER_LIST_LENGTH, 0, 0));
  EXPECT(is(unsolved(nan, 4, 2, p, 2, nan, 1, 2), MILLRACER_LIST_LENGTH, 0, 0));
  for (size_t i = 0; i < 4; i++)
    EXPECT(is(unsolved(nan, 4, 2, indices[i], 2, nan, 2, 2), MILLRACER_INDEX_OUT_OF_RANGE, 1, 0));
  EXPECT(is(unsolved(nan, 4, 2, p, 2, nan, 2, 2), MILLRACER_NOT_FINITE, 0, 0));
  EXPECT(is(unsolved(zero, 4, 2, p, 2, (double[]){1, INFINITY}, 2, 2), MILLRACER_NOT_FINITE, 1, 0));
  EXPECT(is(unsolved(zero, 4, 2, p, 2, right_side, 2, 2), MILLRACER_ZERO_DIAGONAL, 1, 0));
}

// One byte an index; a length of one byte more or less is refused.
static void solutions_in_bytes(void) {
  const uint8_t *l = (const uint8_t *)factor, *b = (const uint8_t *)right_side, p[] = {1, 0, 0};
  const size_t l_lens[] = {31, 33, 32, 32, 32, 32, 32, 32}, y_lens[] = {16, 16, 15, 17, 16, 16, 16, 16},
               p_lens[] = {2, 2, 2, 2, 1, 3, 2, 2}, b_lens[] = {16, 16, 16, 16, 16, 16, 15, 17},
               numbers[] = {MILLRACER_MATRIX_LENGTH, MILLRACER_BUFFER_LENGTH, MILLRACER_LIST_LENGTH,
                            MILLRACER_LIST_LENGTH};
  uint8_t y[17] = {7};
  for (size_t i = 0; i < 8; i++)
    EXPECT(is(millracer_solve_bytes(l, l_lens[i], 2, p, p_lens[i], b, b_lens[i], y, y_lens[i]), numbers[i / 2], 0, 0));
  EXPECT(is(millracer_solve_bytes(l, 32, 2, (uint8_t[]){0, 255}, 2, b, 16, y, 16), MILLRACER_INDEX_OUT_OF_RANGE, 1, 0));
  EXPECT(is(millracer_solve_bytes(l, 32, 2, (uint8_t[]){0, 0}, 2, b, 16, y, 16), MILLRACER_INDEX_OUT_OF_RANGE, 1, 0));
  EXPECT(y[0] == 7 && y[1] == 0 && memcmp(y + 1, y + 2, 15) == 0);
  // bytes may stand at any address
  EXPECT(is(millracer_solve_bytes(l, 32, 2, p, 2, b, 16, y + 1, 16), 0, 0, 0));
  EXPECT(y[0] == 7 && memcmp(y + 1, (double[]){1, 2}, 16) == 0);
}

// A length of one byte more or less is refused, and the buffers stay as they are.
static void lengths_in_bytes(void) {
  const uint8_t c[] = {0, 0, 0, 0, 0, 0, 0xf0, 0x3f, 0, 0, 0, 0, 0, 0, 0, 0xc0};
  millracer_found_index found = millracer_index_of_largest_bytes(c, 16);
  EXPECT(is(found.refusal, 0, 0, 0) && found.index == 0);
  found = millracer_index_of_largest_abs_bytes(c, 16);
  EXPECT(is(found.refusal, 0, 0, 0) && found.index == 1);
  EXPECT(is(millracer_index_of_largest_bytes(c, 0).refusal, MILLRACER_SIZE_OUT_OF_RANGE, 0, 0));
  EXPECT(is(millracer_index_of_largest_bytes(c, 7).refusal, MILLRACER_MATRIX_LENGTH, 0, 0));
  found = millracer_index_of_largest_abs_bytes(c, 15);
  EXPECT(is(found.refusal, MILLRACER_MATRIX_LENGTH, 0, 0) && found.index == 0);

  uint8_t mat[33], before[33];
  for (size_t i = 0; i < 33; i++) mat[i] = before[i] = (uint8_t)(i + 1);
  EXPECT(is(millracer_swap_rows_bytes(mat, 31, 2, 0, 1), MILLRACER_MATRIX_LENGTH, 0, 0));
  EXPECT(is(millracer_swap_columns_bytes(mat, 33, 2, 0, 1), MILLRACER_MATRIX_LENGTH, 0, 0));
  const uint8_t exchange[] = {1, 0}, above[] = {0, 2};
  EXPECT(is(millracer_index_to_permutation_mat_bytes(exchange, 2, mat, 31), MILLRACER_BUFFER_LENGTH, 0, 0));
  EXPECT(is(millracer_index_to_permutation_mat_bytes(above, 2, mat, 32), MILLRACER_INDEX_OUT_OF_RANGE, 1, 0));
  EXPECT(is(millracer_diag_mat_from_arr_bytes(c, 7, mat, 32), MILLRACER_SIZE_OUT_OF_RANGE, 0, 0));
  EXPECT(is(millracer_diag_mat_from_arr_bytes(c, 15, mat, 8), MILLRACER_MATRIX_LENGTH, 0, 0));
  EXPECT(is(millracer_diag_mat_from_arr_bytes(c, 16, mat, 31), MILLRACER_BUFFER_LENGTH, 0, 0));
  EXPECT(memcmp(mat, before, 33) == 0);
  // bytes may stand at any address
  EXPECT(is(millracer_swap_rows_bytes(mat + 1, 32, 2, 0, 1), 0, 0, 0));
  EXPECT(mat[0] == 1 && memcmp(mat + 1, before + 17, 16) == 0 && memcmp(mat + 17, before + 1, 16) == 0);

  uint8_t l[32], work[32], e[16], p[2];
  memset(l, 7, 32), memset(work, 7, 32), memset(e, 7, 16), memset(p, 7, 2);
  const uint8_t a[33] = {[6] = 0xf0, [7] = 0x3f, [30] = 0xf0, [31] = 0x3f};
  EXPECT(is(millracer_gershgorin_circles_bytes(a, 31, 2, e, 16, l, 16), MILLRACER_MATRIX_LENGTH, 0, 0));
  EXPECT(is(millracer_gershgorin_circles_bytes(a, 32, 2, e, 16, l, 15), MILLRACER_BUFFER_LENGTH, 0, 0));
  const size_t a_lens[] = {31, 32, 32, 32, 32}, l_lens[] = {32, 31, 32, 32, 32}, work_lens[] = {32, 32, 31, 32, 32},
               e_lens[] = {16, 16, 16, 15, 16}, p_lens[] = {2, 2, 2, 2, 1};
  for (size_t i = 0; i < 5; i++) {
    millracer_factorization f = millracer_factor_bytes(MILLRACER_SE90, a, a_lens[i], 2, l, l_lens[i], work,
                                                       work_lens[i], e, e_lens[i], p, p_lens[i]);
    EXPECT(is(f.refusal, i == 0 ? MILLRACER_MATRIX_LENGTH : MILLRACER_BUFFER_LENGTH, 0, 0));
    EXPECT(f.tied == MILLRACER_NO_STEP && f.phase2 == MILLRACER_NO_STEP && f.inexact == 0);
  }
  EXPECT(l[0] == 7 && memcmp(l, l + 1, 31) == 0 && work[0] == 7 && memcmp(work, work + 1, 31) == 0);
  EXPECT(e[0] == 7 && memcmp(e, e + 1, 15) == 0 && p[0] == 7 && p[1] == 7);

  // accepted: the matrix is its own factor
  millracer_factorization f = millracer_factor_bytes(MILLRACER_SE90, a, 32, 2, l, 32, work, 32, e, 16, p, 2);
  EXPECT(is(f.refusal, 0, 0, 0) && f.tied == 0 && f.phase2 == MILLRACER_NO_STEP);
  const uint8_t zeros[32] = {0};
  EXPECT(memcmp(l, a, 32) == 0 && memcmp(work, zeros, 32) == 0 && memcmp(e, zeros, 16) == 0);
  EXPECT(p[0] == 0 && p[1] == 1);
}

static void records(void) {
  static uint8_t answer[MILLRACER_LONGEST_ANSWER + 1];
  const uint8_t record[] = {1, 1, 0, 1, 2, 1, 0, 4, 3, 8, 0, 0, 0, 0, 0, 0, 0, 0x10, 0x40};
  const uint8_t refused[] = {0x11, 1, 0, 2, 0x12, 1, 0, 0xff, 0x13, 1, 0, 0xff, 0x17, 2, 0, 0, 0};
  answer[0] = 7;
  millracer_written w = millracer_record(record, sizeof record, answer, sizeof answer);
  EXPECT(is(w.refusal, MILLRACER_UNKNOWN_METHOD, 0, 0) && w.length == 0 && answer[0] == 7);
  const uint8_t sound[] = {1, 1, 0, 1, 2, 1, 0, 1, 3, 8, 0, 0, 0, 0, 0, 0, 0, 0x10, 0x40};
  const size_t other_lengths[] = {0, MILLRACER_LONGEST_ANSWER - 1, MILLRACER_LONGEST_ANSWER + 1};
  for (size_t i = 0; i < 3; i++) {
    w = millracer_record(sound, sizeof sound, answer, other_lengths[i]);
    EXPECT(is(w.refusal, MILLRACER_BUFFER_LENGTH, 0, 0) && w.length == 0 && answer[0] == 7);
  }
  w = millracer_record(sound, sizeof sound, answer, MILLRACER_LONGEST_ANSWER);
  EXPECT(is(w.refusal, 0, 0, 0) && w.length == 42 && answer[w.length] == 0);
  EXPECT(memcmp(answer + 12, (uint8_t[]){0x18, 1, 0, 0}, 4) == 0);
  w = millracer_record(record, sizeof record, answer, MILLRACER_LONGEST_ANSWER);
  EXPECT(is(w.refusal, MILLRACER_UNKNOWN_METHOD, 0, 0) && w.length == sizeof refused);
  EXPECT(memcmp(answer, refused, sizeof refused) == 0);
}

static const uint8_t small[] = {1, 1, 0, 1, 2, 1, 0, 1, 3, 8, 0, 0, 0, 0, 0, 0, 0, 0x10, 0x40};

// The refusal of a record, the same on a buffer of another length.
static millracer_refusal refused(const uint8_t *record, size_t record_len) {
  static uint8_t answer[MILLRACER_LONGEST_ANSWER];
  memset(answer, 7, sizeof answer);
  millracer_written other = millracer_record(record, record_len, answer, sizeof answer - 1);
  EXPECT(other.length == 0 && answer[0] == 7 && memcmp(answer, answer + 1, sizeof answer - 1) == 0);
  millracer_written w = millracer_record(record, record_len, answer, sizeof answer);
  EXPECT(is(other.refusal, w.refusal.number, w.refusal.row, w.refusal.column));
  EXPECT(w.length == 17 && answer[3] == w.refusal.number && answer[15] == w.refusal.row && answer[16] == 0);
  EXPECT(answer[17] == 7 && memcmp(answer + 17, answer + 18, sizeof answer - 18) == 0);
  return w.refusal;
}

// Every cut, every tag, and both at once.
static void broken_records(void) {
  const size_t starts[] = {0, 4, 8, sizeof small};
  uint8_t record[sizeof small];
  for (size_t field = 0; field < 3; field++) {
    for (size_t end = starts[field]; end < starts[field + 1]; end++)
      EXPECT(is(refused(small, end), MILLRACER_FIELD_PAST_END, field, 0));
    for (unsigned tag = 0; tag < 256; tag++) {
      memcpy(record, small, sizeof small);
      record[starts[field]] = (uint8_t)tag;
      if (tag == millracer_tag_due(field) || tag == millracer_other_tag_due(field)) continue;
      EXPECT(is(refused(record, sizeof record), MILLRACER_TAG_NOT_DUE, field, 0));
      EXPECT(is(refused(record, starts[field + 1]), MILLRACER_TAG_NOT_DUE, field, 0));
      EXPECT(is(refused(record, starts[field + 1] - 1), MILLRACER_FIELD_PAST_END, field, 0));
    }
  }
  const uint8_t empty_size[] = {1, 0, 0, 2, 1, 0, 1, 3, 0, 0, 9};
  EXPECT(is(refused(empty_size, 9), MILLRACER_FIELD_PAST_END, 2, 0));
  EXPECT(is(refused(empty_size, 10), MILLRACER_MALFORMED_RECORD, 0, 0));
  EXPECT(is(refused(empty_size, 11), MILLRACER_MALFORMED_RECORD, 0, 0));
  static uint8_t zeros[MILLRACER_LONGEST_RECORD + 1];
  EXPECT(is(refused(zeros, sizeof zeros), MILLRACER_MALFORMED_RECORD, 0, 0));
  EXPECT(is(refused(zeros, sizeof zeros - 1), MILLRACER_TAG_NOT_DUE, 0, 0));
}

// The entry 4 of contract 7: every cut, every tag, and the numbers' own refusals.
static void numbered_records(void) {
  static uint8_t answer[MILLRACER_LONGEST_ANSWER], other[MILLRACER_LONGEST_ANSWER];
  const uint8_t sound[] = {1, 1, 0, 1, 2, 1, 0, 1, 4, 4, 0, 7, 0, 0, 0, 3, 8, 0, 0, 0, 0, 0, 0, 0, 0x10, 0x40};
  EXPECT(millracer_record(sound, sizeof sound, answer, sizeof answer).length == 42);
  EXPECT(millracer_record(small, sizeof small, other, sizeof other).length == 42);
  EXPECT(memcmp(answer, other, 42) == 0);
  const size_t starts[] = {0, 4, 8, 15, sizeof sound};
  uint8_t record[sizeof sound];
  for (size_t field = 0; field < 4; field++) {
    for (size_t end = starts[field]; end < starts[field + 1]; end++)
      EXPECT(is(refused(sound, end), MILLRACER_FIELD_PAST_END, field, 0));
    for (unsigned tag = 0; tag < 256; tag++) {
      memcpy(record, sound, sizeof sound);
      record[starts[field]] = (uint8_t)tag;
      if (tag == sound[starts[field]] || tag == millracer_tag_due(field)) continue;
      EXPECT(is(refused(record, sizeof record), MILLRACER_TAG_NOT_DUE, field, 0));
    }
  }
  const uint8_t short_numbers[] = {1, 1, 0, 1, 2, 1, 0, 1, 4, 3, 0, 7, 0, 0, 3, 8, 0, 0, 0, 0, 0, 0, 0, 0xf0, 0x7f};
  EXPECT(is(refused(short_numbers, sizeof short_numbers), MILLRACER_NUMBERS_LENGTH, 0, 0));
  const uint8_t repeated[54] = {1, 1, 0, 2, 2, 1, 0, 1, 4, 8, 0, 7, 0, 0, 9, 7, 0, 0, 9, 3, 32};
  EXPECT(is(refused(repeated, sizeof repeated), MILLRACER_NUMBER_REPEATED, 1, 0));
  EXPECT(millracer_tag_due(3) == 3 && millracer_other_tag_due(3) == 0 && millracer_other_tag_due(1) == 0);
}

// Each record ends where memory does.
static void positions(void) {
  const size_t page = (size_t)sysconf(_SC_PAGESIZE);
  uint8_t *memory = mmap(NULL, 2 * page, PROT_READ | PROT_WRITE, MAP_PRIVATE | MAP_ANONYMOUS, -1, 0);
  EXPECT(memory != MAP_FAILED && mprotect(memory + page, page, PROT_NONE) == 0);
  if (failed) return;
  const size_t starts[] = {0, 4, 8, sizeof small};
  for (size_t length = 0; length <= sizeof small; length++) {
    uint8_t *record = memcpy(memory + page - length, small, length);
    for (size_t field = 0; field < 4; field++) {
      size_t wanted = starts[field] < length ? starts[field] : length;
      EXPECT(millracer_field_position(record, length, field) == wanted);
    }
    EXPECT(millracer_field_position(record, length, 4) == length);
    EXPECT(millracer_field_position(record, length, SIZE_MAX) == length);
  }
  const uint8_t long_field[303] = {9, 0x2c, 1}, past_end[] = {9, 1, 0x80, 7};
  memcpy(memory, long_field, sizeof long_field);
  EXPECT(millracer_field_position(memory, 306, 1) == 303);
  EXPECT(millracer_field_position(memory, 302, 1) == 302);
  EXPECT(millracer_field_position(past_end, sizeof past_end, 1) == sizeof past_end);
  munmap(memory, 2 * page);
}

int main(void) {
  values();
  matrices();
  factorizations();
  inexact_roots();
  numbers();
  numbers_in_bytes();
  solutions();
  solutions_in_bytes();
  lengths_in_bytes();
  records();
  broken_records();
  numbered_records();
  positions();
  if (!failed) printf("exports: every call answers from C\n");
  return failed;
}
