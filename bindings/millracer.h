/* The calls of Millracer for C: modified Cholesky factorizations, solving with the factor, their helpers and the square
 * root.
 *
 * `tools/build exports` writes crates/exports/out/libexports.a, for x86-64 Linux. From the repository's folder:
 *
 *     gcc -Ibindings -o example bindings/example.c crates/exports/out/libexports.a -lm
 *
 * bindings/example.c factors a matrix, solves with the factor and prints the results.
 *
 * Matrices are n rows of n doubles in row order, n from 1 to MILLRACER_MAX_N; rows, columns, steps and places count
 * from 0. Every pointer is followed by the number of its elements. The caller owns all memory: a call reads and writes
 * it while it runs and keeps no pointer. No pointer may be null, also where its length is 0, and what a call writes to
 * may not overlap anything else that the same call is given. A call keeps no state, so threads may call at once.
 *
 * A call whose name ends in _bytes takes doubles as bytes, eight each with the low byte first, contract numbers as four
 * bytes each likewise, and lists of indices as one byte each; its lengths are numbers of bytes. x86-64 keeps a double
 * in that order, so the call of the same name without the ending, on double and size_t, is an inline function that
 * passes the same memory on to the one on bytes, and a list of indices as a copy. Only millracer_factor,
 * millracer_factor_numbered and millracer_solve pass on to the call whose name ends in _doubles instead.
 *
 * No operand is forbidden otherwise: a call that can't accept one says so by a refusal. The contract of each function
 * in the archive, an equation for what it hands back and for every buffer it was lent, is proved (crates/exports). */
#ifndef MILLRACER_H
#define MILLRACER_H

#include <stddef.h>
#include <stdint.h>

#ifdef __cplusplus
extern "C" {
#endif

enum { MILLRACER_MAX_N = 48, MILLRACER_NO_STEP = 255 };

/* Refusals, in checking order but for 10 to 15. Only a record is refused 1, 10 and 11: 1 where it is too long, then
 * 10 or 11 of its first offending field (10 if both hold of it), then 1 for the rest, then 2 and so on. Its fields
 * count from 0 and have the tags 01 (n), 02 (method), 04 (contract numbers, which may be left out) and 03 (entries).
 * 12 and 13 come after 4 and before 5, where there are contract numbers. 14 comes after 5 and 15 after 7; only
 * millracer_solve gives them.
 * All but 9 leave every buffer untouched, save that an answer record tells of them. */
enum {
  MILLRACER_COMPLETE = 0,
  MILLRACER_MALFORMED_RECORD = 1,   /* too long, or n or method is not one byte long, or bytes follow the last field */
  MILLRACER_UNKNOWN_METHOD = 2,
  MILLRACER_SIZE_OUT_OF_RANGE = 3,  /* n is 0 or above 48, or a search is over nothing */
  MILLRACER_MATRIX_LENGTH = 4,      /* a matrix without n * n entries; bytes that are no whole number of doubles */
  MILLRACER_BUFFER_LENGTH = 5,      /* a buffer of another length than its own */
  MILLRACER_INDEX_OUT_OF_RANGE = 6, /* row: position of the first such index among those given; in solving also of one
                                     * that came before */
  MILLRACER_NOT_FINITE = 7,         /* row, column: the first entry that is infinite or NaN; in a list position and 0 */
  MILLRACER_UNSYMMETRIC = 8,        /* row, column: the first entry above the diagonal whose mirror has other bits */
  MILLRACER_STORED_NOT_FINITE = 9,  /* row: the first step that stored an infinity or NaN */
  MILLRACER_FIELD_PAST_END = 10,    /* the transfer was cut in field ROW: its header or content runs past the end */
  MILLRACER_TAG_NOT_DUE = 11,       /* field ROW has a tag that isn't due; it isn't cut */
  MILLRACER_NUMBERS_LENGTH = 12,    /* not n contract numbers; on bytes and in a record not 4 * n bytes of them */
  MILLRACER_NUMBER_REPEATED = 13,   /* row: the first row whose contract number came before */
  MILLRACER_LIST_LENGTH = 14,       /* p or b without n elements */
  MILLRACER_ZERO_DIAGONAL = 15      /* row: the first row of L whose diagonal entry is zero, of either sign */
};

/* How a call ended: 0, or a refusal and its place; row and column are 0 where none is named. */
typedef struct {
  size_t number, row, column;
} millracer_refusal;

/* ---- factorizations */

enum { MILLRACER_GMW81 = 1, MILLRACER_SE90 = 2, MILLRACER_SE99 = 3 };

typedef struct {
  millracer_refusal refusal;
  size_t tied;    /* the first step whose pivot search was tied, or MILLRACER_NO_STEP */
  size_t phase2;  /* the step at which SE90 or SE99 left phase one, or MILLRACER_NO_STEP */
  size_t inexact; /* how many of the n roots on the diagonal rounding changed; 0 beside a refusal */
} millracer_factorization;

millracer_factorization millracer_factor_doubles(size_t method, const double *a, size_t a_len, size_t n, double *l,
                                                 size_t l_len, double *work, size_t work_len, double *e, size_t e_len,
                                                 size_t *p, size_t p_len);
millracer_factorization millracer_factor_bytes(size_t method, const uint8_t *a, size_t a_len, size_t n, uint8_t *l,
                                               size_t l_len, uint8_t *work, size_t work_len, uint8_t *e, size_t e_len,
                                               uint8_t *p, size_t p_len);

/* Factors the symmetric matrix a of n * n entries. Lengths: l and work n * n, e and p n.
 * l: the lower factor. e[r]: what was added for row r of a. p[t]: the row of a taken at step t. work: +0.0 afterwards.
 * Refusal 9 writes +0.0 over l and e, and 0 to n - 1 into p.
 * SE90 leaves phase one also on a pivot that is zero or negative.
 * The roots on the diagonal are one a row: GMW81's of d, and in SE90 and SE99 that of each step and of each of the last
 * rows. Beta's and the eigenvalues' don't count. */
static inline millracer_factorization millracer_factor(size_t method, const double *a, size_t a_len, size_t n,
                                                       double *l, size_t l_len, double *work, size_t work_len,
                                                       double *e, size_t e_len, size_t *p, size_t p_len) {
  return millracer_factor_doubles(method, a, a_len, n, l, l_len, work, work_len, e, e_len, p, p_len);
}

millracer_factorization millracer_factor_numbered_doubles(size_t method, const double *a, size_t a_len, size_t n,
                                                          const uint32_t *numbers, size_t numbers_len, double *l,
                                                          size_t l_len, double *work, size_t work_len, double *e,
                                                          size_t e_len, size_t *p, size_t p_len);
millracer_factorization millracer_factor_numbered_bytes(size_t method, const uint8_t *a, size_t a_len, size_t n,
                                                        const uint8_t *numbers, size_t numbers_len, uint8_t *l,
                                                        size_t l_len, uint8_t *work, size_t work_len, uint8_t *e,
                                                        size_t e_len, uint8_t *p, size_t p_len);

/* The same with a contract number for each row of a, no two equal: where a pivot search is tied, the smallest number
 * among the largest is taken, in both phases, and not the first in position. The tied step is reported as it is
 * without numbers. GMW81 then answers alike however its contracts were loaded, ties included. */
static inline millracer_factorization millracer_factor_numbered(size_t method, const double *a, size_t a_len, size_t n,
                                                                const uint32_t *numbers, size_t numbers_len, double *l,
                                                                size_t l_len, double *work, size_t work_len, double *e,
                                                                size_t e_len, size_t *p, size_t p_len) {
  return millracer_factor_numbered_doubles(method, a, a_len, n, numbers, numbers_len, l, l_len, work, work_len, e,
                                           e_len, p, p_len);
}

/* ---- solving with the factor */

millracer_refusal millracer_solve_doubles(const double *l, size_t l_len, size_t n, const size_t *p, size_t p_len,
                                          const double *b, size_t b_len, double *y, size_t y_len);
millracer_refusal millracer_solve_bytes(const uint8_t *l, size_t l_len, size_t n, const uint8_t *p, size_t p_len,
                                        const uint8_t *b, size_t b_len, uint8_t *y, size_t y_len);

/* The y with L times L transposed times y equal to b, by forward and backward substitution: l and p as a factorization
 * hands them back, b and y by the rows of its matrix. Lengths: l n * n, p, b and y n. Of l only the diagonal and what
 * stands below it is read. It is the solution for the matrix with e added to its diagonal, but for rounding.
 * 6 is an index of p that isn't below n or came before; 7 is looked for in l, then in b. Refusal 9 at a row of l, the
 * first in time whose value isn't finite, writes +0.0 over y. */
static inline millracer_refusal millracer_solve(const double *l, size_t l_len, size_t n, const size_t *p, size_t p_len,
                                                const double *b, size_t b_len, double *y, size_t y_len) {
  return millracer_solve_doubles(l, l_len, n, p, p_len, b, b_len, y, y_len);
}

/* ---- records */

/* The bytes of the longest matrix record (without contract numbers 195 less) and of the longest answer record. */
enum { MILLRACER_LONGEST_RECORD = 18638, MILLRACER_LONGEST_ANSWER = 18889 };

typedef struct {
  millracer_refusal refusal; /* also in the answer record */
  size_t length;             /* of the answer record */
} millracer_written;

/* Writes the answer record to a matrix record, any bytes, at the front of answer, which has MILLRACER_LONGEST_ANSWER
 * bytes. A buffer of any other length is refused, 5, after 1, 10, 11, 2, 3, 4, 12 and 13: it stays as it is, and the
 * length is 0. */
millracer_written millracer_record(const uint8_t *record, size_t record_len, uint8_t *answer, size_t answer_len);

/* Where a record's field begins, with its tag, counting from 0: each field before it is passed by its own length.
 * record_len if the record ends before. After refusal 11 at field ROW the tag that stands there is
 * record[millracer_field_position(record, record_len, ROW)]. */
static inline size_t millracer_field_position(const uint8_t *record, size_t record_len, size_t field) {
  size_t at = 0;
  for (; field > 0; field--) {
    if (record_len - at < 3) return record_len;
    size_t length = record[at + 1] + 256 * (size_t)record[at + 2];
    if (record_len - at - 3 < length) return record_len;
    at += 3 + length;
  }
  return at;
}

/* The tag due at a field of a matrix record, from 0. At field 2 two tags are due: 03, or 04 where contract numbers come
 * before the entries, which are then field 3. */
static inline unsigned millracer_tag_due(size_t field) { return field == 0 ? 0x01 : field == 1 ? 0x02 : 0x03; }

/* The other tag due at a field: 04 at field 2, else 0, for none. */
static inline unsigned millracer_other_tag_due(size_t field) { return field == 2 ? 0x04 : 0; }

/* ---- square root, correctly rounded */

typedef struct {
  millracer_refusal refusal;
  double value;
  size_t inexact; /* 1 if rounding changed the root: no double has x as its exact, unrounded square; else 0 */
} millracer_root;

/* Of -0.0 it is -0.0, and exact. Refuses an operand that is not finite (7) or is negative (9); the value is then 0, and
 * so is inexact. */
millracer_root millracer_sqrt(double x);

/* ---- helpers */

typedef struct {
  millracer_refusal refusal;
  double hi, lo;
} millracer_eigenvalues;

/* Of the rows (a b) and (c d), the larger first; both 0 beside a refusal. */
millracer_eigenvalues millracer_eigenvalues_2x2(double a, double b, double c, double d);

typedef struct {
  millracer_refusal refusal;
  size_t index;
} millracer_found_index;

millracer_found_index millracer_index_of_largest_bytes(const uint8_t *c, size_t c_len);
millracer_found_index millracer_index_of_largest_abs_bytes(const uint8_t *c, size_t c_len);

/* The first of equals, in a list of any length above 0; 0 beside a refusal. */
static inline millracer_found_index millracer_index_of_largest(const double *c, size_t c_len) {
  return millracer_index_of_largest_bytes((const uint8_t *)c, 8 * c_len);
}
static inline millracer_found_index millracer_index_of_largest_abs(const double *c, size_t c_len) {
  return millracer_index_of_largest_abs_bytes((const uint8_t *)c, 8 * c_len);
}

millracer_refusal millracer_swap_rows_bytes(uint8_t *mat, size_t mat_len, size_t n, size_t idx1, size_t idx2);
millracer_refusal millracer_swap_columns_bytes(uint8_t *mat, size_t mat_len, size_t n, size_t idx1, size_t idx2);

/* mat has n * n entries, of any bits. */
static inline millracer_refusal millracer_swap_rows(double *mat, size_t mat_len, size_t n, size_t idx1, size_t idx2) {
  return millracer_swap_rows_bytes((uint8_t *)mat, 8 * mat_len, n, idx1, idx2);
}
static inline millracer_refusal millracer_swap_columns(double *mat, size_t mat_len, size_t n, size_t idx1,
                                                       size_t idx2) {
  return millracer_swap_columns_bytes((uint8_t *)mat, 8 * mat_len, n, idx1, idx2);
}

millracer_refusal millracer_index_to_permutation_mat_bytes(const uint8_t *idxs, size_t idxs_len, uint8_t *mat,
                                                           size_t mat_len);
millracer_refusal millracer_diag_mat_from_arr_bytes(const uint8_t *arr, size_t arr_len, uint8_t *mat, size_t mat_len);

/* mat has idxs_len * idxs_len entries: row i becomes 1 at column idxs[i], else 0. An index may be repeated.
 * Each index is copied into a byte, one above 255 as 255, which is refused as well. A list of more than 48 is refused
 * by its length, so that 49 of it are enough. */
static inline millracer_refusal millracer_index_to_permutation_mat(const size_t *idxs, size_t idxs_len, double *mat,
                                                                   size_t mat_len) {
  uint8_t bytes[MILLRACER_MAX_N + 1] = {0};
  size_t count = idxs_len < sizeof bytes ? idxs_len : sizeof bytes;
  for (size_t i = 0; i < count; i++) bytes[i] = (uint8_t)(idxs[i] < 255 ? idxs[i] : 255);
  return millracer_index_to_permutation_mat_bytes(bytes, count, (uint8_t *)mat, 8 * mat_len);
}

/* mat has arr_len * arr_len entries: arr on the diagonal, else 0. */
static inline millracer_refusal millracer_diag_mat_from_arr(const double *arr, size_t arr_len, double *mat,
                                                            size_t mat_len) {
  return millracer_diag_mat_from_arr_bytes((const uint8_t *)arr, 8 * arr_len, (uint8_t *)mat, 8 * mat_len);
}

millracer_refusal millracer_gershgorin_circles_bytes(const uint8_t *mat, size_t mat_len, size_t n, uint8_t *centres,
                                                     size_t centres_len, uint8_t *radii, size_t radii_len);

/* The Gershgorin circles of the rows of mat, symmetric or not: centres and radii have n entries.
 * Refusal 9 at a row whose sum of magnitudes is infinite writes +0.0 over both. */
static inline millracer_refusal millracer_gershgorin_circles(const double *mat, size_t mat_len, size_t n,
                                                             double *centres, size_t centres_len, double *radii,
                                                             size_t radii_len) {
  return millracer_gershgorin_circles_bytes((const uint8_t *)mat, 8 * mat_len, n, (uint8_t *)centres, 8 * centres_len,
                                            (uint8_t *)radii, 8 * radii_len);
}

#ifdef __cplusplus
}
#endif

#endif
