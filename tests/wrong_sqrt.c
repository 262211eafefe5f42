// Wrong roots that the comparison in sqrt.c must notice, one for each value of WRONG.
#include <float.h>
#include <math.h>

#include "../bindings/millracer.h"

static double wrong(double x, double r) {
  int exponent;
  switch (WRONG) {
    case 1:  // always rounded down
      return fma(r, r, -x) > 0 ? nextafter(r, 0) : r;
    case 2:  // wrong for subnormals alone
      return x > 0 && x < DBL_MIN ? nextafter(r, 1) : r;
    case 3:  // +0.0 for -0.0
      return x == 0 ? 0 : r;
    case 5:  // a remainder of 7 taken for none
      return frexp(x, &exponent) == 6114741795106786.0 / 0x1p53 && exponent % 2 == 0 ? nextafter(r, 0) : r;
    default:
      return r;
  }
}

// The root of x, above zero, to 54 digits, without rounding, and what its square leaves of the scaled operand. r is the
// root to 53 digits, rounded.
static uint64_t wide_root(double x, double r, unsigned __int128 *left) {
  int exponent, of_root;
  uint64_t m = (uint64_t)ldexp(frexp(x, &exponent), 53), root = (uint64_t)ldexp(frexp(r, &of_root), 54);
  unsigned __int128 scaled = (unsigned __int128)m << (exponent % 2 == 0 ? 55 : 54);
  if ((unsigned __int128)root * root > scaled) root--;
  *left = scaled - (unsigned __int128)root * root;
  return root;
}

static size_t inexact(double x, double r) {
  unsigned __int128 left;
  if (x == 0) return WRONG == 6;  // 6: zeros are inexact
  uint64_t root = wide_root(x, r, &left);
  switch (WRONG) {
    case 7:  // by the last digit alone, without what is cut off behind it
      return root % 2;
    case 8:  // a remainder of 7 or less taken for none
      return left > 7;
    case 9:  // by the rounded square
      return r * r != x;
    default:
      return left != 0;
  }
}

millracer_root millracer_sqrt(double x) {
  volatile double operand = x;
  // 10: inexact beside a refusal
  if (!isfinite(x)) return (millracer_root){{MILLRACER_NOT_FINITE, 0, 0}, 0, WRONG == 10};
  // 4: negative numbers are not refused
  if (x < 0) return (millracer_root){{WRONG == 4 ? MILLRACER_COMPLETE : MILLRACER_STORED_NOT_FINITE, 0, 0}, 0, 0};
  double r = sqrt(operand);
  return (millracer_root){{MILLRACER_COMPLETE, 0, 0}, wrong(x, r), inexact(x, r)};
}
