// The three factorizations in plain C, statement by statement beside the Rust, and solving, by the same steps and as LAPACK does, all
// without checks: what the benchmark compares with.
#include <math.h>
#include <stddef.h>
#include <string.h>

static const double EPSILON = 0x1p-52, TAU = 0x1.965fea53d6e3dp-18, MU = 0.1;

static double max(double u, double v) { return v > u || u != u ? v : u; }
static double larger_magnitude(double acc, double x) { return fabs(x) > acc ? fabs(x) : acc; }

static void swap(double *x, double *y) {
  double t = *x;
  *x = *y;
  *y = t;
}

static void swap_rows_and_columns(double *m, size_t n, size_t i, size_t j) {
  for (size_t k = 0; k < n; k++) swap(&m[i * n + k], &m[j * n + k]);
  for (size_t k = 0; k < n; k++) swap(&m[k * n + i], &m[k * n + j]);
}

static void swap_order(size_t *p, size_t i, size_t j) {
  size_t t = p[i];
  p[i] = p[j];
  p[j] = t;
}

static double diagonal_max(const double *m, size_t n) {
  double acc = 0;
  for (size_t i = 0; i < n; i++) acc = larger_magnitude(acc, m[i * n + i]);
  return acc;
}

static void lower_triangle(double *l, size_t n) {
  for (size_t i = 0; i + 1 < n; i++)
    for (size_t k = i + 1; k < n; k++) l[i * n + k] = 0;
}

static void reorder(double *e, const size_t *p, size_t n) {
  double ec[48];
  memcpy(ec, e, n * sizeof *e);
  for (size_t i = 0; i < n; i++) e[p[i]] = ec[i];
}

static void start(const double *a, size_t n, double *l, double *e, size_t *p) {
  memcpy(l, a, n * n * sizeof *l);
  for (size_t i = 0; i < n; i++) e[i] = 0, p[i] = i;
}

void c_gmw81(const double *a, size_t n, double *l, double *c, double *e, size_t *p) {
  double d[48], off_diag_max = 0, diag_max = diagonal_max(a, n);
  start(a, n, l, e, p);
  for (size_t i = 0; i < n; i++)
    for (size_t k = 0; k < n; k++)
      if (i != k) off_diag_max = larger_magnitude(off_diag_max, l[i * n + k]);
  double delta = EPSILON * max(1, diag_max + off_diag_max);
  double beta = sqrt(max(max(diag_max, off_diag_max / sqrt((double)n * (double)n - 1)), EPSILON));
  memset(c, 0, n * n * sizeof *c);
  for (size_t i = 0; i < n; i++) c[i * n + i] = l[i * n + i];
  for (size_t j = 0; j < n; j++) {
    size_t q = j;
    for (size_t i = j; i < n; i++)
      if (fabs(c[i * n + i]) > fabs(c[q * n + q])) q = i;
    if (q != j) {
      swap_rows_and_columns(c, n, j, q);
      swap_rows_and_columns(l, n, j, q);
      swap_order(p, j, q);
    }
    for (size_t s = 0; s < j; s++) l[j * n + s] = c[j * n + s] / d[s];
    for (size_t i = j; i < n; i++) {
      double sum = 0;
      for (size_t s = 0; s < j; s++) sum += l[j * n + s] * c[i * n + s];
      c[i * n + j] = l[i * n + j] - sum;
    }
    double theta = 0;
    for (size_t i = j + 1; i < n; i++) theta = larger_magnitude(theta, c[i * n + j]);
    double quotient = theta / beta;
    d[j] = max(max(fabs(c[j * n + j]), quotient * quotient), delta);
    for (size_t i = j + 1; i < n; i++) c[i * n + i] -= c[i * n + j] * c[i * n + j] / d[j];
    e[j] = d[j] - c[j * n + j];
  }
  memset(c, 0, n * n * sizeof *c);
  for (size_t i = 0; i < n; i++) c[i * n + i] = sqrt(d[i]), l[i * n + i] = 1;
  lower_triangle(l, n);
  double product[48 * 48];
  for (size_t i = 0; i < n; i++)
    for (size_t k = 0; k < n; k++) {
      double sum = 0;
      for (size_t t = 0; t < n; t++) sum += l[i * n + t] * c[t * n + k];
      product[i * n + k] = sum;
    }
  memcpy(l, product, n * n * sizeof *l);
  reorder(e, p, n);
}

static void eliminate(double *l, size_t n, size_t j) {
  l[j * n + j] = sqrt(l[j * n + j]);
  for (size_t i = j + 1; i < n; i++) {
    l[i * n + j] /= l[j * n + j];
    l[j * n + i] /= l[j * n + j];
    for (size_t k = j + 1; k <= i; k++) {
      l[i * n + k] -= l[i * n + j] * l[k * n + j];
      l[k * n + i] = l[i * n + k];
    }
  }
}

static int leaves_before(const double *l, size_t n, size_t j, double gamma) {
  double aii_max = -INFINITY, aii_min = INFINITY;
  for (size_t i = j; i < n; i++) {
    double x = l[i * n + i];
    if (x > aii_max) aii_max = x;
    if (x < aii_min) aii_min = x;
  }
  return aii_max < TAU * gamma || aii_min < -MU * aii_max;
}

static size_t phase_one(int se99, double *l, size_t n, double gamma, size_t *p) {
  for (size_t j = 0; j < n; j++) {
    if (se99 && leaves_before(l, n, j, gamma)) return j;
    size_t q = j;
    for (size_t i = j; i < n; i++)
      if (l[i * n + i] > l[q * n + q]) q = i;
    if (q != j) {
      swap_rows_and_columns(l, n, j, q);
      swap_order(p, j, q);
    }
    if (!se99 && l[j * n + j] <= 0) return j;
    double tmp = INFINITY;
    for (size_t i = j + 1; i < n; i++) {
      double nv = l[i * n + i] - l[i * n + j] * l[i * n + j] / l[j * n + j];
      if (nv < tmp) tmp = nv;
    }
    if (se99 ? tmp < -MU * gamma : tmp < TAU * gamma) return j;
    eliminate(l, n, j);
  }
  return n;
}

static void last_block(int se99, double *l, size_t n, double gamma, double delta_prev, double *e) {
  size_t u = n - 2, v = n - 1;
  double a = l[u * n + u], b = l[u * n + v], c = l[v * n + u], d = l[v * n + v];
  double h = -(a + d) / 2, t = sqrt(h * h - a * d + b * c), s = (a + d) / 2;
  double x = s + t, y = s - t, hi = x > y ? x : y, lo = x > y ? y : x;
  double last = se99 ? -lo + max(TAU * gamma, TAU * (hi - lo) / (1 - TAU)) : -lo + TAU * max(gamma, 1 / (1 - TAU) * (hi - lo));
  e[u] = e[v] = max(max(0, last), delta_prev);
  if (e[u] > 0) l[u * n + u] += e[u], l[v * n + v] += e[v];
  l[u * n + u] = sqrt(l[u * n + u]);
  l[v * n + u] /= l[u * n + u];
  l[v * n + v] = sqrt(l[v * n + v] - l[v * n + u] * l[v * n + u]);
}

static void phase_two(int se99, double *l, size_t n, size_t k, double gamma, double *e, size_t *p) {
  double g[48], delta_prev = 0;
  for (size_t i = k; i < n; i++) {
    double row = 0, column = 0;
    for (size_t t = k; t < i; t++) row += fabs(l[i * n + t]);
    for (size_t t = i + 1; t < n; t++) column += fabs(l[t * n + i]);
    g[i] = l[i * n + i] - row - column;
  }
  for (size_t j = k; j + 2 < n; j++) {
    size_t q = j;
    for (size_t i = j; i < n; i++)
      if (g[i] > g[q]) q = i;
    if (q != j) {
      swap_rows_and_columns(l, n, j, q);
      swap(&g[j], &g[q]);
      swap_order(p, j, q);
    }
    double normj = 0;
    for (size_t i = j + 1; i < n; i++) normj += fabs(l[i * n + j]);
    e[j] = max(max(0, delta_prev), -l[j * n + j] + max(normj, TAU * gamma));
    if (e[j] > 0) l[j * n + j] += e[j], delta_prev = e[j];
    if (fabs(l[j * n + j] - normj) > EPSILON) {
      double tmp = 1 - normj / l[j * n + j];
      for (size_t i = j + 1; i < n; i++) g[i] += fabs(l[i * n + j]) * tmp;
    }
    eliminate(l, n, j);
  }
  last_block(se99, l, n, gamma, delta_prev, e);
}

void c_se(int se99, const double *a, size_t n, double *l, double *e, size_t *p) {
  double gamma = diagonal_max(a, n);
  start(a, n, l, e, p);
  size_t k = phase_one(se99, l, n, gamma, p);
  if (k + 1 == n) {
    double x = l[k * n + k];
    e[k] = -x + max(TAU * gamma, TAU * -x / (1 - TAU));
    l[k * n + k] = sqrt(x + e[k]);
  } else if (k < n)
    phase_two(se99, l, n, k, gamma, e, p);
  lower_triangle(l, n);
  reorder(e, p, n);
}

void c_solve(const double *l, size_t n, const size_t *p, const double *b, double *y) {
  double w[48];
  for (size_t t = 0; t < n; t++) {
    double sum = 0;
    for (size_t k = 0; k < t; k++) sum += l[t * n + k] * w[k];
    w[t] = (b[p[t]] - sum) / l[t * n + t];
  }
  for (size_t t = n; t-- > 0;) {
    double sum = 0;
    for (size_t k = t + 1; k < n; k++) sum += l[k * n + t] * w[k];
    w[t] = (w[t] - sum) / l[t * n + t];
  }
  for (size_t t = 0; t < n; t++) y[p[t]] = w[t];
}

// As dpotrs: in place, products taken one by one, and along the rows of L in both directions.
void c_potrs(const double *l, size_t n, const size_t *p, const double *b, double *y) {
  double x[48];
  for (size_t t = 0; t < n; t++) x[t] = b[p[t]];
  for (size_t t = 0; t < n; t++) {
    for (size_t k = 0; k < t; k++) x[t] -= l[t * n + k] * x[k];
    x[t] /= l[t * n + t];
  }
  for (size_t t = n; t-- > 0;) {
    x[t] /= l[t * n + t];
    for (size_t k = 0; k < t; k++) x[k] -= l[t * n + k] * x[t];
  }
  for (size_t t = 0; t < n; t++) y[p[t]] = x[t];
}
