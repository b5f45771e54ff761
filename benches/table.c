/* table [SECONDS [shards]]: times the calls of the C library, each checked for a right answer, and prints a table; with a second
 * word, those of shards alone.
 *
 * A line has the least processor time of some tries, the time for one butterfly, coefficient or byte, and how much
 * that is of what the first line of the same work took: where the time grows with N lg N it stays near 1.
 * A try is repeated for SECONDS (0.2), twice at least. */
#include "commonware_math.h"

#include <stdio.h>
#include <stdlib.h>
#include <string.h>
#include <time.h>

/* no work has more cells */
#define MOST_CELLS ((size_t)1 << 25)

static double seconds = 0.2;

/* the processor time of this program, which other programs do not lengthen by taking turns with it */
static double now(void) {
  struct timespec at;
  clock_gettime(CLOCK_PROCESS_CPUTIME_ID, &at);
  return (double)at.tv_sec + (double)at.tv_nsec * 1e-9;
}

/* words below P, by splitmix64 */
static uint64_t state = 1;
static uint64_t word(void) {
  for (;;) {
    uint64_t z = state += UINT64_C(0x9e3779b97f4a7c15);
    z = (z ^ z >> 30) * UINT64_C(0xbf58476d1ce4e5b9);
    z = (z ^ z >> 27) * UINT64_C(0x94d049bb133111eb);
    z ^= z >> 31;
    if (z < CWM_MODULUS) return z;
  }
}

/* the field once more, by the compiler's own remainder, to judge the library's answers */
static uint64_t times(uint64_t a, uint64_t b) { return (uint64_t)((unsigned __int128)a * b % CWM_MODULUS); }
static uint64_t plus(uint64_t a, uint64_t b) { return (uint64_t)(((unsigned __int128)a + b) % CWM_MODULUS); }
static uint64_t power(uint64_t a, uint64_t n) {
  uint64_t out = 1;
  for (; n > 0; n /= 2, a = times(a, a)) {
    if (n % 2 == 1) out = times(out, a);
  }
  return out;
}
static uint64_t root(int lg) { return power(UINT64_C(0xee41f5320c4ea145), UINT64_C(1) << (32 - lg)); }
static uint64_t value(const uint64_t *coefficients, size_t n, size_t step, uint64_t x) {
  uint64_t out = 0;
  for (size_t i = n; i-- > 0;) out = plus(times(out, x), coefficients[i * step]);
  return out;
}

static void fail(const char *what) {
  printf("%s: wrong answer\n", what);
  exit(1);
}

static void need(const char *what, uint32_t status) {
  char text[CWM_TEXT_SIZE];
  if (status == CWM_DONE) return;
  cwm_status_text(status, text, sizeof text);
  printf("%s: %s\n", what, text);
  exit(1);
}

static uint64_t *words(size_t n) {
  uint64_t *out = malloc(n * sizeof *out);
  if (out == NULL) fail("malloc");
  return out;
}

static uint64_t *some(size_t n) {
  uint64_t *out = words(n);
  for (size_t i = 0; i < n; i++) out[i] = word();
  return out;
}

/* prints a line of the table; `base` is what the first line of the same work took for one part */
static void line(const char *work, int lg, size_t cols, double time, double parts, const char *part, double *base) {
  double each = time * 1e9 / parts;
  if (*base == 0) *base = each;
  printf("%-19s %4d %6zu %14.4f ms %10.3f ns a %-12s %8.2f\n", work, lg, cols, time * 1e3, each, part, each / *base);
}

/* the least time of some tries of `call` over a copy of n words */
#define LEAST(time, cells, from, n, call)                             \
  do {                                                                \
    double spent_ = 0;                                                \
    (time) = 1e9;                                                     \
    for (int tries_ = 0; tries_ < 2 || spent_ < seconds; tries_++) {  \
      memcpy((cells), (from), (n) * sizeof *(cells));                 \
      double start_ = now();                                          \
      (call);                                                         \
      double took_ = now() - start_;                                  \
      spent_ += took_;                                                \
      if (took_ < (time)) (time) = took_;                             \
    }                                                                 \
  } while (0)

static void evals(void) {
  double base = 0, time;
  for (int lg = 10; lg <= 22; lg += 2) {
    size_t n = (size_t)1 << lg;
    uint64_t *a = some(n), *b = words(n), x = word(), out;
    LEAST(time, b, a, n, need("eval", cwm_eval(b, n, x, &out)));
    if (out != value(a, n, 1, x)) fail("eval");
    line("eval", lg, 1, time, (double)n, "coefficient", &base);
    free(a), free(b);
  }
}

static void transforms(size_t cols) {
  double forward = 0, back = 0, time;
  for (int lg = 10; lg <= 22; lg += 2) {
    size_t rows = (size_t)1 << lg, n = rows * cols;
    if (n > MOST_CELLS) {
      printf("%-19s %4d %6zu    left out: more than 2^25 cells\n", "evaluate", lg, cols);
      continue;
    }
    uint64_t *a = some(n), *b = words(n), *c = words(n);
    double parts = (double)n * lg / 2;
    LEAST(time, b, a, n, need("evaluate", cwm_evaluate(b, n, cols)));
    line("evaluate", lg, cols, time, parts, "butterfly", &forward);
    for (int k = 0; k < 3; k++) {
      size_t j = (size_t)word() % rows, column = (size_t)word() % cols;
      if (b[j * cols + column] != value(a + column, rows, cols, power(root(lg), j))) fail("evaluate");
    }
    LEAST(time, c, b, n, need("interpolate", cwm_interpolate(c, n, cols)));
    line("interpolate", lg, cols, time, parts, "butterfly", &back);
    if (memcmp(a, c, n * sizeof *a) != 0) fail("interpolate");
    free(a), free(b), free(c);
  }
}

static void recoveries(size_t cols) {
  double base = 0, time;
  for (int lg = 10; lg <= 20; lg += 2) {
    size_t rows = (size_t)1 << lg, n = rows * cols, count = 0;
    uint8_t *filled = malloc(rows);
    if (filled == NULL) fail("malloc");
    for (size_t i = 0; i < rows; i++) count += filled[i] = word() % 3 != 0;
    uint64_t *a = some(n), *b = words(n), *c = words(n);
    memset(a + count * cols, 0, (n - count * cols) * sizeof *a);
    memcpy(b, a, n * sizeof *a);
    need("evaluate", cwm_evaluate(b, n, cols));
    for (size_t i = 0; i < rows; i++) {
      if (!filled[i]) memset(b + i * cols, 255, cols * sizeof *b);
    }
    LEAST(time, c, b, n, need("recover", cwm_recover(c, n, cols, filled, rows)));
    line("recover, third", lg, cols, time, (double)rows * lg * (3 * lg + 3 * (double)cols + 2) / 2, "butterfly", &base);
    if (memcmp(a, c, n * sizeof *a) != 0) fail("recover");
    free(a), free(b), free(c), free(filled);
  }
}

/* as recoveries, by the call that corrects wrong rows: none is wrong, or in the first column one */
static void corrections(size_t cols, int spoiled) {
  const char *work = spoiled ? "correct, one wrong" : "correct, none wrong";
  double base = 0, time;
  for (int lg = 8; lg <= (spoiled ? 12 : 20); lg += 2) {
    size_t rows = (size_t)1 << lg, n = rows * cols, m = 0, count, written = 0, last = 0;
    uint8_t *filled = malloc(rows);
    size_t *wrong = malloc(rows * sizeof *wrong);
    if (filled == NULL || wrong == NULL) fail("malloc");
    for (size_t i = 0; i < rows; i++) m += filled[i] = word() % 3 != 0;
    count = m - 2;
    uint64_t *a = some(n), *b = words(n), *c = words(n);
    memset(a + count * cols, 0, (n - count * cols) * sizeof *a);
    memcpy(b, a, n * sizeof *a);
    need("evaluate", cwm_evaluate(b, n, cols));
    for (size_t i = 0; i < rows; i++) {
      if (filled[i]) last = i;
      else memset(b + i * cols, 255, cols * sizeof *b);
    }
    if (spoiled) b[last * cols] ^= 1;
    LEAST(time, c, b, n, need("correct", cwm_correct(c, n, cols, filled, rows, count, wrong, rows, &written)));
    line(work, lg, cols, time, spoiled ? (double)m * (double)m : (double)rows * lg * (3 * lg + 3 * (double)cols + 2) / 2,
         spoiled ? "pair" : "butterfly", &base);
    if (memcmp(a, c, n * sizeof *a) != 0 || written != (size_t)spoiled || (spoiled && wrong[0] != last)) fail("correct");
    free(a), free(b), free(c), free(filled), free(wrong);
  }
}

/* a product in the field as the library's, for the plain loop that decoding is compared with */
static uint64_t product(uint64_t a, uint64_t b) {
  unsigned __int128 x = (unsigned __int128)a * b;
  uint64_t low = (uint64_t)x, high = (uint64_t)(x >> 64), top = high >> 32, t = low - top;
  if (low < top) t -= UINT64_C(0xffffffff);
  uint64_t middle = (high & UINT64_C(0xffffffff)) * UINT64_C(0xffffffff), out = t + middle;
  if (out < middle) out += UINT64_C(0xffffffff);
  return out >= CWM_MODULUS ? out - CWM_MODULUS : out;
}

/* so many products, each taken from one of n words */
static void subtract_products(uint64_t *c, const uint64_t *a, const uint64_t *b, size_t n, size_t products) {
  for (size_t i = 0; i < products / n; i++) {
    for (size_t j = 0; j < n; j++) {
      uint64_t p = product(a[j], b[i % n]);
      c[j] = c[j] - p + (c[j] < p ? CWM_MODULUS : 0);
    }
  }
}

/* n values of which an eighth is wrong, and as many products with a difference each in a plain loop */
static void decodings(void) {
  double base = 0, plain = 0, time;
  for (size_t n = 64; n <= 1024; n *= 4) {
    size_t k = n / 4 * 3, e = n / 8, written = 0, wrong[128], products = 2 * n * (n + 1) + 2 * e * n + k * (e + 1) + n * k;
    uint64_t *points = some(n), *f = some(k), *v = words(n), *c = words(n), *out = words(k);
    for (size_t i = 0; i < n; i++) v[i] = value(f, k, 1, points[i]);
    for (size_t i = 0; i < e; i++) v[8 * i + 3] ^= 1;
    LEAST(time, c, v, n, need("decode", cwm_decode(points, n, c, n, out, k, wrong, 128, &written)));
    if (written != e || wrong[0] != 3 || memcmp(out, f, k * sizeof *f) != 0) fail("decode");
    line("decode, 1/8 wrong", (int)n, 1, time, (double)products, "product", &base);
    LEAST(time, c, v, n, subtract_products(c, points, v, n, products));
    line("as many products", (int)n, 1, time, (double)products, "product", &plain);
    if (c[0] == 0 && c[1] == 0) fail("as many products");
    free(points), free(f), free(v), free(c), free(out);
  }
}

static void weights(void) {
  double base = 0, time;
  for (size_t n = 10; n <= 1000; n *= 10) {
    uint64_t *points = some(n), *f = some(n), *w = words(n), *p = words(n), x = word(), sum = 0;
    LEAST(time, p, points, n, need("weights", cwm_weights(p, n, x, w, n)));
    for (size_t i = 0; i < n; i++) sum = plus(sum, times(w[i], value(f, n, 1, points[i])));
    if (sum != value(f, n, 1, x)) fail("weights");
    line("weights", (int)n, 1, time, (double)n * (double)n, "pair", &base);
    free(points), free(f), free(w), free(p);
  }
  base = 0;
  for (int lg = 8; lg <= 18; lg += 2) {
    uint32_t total = (uint32_t)1 << lg;
    size_t n = 0;
    uint32_t *indices = malloc(total * sizeof *indices), *copy = malloc(total * sizeof *copy);
    if (indices == NULL || copy == NULL) fail("malloc");
    for (uint32_t i = 0; i < total; i++) {
      if (word() % 3 != 0) indices[n++] = i;
    }
    uint64_t *f = some(total), *v = words(total), *w = words(n), x = word(), sum = 0;
    LEAST(time, copy, indices, n, need("weights_at_roots", cwm_weights_at_roots(total, copy, n, x, w, n)));
    memset(f + n, 0, (total - n) * sizeof *f);
    memcpy(v, f, total * sizeof *f);
    need("evaluate", cwm_evaluate(v, total, 1));
    for (size_t i = 0; i < n; i++) sum = plus(sum, times(w[i], v[indices[i]]));
    if (sum != value(f, n, 1, x)) fail("weights_at_roots");
    line("weights at roots", lg, 1, time, (double)total * lg * lg, "N lg lg", &base);
    free(indices), free(copy), free(f), free(v), free(w);
  }
}

static void encodings(void) {
  double forward = 0, back = 0, time;
  for (int lg = 10; lg <= 22; lg += 2) {
    size_t n = (size_t)1 << lg, room = 8 * n + 5, written = 0, count = 0;
    uint64_t *a = some(n), *b = words(n);
    uint8_t *bytes = malloc(room), *copy = malloc(room);
    if (bytes == NULL || copy == NULL) fail("malloc");
    LEAST(time, b, a, n, need("encode", cwm_encode_poly(b, n, bytes, room, &written)));
    line("encode", lg, 1, time, 8 * (double)n, "byte", &forward);
    size_t front = written - 8 * n;
    for (size_t i = 0; i < n; i++) {
      for (int k = 0; k < 8; k++) {
        if (bytes[front + 8 * i + (size_t)k] != (uint8_t)(a[i] >> (56 - 8 * k))) fail("encode");
      }
    }
    LEAST(time, copy, bytes, written, need("decode", cwm_decode_poly(copy, written, b, n, &count)));
    line("decode", lg, 1, time, 8 * (double)n, "byte", &back);
    if (count != n || memcmp(a, b, n * sizeof *a) != 0) fail("decode");
    free(a), free(b), free(bytes), free(copy);
  }
}

/* the words of a buffer of 2^lg, split into shards of which every second is lost */
static void shards(const char *split, const char *join, uint32_t min, int from) {
  double forward = 0, back = 0, time;
  uint32_t total = 2 * min, *indices = malloc(min * sizeof *indices);
  if (indices == NULL) fail("malloc");
  for (int lg = from; lg <= 20; lg += 2) {
    size_t n = (size_t)1 << lg, size = 0, written = 0;
    need(split, cwm_shard_sizes(n, min, total, &size));
    uint64_t *a = some(n), *b = words(n), *rows = words(total * size), *left = words(min * size);
    uint64_t *copy = words(min * size);
    LEAST(time, b, a, n, need(split, cwm_split(b, n, min, total, rows, total * size)));
    line(split, lg, size, time, 8 * (double)n, "byte", &forward);
    for (uint32_t i = 0; i < min; i++) {
      indices[i] = 2 * i + 1;
      memcpy(left + i * size, rows + indices[i] * size, size * sizeof *left);
    }
    memset(b, 0, n * sizeof *b);
    LEAST(time, copy, left, min * size,
          need(join, cwm_join(indices, min, min, total, copy, min * size, b, n, &written)));
    line(join, lg, size, time, 8 * (double)n, "byte", &back);
    if (written != n || memcmp(a, b, n * sizeof *a) != 0) fail(join);
    free(a), free(b), free(rows), free(left), free(copy);
  }
  free(indices);
}

/* prints how many MB of the data of a split go through a call in a second, and what is beside the common case */
static void rate(const char *call, uint32_t min, uint32_t total, uint32_t shards, size_t bytes, double time, const char *beside) {
  printf("%-6s %4u of %4u, %4u shards %6.1f MB %14.4f ms %8.1f MB a second%s\n", call, min, total, shards, (double)bytes * 1e-6,
         time * 1e3, (double)bytes * 1e-6 / time, beside);
}

/* a join that has to be refused, for a shard is damaged */
static void refused(uint32_t status) {
  if (status != CWM_INCONSISTENT) fail("join of a damaged shard");
}

/* the data are joined from the last `min` shards, and, where `all` is not 0, from all of them, also with damage */
static void rates(uint32_t min, uint32_t total, size_t bytes, int all) {
  size_t n = bytes / 8, size = 0, written = 0, many = 0;
  double time;
  need("shard sizes", cwm_shard_sizes(n, min, total, &size));
  uint64_t *a = some(n), *b = words(n), *rows = words(total * size), *copy = words(total * size);
  uint32_t *indices = malloc(total * sizeof *indices);
  size_t *left_out = malloc(total * sizeof *left_out);
  if (indices == NULL || left_out == NULL) fail("malloc");
  for (uint32_t i = 0; i < total; i++) indices[i] = i;
  LEAST(time, b, a, n, need("split", cwm_split(b, n, min, total, rows, total * size)));
  rate("split", min, total, total, bytes, time, "");
  for (uint32_t m = min; m != 0; m = all && m != total ? total : 0) {
    memset(b, 0, n * sizeof *b);
    LEAST(time, copy, rows + (total - m) * size, m * size,
          need("join", cwm_join(indices + (total - m), m, min, total, copy, m * size, b, n, &written)));
    rate("join", min, total, m, bytes, time, "");
    if (written != n || memcmp(a, b, n * sizeof *a) != 0) fail("join");
  }
  if (all && total > min + 3) {
    LEAST(time, copy, rows, total * size,
          need("correct", cwm_join_corrected(indices, total, min, total, copy, total * size, b, n, &written, left_out, total, &many)));
    rate("join", min, total, total, bytes, time, ", corrected, none damaged");
    rows[0] = 1 - rows[0] % 2;
    LEAST(time, copy, rows, total * size, refused(cwm_join(indices, total, min, total, copy, total * size, b, n, &written)));
    rate("join", min, total, total, bytes, time, ", one damaged, refused");
    rows[size] = 1 - rows[size] % 2;
    memset(b, 0, n * sizeof *b);
    LEAST(time, copy, rows, total * size,
          need("correct", cwm_join_corrected(indices, total, min, total, copy, total * size, b, n, &written, left_out, total, &many)));
    rate("join", min, total, total, bytes, time, ", corrected, two damaged");
    if (many != 2 || written != n || memcmp(a, b, n * sizeof *a) != 0) fail("correct");
  }
  free(a), free(b), free(rows), free(copy), free(indices), free(left_out);
}

/* bytes in blocks that are split each by itself: of each block there are `total` shards of `size` bytes */
typedef struct {
  uint32_t min, total;
  size_t block, blocks, size;
} cut;

static void split_blocks(const cut *c, const uint8_t *data, uint8_t *rows) {
  size_t all = c->total * c->size;
  for (size_t i = 0; i < c->blocks; i++)
    need("split", cwm_split_bytes(data + i * c->block, c->block, c->min, c->total, rows + i * all, all));
}

/* joins each block from its last m shards: all with one status */
static uint32_t join_blocks(const cut *c, const uint32_t *indices, uint32_t m, const uint8_t *rows, uint8_t *data) {
  uint32_t status = CWM_DONE, first = c->total - m;
  size_t written;
  for (size_t i = 0; i < c->blocks; i++) {
    const uint8_t *left = rows + (i * c->total + first) * c->size;
    uint32_t now = cwm_join_bytes(indices + first, m, c->min, c->total, left, m * c->size, data + i * c->block, c->block, &written);
    if (i > 0 && now != status) fail("join");
    status = now;
  }
  return status;
}

/* the same for bytes */
static void rates_of_bytes(uint32_t min, uint32_t total, size_t bytes, size_t block, const char *beside) {
  cut c = {min, total, block, bytes / block, 0};
  double time;
  char text[64];
  need("shard sizes", cwm_shard_bytes_sizes(block, min, total, &c.size));
  bytes = c.blocks * block;
  size_t all = c.blocks * total * c.size;
  uint64_t *data = some(bytes / 8);
  uint8_t *a = (uint8_t *)data, *b = malloc(bytes), *rows = malloc(all), *left = malloc(all);
  uint32_t *indices = malloc(total * sizeof *indices);
  if (indices == NULL || b == NULL || rows == NULL || left == NULL) fail("malloc");
  for (uint32_t i = 0; i < total; i++) indices[i] = i;
  LEAST(time, b, a, bytes, split_blocks(&c, b, rows));
  rate("split", min, total, total, bytes, time, beside);
  for (uint32_t m = min; m != 0; m = m != total ? total : 0) {
    memset(b, 0, bytes);
    LEAST(time, left, rows, all, need("join", join_blocks(&c, indices, m, left, b)));
    rate("join", min, total, m, bytes, time, beside);
    if (memcmp(a, b, bytes) != 0) fail("join");
  }
  for (size_t i = 0; i < c.blocks; i++) rows[i * total * c.size + 7] ^= 1;
  LEAST(time, left, rows, all, refused(join_blocks(&c, indices, total, left, b)));
  snprintf(text, sizeof text, "%s, one damaged, refused", beside);
  rate("join", min, total, total, bytes, time, text);
  free(data), free(b), free(rows), free(left), free(indices);
}

/* shards of several numbers and sizes */
static void all_rates(void) {
  rates(10, 16, 4000000, 1);
  rates(10, 16, 40000000, 1);
  rates(100, 200, 4000000, 0);
  rates(100, 200, 40000000, 0);
  rates(3, 1000, 3000000, 1);
  rates_of_bytes(10, 16, 40000000, 262144, ", bytes, blocks of 256 KiB");
  rates_of_bytes(10, 16, 40000000, 40000000, ", bytes");
  rates_of_bytes(100, 200, 40000000, 262144, ", bytes, blocks of 256 KiB");
  rates_of_bytes(100, 200, 40000000, 40000000, ", bytes");
}

int main(int argc, char **argv) {
  if (argc > 1) seconds = atoi(argv[1]);
  if (argc > 2) {
    all_rates();
    return 0;
  }
  printf("%-19s %4s %6s %17s %28s %8s\n", "work", "lg", "cols", "time", "for one", "growth");
  evals();
  transforms(1);
  transforms(8);
  transforms(64);
  recoveries(1);
  recoveries(16);
  corrections(1, 0);
  corrections(16, 0);
  corrections(1, 1);
  decodings();
  weights();
  encodings();
  shards("split, 8 of 16", "join, 8 of 16", 8, 10);
  shards("split, 512 of 1024", "join, 512 of 1024", 512, 14);
  all_rates();
  return 0;
}
