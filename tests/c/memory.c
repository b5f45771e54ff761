/* How much memory each call takes at most, counted in the bytes that are asked for, beside the bound that the header says.
 *
 * It is linked to the archive with malloc, realloc and free wrapped. A line for each call; the status is 1 where one takes more. */
#include "commonware_math.h"

#include <stdio.h>
#include <stdlib.h>
#include <string.h>

void *__real_malloc(size_t size);
void __real_free(void *at);

enum { BEFORE = 16 };
static size_t now, peak;

/* A block with its size in front. */
void *__wrap_malloc(size_t size) {
  char *at = __real_malloc(size + BEFORE);
  if (at == NULL) return NULL;
  memcpy(at, &size, sizeof size);
  now += size;
  if (now > peak) peak = now;
  return at + BEFORE;
}

void __wrap_free(void *at) {
  size_t size;
  if (at == NULL) return;
  memcpy(&size, (char *)at - BEFORE, sizeof size);
  now -= size;
  __real_free((char *)at - BEFORE);
}

/* As a block may be that can't grow where it lies: the old one and the new one are there at once. */
void *__wrap_realloc(void *at, size_t size) {
  size_t old;
  if (at == NULL) return __wrap_malloc(size);
  memcpy(&old, (char *)at - BEFORE, sizeof old);
  void *to = __wrap_malloc(size);
  if (to == NULL) return NULL;
  memcpy(to, at, old < size ? old : size);
  __wrap_free(at);
  return to;
}

/* For each call the most that was taken, in parts of its words, and what the header allows. */
static struct {
  const char *name;
  double most, taken;
} calls[64];
static int failed;

/* What was taken since the last count by a call with this answer, beside so many words. */
static void count_of(const char *name, uint32_t wanted, uint32_t status, double most, size_t words) {
  double taken = (double)peak / 8 / (double)words;
  int i = 0;
  while (calls[i].name != NULL && strcmp(calls[i].name, name) != 0) i++;
  calls[i].name = name, calls[i].most = most;
  if (taken > calls[i].taken) calls[i].taken = taken;
  if (status != wanted || now != 0) failed = 1, printf("%s: %s, %zu bytes kept\n", name, cwm_status_name(status), now);
  peak = 0;
}

/* The same of a call that is done. */
static void count(const char *name, uint32_t status, double most, size_t words) { count_of(name, CWM_DONE, status, most, words); }

static void *block(size_t size) {
  void *at = __real_malloc(size);
  if (at == NULL) exit(2);
  return at;
}

enum { LG = 12, ROWS = 1 << LG, MOST_COLS = 16, CELLS = ROWS * MOST_COLS, POINTS = 256, LONG = 1 << 17, BLOCK = 1 << 16, ROOM = 1 << 23 };

static uint64_t *a, *b, *c;
static uint8_t *filled;
static size_t *wrong, written;
static uint32_t *indices;

/* Words below P. */
static void fill(uint64_t *at, size_t n) {
  for (size_t i = 0; i < n; i++) at[i] = i * 0x9e3779b97f4a7c15 % CWM_MODULUS;
}

/* Every rows / missing-th row is missing. */
static void leave_out(size_t missing) {
  for (size_t i = 0; i < ROWS; i++) filled[i] = missing == 0 || i % (ROWS / missing) != 0;
}

static void domains(void) {
  for (size_t cols = 1; cols <= MOST_COLS; cols *= 4) {
    size_t n = ROWS * cols;
    fill(a, n);
    count("cwm_evaluate", cwm_evaluate(a, n, cols), 1, n + ROWS + 64);
    count("cwm_interpolate", cwm_interpolate(a, n, cols), 1, n + ROWS + 64);
    for (size_t missing = 0; missing <= ROWS; missing = missing ? 8 * missing : 1) {
      leave_out(missing);
      count("cwm_recover", cwm_recover(a, n, cols, filled, ROWS), 1, n + 4 * ROWS + 1024);
      /* a quarter of the coefficients, and rows of their values spoiled */
      fill(b, n);
      memset(b + n / 4, 0, 8 * (n - n / 4));
      if (cwm_evaluate(b, n, cols) != CWM_DONE) exit(2);
      leave_out(missing < ROWS / 4 ? missing : 0);
      for (size_t i = 0; i < missing / 8; i++) b[i * cols] = 1;
      peak = 0;
      count("cwm_correct", cwm_correct(b, n, cols, filled, ROWS, ROWS / 4, wrong, ROWS / 2, &written), 3, n + 4 * ROWS + 1024);
    }
  }
}

static void points(void) {
  for (size_t k = 0; k <= POINTS; k += 64)
    for (size_t spoiled = 0; spoiled <= (POINTS - k) / 2; spoiled += 32) {
      for (uint64_t i = 0; i < POINTS; i++) a[i] = i + 1, b[i] = k > 0 ? 7 : 0;
      for (size_t i = 0; i < spoiled; i++) b[i] = 8 + i;
      peak = 0;
      count("cwm_decode", cwm_decode(a, POINTS, b, POINTS, c, k, wrong, POINTS, &written), 9, POINTS);
    }
  count("cwm_weights", cwm_weights(a, POINTS, 5000, b, POINTS), 3, POINTS);
  for (uint32_t x = 0; x < 2; x++)
    for (size_t n = 1; n <= ROWS; n *= 2) count("cwm_weights_at_roots", cwm_weights_at_roots(ROWS, indices, n, 5 * x, b, n), 7, ROWS);
  for (size_t n = 64; n <= CELLS; n *= 4) {
    fill(a, n);
    count("cwm_eval", cwm_eval(a, n, 5, b), 1, 512);
    uint8_t *bytes = block(8 * n + 5);
    count("cwm_encode_poly", cwm_encode_poly(a, n, bytes, 8 * n + 5, &written), 1, 64);
    count("cwm_decode_poly", cwm_decode_poly(bytes, written, b, n, &written), 0, 64);
    __real_free(bytes);
  }
  uint64_t *many = block(8 * LONG);
  fill(many, LONG);
  count("cwm_eval, long", cwm_eval(many, LONG, 5, b), 1, 2048);
  __real_free(many);
}

/* Shards of BLOCK bytes, of which `min` of `total` give them back; N is `total` rounded up to a power of two. */
static void shards(uint32_t min, uint32_t total) {
  uint8_t *bytes = block(ROOM), *back = block(ROOM);
  uint64_t *cells = block(ROOM);
  size_t size, cols, many, rows = 1;
  while (rows < total) rows *= 2;
  memset(back, 7, BLOCK);
  fill(a, BLOCK / 8);
  if (cwm_shard_bytes_sizes(BLOCK, min, total, &size) != CWM_DONE || size * (total + 100) > ROOM) exit(2);
  if (cwm_shard_sizes(BLOCK / 8, min, total, &cols) != CWM_DONE || 8 * cols * (total + 100) > ROOM) exit(2);
  size_t words = rows * cols + 64 * rows, strip = 32768 / rows > 8 ? 32768 / rows : 8;
  peak = 0;
  count("cwm_split", cwm_split(a, BLOCK / 8, min, total, cells, total * cols), 1, rows * (cols < strip ? cols : strip) + rows);
  count("cwm_split_bytes", cwm_split_bytes(back, BLOCK, min, total, bytes, total * size), 1, rows * (size / 8 < strip ? size / 8 : strip) + rows);
  /* one list as long as the data, the weights or the tables, a strip of the transforms and of a coset, and the rows as they stand */
  size_t most = min * cols + 9 * (rows * (min < cols ? min : cols) + 64 * rows) + 16384, refused = most + cols;
  for (uint32_t k = min; k <= total; k += total > min ? total - min : 1) {
    count("cwm_join", cwm_join(indices, k, min, total, cells, k * cols, b, CELLS, &written), 1, most + 3 * k);
    count("cwm_join_bytes", cwm_join_bytes(indices, k, min, total, bytes, k * size, back, ROOM, &written), 1, most + 3 * k);
  }
  /* too few; then the first shard a hundred times more */
  count_of("cwm_join, refused", CWM_TOO_FEW, cwm_join(indices, min - 1, min, total, cells, (min - 1) * cols, b, CELLS, &written), 1, refused + 5 * min);
  size_t k = total + 100;
  for (size_t i = total; i < k; i++) indices[i] = 0, memcpy(cells + i * cols, cells, 8 * cols), memcpy(bytes + i * size, bytes, size);
  count("cwm_join, copies", cwm_join(indices, k, min, total, cells, k * cols, b, CELLS, &written), 1, most + 3 * k);
  count("cwm_join_bytes, copies", cwm_join_bytes(indices, k, min, total, bytes, k * size, back, ROOM, &written), 1, most + 3 * k);
  /* half of the copies wrong: the first index counts as missing */
  for (size_t i = total; i < k; i += 2) cells[i * cols] ^= 1, bytes[i * size + 7] ^= 1;
  count_of("cwm_join, refused", CWM_CONFLICT, cwm_join(indices, k, min, total, cells, k * cols, b, CELLS, &written), 1, refused + 5 * k);
  count_of("cwm_join_bytes, refused", CWM_CONFLICT, cwm_join_bytes(indices, k, min, total, bytes, k * size, back, ROOM, &written), 1, refused + 5 * k);
  if (min < total) {
    count("cwm_join_corrected, copies", cwm_join_corrected(indices, k, min, total, cells, k * cols, b, CELLS, &written, wrong, k, &many), 1, 9 * words + k * (cols + 8));
    count("cwm_join_bytes_corrected, copies", cwm_join_bytes_corrected(indices, k, min, total, bytes, k * size, back, ROOM, &written, wrong, k, &many), 1, 9 * words + k * (size / 8 + 8));
    cells[0] ^= 1, bytes[7] ^= 1;
    count_of("cwm_join, refused", CWM_INCONSISTENT, cwm_join(indices, total, min, total, cells, total * cols, b, CELLS, &written), 1, refused + 5 * total);
    count_of("cwm_join_bytes, refused", CWM_INCONSISTENT, cwm_join_bytes(indices, total, min, total, bytes, total * size, back, ROOM, &written), 1, refused + 5 * total);
    cells[0] ^= 1, bytes[7] ^= 1;
  }
  for (size_t i = total; i < k; i++) indices[i] = i;
  /* more wrong shards take too long */
  if (total > 200) {
    __real_free(bytes), __real_free(back), __real_free(cells);
    return;
  }
  for (uint32_t i = 0; i < (total - min) / 2; i++) cells[i * cols] = 1, memset(bytes + i * size, 1, 8);
  count("cwm_join_corrected", cwm_join_corrected(indices, total, min, total, cells, total * cols, b, CELLS, &written, wrong, total, &many), 9, words);
  count("cwm_join_bytes_corrected", cwm_join_bytes_corrected(indices, total, min, total, bytes, total * size, back, ROOM, &written, wrong, total, &many), 9, words);
  __real_free(bytes), __real_free(back), __real_free(cells);
}

/* Systematic shards of BLOCK bytes, of which `min` of `total` give all others back, under no mask and, of not too many, under one.
 * Every row past the first `min` in hand and every lost one takes `min` words, and a list that grows takes three times its words; N is
 * as above. */
static void systematic(uint32_t min, uint32_t total) {
  uint8_t *bytes = block(ROOM), *out = block(ROOM);
  uint32_t mask, belong;
  size_t size, part, many, n = 1;
  while (n < total) n *= 2;
  if (cwm_systematic_sizes(BLOCK, min, total, 0, &size, &part) != CWM_DONE || size * (total + 100) > ROOM) exit(2);
  memset(bytes, 0, size * min);
  for (size_t i = 0; i < BLOCK; i++) bytes[i] = 7 * i % 251;
  for (int masked = 0; masked < (total > 200 ? 1 : 2); masked++) {
    size_t lost = total - min < min ? total - min : min, k = total - lost, flags = masked ? size / 8 * min / 8 + 1 : 0;
    size_t made = 16 * n + 16384, rebuilt = 17 * k + 3 * min * (lost + k - min) + made;
    if (masked) memset(bytes, 255, 8);
    peak = 0;
    count("cwm_systematic_encode", cwm_systematic_encode(bytes, BLOCK, min, total, bytes + min * size, (total - min) * size, &mask), 1, 3 * min * (total - min) + made + flags);
    /* all that can be are lost, and wanted; then none is, and there are more than are needed */
    count("cwm_systematic_rebuild", cwm_systematic_rebuild(indices + lost, k, bytes + lost * size, k * size, BLOCK, min, total, mask, indices, lost, out, lost * size), 1, rebuilt);
    count("cwm_systematic_decode", cwm_systematic_decode(indices + lost, k, bytes + lost * size, k * size, min, total, mask, out, BLOCK), 1, rebuilt);
    count("cwm_systematic_decode, none lost", cwm_systematic_decode(indices, min, bytes, min * size, min, total, mask, out, BLOCK), 1, 17 * min + 4352);
    count("cwm_systematic_verify", cwm_systematic_verify(indices, total, bytes, total * size, BLOCK, min, total, mask, &belong), 1, 17 * total + 3 * min * (total - min) + made);
    if (total > 200) continue;
    for (uint32_t i = 0; i < (total - min) / 2; i++) bytes[i * size] ^= 1;
    count("cwm_systematic_rebuild_corrected", cwm_systematic_rebuild_corrected(indices, total, bytes, total * size, BLOCK, min, total, mask, indices, lost, out, lost * size, wrong, total, &many), 1, 9 * n * (size / 8 + 64) + 8 * total);
    for (uint32_t i = 0; i < (total - min) / 2; i++) bytes[i * size] ^= 1;
  }
  __real_free(bytes), __real_free(out);
}

/* Roots of the same data: the parity rows twice, a row, the paths, and digests of each shard, beside what is encoded; then the shards
 * of which one is forged, and if it is strict, all of it but the paths, and the data, once more. */
static void roots(uint32_t min, uint32_t total) {
  uint8_t *bytes = block(ROOM), *root = block(CWM_DIGEST_SIZE), *paths, *out = block(BLOCK);
  uint32_t mask, *masks = block(total * sizeof *masks);
  size_t size, part, steps, room, many, n = 1;
  while (n < total) n *= 2;
  if (cwm_systematic_sizes(BLOCK, min, total, 0, &size, &part) != CWM_DONE || size * total > ROOM) exit(2);
  if (cwm_path_sizes(total, 0, &steps, &room) != CWM_DONE || steps != room) exit(2);
  paths = block(total * room * CWM_DIGEST_SIZE + 1);
  memset(bytes, 0, size * min);
  for (size_t i = 0; i < BLOCK; i++) bytes[i] = 7 * i % 251;
  size_t encoded = 3 * min * (total - min) + 16 * n + 16384, made = encoded + 2 * (total - min) * size / 8 + size / 8 + 24 * total;
  peak = 0;
  count("cwm_commit", cwm_commit(bytes, BLOCK, min, total, bytes + min * size, (total - min) * size, &mask, root, paths, total * room), 1, made + 4 * total * room);
  for (uint32_t i = 0; i < total; i++) masks[i] = mask;
  if (total > min) bytes[0] ^= 1;
  size_t decoded = 17 * total + encoded + 20 * total;
  count("cwm_join_under", cwm_join_under(root, indices, total, masks, total, bytes, total * size, paths, total * room, min, total, 0, out, BLOCK, wrong, total, &many), 1, decoded);
  count("cwm_join_under, strict", cwm_join_under(root, indices, total, masks, total, bytes, total * size, paths, total * room, min, total, 1, out, BLOCK, wrong, total, &many), 1, decoded + BLOCK / 8 + made);
  __real_free(bytes), __real_free(root), __real_free(paths), __real_free(out), __real_free(masks);
}

/* Shards of 40 MB, of which 10 of 16 give them back: beside them a fifth of the data may be taken, and 1.2 times the data where they
 * are joined. */
static void large(void) {
  size_t n = 40000000, size;
  if (cwm_shard_bytes_sizes(n, 10, 16, &size) != CWM_DONE) exit(2);
  uint8_t *data = block(n), *bytes = block(16 * size);
  memset(data, 7, n);
  peak = 0;
  count("cwm_split_bytes, 40 MB", cwm_split_bytes(data, n, 10, 16, bytes, 16 * size), 0.2, n / 8);
  for (uint32_t k = 10; k <= 16; k += 6)
    count("cwm_join_bytes, 40 MB", cwm_join_bytes(indices, k, 10, 16, bytes, k * size, data, n, &written), 1.2, n / 8);
  __real_free(data), __real_free(bytes);
}

/* What claims to be of 2^32 - 1 points or shards takes memory for what is handed in: few weights, and shards of too few distinct
 * indices, in one copy or in many. */
static void claims(void) {
  const uint32_t total = 4294967295u;
  uint32_t belong;
  size_t many, k = 100;
  for (uint32_t x = 0; x < 2; x++)
    for (size_t n = 64; n <= ROWS; n *= 4)
      count("cwm_weights_at_roots, few", cwm_weights_at_roots(total, indices, n, 5 * x, b, n), 3, n);
  fill(a, 3 * k);
  count_of("cwm_join, one of 2^32 - 1", CWM_TOO_FEW, cwm_join(indices, 1, total, total, a, 3, b, CELLS, &written), 1, 64);
  count_of("cwm_join_corrected, one of 2^32 - 1", CWM_TOO_FEW,
           cwm_join_corrected(indices, 1, total, total, a, 3, b, CELLS, &written, wrong, 1, &many), 1, 64);
  count_of("cwm_join_bytes, one of 2^32 - 1", CWM_TOO_FEW,
           cwm_join_bytes(indices, 1, total, total, filled, 24, (uint8_t *)b, CELLS, &written), 1, 64);
  count_of("cwm_join_bytes_corrected, one of 2^32 - 1", CWM_TOO_FEW,
           cwm_join_bytes_corrected(indices, 1, total, total, filled, 24, (uint8_t *)b, CELLS, &written, wrong, 1, &many), 1, 64);
  /* as many rows as are wanted, all copies of the last of 2^32 - 1, or of some 64 times as many as rows are there */
  for (size_t i = 1; i < k; i++) memcpy(a + 3 * i, a, 24);
  for (uint32_t t = 64 * k; t != 0; t = t == total ? 0 : total) {
    for (size_t i = 0; i < k; i++) indices[i] = t - 1;
    count_of("cwm_join, copies of one", CWM_TOO_FEW, cwm_join(indices, k, k, t, a, 3 * k, b, CELLS, &written), 1, (3 + 6) * k + 3);
    count_of("cwm_join_corrected, copies of one", CWM_TOO_FEW,
             cwm_join_corrected(indices, k, k, t, a, 3 * k, b, CELLS, &written, wrong, k, &many), 1, (2 * 3 + 12) * k);
  }
  for (size_t i = 0; i < k; i++) indices[i] = i;
  /* rows of one word each, of too few indices; and all data rows, of which none has to be rebuilt */
  count_of("cwm_systematic_verify, too few of 2^32 - 1", CWM_TOO_FEW,
           cwm_systematic_verify(indices, k, (uint8_t *)a, 8 * k, 8 * (k + 1), k + 1, total, 0, &belong), 1, 16 * k + 64);
  count("cwm_systematic_decode, of 2^32 - 1", cwm_systematic_decode(indices, k, (uint8_t *)a, 8 * k, k, total, 0, (uint8_t *)b, 8 * k), 1, 17 * k + 4352);
}

int main(void) {
  static const uint32_t splits[][2] = {{1, 1}, {1, 2}, {1, 16}, {2, 3}, {10, 16}, {9, 17}, {20, 40}, {129, 200}, {200, 200}, {100, 1000}, {500, 1000}, {1000, 2000}};
  a = block(8 * CELLS), b = block(8 * CELLS), c = block(8 * CELLS), filled = block(ROWS);
  wrong = block(ROWS * sizeof *wrong), indices = block(ROWS * sizeof *indices);
  for (uint32_t i = 0; i < ROWS; i++) indices[i] = i;
  domains();
  points();
  claims();
  for (size_t i = 0; i < sizeof splits / sizeof *splits; i++) {
    shards(splits[i][0], splits[i][1]);
    if (splits[i][1] <= 1000) systematic(splits[i][0], splits[i][1]), roots(splits[i][0], splits[i][1]);
  }
  large();
  for (int i = 0; calls[i].name != NULL; i++) {
    printf("%-42s %5.2f of %5.2f%s\n", calls[i].name, calls[i].taken, calls[i].most, calls[i].taken > calls[i].most ? ", FAILED" : "");
    failed |= calls[i].taken > calls[i].most;
  }
  return failed;
}
