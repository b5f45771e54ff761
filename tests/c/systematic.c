/* Random calls for systematic shards: what each answers and writes is compared with a model in plain arithmetic. What is handed in
 * can't be written, and each buffer ends where memory begins that can't be touched, or begins where such memory ends. Its status is 0
 * where all are the same, and else it says which call is not. A number in front of others: so many calls; a second one: others. */
#include "commonware_math.h"
#include "random.h"

#include <stdio.h>
#include <stdlib.h>
#include <string.h>

__extension__ typedef unsigned __int128 wide;

/* A page of the processor, and what the system's calls name; the compiler of the gate has no headers for these. */
enum { PAGE = 4096, NONE = 0, READ = 1, WRITE = 2, PRIVATE = 2, ANONYMOUS = 32 };
void *mmap(void *at, size_t n, int protection, int flags, int file, long offset);
int mprotect(void *at, size_t n, int protection);

/* Most calls have rows of FEW words or less, and some of up to WIDTH. */
enum { MOST = 12, FEW = 3, WIDTH = 66, WORDS = MOST * WIDTH, ROWS = 16, BYTES = 8 * WIDTH };

static int one_in(uint32_t n) { return below(n) == 0; }

/* The field: whole numbers below P. 2^64 is 2^32 - 1 more than P. */
static uint64_t sum(uint64_t a, uint64_t b) {
  wide x = (wide)a + b;
  return (uint64_t)(x >= CWM_MODULUS ? x - CWM_MODULUS : x);
}
static uint64_t difference(uint64_t a, uint64_t b) { return sum(a, CWM_MODULUS - b); }
static uint64_t product(uint64_t a, uint64_t b) {
  wide x = (wide)a * b;
  while (x >> 64) x = (x >> 64) * 0xffffffff + (uint64_t)x;
  return (uint64_t)(x >= CWM_MODULUS ? x - CWM_MODULUS : x);
}
static uint64_t power(uint64_t x, uint64_t n) {
  uint64_t y = 1;
  for (; n; n >>= 1, x = product(x, x))
    if (n & 1) y = product(y, x);
  return y;
}

/* The points of the domains of 1 to 16 points, and one over the difference of each two. */
static uint64_t point[5][16], inverse[5][16][16];

static void domains(void) {
  for (int lg = 0; lg < 5; lg++) {
    uint64_t root = power(UINT64_C(0xee41f5320c4ea145), UINT64_C(1) << (32 - lg));
    for (int i = 0; i < 1 << lg; i++) point[lg][i] = power(root, (uint64_t)i);
    for (int i = 0; i < 1 << lg; i++)
      for (int j = 0; j < 1 << lg; j++) inverse[lg][i][j] = power(difference(point[lg][i], point[lg][j]), CWM_MODULUS - 2);
  }
}

/* All that a call can be given, and all that it can write. */
struct call {
  size_t size, k, n, w, m, room;
  uint32_t min, total, mask, index, indices[ROWS], wanted[ROWS];
  uint8_t data[8 * WORDS], rows[ROWS * BYTES];
};
struct answer {
  uint32_t status, mask, belong;
  size_t row, part, n, many, left_out[ROWS];
  uint8_t bytes[ROWS * BYTES];
};

static uint64_t word_of(const uint8_t *bytes) {
  uint64_t word = 0;
  for (int i = 7; i >= 0; i--) word = word << 8 | bytes[i];
  return word;
}
static void put_word(uint8_t *bytes, uint64_t word) {
  for (int i = 0; i < 8; i++) bytes[i] = (uint8_t)(word >> 8 * i);
}
static uint64_t masked(uint64_t word, uint32_t mask) { return word ^ (uint64_t)mask << 32; }
static uint32_t mask_in(const struct call *it, uint32_t index) { return index < it->min ? it->mask : 0; }

/* The value at a point of the polynomial through n values at others. */
static uint64_t value_at(int lg, const uint32_t *indices, const uint64_t *values, uint32_t n, uint32_t index) {
  uint64_t value = 0;
  for (uint32_t t = 0; t < n; t++) {
    uint64_t term = values[t];
    for (uint32_t s = 0; s < n; s++)
      if (s != t) term = product(product(term, difference(point[lg][index], point[lg][indices[s]])), inverse[lg][indices[t]][indices[s]]);
    value = sum(value, term);
  }
  return value;
}

/* The words of a row, and 0; or the status of numbers that are refused. */
static uint32_t sized(const struct call *it, size_t size, size_t *words) {
  if (it->min < 1 || it->min > it->total) return CWM_MISMATCH;
  wide width = ((wide)size + 8 * (wide)it->min - 1) / (8 * (uint64_t)it->min);
  if (it->min * width >= (wide)1 << 31 || it->total * width >= (wide)1 << 60) return CWM_WRONG_SIZE;
  *words = (size_t)width;
  return CWM_DONE;
}
static int lg_of(uint32_t total) {
  int lg = 0;
  while (1u << lg < total) lg++;
  return lg;
}

static void model_sizes(const struct call *it, struct answer *to) {
  size_t words = 0;
  to->status = sized(it, it->size, &words);
  if (to->status == CWM_DONE && it->index >= it->total) to->status = CWM_WRONG_INDEX;
  if (to->status != CWM_DONE) return;
  wide from = (wide)it->index * 8 * words;
  to->row = 8 * words;
  to->part = from >= it->size ? 0 : it->size - (size_t)from < to->row ? it->size - (size_t)from : to->row;
}

static void model_encode(const struct call *it, struct answer *to) {
  size_t width = 0;
  to->status = sized(it, it->size, &width);
  if (to->status == CWM_DONE && it->m != (it->total - it->min) * (8 * width)) to->status = CWM_WRONG_SIZE;
  if (to->status != CWM_DONE) return;
  uint8_t rows[8 * WORDS] = {0};
  uint32_t indices[MOST];
  uint64_t column[MOST];
  size_t words = it->min * width;
  memcpy(rows, it->data, it->size);
  to->mask = 0;
  for (size_t i = 0; i < words;)
    if ((word_of(rows + 8 * i) >> 32 ^ to->mask) == 0xffffffff) to->mask++, i = 0;
    else i++;
  for (uint32_t i = 0; i < it->min; i++) indices[i] = i;
  for (size_t k = 0; k < width; k++) {
    for (uint32_t i = 0; i < it->min; i++) column[i] = masked(word_of(rows + 8 * (i * width + k)), to->mask);
    for (uint32_t j = it->min; j < it->total; j++)
      put_word(to->bytes + 8 * ((j - it->min) * width + k), value_at(lg_of(it->total), indices, column, it->min, j));
  }
  to->n = it->m;
}

enum kind { SIZES, ENCODE, REBUILD, DECODE, VERIFY, CORRECTED, KINDS };

/* The words of a row, and 0; or the status of what is refused before the words of the rows are looked at. */
static uint32_t asked(enum kind kind, const struct call *it, size_t *width) {
  int rebuilds = kind == REBUILD || kind == CORRECTED;
  uint32_t status = sized(it, it->size, width);
  if (status != CWM_DONE) return status;
  if ((wide)it->k * (8 * *width) != it->n) return CWM_WRONG_SIZE;
  if (rebuilds && (wide)it->w * (8 * *width) != it->m) return CWM_WRONG_SIZE;
  if (kind == CORRECTED && it->room < it->k) return CWM_WRONG_SIZE;
  if (it->k == 0) return CWM_TOO_FEW;
  for (size_t i = 0; i < it->k; i++)
    if (it->indices[i] >= it->total) return CWM_WRONG_INDEX;
  for (size_t i = 0; rebuilds && i < it->w; i++)
    if (it->wanted[i] >= it->total) return CWM_WRONG_INDEX;
  return CWM_DONE;
}
static int has_elements(const struct call *it, size_t i, size_t width) {
  for (size_t k = 0; k < width; k++) {
    uint64_t word = masked(word_of(it->rows + 8 * (i * width + k)), mask_in(it, it->indices[i]));
    if (it->indices[i] < it->min ? word >> 32 == 0xffffffff : word >= CWM_MODULUS) return 0;
  }
  return 1;
}

/* All rows, from `min` of those in hand. */
static void fill(const struct call *it, const uint32_t *indices, const uint32_t *from, size_t width, uint8_t *all) {
  for (uint32_t index = 0; index < it->total; index++)
    for (size_t k = 0; k < width; k++) {
      uint64_t column[MOST];
      for (uint32_t t = 0; t < it->min; t++) column[t] = masked(word_of(it->rows + 8 * (from[t] * width + k)), mask_in(it, indices[t]));
      put_word(all + 8 * (index * width + k), masked(value_at(lg_of(it->total), indices, column, it->min, index), mask_in(it, index)));
    }
}
static int is_row(const struct call *it, size_t i, size_t width, const uint8_t *all) {
  return memcmp(it->rows + i * 8 * width, all + it->indices[i] * 8 * width, 8 * width) == 0;
}
static void take_wanted(const struct call *it, size_t width, const uint8_t *all, struct answer *to) {
  for (size_t i = 0; i < it->w; i++) memcpy(to->bytes + i * 8 * width, all + it->wanted[i] * 8 * width, 8 * width);
  to->n = it->m;
}

/* Leaves out each set of settled indices that may be wrong, until all rows of the others are rows of some data. */
static void model_corrected(const struct call *it, struct answer *to) {
  size_t width = 0;
  uint32_t settled[MOST], first[MOST], count = 0;
  uint8_t all[MOST * BYTES];
  to->status = asked(CORRECTED, it, &width);
  if (to->status != CWM_DONE) return;
  for (uint32_t index = 0; index < it->total; index++) {
    size_t found = it->k;
    int equal = 1;
    for (size_t i = 0; i < it->k; i++) {
      if (it->indices[i] != index || !has_elements(it, i, width)) continue;
      if (found == it->k) found = i;
      equal &= memcmp(it->rows + i * 8 * width, it->rows + found * 8 * width, 8 * width) == 0;
    }
    if (found < it->k && equal) settled[count] = index, first[count++] = (uint32_t)found;
  }
  to->status = CWM_TOO_FEW;
  if (count < it->min) return;
  for (uint32_t wrong = 0; wrong < 1u << count; wrong++) {
    uint32_t indices[MOST] = {0}, from[MOST] = {0}, right = 0, t = 0;
    for (uint32_t j = 0; j < count; j++)
      if (!(wrong >> j & 1)) indices[right] = settled[j], from[right++] = first[j];
    if (count - right > (count - it->min) / 2) continue;
    fill(it, indices, from, width, all);
    while (t < right && is_row(it, from[t], width, all)) t++;
    if (t < right) continue;
    to->status = CWM_DONE;
    take_wanted(it, width, all, to);
    for (size_t i = 0; i < it->k; i++)
      if (!is_row(it, i, width, all)) to->left_out[to->many++] = i;
    return;
  }
  to->status = CWM_INCONSISTENT;
}

static void model_rows(enum kind kind, const struct call *it, struct answer *to) {
  size_t width = 0;
  uint32_t indices[MOST], from[MOST], distinct = 0;
  to->status = asked(kind, it, &width);
  if (to->status != CWM_DONE) return;
  to->status = CWM_OUT_OF_RANGE;
  for (size_t i = 0; i < it->k; i++)
    if (!has_elements(it, i, width)) return;
  to->status = kind == VERIFY ? CWM_DONE : CWM_CONFLICT;
  to->belong = 0;
  for (size_t i = 0; i < it->k; i++)
    for (size_t j = 0; j < i; j++)
      if (it->indices[i] == it->indices[j] && memcmp(it->rows + i * 8 * width, it->rows + j * 8 * width, 8 * width) != 0) return;
  for (uint32_t index = 0; index < it->total; index++) {
    size_t i = 0;
    while (i < it->k && it->indices[i] != index) i++;
    if (i < it->k) {
      if (distinct < it->min) indices[distinct] = index, from[distinct] = (uint32_t)i;
      distinct++;
    }
  }
  to->status = CWM_TOO_FEW;
  if (distinct < it->min) return;
  uint8_t all[MOST * BYTES];
  fill(it, indices, from, width, all);
  to->status = kind == VERIFY ? CWM_DONE : CWM_INCONSISTENT;
  for (size_t i = 0; i < it->k; i++)
    if (!is_row(it, i, width, all)) return;
  to->belong = 1;
  for (size_t i = it->size; kind == DECODE && i < it->min * 8 * width; i++)
    if (all[i] != 0) return;
  to->status = CWM_DONE;
  if (kind == DECODE) memcpy(to->bytes, all, to->n = it->size);
  if (kind == REBUILD) take_wanted(it, width, all, to);
}

/* Words of which many are at the ends of what an element or a high half can be. */
static uint64_t some_word(void) {
  switch (below(8)) {
    case 0: return 0;
    case 1: return CWM_MODULUS - 1 + below(3);
    case 2: return ~UINT64_C(0);
    case 3: return ~UINT64_C(0) - ((uint64_t)below(MOST * FEW) << 32);
    case 4: return below(3);
    default: return next();
  }
}

static uint32_t some_number(void) { return (uint32_t)next() >> below(32); }

/* Numbers of a code, and data. */
static void make_numbers(struct call *it) {
  it->total = 1 + below(MOST), it->min = 1 + below(it->total);
  it->size = below(8 * it->min * (one_in(32) ? WIDTH : FEW) + 1);
  if (one_in(4)) it->size -= it->size % (8 * it->min);
  for (int i = 0; i < WORDS; i++) put_word(it->data + 8 * i, some_word());
  if (one_in(3))
    for (int i = 0; i < WORDS; i++) it->data[8 * i + 7] = 0;
}

/* Rows of the data, some of them, in any order and some twice, of which some are spoiled; and what is wanted. */
static void make_rows(struct call *it) {
  struct answer parity;
  size_t width = 0;
  memset(&parity, 0, sizeof parity);
  if (sized(it, it->size, &width) != CWM_DONE) return;
  it->m = (it->total - it->min) * (8 * width);
  model_encode(it, &parity);
  it->mask = parity.mask;
  uint8_t all[2 * MOST * BYTES] = {0};
  memcpy(all, it->data, it->size);
  memcpy(all + it->min * 8 * width, parity.bytes, parity.n);
  it->k = one_in(2) ? it->min : one_in(8) ? below(it->min) : it->min + below(ROWS - it->min + 1);
  int apart = one_in(2);
  uint32_t first = below(it->total);
  for (size_t i = 0; i < it->k; i++) {
    it->indices[i] = apart ? (first + (uint32_t)i * (one_in(16) ? 2 : 1)) % it->total : below(it->total);
    memcpy(it->rows + i * 8 * width, all + it->indices[i] * 8 * width, 8 * width);
  }
  for (uint32_t faults = one_in(2) ? 0 : below(3); faults && it->k && width; faults--) {
    uint8_t *at = it->rows + 8 * (below((uint32_t)it->k) * width + below((uint32_t)width));
    put_word(at, one_in(2) ? some_word() : word_of(at) ^ UINT64_C(1) << below(64));
  }
  if (it->k && one_in(30)) it->indices[below((uint32_t)it->k)] = one_in(2) ? it->total : (uint32_t)next() | 0x80000000u;
  it->n = it->k * 8 * width;
  it->w = below(one_in(4) ? ROWS : it->total + 1);
  if (it->w > ROWS) it->w = ROWS;
  for (size_t i = 0; i < it->w; i++) it->wanted[i] = below(it->total);
  if (it->w && one_in(30)) it->wanted[below((uint32_t)it->w)] = it->total + below(2);
  it->m = it->w * 8 * width;
  it->room = it->k + below(3);
  if (one_in(30)) it->mask = one_in(2) ? below(40) : (uint32_t)next();
}

/* Takes numbers that the rows were not made for. */
static void spoil_numbers(struct call *it) {
  switch (below(9)) {
    case 0: it->min = 0; break;
    case 1: it->min = it->total + 1; break;
    case 2: it->n += below(2) ? 1 : 8; break;
    case 3: it->n -= it->n ? 1 : 0; break;
    case 4: it->m += it->m + 8 <= ROWS * BYTES ? 8 : 0; break;
    case 5: it->m -= it->m ? 1 : 0; break;
    case 6: it->k -= it->k ? 1 : 0; break;
    case 7: it->room -= it->room ? 1 : 0; break;
    default: it->w -= it->w ? 1 : 0;
  }
  if (it->n > sizeof it->rows) it->n = sizeof it->rows;
}

enum { BUFFERS = 10, LARGE = 3 * PAGE };
static uint8_t *room[BUFFERS];

/* The bytes of a buffer: those for rows, for data and for what is written are large. */
static size_t size_of(int buffer) { return buffer == 1 || buffer == 3 || buffer == 4 ? LARGE : PAGE; }

/* n bytes, filled from the source or with noise, that can't be overrun where `end`, and else not underrun; for none sometimes null. */
static void *lay(int buffer, const void *source, size_t n, int end, int write) {
  size_t size = size_of(buffer);
  uint8_t *at = end ? room[buffer] + size - n : room[buffer];
  if (mprotect(room[buffer], size, READ | WRITE) != 0) exit(3);
  memset(room[buffer], 7 + buffer, size);
  if (n && source) memcpy(at, source, n);
  if (!write && mprotect(room[buffer], size, READ) != 0) exit(3);
  return n == 0 && one_in(2) ? NULL : n == 0 ? room[buffer] + size : at;
}

/* Whether the buffer holds the bytes, and noise around them. */
static int holds(int buffer, const void *bytes, size_t n, int end) {
  static uint8_t wanted[LARGE];
  size_t size = size_of(buffer);
  memset(wanted, 7 + buffer, size);
  memcpy(end ? wanted + size - n : wanted, bytes, n);
  return memcmp(room[buffer], wanted, size) == 0;
}

/* Makes the call, and says whether it answers and writes what the model does, and nothing else. */
static int same(enum kind kind, const struct call *it, const struct answer *wanted) {
  static const uint8_t noise[ROWS * BYTES] = {1, 2, 3, 4, 5, 6, 7, 8, 9, 10};
  int end = one_in(2), done = wanted->status == CWM_DONE;
  uint32_t number = 77, status;
  size_t one = 78, other = 79, places[ROWS + 2] = {80, 81, 82, 83, 84}, left = 85, room_for = kind == DECODE ? it->size : it->m;
  const uint32_t *indices = lay(0, it->indices, it->k * sizeof *it->indices, end, 0);
  const uint8_t *rows = lay(1, it->rows, it->n, end, 0);
  const uint32_t *chosen = lay(2, it->wanted, it->w * sizeof *it->wanted, end, 0);
  const uint8_t *data = lay(3, it->data, kind == ENCODE ? it->size : 0, end, 0);
  uint8_t *out = lay(4, noise, room_for > sizeof noise ? 0 : room_for, end, 1);
  uint32_t *found = lay(5, &number, sizeof number, end, 1);
  size_t *row = lay(6, &one, sizeof one, end, 1), *part = lay(7, &other, sizeof other, end, 1);
  size_t *left_out = lay(8, places, it->room * sizeof *places, end, 1), *many = lay(9, &left, sizeof left, end, 1);
  switch (kind) {
    case SIZES: status = cwm_systematic_sizes(it->size, it->min, it->total, it->index, row, part); break;
    case ENCODE: status = cwm_systematic_encode(data, it->size, it->min, it->total, out, it->m, found); break;
    case REBUILD:
      status = cwm_systematic_rebuild(indices, it->k, rows, it->n, it->size, it->min, it->total, it->mask, chosen, it->w, out, it->m);
      break;
    case DECODE: status = cwm_systematic_decode(indices, it->k, rows, it->n, it->min, it->total, it->mask, out, it->size); break;
    case VERIFY: status = cwm_systematic_verify(indices, it->k, rows, it->n, it->size, it->min, it->total, it->mask, found); break;
    default:
      status = cwm_systematic_rebuild_corrected(indices, it->k, rows, it->n, it->size, it->min, it->total, it->mask, chosen, it->w, out,
                                                it->m, left_out, it->room, many);
  }
  if (done && kind == SIZES) one = wanted->row, other = wanted->part;
  if (done && kind == ENCODE) number = wanted->mask;
  if (done && kind == VERIFY) number = wanted->belong;
  if (done && kind == CORRECTED) left = wanted->many, memcpy(places, wanted->left_out, left * sizeof *places);
  if (room_for > sizeof noise) room_for = 0;
  return status == wanted->status && holds(4, done && wanted->n ? wanted->bytes : noise, room_for, end) &&
         holds(5, &number, sizeof number, end) && holds(6, &one, sizeof one, end) && holds(7, &other, sizeof other, end) &&
         holds(8, places, it->room * sizeof *places, end) && holds(9, &left, sizeof left, end);
}

/* The statuses that calls of each kind have to give some time. */
static const uint32_t statuses[KINDS] = {
    1 << CWM_DONE | 1 << CWM_WRONG_SIZE | 1 << CWM_MISMATCH | 1 << CWM_WRONG_INDEX,
    1 << CWM_DONE | 1 << CWM_WRONG_SIZE | 1 << CWM_MISMATCH,
    0x1ff & ~(1 << CWM_OUT_OF_MEMORY),
    0x1ff & ~(1 << CWM_OUT_OF_MEMORY),
    0x7f & ~(1 << CWM_OUT_OF_MEMORY),
    0x1ff & ~(1 << CWM_OUT_OF_MEMORY | 1 << CWM_OUT_OF_RANGE | 1 << CWM_CONFLICT),
};

int main(int words, char **word) {
  long calls = words > 1 ? atoi(word[1]) : 100000;
  uint32_t seen[KINDS] = {0};
  state = words > 2 ? (uint64_t)atoi(word[2]) : 0;
  domains();
  for (int i = 0; i < BUFFERS; i++) {
    uint8_t *at = mmap(NULL, LARGE + 2 * PAGE, NONE, PRIVATE | ANONYMOUS, -1, 0);
    if (at == (void *)-1) return 3;
    room[i] = at + PAGE;
  }
  for (long i = 0; i < calls; i++) {
    static struct call it;
    static struct answer wanted;
    enum kind kind = (enum kind)below(KINDS);
    memset(&it, 0, sizeof it), memset(&wanted, 0, sizeof wanted);
    make_numbers(&it);
    if (kind == SIZES) {
      it.index = below(it.total + 1);
      if (one_in(3)) it.size = (size_t)(next() >> below(64));
      if (one_in(3)) it.total = some_number(), it.min = some_number(), it.index = some_number();
      model_sizes(&it, &wanted);
    } else {
      make_rows(&it);
      if (kind == ENCODE) it.m = (it.total - it.min) * ((it.size + 8 * it.min - 1) / (8 * it.min) * 8);
      if (one_in(10)) spoil_numbers(&it);
      if (kind == ENCODE) model_encode(&it, &wanted);
      else if (kind == CORRECTED) model_corrected(&it, &wanted);
      else model_rows(kind, &it, &wanted);
    }
    if (!same(kind, &it, &wanted)) {
      printf("call %ld, of kind %d, is not as the model: status %u\n", i, (int)kind, wanted.status);
      return 1;
    }
    seen[kind] |= 1u << wanted.status;
  }
  if (calls < 100000) return 0;
  for (int kind = 0; kind < KINDS; kind++)
    if (seen[kind] != statuses[kind]) return printf("calls of kind %d: statuses %x, and not %x\n", kind, seen[kind], statuses[kind]), 2;
  return 0;
}
