/* systematic [SECONDS]: times systematic shards in one run, one core, beside other libraries where they were there when this was built
 * (ISAL, ZFEC), and checks each answer.
 *
 * A line has the MB of data that go through in a second of processor time: the best of some tries, in which the libraries take turns.
 * Each work is repeated for SECONDS (1) a library, three times at least. */
#include "commonware_math.h"

#include <stdio.h>
#include <stdlib.h>
#include <string.h>
#include <time.h>

#ifdef ISAL
#include <isa-l.h>
#endif
#ifdef ZFEC
#include "fec.h"
#endif

enum { MOST = 256 };

static double seconds = 1;

static double now(void) {
  struct timespec at;
  clock_gettime(CLOCK_PROCESS_CPUTIME_ID, &at);
  return (double)at.tv_sec + (double)at.tv_nsec * 1e-9;
}

static void fail(const char *what) {
  printf("%s: wrong answer\n", what);
  exit(1);
}

static void *room(size_t n) {
  void *at = malloc(n);
  if (at == NULL) fail("malloc");
  return at;
}

/* Blocks of min rows of `row` bytes. The rows of a block lie one behind the other, the parity rows behind the data. The first `lost`
 * rows are lost, and the next min rows are in hand. */
typedef struct {
  uint32_t min, total, lost;
  size_t row, blocks;
  uint8_t *shards, *out;
  uint32_t *masks;
} job;

static uint8_t *row_of(const job *j, size_t block, uint32_t i) { return j->shards + (block * j->total + i) * j->row; }

/* what a library does with all blocks of a job; the rows that `rebuild` makes stand one behind the other in `out`, and so do the
 * blocks of `decode` */
typedef struct {
  const char *name;
  void (*begin)(const job *);
  void (*encode)(const job *);
  void (*rebuild)(const job *);
  void (*decode)(const job *);
  void (*end)(void);
} library;

/* this library */

static uint32_t in_hand[MOST], wanted[MOST];

static void our_begin(const job *j) {
  for (uint32_t i = 0; i < j->min; i++) in_hand[i] = j->lost + i;
  for (uint32_t i = 0; i < j->lost; i++) wanted[i] = i;
}

static void our_encode(const job *j) {
  for (size_t b = 0; b < j->blocks; b++) {
    uint8_t *data = row_of(j, b, 0), *parity = row_of(j, b, j->min);
    if (cwm_systematic_encode(data, j->min * j->row, j->min, j->total, parity, (j->total - j->min) * j->row, j->masks + b) != CWM_DONE)
      fail("encode");
  }
}

static void our_rebuild(const job *j) {
  size_t size = j->min * j->row, made = j->lost * j->row;
  for (size_t b = 0; b < j->blocks; b++) {
    if (cwm_systematic_rebuild(in_hand, j->min, row_of(j, b, j->lost), size, size, j->min, j->total, j->masks[b], wanted, j->lost,
                               j->out + b * made, made) != CWM_DONE)
      fail("rebuild");
  }
}

static void our_decode(const job *j) {
  size_t size = j->min * j->row;
  for (size_t b = 0; b < j->blocks; b++) {
    if (cwm_systematic_decode(in_hand, j->min, row_of(j, b, j->lost), size, j->min, j->total, j->masks[b], j->out + b * size, size) !=
        CWM_DONE)
      fail("decode");
  }
}

static void our_end(void) {}

#ifdef ISAL
/* The tables for the rows that are lost are made once for all blocks, as its users do. */
static uint8_t *encoding, *rebuilding;

static void isal_begin(const job *j) {
  size_t k = j->min, m = j->total;
  uint8_t *a = room(m * k), *left = room(k * k), *inverse = room(k * k);
  encoding = room(32 * k * (m - k));
  rebuilding = room(32 * k * j->lost + 1);
  gf_gen_cauchy1_matrix(a, (int)m, (int)k);
  ec_init_tables((int)k, (int)(m - k), a + k * k, encoding);
  memcpy(left, a + j->lost * k, k * k);
  if (gf_invert_matrix(left, inverse, (int)k) != 0) fail("isa-l, matrix");
  if (j->lost > 0) ec_init_tables((int)k, (int)j->lost, inverse, rebuilding);
  free(a), free(left), free(inverse);
}

static void isal_encode(const job *j) {
  uint8_t *from[MOST], *to[MOST];
  for (size_t b = 0; b < j->blocks; b++) {
    for (uint32_t i = 0; i < j->min; i++) from[i] = row_of(j, b, i);
    for (uint32_t i = j->min; i < j->total; i++) to[i - j->min] = row_of(j, b, i);
    ec_encode_data((int)j->row, (int)j->min, (int)(j->total - j->min), encoding, from, to);
  }
}

static void isal_rebuild(const job *j) {
  uint8_t *from[MOST], *to[MOST];
  for (size_t b = 0; b < j->blocks; b++) {
    for (uint32_t i = 0; i < j->min; i++) from[i] = row_of(j, b, j->lost + i);
    for (uint32_t i = 0; i < j->lost; i++) to[i] = j->out + (b * j->lost + i) * j->row;
    ec_encode_data((int)j->row, (int)j->min, (int)j->lost, rebuilding, from, to);
  }
}

static void isal_end(void) { free(encoding), free(rebuilding); }
#endif

#ifdef ZFEC
static fec_t *code;

static void zfec_begin(const job *j) { code = fec_new((unsigned short)j->min, (unsigned short)j->total); }

static void zfec_encode(const job *j) {
  const gf *from[MOST];
  gf *to[MOST];
  unsigned numbers[MOST];
  for (size_t b = 0; b < j->blocks; b++) {
    for (uint32_t i = 0; i < j->min; i++) from[i] = row_of(j, b, i);
    for (uint32_t i = j->min; i < j->total; i++) to[i - j->min] = row_of(j, b, i), numbers[i - j->min] = i;
    fec_encode(code, from, to, numbers, j->total - j->min, j->row);
  }
}

/* a data row that is there has to stand in its own place, and parity rows stand in those of lost ones */
static void zfec_rebuild(const job *j) {
  const gf *from[MOST];
  gf *to[MOST];
  unsigned numbers[MOST];
  for (size_t b = 0; b < j->blocks; b++) {
    for (uint32_t i = 0; i < j->min; i++) {
      numbers[i] = i < j->lost ? j->min + i : i;
      from[i] = row_of(j, b, numbers[i]);
    }
    for (uint32_t i = 0; i < j->lost; i++) to[i] = j->out + (b * j->lost + i) * j->row;
    fec_decode(code, from, to, numbers, j->row);
  }
}

static void zfec_end(void) { fec_free(code); }
#endif

static const library libraries[] = {
    {"this-library", our_begin, our_encode, our_rebuild, our_decode, our_end},
#ifdef ISAL
    {"isa-l", isal_begin, isal_encode, isal_rebuild, NULL, isal_end},
#endif
#ifdef ZFEC
    {"zfec", zfec_begin, zfec_encode, zfec_rebuild, NULL, zfec_end},
#endif
};
enum { LIBRARIES = sizeof libraries / sizeof *libraries };

enum { ENCODE, REBUILD, DECODE, WORKS };
static const char *const names[WORKS] = {"encode", "rebuild", "decode"};

static void (*work_of(const library *l, int work))(const job *) {
  return work == ENCODE ? l->encode : work == REBUILD ? l->rebuild : l->decode;
}

/* whether what was made is the data; parity rows are judged by what is rebuilt from them */
static void judge(const job *j, const library *l, int work) {
  uint32_t made = work == REBUILD ? j->lost : work == DECODE ? j->min : 0;
  for (size_t b = 0; b < j->blocks; b++) {
    if (memcmp(j->out + b * made * j->row, row_of(j, b, 0), made * j->row) != 0) fail(l->name);
  }
}

/* one work by all libraries in turn, each with shards of its own */
static void timed(const job *jobs, int work) {
  double best[LIBRARIES], spent = 0;
  for (int n = 0; n < LIBRARIES; n++) best[n] = 1e9, libraries[n].begin(&jobs[n]);
  for (int tries = 0; tries < 3 || spent < seconds * LIBRARIES; tries++) {
    for (int n = 0; n < LIBRARIES; n++) {
      const job *j = &jobs[n];
      void (*done)(const job *) = work_of(&libraries[n], work);
      if (done == NULL) continue;
      memset(j->out, 0, j->blocks * j->min * j->row);
      double start = now();
      done(j);
      double took = now() - start;
      spent += took;
      if (took < best[n]) best[n] = took;
      judge(j, &libraries[n], work);
    }
  }
  for (int n = 0; n < LIBRARIES; n++) {
    const job *j = &jobs[n];
    double size = (double)(j->blocks * j->min * j->row) * 1e-6;
    libraries[n].end();
    if (work_of(&libraries[n], work) == NULL) continue;
    printf("%-12s %-8s %3u of %3u, %3u lost, %5.1f MB in blocks of %5.2f MB %9.1f MB a second\n", libraries[n].name, names[work], j->min,
           j->total, work == ENCODE ? 0 : j->lost, size, size / (double)j->blocks, size / best[n]);
  }
}

static void lose(job *jobs, uint32_t lost) {
  for (int n = 0; n < LIBRARIES; n++) jobs[n].lost = lost;
}

/* rows are a multiple of 64 bytes, so that a block is nearly as long as is asked for */
static void run(uint32_t min, uint32_t total, size_t block, size_t bytes, uint32_t most) {
  job jobs[LIBRARIES];
  size_t row = block / min / 64 * 64, blocks = bytes / block;
  uint8_t *out = room(blocks * min * row);
  uint32_t *masks = room(blocks * sizeof *masks);
  for (int n = 0; n < LIBRARIES; n++) {
    uint64_t state = 1;
    jobs[n] = (job){min, total, 0, row, blocks, room(blocks * total * row), out, masks};
    for (size_t b = 0; b < blocks; b++) {
      for (size_t k = 0; k < min * row / 8; k++) {
        state = state * UINT64_C(6364136223846793005) + UINT64_C(1442695040888963407);
        uint64_t word = state ^ state >> 29;
        memcpy(row_of(&jobs[n], b, 0) + 8 * k, &word, 8);
      }
    }
  }
  timed(jobs, ENCODE);
  timed(jobs, DECODE);
  for (uint32_t lost = 1; lost <= most; lost = lost == 1 ? most : most + 1) {
    lose(jobs, lost);
    timed(jobs, REBUILD);
    timed(jobs, DECODE);
  }
  for (int n = 0; n < LIBRARIES; n++) free(jobs[n].shards);
  free(out), free(masks);
}

int main(int argc, char **argv) {
  setvbuf(stdout, NULL, _IOLBF, 0);
  if (argc > 1) seconds = atoi(argv[1]);
  run(10, 16, 4000000, 4000000, 6);
  run(10, 16, 262144, 67108864, 6);
  run(100, 200, 4000000, 4000000, 100);
  run(100, 200, 262144, 4194304, 100);
  return 0;
}
