/* Each call of the C library with each of its allocations refused in turn: it answers CWM_OUT_OF_MEMORY, and all
 * that it was given is as it was. With nothing refused it is done, and each time with the same answer.
 *
 * `.ci/sweeps` loads the library of tests/preload/refuse.c before it, and asks that for refusals by requests of impossible sizes. */
#include "commonware_math.h"

#include <stdio.h>
#include <stdlib.h>
#include <string.h>

enum { ROWS = 512, COLS = 3, POINTS = 20, WORDS = 40, MIN = 3, TOTAL = 7, SHARD = 14, FEW = 3, SMALL = 16 };
enum { BLOCK = 100, BLOCK_SHARD = 48, ROW = 40, LOST = 2, PATH = 3 };
/* So many data rows of a word, and as many of parity, that transforms make them. */
enum { HALF = 64, HALF_BYTES = 8 * HALF };

/* All that the calls are given. */
struct given {
  uint64_t cells[ROWS * COLS], points[POINTS], weights[POINTS], value;
  uint8_t filled[ROWS], bytes[8 * POINTS + 5];
  uint32_t indices[POINTS];
  uint64_t data[WORDS], shards[TOTAL * SHARD], spoiled[TOTAL * SHARD];
  uint64_t values[POINTS], coefficients[FEW], rows[SMALL];
  size_t wrong[POINTS], count, many;
  uint8_t block[BLOCK], block_shards[TOTAL * BLOCK_SHARD], spoiled_bytes[TOTAL * BLOCK_SHARD];
  uint32_t lost[LOST], mask, belong;
  uint8_t rows_in_hand[TOTAL * ROW], spoiled_rows[TOTAL * ROW], out[LOST * ROW];
  uint32_t masks[TOTAL];
  uint8_t root[CWM_DIGEST_SIZE], paths[TOTAL * PATH * CWM_DIGEST_SIZE];
  uint8_t many_rows[2 * HALF_BYTES], many_out[HALF_BYTES];
  uint32_t many_indices[2 * HALF], many_mask;
};

static struct given now, before, answer;

static uint32_t eval(void) { return cwm_eval(now.cells, ROWS, 5, &now.value); }
static uint32_t evaluate(void) { return cwm_evaluate(now.cells, ROWS * COLS, COLS); }
static uint32_t interpolate(void) { return cwm_interpolate(now.cells, ROWS * COLS, COLS); }
static uint32_t recover(void) { return cwm_recover(now.cells, ROWS * COLS, COLS, now.filled, ROWS); }
static uint32_t weights(void) { return cwm_weights(now.points, POINTS, 5, now.weights, POINTS); }
static uint32_t weights_at_roots(void) { return cwm_weights_at_roots(ROWS, now.indices, POINTS, 5, now.weights, POINTS); }
/* so many that all points of the domain are taken */
static uint32_t weights_at_many(void) { return cwm_weights_at_roots(SMALL, now.indices, SMALL, 5, now.weights, SMALL); }
static uint32_t encode_poly(void) { return cwm_encode_poly(now.points, POINTS, now.bytes, sizeof now.bytes, &now.count); }
static uint32_t decode_poly(void) { return cwm_decode_poly(now.bytes, 8 * 3 + 1, now.weights, POINTS, &now.count); }
static uint32_t split(void) { return cwm_split(now.data, WORDS, MIN, TOTAL, now.shards, TOTAL * SHARD); }
static uint32_t join(void) {
  return cwm_join(now.indices, MIN + 1, MIN, TOTAL, now.shards, (MIN + 1) * SHARD, now.data, WORDS, &now.count);
}

static uint32_t decode(void) {
  return cwm_decode(now.points, POINTS, now.values, POINTS, now.coefficients, FEW, now.wrong, POINTS, &now.count);
}
static uint32_t correct(void) { return cwm_correct(now.rows, SMALL, 1, now.filled, SMALL, FEW, now.wrong, POINTS, &now.count); }
static uint32_t join_corrected(void) {
  return cwm_join_corrected(now.indices, TOTAL, MIN, TOTAL, now.spoiled, TOTAL * SHARD, now.data, WORDS, &now.count, now.wrong, POINTS,
                            &now.many);
}
static uint32_t split_bytes(void) { return cwm_split_bytes(now.block, BLOCK, MIN, TOTAL, now.block_shards, TOTAL * BLOCK_SHARD); }
static uint32_t join_bytes(void) {
  return cwm_join_bytes(now.indices, MIN + 1, MIN, TOTAL, now.block_shards, (MIN + 1) * BLOCK_SHARD, now.block, BLOCK, &now.count);
}
static uint32_t join_bytes_corrected(void) {
  return cwm_join_bytes_corrected(now.indices, TOTAL, MIN, TOTAL, now.spoiled_bytes, TOTAL * BLOCK_SHARD, now.block, BLOCK, &now.count,
                                  now.wrong, POINTS, &now.many);
}
static uint32_t systematic_sizes(void) { return cwm_systematic_sizes(BLOCK, MIN, TOTAL, 2, &now.count, &now.many); }
static uint32_t systematic_encode(void) {
  return cwm_systematic_encode(now.block, BLOCK, MIN, TOTAL, now.rows_in_hand + MIN * ROW, (TOTAL - MIN) * ROW, &now.mask);
}
/* The first data row and the last parity row are lost, and there is one more than is needed. */
static uint32_t systematic_rebuild(void) {
  return cwm_systematic_rebuild(now.indices + 1, MIN + 1, now.rows_in_hand + ROW, (MIN + 1) * ROW, BLOCK, MIN, TOTAL, now.mask, now.lost,
                                LOST, now.out, LOST * ROW);
}
/* All rows are there, and one is wrong. */
static uint32_t systematic_rebuild_corrected(void) {
  return cwm_systematic_rebuild_corrected(now.indices, TOTAL, now.spoiled_rows, TOTAL * ROW, BLOCK, MIN, TOTAL, now.mask, now.lost, LOST,
                                          now.out, LOST * ROW, now.wrong, POINTS, &now.many);
}
static uint32_t systematic_decode(void) {
  return cwm_systematic_decode(now.indices + 1, MIN + 1, now.rows_in_hand + ROW, (MIN + 1) * ROW, MIN, TOTAL, now.mask, now.block, BLOCK);
}
static uint32_t systematic_verify(void) {
  return cwm_systematic_verify(now.indices, TOTAL, now.rows_in_hand, TOTAL * ROW, BLOCK, MIN, TOTAL, now.mask, &now.belong);
}
static uint32_t systematic_encode_many(void) {
  return cwm_systematic_encode(now.many_rows, HALF_BYTES, HALF, 2 * HALF, now.many_rows + HALF_BYTES, HALF_BYTES, &now.many_mask);
}
/* All data rows are lost. */
static uint32_t systematic_rebuild_many(void) {
  return cwm_systematic_rebuild(now.many_indices + HALF, HALF, now.many_rows + HALF_BYTES, HALF_BYTES, HALF_BYTES, HALF, 2 * HALF,
                                now.many_mask, now.many_indices, HALF, now.many_out, HALF_BYTES);
}
static uint32_t systematic_decode_many(void) {
  return cwm_systematic_decode(now.many_indices + HALF, HALF, now.many_rows + HALF_BYTES, HALF_BYTES, HALF, 2 * HALF, now.many_mask,
                               now.many_out, HALF_BYTES);
}
static uint32_t path_sizes(void) { return cwm_path_sizes(TOTAL, 2, &now.count, &now.many); }
static uint32_t commit(void) {
  return cwm_commit(now.block, BLOCK, MIN, TOTAL, now.rows_in_hand + MIN * ROW, (TOTAL - MIN) * ROW, &now.mask, now.root, now.paths,
                    TOTAL * PATH);
}
static uint32_t shard_is_under(void) {
  return cwm_shard_is_under(now.root, now.rows_in_hand, ROW, BLOCK, MIN, TOTAL, now.mask, 0, now.paths, PATH, &now.belong);
}
/* All shards are there, and one is wrong. */
static uint32_t join_under(void) {
  return cwm_join_under(now.root, now.indices, TOTAL, now.masks, TOTAL, now.spoiled_rows, TOTAL * ROW, now.paths, TOTAL * PATH, MIN, TOTAL, 0,
                        now.block, BLOCK, now.wrong, POINTS, &now.many);
}
static uint32_t join_under_strictly(void) {
  return cwm_join_under(now.root, now.indices, TOTAL, now.masks, TOTAL, now.spoiled_rows, TOTAL * ROW, now.paths, TOTAL * PATH, MIN, TOTAL, 1,
                        now.block, BLOCK, now.wrong, POINTS, &now.many);
}
static uint32_t shard_bytes_sizes(void) { return cwm_shard_bytes_sizes(BLOCK, MIN, TOTAL, &now.count); }

static const struct {
  const char *name;
  uint32_t (*call)(void);
  int takes_memory;
} calls[] = {
    {"cwm_eval", eval, 1},         {"cwm_evaluate", evaluate, 1},       {"cwm_interpolate", interpolate, 1},
    {"cwm_recover", recover, 1},   {"cwm_weights", weights, 1},         {"cwm_weights_at_roots", weights_at_roots, 1},
    {"cwm_split", split, 1},       {"cwm_join", join, 1},               {"cwm_encode_poly", encode_poly, 1},
    {"cwm_decode_poly", decode_poly, 0}, {"cwm_decode", decode, 1},     {"cwm_correct", correct, 1},
    {"cwm_join_corrected", join_corrected, 1}, {"cwm_join_bytes_corrected", join_bytes_corrected, 1},
    {"cwm_split_bytes", split_bytes, 1}, {"cwm_join_bytes", join_bytes, 1}, {"cwm_shard_bytes_sizes", shard_bytes_sizes, 0},
    {"cwm_weights_at_roots, many", weights_at_many, 1}, {"cwm_systematic_sizes", systematic_sizes, 0},
    {"cwm_systematic_encode", systematic_encode, 1}, {"cwm_systematic_rebuild", systematic_rebuild, 1},
    {"cwm_systematic_decode", systematic_decode, 1}, {"cwm_systematic_verify", systematic_verify, 1},
    {"cwm_systematic_encode, many", systematic_encode_many, 1}, {"cwm_systematic_rebuild, many", systematic_rebuild_many, 1},
    {"cwm_systematic_decode, many", systematic_decode_many, 1},
    {"cwm_systematic_rebuild_corrected", systematic_rebuild_corrected, 1}, {"cwm_path_sizes", path_sizes, 0},
    {"cwm_commit", commit, 1}, {"cwm_shard_is_under", shard_is_under, 0}, {"cwm_join_under", join_under, 1},
    {"cwm_join_under, strict", join_under_strictly, 1},
};

/* Words below P, a third of the rows missing, three coefficients in bytes, shards of words and of bytes with rising indices,
 * the same with one that is wrong, values and rows of constants of which one is wrong, and systematic shards under a mask. */
static int make(void) {
  for (int i = 0; i < ROWS * COLS; i++) before.cells[i] = (uint64_t)i * 0x9e3779b97f4a7c15 % CWM_MODULUS;
  for (int i = 0; i < ROWS; i++) before.filled[i] = i % 3 != 0;
  for (int i = 0; i < POINTS; i++) before.points[i] = 7 + 3 * i, before.weights[i] = 9, before.indices[i] = i;
  for (int i = 0; i < WORDS; i++) before.data[i] = (uint64_t)i << 50;
  before.bytes[0] = 3;
  for (int i = 0; i < POINTS; i++) before.values[i] = 5 + (i == 4);
  for (int i = 0; i < SMALL; i++) before.rows[i] = 5 + (i == 4);
  for (int i = 0; i < BLOCK; i++) before.block[i] = i < 8 ? 255 : 3 * i;
  before.lost[1] = TOTAL - 1, before.mask = before.belong = 7;
  memcpy(before.rows_in_hand, before.block, BLOCK);
  for (int i = 0; i < 2 * HALF; i++) before.many_indices[i] = i;
  for (int i = 0; i < HALF_BYTES; i++) before.many_rows[i] = i < 8 ? 255 : 3 * i;
  size_t n = 0;
  int made = cwm_shard_bytes_sizes(BLOCK, MIN, TOTAL, &n) == CWM_DONE && n == BLOCK_SHARD
             && cwm_split_bytes(before.block, BLOCK, MIN, TOTAL, before.block_shards, TOTAL * BLOCK_SHARD) == CWM_DONE
             && cwm_shard_sizes(WORDS, MIN, TOTAL, &n) == CWM_DONE && n == SHARD
             && cwm_split(before.data, WORDS, MIN, TOTAL, before.shards, TOTAL * SHARD) == CWM_DONE
             && cwm_systematic_sizes(BLOCK, MIN, TOTAL, 0, &n, &before.count) == CWM_DONE && n == ROW
             && cwm_systematic_encode(before.block, BLOCK, MIN, TOTAL, before.rows_in_hand + MIN * ROW, (TOTAL - MIN) * ROW,
                                      &before.mask) == CWM_DONE && before.mask != 0
             && cwm_commit(before.block, BLOCK, MIN, TOTAL, before.rows_in_hand + MIN * ROW, (TOTAL - MIN) * ROW, &before.mask, before.root,
                           before.paths, TOTAL * PATH) == CWM_DONE
             && cwm_systematic_encode(before.many_rows, HALF_BYTES, HALF, 2 * HALF, before.many_rows + HALF_BYTES, HALF_BYTES,
                                      &before.many_mask) == CWM_DONE && before.many_mask != 0;
  for (int i = 0; i < TOTAL; i++) before.masks[i] = before.mask;
  memcpy(before.spoiled, before.shards, sizeof before.spoiled);
  before.spoiled[2 * SHARD] ^= 1;
  memcpy(before.spoiled_rows, before.rows_in_hand, sizeof before.spoiled_rows);
  before.spoiled_rows[2 * ROW] ^= 1;
  memcpy(before.spoiled_bytes, before.block_shards, sizeof before.spoiled_bytes);
  before.spoiled_bytes[2 * BLOCK_SHARD + 7] ^= 1;
  return made;
}

/* Asks the library of refusals, where it is loaded; the compiler can't leave such requests out. */
static void *(*volatile ask)(size_t) = malloc;
static const size_t REFUSE = 0x7e00000000000000, HAS_COME = 0x7d00000000000000;

/* Sweeps a call, and says whether it failed. */
static int sweep(const char *name, uint32_t (*call)(void), int takes_memory) {
  now = before;
  int failed = call() != CWM_DONE;
  answer = now;
  for (size_t n = 1; !failed; n++) {
    now = before;
    ask(REFUSE + n);
    uint32_t status = call();
    void *come = ask(HAS_COME);
    ask(REFUSE);
    if (come == NULL) {
      failed = status != CWM_DONE || memcmp(&now, &answer, sizeof now) != 0 || (n > 1) != takes_memory;
      printf("%s: %zu refusals%s\n", name, n - 1, failed ? ", FAILED" : "");
      return failed;
    }
    free(come);
    failed = status != CWM_OUT_OF_MEMORY || memcmp(&now, &before, sizeof now) != 0;
    if (failed) printf("%s: FAILED with allocation %zu refused\n", name, n);
  }
  return failed;
}

/* Whether the name contains the part. */
static int contains(const char *name, const char *part) {
  for (; *name; name++) {
    size_t i = 0;
    while (part[i] && part[i] == name[i]) i++;
    if (!part[i]) return 1;
  }
  return 0;
}

/* Sweeps the calls whose names contain the first word, or all. */
int main(int words, char **word) {
  int failed = !make();
  for (size_t i = 0; i < sizeof calls / sizeof *calls; i++)
    if (words < 2 || contains(calls[i].name, word[1])) failed |= sweep(calls[i].name, calls[i].call, calls[i].takes_memory);
  return failed;
}
