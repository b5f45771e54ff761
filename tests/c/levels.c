/* 3,000 random splits and joins, of words and of bytes, of 1 to 80 shards. Each join has to give the data back: else the status is not 0,
 * and a line says of which. What is printed is a sum of all shards, the same for each level of processor. */
#include "commonware_math.h"
#include "random.h"

#include <stdio.h>
#include <stdlib.h>
#include <string.h>

/* Shards of up to WIDTH words have columns that fill eight, and some that do not. */
enum { CALLS = 3000, MOST = 80, WIDTH = 70, FEW = 10 };

static uint64_t shards_sum = UINT64_C(0xcbf29ce484222325);

/* Words of which some are at the ends of what an element can be. */
static uint64_t some_word(void) {
  const uint64_t ends[] = {0, UINT32_MAX, UINT64_C(1) << 32, CWM_MODULUS - 1, CWM_MODULUS, UINT64_MAX};
  return below(4) ? next() : ends[below(6)];
}

/* Adds the bytes to the sum, as FNV-1a does. */
static void add(const uint8_t *bytes, size_t n) {
  for (size_t i = 0; i < n; i++) shards_sum = (shards_sum ^ bytes[i]) * UINT64_C(0x100000001b3);
}

/* Splits the first n words of the data, or its first n bytes, and joins `k` shards, which has to give the same. */
static int is_joined(int of_bytes, const uint64_t *data, size_t n, uint32_t min, uint32_t total, uint32_t k) {
  static uint64_t shards[MOST * (WIDTH + 2)], taken[MOST * (WIDTH + 2)], joined[MOST * WIDTH];
  const size_t unit = of_bytes ? 1 : 8;
  size_t size = 0, written = 0;
  uint32_t indices[MOST];
  if ((of_bytes ? cwm_shard_bytes_sizes(n, min, total, &size) : cwm_shard_sizes(n, min, total, &size)) != CWM_DONE) return 0;
  if (total * size * unit > sizeof shards) return 0;
  if ((of_bytes ? cwm_split_bytes((const uint8_t *)data, n, min, total, (uint8_t *)shards, total * size)
                : cwm_split(data, n, min, total, shards, total * size)) != CWM_DONE)
    return 0;
  add((const uint8_t *)shards, total * size * unit);
  for (uint32_t i = 0; i < total; i++) indices[i] = i;
  for (uint32_t i = 0; i < k; i++) {
    uint32_t at = i + below(total - i), index = indices[at];
    indices[at] = indices[i], indices[i] = index;
    memcpy((uint8_t *)taken + i * size * unit, (uint8_t *)shards + index * size * unit, size * unit);
  }
  if ((of_bytes ? cwm_join_bytes(indices, k, min, total, (uint8_t *)taken, k * size, (uint8_t *)joined, n, &written)
                : cwm_join(indices, k, min, total, taken, k * size, joined, n, &written)) != CWM_DONE)
    return 0;
  return written == n && memcmp(joined, data, n * unit) == 0;
}

int main(void) {
  static uint64_t data[MOST * WIDTH];
  for (int call = 0; call < CALLS; call++) {
    int of_bytes = call % 2;
    uint32_t total = 1 + below(MOST), min = 1 + below(total), words = below(min * (below(3) ? FEW : WIDTH) + 1);
    size_t n = of_bytes && words ? 8 * (size_t)words - below(8) : words;
    for (uint32_t i = 0; i < words; i++) data[i] = some_word();
    if (!is_joined(of_bytes, data, n, min, total, below(2) ? min : min + below(total - min + 1))) {
      fprintf(stderr, "call %d: %zu %s, %u of %u\n", call, n, of_bytes ? "bytes" : "words", (unsigned)min, (unsigned)total);
      return 1;
    }
  }
  printf("%016llx\n", (unsigned long long)shards_sum);
  return 0;
}
