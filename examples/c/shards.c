/* A buffer is split into shards, half of them are lost, and the buffer is got back from the others.
 *
 * Any MIN of TOTAL shards give the WORDS words back. */
#include "commonware_math.h"

#include <stdio.h>
#include <stdlib.h>
#include <string.h>

enum { WORDS = 10, MIN = 4, TOTAL = 8 };

/* Says what a call answered, where it is not that it was done. */
static int is_refused(const char *call, uint32_t status) {
  char text[CWM_TEXT_SIZE];
  if (status == CWM_DONE) return 0;
  cwm_status_text(status, text, sizeof text);
  printf("%s: %s\n", call, text);
  return 1;
}

int main(void) {
  uint64_t data[WORDS] = {0}, found[WORDS] = {0};
  size_t n, written;
  memcpy(data, "Any four of these eight shards give back this buffer of eighty bytes, unchanged.", sizeof data);

  /* a shard is n words: shard i stands in row i of TOTAL rows */
  if (is_refused("sizes", cwm_shard_sizes(WORDS, MIN, TOTAL, &n))) return 1;
  printf("words a shard: %zu\n", n);
  uint64_t *shards = malloc(TOTAL * n * sizeof *shards), *left = malloc(TOTAL * n * sizeof *left);
  if (shards == NULL || left == NULL) return 1;
  if (is_refused("split", cwm_split(data, WORDS, MIN, TOTAL, shards, TOTAL * n))) return 1;

  /* shards 7, 2, 4 and 1 are left, in this order: each is known by its index */
  const uint32_t indices[] = {7, 2, 4, 1, 0};
  for (int i = 0; i < 5; i++) memcpy(left + i * n, shards + indices[i] * n, n * sizeof *left);
  if (is_refused("join", cwm_join(indices, 4, MIN, TOTAL, left, 4 * n, found, WORDS, &written))) return 1;
  printf("words: %zu\n%.80s\n", written, (const char *)found);
  printf("same: %s\n", memcmp(found, data, sizeof data) == 0 ? "yes" : "no");

  /* fewer than MIN shards, and damage to one of more than MIN, are refused */
  is_refused("join of three", cwm_join(indices, 3, MIN, TOTAL, left, 3 * n, found, WORDS, &written));
  left[n] ^= 1;
  is_refused("join of five, one damaged", cwm_join(indices, 5, MIN, TOTAL, left, 5 * n, found, WORDS, &written));
  free(shards), free(left);
  return 0;
}
