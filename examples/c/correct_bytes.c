/* Bytes are split into shards, some of which are spoiled, and nobody knows which: the bytes come back, and the spoiled shards are
 * named. */
#include <commonware_math.h>

#include <stdio.h>
#include <stdlib.h>

enum { MIN = 4, TOTAL = 8 };

int main(void) {
  static const char data[] = "Two of these eight shards are spoiled, and the bytes are whole.";
  size_t size, written, left_out[TOTAL], many;
  if (cwm_shard_bytes_sizes(sizeof data, MIN, TOTAL, &size) != CWM_DONE) return 1;
  uint8_t *shards = malloc(TOTAL * size), *found = malloc(MIN * size);
  if (shards == NULL || found == NULL) return 1;
  if (cwm_split_bytes((const uint8_t *)data, sizeof data, MIN, TOTAL, shards, TOTAL * size) != CWM_DONE) return 1;

  /* where all eight are there, (8 - 4) / 2 of them may be wrong */
  const uint32_t indices[TOTAL] = {0, 1, 2, 3, 4, 5, 6, 7};
  shards[2 * size + 9] ^= 1;
  shards[5 * size + 3] ^= 0x40;
  uint32_t status = cwm_join_bytes_corrected(indices, TOTAL, MIN, TOTAL, shards, TOTAL * size, found, MIN * size, &written, left_out,
                                             TOTAL, &many);
  if (status == CWM_DONE) printf("%s\n", (const char *)found);
  for (size_t i = 0; status == CWM_DONE && i < many; i++) printf("shard %u was wrong\n", (unsigned)indices[left_out[i]]);

  /* a third spoiled shard is one too many, and is refused */
  shards[7 * size] ^= 1;
  status = cwm_join_bytes_corrected(indices, TOTAL, MIN, TOTAL, shards, TOTAL * size, found, MIN * size, &written, left_out, TOTAL, &many);
  printf("three spoiled: %s\n", cwm_status_name(status));
  free(shards), free(found);
  return 0;
}
