/* Bytes are split into shards, half of them are lost, and the bytes are got back from the others.
 *
 * Any MIN of TOTAL shards give the bytes back. */
#include <commonware_math.h>

#include <stdio.h>
#include <stdlib.h>
#include <string.h>

enum { MIN = 4, TOTAL = 8 };

int main(void) {
  static const char data[] = "Any four of these eight shards give back these bytes, unchanged.";
  size_t size, written;
  if (cwm_shard_bytes_sizes(sizeof data, MIN, TOTAL, &size) != CWM_DONE) return 1;
  uint8_t *shards = malloc(TOTAL * size), *left = malloc(MIN * size), *found = malloc(MIN * size);
  if (shards == NULL || left == NULL || found == NULL) return 1;
  if (cwm_split_bytes((const uint8_t *)data, sizeof data, MIN, TOTAL, shards, TOTAL * size) != CWM_DONE) return 1;
  printf("bytes a shard: %zu\n", size);

  /* shards 7, 2, 4 and 1 are left, in this order: each is known by its index */
  const uint32_t indices[MIN] = {7, 2, 4, 1};
  for (int i = 0; i < MIN; i++) memcpy(left + i * size, shards + indices[i] * size, size);
  uint32_t status = cwm_join_bytes(indices, MIN, MIN, TOTAL, left, MIN * size, found, MIN * size, &written);
  if (status == CWM_DONE) printf("%s\n", (const char *)found);

  /* fewer than MIN shards are refused */
  status = cwm_join_bytes(indices, 3, MIN, TOTAL, left, 3 * size, found, MIN * size, &written);
  printf("join of three: %s\n", cwm_status_name(status));
  free(shards), free(left), free(found);
  return 0;
}
