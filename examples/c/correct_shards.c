/* A text is cut into shards, a quarter of them is lost and an eighth is spoiled, and nobody knows which: the text comes
 * back, and the spoiled shards are named. */
#include "commonware_math.h"

#include <stdio.h>
#include <string.h>

enum { WORDS = 7, MIN = 8, TOTAL = 16, KEPT = 12, MOST = 4 };

/* Says what a call answered, where it is not that it was done. */
static int is_refused(const char *call, uint32_t status) {
  char text[CWM_TEXT_SIZE];
  if (status == CWM_DONE) return 0;
  cwm_status_text(status, text, sizeof text);
  printf("%s: %s\n", call, text);
  return 1;
}

int main(void) {
  const char text[8 * WORDS] = "Two shards of twelve are spoiled, and the text is whole";
  uint64_t data[WORDS], shards[TOTAL * MOST], left[KEPT * MOST], found[WORDS] = {0};
  uint32_t indices[KEPT];
  size_t n, k = 0, written, left_out[KEPT], many;

  memcpy(data, text, sizeof data);
  if (is_refused("sizes", cwm_shard_sizes(WORDS, MIN, TOTAL, &n)) || n > MOST) return 1;
  if (is_refused("split", cwm_split(data, WORDS, MIN, TOTAL, shards, TOTAL * n))) return 1;

  /* the shards 0, 4, 8 and 12 are lost, and those that stand in rows 3 and 7 of the others are spoiled */
  for (uint32_t i = 0; i < TOTAL; i++) {
    if (i % 4 == 0) continue;
    indices[k] = i;
    memcpy(left + k * n, shards + i * n, n * sizeof *left);
    k++;
  }
  left[3 * n] ^= 1;
  left[7 * n] = 0;
  if (is_refused("join", cwm_join_corrected(indices, k, MIN, TOTAL, left, k * n, found, WORDS, &written, left_out, KEPT, &many)))
    return 1;
  printf("%.*s\n", (int)(8 * written), (const char *)found);
  for (size_t i = 0; i < many; i++) printf("shard %u was wrong\n", (unsigned)indices[left_out[i]]);

  /* a third spoiled shard is one too many: it is refused, and nothing is written */
  left[9 * n] = 0;
  many = 99;
  is_refused("join", cwm_join_corrected(indices, k, MIN, TOTAL, left, k * n, found, WORDS, &written, left_out, KEPT, &many));
  printf("kept: %s\n", many == 99 && memcmp(found, data, sizeof data) == 0 ? "yes" : "no");
  return 0;
}
