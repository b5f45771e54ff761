/* A text stands in four data shards as it is, and two parity shards are added. One shard is lost, and made anew. */
#include <commonware_math.h>

#include <stdio.h>
#include <string.h>

enum { MIN = 4, TOTAL = 6, ROW = 16 };

int main(void) {
  /* the data shards one behind the other are the text, and the parity shards stand behind them */
  uint8_t shards[TOTAL * ROW] = "Four shards are these bytes as they stand, two more are parity.\n";
  uint32_t mask;
  if (cwm_systematic_encode(shards, MIN * ROW, MIN, TOTAL, shards + MIN * ROW, (TOTAL - MIN) * ROW, &mask) != CWM_DONE) return 1;

  /* shard 0 is lost, and the shards 1 to 4 give it back */
  const uint32_t left[MIN] = {1, 2, 3, 4}, lost[1] = {0};
  memset(shards, '?', ROW);
  printf("%.*s", MIN * ROW, (const char *)shards);
  if (cwm_systematic_rebuild(left, MIN, shards + ROW, MIN * ROW, MIN * ROW, MIN, TOTAL, mask, lost, 1, shards, ROW) != CWM_DONE)
    return 2;
  printf("%.*s", MIN * ROW, (const char *)shards);
  return 0;
}
