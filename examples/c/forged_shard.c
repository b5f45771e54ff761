/* A text stands in four data shards and two parity shards, and one root of 32 bytes binds it. Someone forges a shard; the root tells which. */
#include <commonware_math.h>

#include <stdio.h>
#include <string.h>

enum { MIN = 4, TOTAL = 6, ROW = 16, ROOM = 3 };

int main(void) {
  /* the data shards one behind the other are the text, and the parity shards stand behind them */
  uint8_t shards[TOTAL * ROW] = "Only what the root binds is taken, and a forged shard left out.\n", root[CWM_DIGEST_SIZE];
  uint8_t paths[TOTAL * ROOM * CWM_DIGEST_SIZE], text[MIN * ROW];
  uint32_t mask, masks[TOTAL], under;
  size_t steps, room, left_out[TOTAL], many;
  if (cwm_path_sizes(TOTAL, 0, &steps, &room) != CWM_DONE || room != ROOM) return 1;
  if (cwm_commit(shards, MIN * ROW, MIN, TOTAL, shards + MIN * ROW, (TOTAL - MIN) * ROW, &mask, root, paths, TOTAL * ROOM) != CWM_DONE)
    return 2;

  /* shard 1 is forged */
  const uint32_t indices[TOTAL] = {0, 1, 2, 3, 4, 5};
  for (int i = 0; i < TOTAL; i++) masks[i] = mask;
  memcpy(shards + ROW, "claims of a liar", ROW);
  printf("%.*s", MIN * ROW, (const char *)shards);
  const uint8_t *forged = shards + ROW, *path = paths + ROOM * CWM_DIGEST_SIZE;
  if (cwm_shard_is_under(root, forged, ROW, MIN * ROW, MIN, TOTAL, mask, 1, path, ROOM, &under) != CWM_DONE || under != 0) return 3;

  /* all six are handed in, and the text comes back */
  if (cwm_join_under(root, indices, TOTAL, masks, TOTAL, shards, TOTAL * ROW, paths, TOTAL * ROOM, MIN, TOTAL, 1, text, MIN * ROW, left_out,
                     TOTAL, &many) != CWM_DONE)
    return 4;
  printf("left out: %zu, at position %zu\n%.*s", many, left_out[0], MIN * ROW, (const char *)text);
  return 0;
}
