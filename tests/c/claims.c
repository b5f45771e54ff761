/* Claims of 2^32 - 1 points or shards, for which no memory has room, are answered at once and not after all memory was filled: what can
 * be told from what is handed in is told, and the rest is refused. Its status is 0 where all answered as they have to. It is run with
 * 16 GiB at most, and ends in three seconds. */
#include "commonware_math.h"

enum { SOME = 2000 };

static uint32_t rising[SOME];
static uint64_t weights[SOME];

int main(void) {
  static const uint32_t indices[2] = {0, 1}, same[2] = {4294967294u, 4294967294u}, opposite[2] = {0, 2147483648u};
  static const uint8_t shards[48];
  static const uint64_t words[6];
  const uint32_t total = 4294967295u;
  uint8_t data[48];
  uint64_t back[6], sum = 0;
  size_t written = 7, wrong[2], many = 7;
  if (cwm_join_bytes(indices, 2, 2, total, shards, sizeof shards, data, sizeof data, &written) != CWM_OUT_OF_MEMORY) return 1;
  if (cwm_join_bytes(indices, 1, total, total, shards, 24, data, sizeof data, &written) != CWM_TOO_FEW) return 2;
  if (cwm_join(indices, 1, total, total, words, 3, back, 6, &written) != CWM_TOO_FEW) return 3;
  if (cwm_join_corrected(indices, 1, total, total, words, 3, back, 6, &written, wrong, 2, &many) != CWM_TOO_FEW) return 4;
  if (cwm_join(same, 2, 2, total, words, 6, back, 6, &written) != CWM_TOO_FEW) return 5;
  if (cwm_join_corrected(same, 2, 2, total, words, 6, back, 6, &written, wrong, 2, &many) != CWM_TOO_FEW) return 6;
  static const uint8_t data_rows[16];
  uint32_t belong = 7;
  if (cwm_systematic_rebuild(indices, 2, data_rows, 16, 24, 3, total, 0, indices, 2, data, 16) != CWM_TOO_FEW) return 11;
  if (cwm_systematic_verify(same, 2, data_rows, 16, 16, 2, total, 0, &belong) != CWM_TOO_FEW) return 12;
  if (cwm_systematic_decode(indices, 2, data_rows, 16, 2, total, 0, data, 16) != CWM_DONE) return 13;

  static uint8_t paths[65537 * 17 * CWM_DIGEST_SIZE];
  uint8_t root[CWM_DIGEST_SIZE];
  uint32_t mask;
  size_t steps, room;
  if (cwm_path_sizes(65537, 0, &steps, &room) != CWM_DONE || room != 17) return 14;
  if (cwm_commit(data, 0, 1, 65537, data, 0, &mask, root, paths, 65537 * 17) != CWM_TOO_MANY) return 15;
  if (cwm_shard_is_under(root, data, 8, 8, 1, total, 0, total - 1, paths, 32, &belong) != CWM_DONE || belong != 0) return 16;

  /* between the points 1 and -1 the value at 5 is three times the one, less twice the other */
  if (cwm_weights_at_roots(total, opposite, 2, 5, weights, 2) != CWM_DONE) return 7;
  if (weights[0] != 3 || weights[1] != CWM_MODULUS - 2) return 8;
  /* the weights of any points add up to one */
  for (uint32_t i = 0; i < SOME; i++) rising[i] = 2147483 * i + 1;
  if (cwm_weights_at_roots(total, rising, SOME, 5, weights, SOME) != CWM_DONE) return 9;
  return cwm_eval(weights, SOME, 1, &sum) == CWM_DONE && sum == 1 ? 0 : 10;
}
