/* Null where a length is zero, at each call and each pointer that has a length. Its status is 0 where all answered as they have to, and
 * else the line that did not. It also runs under valgrind, which sees what is read or written through null. */
#include "commonware_math.h"

#include <stddef.h>

#define WANT(condition) \
  do { \
    if (!(condition)) return __LINE__ % 255 + 1; \
  } while (0)

int main(void) {
  uint64_t cell = 5, value = 7, weight = 7, coefficient = 7, shards[6], words[4];
  const uint64_t no_value = 0;
  const uint8_t filled = 1, encoded[9] = {1, 0, 0, 0, 0, 0, 0, 0, 5};
  uint8_t bytes[72], block[48];
  const uint32_t indices[3] = {0, 1, 2};
  size_t written = 7, many = 7, size = 0, wrong[3];

  WANT(cwm_status_text(CWM_DONE, NULL, 0) == CWM_WRONG_SIZE);
  WANT(cwm_eval(NULL, 0, 5, &value) == CWM_WRONG_SIZE && value == 7);
  WANT(cwm_evaluate(NULL, 0, 1) == CWM_WRONG_SIZE);
  WANT(cwm_interpolate(NULL, 0, 1) == CWM_WRONG_SIZE);
  WANT(cwm_recover(NULL, 0, 1, NULL, 0) == CWM_WRONG_SIZE);
  WANT(cwm_recover(&cell, 1, 1, NULL, 0) == CWM_WRONG_SIZE);
  WANT(cwm_recover(NULL, 0, 1, &filled, 1) == CWM_WRONG_SIZE);
  WANT(cwm_correct(NULL, 0, 1, NULL, 0, 0, NULL, 0, &written) == CWM_WRONG_SIZE && written == 7);
  WANT(cwm_correct(&cell, 1, 1, &filled, 1, 1, NULL, 0, &written) == CWM_DONE && written == 0 && cell == 5);

  written = 7;
  WANT(cwm_decode(NULL, 0, NULL, 0, NULL, 0, NULL, 0, &written) == CWM_DONE && written == 0);
  WANT(cwm_decode(&cell, 1, NULL, 0, NULL, 0, NULL, 0, &written) == CWM_WRONG_SIZE);
  WANT(cwm_decode(&cell, 1, &no_value, 1, NULL, 0, NULL, 0, &written) == CWM_DONE && written == 0);
  WANT(cwm_decode(&cell, 1, &cell, 1, NULL, 0, NULL, 0, &written) == CWM_INCONSISTENT);
  WANT(cwm_decode(&cell, 1, &cell, 1, &coefficient, 1, NULL, 0, &written) == CWM_DONE && written == 0 && coefficient == 5);
  WANT(cwm_weights(NULL, 0, 5, NULL, 0) == CWM_DONE);
  WANT(cwm_weights(NULL, 0, 5, &weight, 1) == CWM_WRONG_SIZE);
  WANT(cwm_weights(&cell, 1, 5, NULL, 0) == CWM_WRONG_SIZE);
  for (uint64_t x = 0; x < 2; x++) {
    WANT(cwm_weights_at_roots(8, NULL, 0, x, NULL, 0) == CWM_DONE);
    WANT(cwm_weights_at_roots(1, NULL, 0, x, NULL, 0) == CWM_DONE);
  }
  WANT(cwm_weights_at_roots(8, NULL, 0, 5, &weight, 1) == CWM_WRONG_SIZE && weight == 7);
  WANT(cwm_weights_at_roots(8, indices, 1, 5, NULL, 0) == CWM_WRONG_SIZE);

  written = 7;
  WANT(cwm_encode_poly(NULL, 0, NULL, 0, &written) == CWM_WRONG_SIZE);
  WANT(cwm_encode_poly(&cell, 1, NULL, 0, &written) == CWM_WRONG_SIZE);
  WANT(cwm_decode_poly(NULL, 0, NULL, 0, &written) == CWM_END_OF_BUFFER);
  WANT(cwm_decode_poly(encoded, 9, NULL, 0, &written) == CWM_WRONG_SIZE && written == 7);

  /* no data, shards of no words, and no shards */
  WANT(cwm_shard_sizes(0, 2, 3, &size) == CWM_DONE && size == 1);
  WANT(cwm_split(NULL, 0, 2, 3, NULL, 0) == CWM_WRONG_SIZE);
  WANT(cwm_split(NULL, 0, 2, 3, shards, 3) == CWM_DONE);
  WANT(cwm_join(indices, 3, 2, 3, shards, 3, NULL, 0, &written) == CWM_DONE && written == 0);
  WANT(cwm_join(indices, 2, 2, 3, shards, 2, NULL, 0, &written) == CWM_DONE && written == 0);
  WANT(cwm_join(indices, 3, 2, 3, NULL, 0, NULL, 0, &written) == CWM_INCONSISTENT);
  WANT(cwm_join(NULL, 0, 2, 3, NULL, 0, NULL, 0, &written) == CWM_TOO_FEW);
  WANT(cwm_join(NULL, 0, 2, 3, shards, 3, words, 4, &written) == CWM_WRONG_SIZE);
  WANT(cwm_join_corrected(indices, 3, 2, 3, shards, 3, NULL, 0, &written, wrong, 3, &many) == CWM_DONE && many == 0);
  WANT(cwm_join_corrected(indices, 3, 2, 3, NULL, 0, NULL, 0, &written, wrong, 3, &many) == CWM_INCONSISTENT);
  WANT(cwm_join_corrected(indices, 3, 2, 3, shards, 3, NULL, 0, &written, NULL, 0, &many) == CWM_WRONG_SIZE);
  WANT(cwm_join_corrected(NULL, 0, 2, 3, NULL, 0, NULL, 0, &written, NULL, 0, &many) == CWM_TOO_FEW);
  shards[1] ^= 1;
  WANT(cwm_join_corrected(indices, 3, 1, 3, shards, 3, NULL, 0, &written, wrong, 3, &many) == CWM_INCONSISTENT);

  /* the same of bytes */
  WANT(cwm_shard_bytes_sizes(0, 2, 3, &size) == CWM_DONE && size <= 24);
  WANT(cwm_split_bytes(NULL, 0, 2, 3, NULL, 0) == CWM_WRONG_SIZE);
  WANT(cwm_split_bytes(NULL, 0, 2, 3, bytes, 3 * size) == CWM_DONE);
  WANT(cwm_join_bytes(indices, 3, 2, 3, bytes, 3 * size, NULL, 0, &written) == CWM_DONE && written == 0);
  WANT(cwm_join_bytes(indices, 2, 2, 3, bytes, 2 * size, NULL, 0, &written) == CWM_DONE && written == 0);
  WANT(cwm_join_bytes(indices, 3, 2, 3, NULL, 0, NULL, 0, &written) == CWM_INCONSISTENT);
  WANT(cwm_join_bytes(NULL, 0, 2, 3, NULL, 0, NULL, 0, &written) == CWM_TOO_FEW);
  WANT(cwm_join_bytes(NULL, 0, 2, 3, bytes, 24, block, 48, &written) == CWM_WRONG_SIZE);
  WANT(cwm_join_bytes_corrected(indices, 3, 2, 3, bytes, 3 * size, NULL, 0, &written, wrong, 3, &many) == CWM_DONE && many == 0);
  WANT(cwm_join_bytes_corrected(indices, 3, 2, 3, NULL, 0, NULL, 0, &written, wrong, 3, &many) == CWM_INCONSISTENT);
  WANT(cwm_join_bytes_corrected(indices, 3, 2, 3, bytes, 3 * size, NULL, 0, &written, NULL, 0, &many) == CWM_WRONG_SIZE);
  WANT(cwm_join_bytes_corrected(NULL, 0, 2, 3, NULL, 0, NULL, 0, &written, NULL, 0, &many) == CWM_TOO_FEW);

  /* systematic shards: no data, no parity rows, no rows and none that are wanted */
  size_t row = 7, part = 7;
  uint32_t mask = 7, belong = 7;
  WANT(cwm_systematic_sizes(0, 2, 3, 1, &row, &part) == CWM_DONE && row == 0 && part == 0);
  WANT(cwm_systematic_encode(NULL, 0, 2, 3, NULL, 0, &mask) == CWM_DONE && mask == 0);
  WANT(cwm_systematic_encode(NULL, 0, 2, 3, bytes, 8, &mask) == CWM_WRONG_SIZE);
  WANT(cwm_systematic_encode(encoded, 9, 2, 2, NULL, 0, &mask) == CWM_DONE && mask == 0);
  WANT(cwm_systematic_encode(encoded, 9, 2, 3, NULL, 0, &mask) == CWM_WRONG_SIZE);
  WANT(cwm_systematic_rebuild(NULL, 0, NULL, 0, 0, 2, 3, 0, NULL, 0, NULL, 0) == CWM_TOO_FEW);
  WANT(cwm_systematic_rebuild(indices, 3, NULL, 0, 0, 2, 3, 0, NULL, 0, NULL, 0) == CWM_DONE);
  WANT(cwm_systematic_rebuild(indices, 3, NULL, 0, 0, 2, 3, 0, indices, 3, NULL, 0) == CWM_DONE);
  WANT(cwm_systematic_rebuild(indices, 3, NULL, 0, 9, 2, 3, 0, NULL, 0, NULL, 0) == CWM_WRONG_SIZE);
  WANT(cwm_systematic_rebuild(NULL, 0, bytes, 8, 9, 2, 3, 0, NULL, 0, NULL, 0) == CWM_WRONG_SIZE);
  WANT(cwm_systematic_rebuild(NULL, 0, NULL, 0, 9, 2, 3, 0, NULL, 0, block, 8) == CWM_WRONG_SIZE);
  WANT(cwm_systematic_rebuild_corrected(NULL, 0, NULL, 0, 0, 2, 3, 0, NULL, 0, NULL, 0, NULL, 0, &many) == CWM_TOO_FEW);
  WANT(cwm_systematic_rebuild_corrected(indices, 3, NULL, 0, 0, 2, 3, 0, NULL, 0, NULL, 0, wrong, 3, &many) == CWM_DONE && many == 0);
  WANT(cwm_systematic_rebuild_corrected(indices, 3, NULL, 0, 0, 2, 3, 0, indices, 3, NULL, 0, wrong, 3, &many) == CWM_DONE && many == 0);
  WANT(cwm_systematic_rebuild_corrected(indices, 3, NULL, 0, 0, 2, 3, 0, NULL, 0, NULL, 0, NULL, 0, &many) == CWM_WRONG_SIZE);
  WANT(cwm_systematic_decode(NULL, 0, NULL, 0, 2, 3, 0, NULL, 0) == CWM_TOO_FEW);
  WANT(cwm_systematic_decode(indices + 1, 2, NULL, 0, 2, 3, 0, NULL, 0) == CWM_DONE);
  WANT(cwm_systematic_decode(NULL, 0, NULL, 0, 2, 3, 0, block, 9) == CWM_TOO_FEW);
  WANT(cwm_systematic_verify(NULL, 0, NULL, 0, 0, 2, 3, 0, &belong) == CWM_TOO_FEW && belong == 7);
  WANT(cwm_systematic_verify(indices, 3, NULL, 0, 0, 2, 3, 0, &belong) == CWM_DONE && belong == 1);

  /* roots: no data, no shards, and the path of the only shard, which has no digest */
  size_t steps = 7, room = 7;
  uint8_t root[CWM_DIGEST_SIZE], paths[6 * CWM_DIGEST_SIZE];
  const uint32_t masks[3] = {0, 0, 0};
  uint32_t under = 7;
  WANT(cwm_path_sizes(1, 0, &steps, &room) == CWM_DONE && steps == 0 && room == 0);
  WANT(cwm_commit(NULL, 0, 1, 1, NULL, 0, &mask, root, NULL, 0) == CWM_DONE && mask == 0);
  WANT(cwm_shard_is_under(root, NULL, 0, 0, 1, 1, 0, 0, NULL, 0, &under) == CWM_DONE && under == 1);
  WANT(cwm_shard_is_under(root, NULL, 0, 8, 1, 1, 0, 0, NULL, 0, &under) == CWM_WRONG_SIZE && under == 1);
  WANT(cwm_join_under(root, indices, 1, masks, 1, NULL, 0, NULL, 0, 1, 1, 1, NULL, 0, wrong, 1, &many) == CWM_DONE && many == 0);
  WANT(cwm_join_under(root, NULL, 0, NULL, 0, NULL, 0, NULL, 0, 1, 1, 1, NULL, 0, NULL, 0, &many) == CWM_TOO_FEW);
  WANT(cwm_commit(NULL, 0, 2, 3, NULL, 0, &mask, root, NULL, 0) == CWM_WRONG_SIZE);
  WANT(cwm_commit(NULL, 0, 2, 3, NULL, 0, &mask, root, paths, 6) == CWM_DONE && mask == 0);
  WANT(cwm_join_under(root, indices, 3, masks, 3, NULL, 0, NULL, 0, 2, 3, 0, NULL, 0, wrong, 3, &many) == CWM_WRONG_SIZE);
  WANT(cwm_join_under(root, indices, 3, NULL, 0, NULL, 0, paths, 6, 2, 3, 0, NULL, 0, wrong, 3, &many) == CWM_WRONG_SIZE);
  WANT(cwm_join_under(root, indices, 3, masks, 3, NULL, 0, paths, 6, 2, 3, 0, NULL, 0, NULL, 0, &many) == CWM_WRONG_SIZE);
  WANT(cwm_join_under(root, indices, 3, masks, 3, NULL, 0, paths, 6, 2, 3, 1, NULL, 0, wrong, 3, &many) == CWM_DONE && many == 0);
  return 0;
}
