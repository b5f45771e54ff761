// Empty vectors at each call: data() of these may be null. Its status is 0 where all answered as they have to, and else the line that
// did not.
#include "commonware_math.h"

#include <vector>

#define WANT(condition) \
  do { \
    if (!(condition)) return __LINE__ % 255 + 1; \
  } while (0)

int main() {
  std::vector<uint64_t> words, others;
  std::vector<uint8_t> bytes, block;
  std::vector<uint32_t> indices;
  std::vector<size_t> places;
  uint64_t value = 7;
  size_t written = 7, many = 7, size = 0;

  WANT(cwm_eval(words.data(), words.size(), 5, &value) == CWM_WRONG_SIZE);
  WANT(cwm_evaluate(words.data(), words.size(), 1) == CWM_WRONG_SIZE);
  WANT(cwm_interpolate(words.data(), words.size(), 1) == CWM_WRONG_SIZE);
  WANT(cwm_recover(words.data(), words.size(), 1, bytes.data(), bytes.size()) == CWM_WRONG_SIZE);
  WANT(cwm_correct(words.data(), words.size(), 1, bytes.data(), bytes.size(), 0, places.data(), places.size(), &written) == CWM_WRONG_SIZE);
  WANT(cwm_decode(words.data(), words.size(), words.data(), words.size(), others.data(), others.size(), places.data(), places.size(),
                  &written) == CWM_DONE);
  WANT(written == 0);
  WANT(cwm_weights(words.data(), words.size(), 5, others.data(), others.size()) == CWM_DONE);
  WANT(cwm_weights_at_roots(8, indices.data(), indices.size(), 5, others.data(), others.size()) == CWM_DONE);
  WANT(cwm_encode_poly(words.data(), words.size(), bytes.data(), bytes.size(), &written) == CWM_WRONG_SIZE);
  WANT(cwm_decode_poly(bytes.data(), bytes.size(), others.data(), others.size(), &written) == CWM_END_OF_BUFFER);

  // the data of no words, and of no bytes, come back from their shards; no shards are too few
  WANT(cwm_shard_sizes(words.size(), 2, 3, &size) == CWM_DONE);
  std::vector<uint64_t> shards(3 * size);
  const std::vector<uint32_t> all = {0, 1, 2};
  std::vector<size_t> wrong(3);
  WANT(cwm_split(words.data(), words.size(), 2, 3, shards.data(), shards.size()) == CWM_DONE);
  WANT(cwm_join(all.data(), all.size(), 2, 3, shards.data(), shards.size(), others.data(), others.size(), &written) == CWM_DONE);
  WANT(cwm_join(indices.data(), indices.size(), 2, 3, words.data(), words.size(), others.data(), others.size(), &written) == CWM_TOO_FEW);
  WANT(cwm_join_corrected(all.data(), all.size(), 2, 3, shards.data(), shards.size(), others.data(), others.size(), &written, wrong.data(),
                          wrong.size(), &many) == CWM_DONE);
  WANT(cwm_join_corrected(indices.data(), indices.size(), 2, 3, words.data(), words.size(), others.data(), others.size(), &written,
                          places.data(), places.size(), &many) == CWM_TOO_FEW);
  WANT(cwm_shard_bytes_sizes(block.size(), 2, 3, &size) == CWM_DONE);
  std::vector<uint8_t> byte_shards(3 * size);
  WANT(cwm_split_bytes(block.data(), block.size(), 2, 3, byte_shards.data(), byte_shards.size()) == CWM_DONE);
  WANT(cwm_join_bytes(all.data(), all.size(), 2, 3, byte_shards.data(), byte_shards.size(), block.data(), block.size(), &written) ==
       CWM_DONE);
  WANT(cwm_join_bytes(indices.data(), indices.size(), 2, 3, bytes.data(), bytes.size(), block.data(), block.size(), &written) ==
       CWM_TOO_FEW);
  WANT(cwm_join_bytes_corrected(all.data(), all.size(), 2, 3, byte_shards.data(), byte_shards.size(), block.data(), block.size(), &written,
                                wrong.data(), wrong.size(), &many) == CWM_DONE);
  WANT(cwm_join_bytes_corrected(indices.data(), indices.size(), 2, 3, bytes.data(), bytes.size(), block.data(), block.size(), &written,
                                places.data(), places.size(), &many) == CWM_TOO_FEW);

  // systematic shards of no bytes have rows of no bytes
  std::vector<uint8_t> none, rows_in_hand;
  uint32_t mask = 7, belong = 7;
  WANT(cwm_systematic_sizes(none.size(), 2, 3, 0, &size, &many) == CWM_DONE && size == 0 && many == 0);
  WANT(cwm_systematic_encode(none.data(), none.size(), 2, 3, bytes.data(), bytes.size(), &mask) == CWM_DONE && mask == 0);
  WANT(cwm_systematic_rebuild(all.data(), all.size(), rows_in_hand.data(), rows_in_hand.size(), none.size(), 2, 3, mask, indices.data(),
                              indices.size(), bytes.data(), bytes.size()) == CWM_DONE);
  WANT(cwm_systematic_rebuild(indices.data(), indices.size(), rows_in_hand.data(), rows_in_hand.size(), none.size(), 2, 3, mask, all.data(),
                              all.size(), bytes.data(), bytes.size()) == CWM_TOO_FEW);
  WANT(cwm_systematic_decode(all.data(), all.size(), rows_in_hand.data(), rows_in_hand.size(), 2, 3, mask, none.data(), none.size()) ==
       CWM_DONE);
  WANT(cwm_systematic_verify(all.data(), all.size(), rows_in_hand.data(), rows_in_hand.size(), none.size(), 2, 3, mask, &belong) ==
       CWM_DONE && belong == 1);
  return 0;
}
