/* Each call of the header once, and some that are refused, in C as in C++. Its status is 0 where all answered as they have to, and
 * else the line that did not. */
#include "commonware_math.h"

#include <string.h>

#define WANT(condition) \
  do { \
    if (!(condition)) return __LINE__ % 255 + 1; \
  } while (0)

int main(void) {
  char text[CWM_TEXT_SIZE];
  WANT(cwm_version() == CWM_VERSION);
  WANT(cwm_has_vectors() <= 1);
  WANT(cwm_status_text(CWM_OUT_OF_RANGE, text, sizeof text) == CWM_DONE && strcmp(text, "out of range") == 0);
  WANT(cwm_status_text(CWM_DONE, text, 31) == CWM_WRONG_SIZE);
  WANT(strcmp(cwm_status_name(CWM_REPEATED), "CWM_REPEATED") == 0 && strcmp(cwm_status_name(16), "no status") == 0);
  WANT(cwm_status_text(16, text, sizeof text) == CWM_DONE && strcmp(text, "no status") == 0);
  WANT(cwm_status_text(15, text, sizeof text) == CWM_DONE && strcmp(text, "no status") != 0);

  /* 4 + 6 X + 8 X^2 */
  uint64_t cells[4] = {4, 6, 8, 0}, value = 0;
  WANT(cwm_eval(cells, 3, 5, &value) == CWM_DONE && value == 234);
  WANT(cwm_eval(cells, 3, CWM_MODULUS, &value) == CWM_OUT_OF_RANGE && value == 234);
  WANT(cwm_evaluate(cells, 4, 1) == CWM_DONE && cells[0] == 18);
  WANT(cwm_evaluate(cells, 3, 1) == CWM_WRONG_SIZE && cells[0] == 18);
  WANT(cwm_interpolate(cells, 4, 1) == CWM_DONE && cells[0] == 4 && cells[3] == 0);
  WANT(cwm_evaluate(cells, 4, 1) == CWM_DONE);
  uint8_t filled[4] = {0, 1, 1, 1};
  cells[0] = UINT64_C(0xffffffffffffffff);
  WANT(cwm_recover(cells, 4, 1, filled, 4) == CWM_DONE && cells[0] == 4 && cells[1] == 6 && cells[2] == 8 && cells[3] == 0);

  /* 4 + 6 X, with one row wrong */
  size_t wrong[2], written = 0;
  uint64_t rows[4] = {4, 6, 0, 0};
  filled[0] = 1;
  WANT(cwm_evaluate(rows, 4, 1) == CWM_DONE);
  rows[2] += 1;
  WANT(cwm_correct(rows, 4, 1, filled, 4, 2, wrong, 2, &written) == CWM_DONE && written == 1 && wrong[0] == 2);
  WANT(rows[0] == 4 && rows[1] == 6 && rows[2] == 0);
  const uint64_t points[4] = {1, 2, 3, 4}, values[4] = {3, 5, 8, 9};
  uint64_t coefficients[2], weights[2];
  WANT(cwm_decode(points, 4, values, 4, coefficients, 2, wrong, 2, &written) == CWM_DONE && written == 1 && wrong[0] == 2);
  WANT(coefficients[0] == 1 && coefficients[1] == 2);
  WANT(cwm_weights(points, 2, 3, weights, 2) == CWM_DONE && weights[0] == CWM_MODULUS - 1 && weights[1] == 2);
  const uint32_t first_two[2] = {0, 1}, again[2] = {1, 1};
  WANT(cwm_weights_at_roots(2, first_two, 2, 1, weights, 2) == CWM_DONE && weights[0] == 1 && weights[1] == 0);
  WANT(cwm_weights_at_roots(2, again, 2, 1, weights, 2) == CWM_WRONG_INDEX);

  uint8_t encoded[32];
  WANT(cwm_encode_poly(coefficients, 2, encoded, sizeof encoded, &written) == CWM_DONE && written == 17);
  coefficients[0] = coefficients[1] = 0;
  WANT(cwm_decode_poly(encoded, 17, coefficients, 2, &written) == CWM_DONE && written == 2 && coefficients[1] == 2);
  WANT(cwm_decode_poly(encoded, 18, coefficients, 2, &written) == CWM_EXTRA_DATA);
  WANT(cwm_decode_poly(encoded, 16, coefficients, 2, &written) == CWM_END_OF_BUFFER);

  /* shards of words: of three, the first is lost */
  const uint64_t words[2] = {UINT64_C(0xffffffffffffffff), 7};
  uint64_t shards[6], back[4];
  size_t size = 0;
  const uint32_t last_two[2] = {1, 2};
  WANT(cwm_shard_sizes(2, 2, 3, &size) == CWM_DONE && size == 2);
  WANT(cwm_split(words, 2, 2, 3, shards, 6) == CWM_DONE);
  WANT(cwm_join(last_two, 2, 2, 3, shards + 2, 4, back, 4, &written) == CWM_DONE && written == 2);
  WANT(back[0] == words[0] && back[1] == words[1]);

  /* of three shards of no word, one is wrong */
  const uint32_t all[3] = {0, 1, 2};
  size_t left_out[3], many = 0;
  WANT(cwm_shard_sizes(0, 1, 3, &size) == CWM_DONE && size == 2);
  WANT(cwm_split(words, 0, 1, 3, shards, 6) == CWM_DONE);
  shards[2] ^= 1;
  WANT(cwm_join_corrected(all, 3, 1, 3, shards, 6, back, 4, &written, left_out, 3, &many) == CWM_DONE);
  WANT(written == 0 && many == 1 && left_out[0] == 1);
  WANT(cwm_join(all, 3, 1, 3, shards, 6, back, 4, &written) == CWM_INCONSISTENT);

  /* and of bytes */
  static const uint8_t bytes[11] = "0123456789";
  uint8_t byte_shards[72], bytes_back[48];
  WANT(cwm_shard_bytes_sizes(10, 2, 3, &size) == CWM_DONE && size == 24);
  WANT(cwm_split_bytes(bytes, 10, 2, 3, byte_shards, 71) == CWM_WRONG_SIZE);
  WANT(cwm_split_bytes(bytes, 10, 2, 3, byte_shards, 72) == CWM_DONE);
  WANT(cwm_join_bytes(last_two, 2, 2, 3, byte_shards + 24, 48, bytes_back, 48, &written) == CWM_DONE && written == 10);
  WANT(memcmp(bytes, bytes_back, 10) == 0);
  WANT(cwm_join_bytes(last_two, 2, 2, 3, byte_shards + 24, 48, bytes_back, 9, &written) == CWM_WRONG_SIZE);
  WANT(cwm_join_bytes(last_two, 2, 2, 3, byte_shards + 24, 48, bytes_back, 10, &written) == CWM_DONE && written == 10);
  WANT(cwm_join_bytes(last_two, 1, 2, 3, byte_shards + 24, 24, bytes_back, 48, &written) == CWM_TOO_FEW);

  /* of three shards of these bytes, one is wrong */
  uint8_t three[120];
  WANT(cwm_shard_bytes_sizes(10, 1, 3, &size) == CWM_DONE && size == 40);
  WANT(cwm_split_bytes(bytes, 10, 1, 3, three, 120) == CWM_DONE);
  three[47] ^= 1;
  bytes_back[0] = 7;
  WANT(cwm_join_bytes_corrected(all, 3, 1, 3, three, 120, bytes_back, 9, &written, left_out, 3, &many) == CWM_WRONG_SIZE);
  WANT(cwm_join_bytes_corrected(all, 3, 1, 3, three, 120, bytes_back, 10, &written, left_out, 2, &many) == CWM_WRONG_SIZE);
  WANT(cwm_join_bytes_corrected(all, 3, 1, 3, three, 119, bytes_back, 10, &written, left_out, 3, &many) == CWM_WRONG_SIZE);
  WANT(bytes_back[0] == 7);
  WANT(cwm_join_bytes_corrected(all, 3, 1, 3, three, 120, bytes_back, 10, &written, left_out, 3, &many) == CWM_DONE);
  WANT(written == 10 && memcmp(bytes, bytes_back, 10) == 0 && many == 1 && left_out[0] == 1);
  WANT(cwm_join_bytes(all, 3, 1, 3, three, 120, bytes_back, 40, &written) == CWM_INCONSISTENT);
  WANT(cwm_join_bytes_corrected(all, 0, 1, 3, three, 0, bytes_back, 10, &written, left_out, 3, &many) == CWM_TOO_FEW);

  /* the shards of no word, of which one is wrong, are those of no bytes */
  for (int i = 0; i < 48; i++) byte_shards[i] = (uint8_t)(shards[i / 8] >> 8 * (7 - i % 8));
  WANT(cwm_join_bytes_corrected(all, 3, 1, 3, byte_shards, 48, bytes_back, 16, &written, left_out, 3, &many) == CWM_INCONSISTENT);

  /* systematic shards: the data are the first two of three rows, and the first is lost */
  uint8_t row[24] = {0}, lost_row[8], data_back[10];
  size_t row_size = 0, part = 0;
  uint32_t mask = 7, belong = 7;
  const uint32_t first[1] = {0};
  WANT(cwm_systematic_sizes(10, 2, 3, 1, &row_size, &part) == CWM_DONE && row_size == 8 && part == 2);
  memcpy(row, bytes, 10);
  WANT(cwm_systematic_encode(bytes, 10, 2, 3, row + 16, 8, &mask) == CWM_DONE && mask == 0);
  WANT(cwm_systematic_rebuild(last_two, 2, row + 8, 16, 10, 2, 3, mask, first, 1, lost_row, 8) == CWM_DONE);
  WANT(memcmp(lost_row, bytes, 8) == 0);
  WANT(cwm_systematic_rebuild(last_two, 2, row + 8, 16, 10, 2, 3, mask, first, 1, lost_row, 7) == CWM_WRONG_SIZE);
  WANT(cwm_systematic_decode(last_two, 2, row + 8, 16, 2, 3, mask, data_back, 10) == CWM_DONE);
  WANT(memcmp(data_back, bytes, 10) == 0);
  WANT(cwm_systematic_decode(last_two, 1, row + 8, 8, 2, 3, mask, data_back, 10) == CWM_TOO_FEW);
  WANT(cwm_systematic_verify(all, 3, row, 24, 10, 2, 3, mask, &belong) == CWM_DONE && belong == 1);
  row[3] ^= 1;
  WANT(cwm_systematic_verify(all, 3, row, 24, 10, 2, 3, mask, &belong) == CWM_DONE && belong == 0);
  WANT(cwm_systematic_rebuild(all, 3, row, 24, 10, 2, 3, mask, first, 1, lost_row, 8) == CWM_INCONSISTENT);

  /* of three rows, one of which is the data, one may be wrong, and of two none */
  uint8_t three_rows[24];
  memcpy(three_rows, bytes, 8);
  WANT(cwm_systematic_encode(bytes, 8, 1, 3, three_rows + 8, 16, &mask) == CWM_DONE && mask == 0);
  three_rows[3] ^= 1;
  WANT(cwm_systematic_rebuild_corrected(all, 3, three_rows, 24, 8, 1, 3, mask, first, 1, lost_row, 8, left_out, 3, &many) == CWM_DONE);
  WANT(memcmp(lost_row, bytes, 8) == 0 && many == 1 && left_out[0] == 0);
  WANT(cwm_systematic_rebuild_corrected(all, 2, three_rows, 16, 8, 1, 3, mask, first, 1, lost_row, 8, left_out, 2, &many) ==
       CWM_INCONSISTENT);

  /* the root of these shards: the paths of the first two have two digests, and the last one's has one; the first shard is spoiled */
  size_t steps = 0, room = 0, places[3] = {7, 7, 7};
  uint8_t root[CWM_DIGEST_SIZE], paths[6 * CWM_DIGEST_SIZE];
  const uint32_t masks[3] = {0, 0, 0};
  uint32_t under = 7;
  WANT(cwm_path_sizes(3, 2, &steps, &room) == CWM_DONE && steps == 1 && room == 2);
  WANT(cwm_commit(bytes, 10, 2, 3, row + 16, 8, &mask, root, paths, 5) == CWM_WRONG_SIZE);
  WANT(cwm_commit(bytes, 10, 2, 3, row + 16, 8, &mask, root, paths, 6) == CWM_DONE && mask == 0);
  WANT(cwm_shard_is_under(root, row + 16, 8, 10, 2, 3, mask, 2, paths + 4 * CWM_DIGEST_SIZE, 1, &under) == CWM_DONE && under == 1);
  WANT(cwm_shard_is_under(root, row, 8, 10, 2, 3, mask, 0, paths, 2, &under) == CWM_DONE && under == 0);
  for (uint32_t strict = 0; strict < 2; strict++) {
    memset(data_back, 0, 10);
    WANT(cwm_join_under(root, all, 3, masks, 3, row, 24, paths, 6, 2, 3, strict, data_back, 10, places, 3, &many) == CWM_DONE);
    WANT(many == 1 && places[0] == 0 && places[1] == 7 && memcmp(data_back, bytes, 10) == 0);
  }
  WANT(cwm_join_under(root, all, 2, masks, 2, row, 16, paths, 4, 2, 3, 1, data_back, 10, places, 3, &many) == CWM_TOO_FEW);
  return 0;
}
