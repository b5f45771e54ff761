/* Two faults at once, at each call that can have them: it answers the one that comes first in the header, and writes nothing. Its
 * status is 0 where all answered as they have to, and else the line that did not. */
#include "commonware_math.h"

#include <string.h>

#define REFUSES(status, call) \
  do { \
    if ((call) != (status) || memcmp(&now, &before, sizeof now) != 0) return __LINE__ % 255 + 1; \
  } while (0)

enum { HIGH = 4, SHARD = 2, BYTES = 24, ROW = 8 };

/* All that calls may write. */
struct given {
  uint64_t value, cells[HIGH], weights[2], coefficients[2], words[4], shards[3 * SHARD];
  uint8_t bytes[32], block[48], byte_shards[3 * BYTES];
  size_t written, wrong[3], size, many;
  uint8_t parity[2 * ROW], out[2 * ROW], data[12];
  uint32_t mask, belong;
  uint8_t root[CWM_DIGEST_SIZE], paths[8 * CWM_DIGEST_SIZE];
};

static struct given now, before;

int main(void) {
  const uint64_t P = CWM_MODULUS, low[4] = {4, 6, 8, 0}, high[4] = {4, P, 8, 0};
  const uint8_t filled[4] = {1, 1, 1, 0}, unlike[4] = {1, 2, 1, 0}, one[4] = {1, 0, 0, 0};
  size_t size = 0;
  memset(&before, 7, sizeof before);
  memcpy(before.cells, high, sizeof high);
  memcpy(&now, &before, sizeof now);

  /* a number of words that is none, and a word of P or more, x too */
  REFUSES(CWM_WRONG_SIZE, cwm_eval(high, 0, P, &now.value));
  REFUSES(CWM_OUT_OF_RANGE, cwm_eval(high, 2, P, &now.value));
  REFUSES(CWM_WRONG_SIZE, cwm_evaluate(now.cells, 3, 1));
  REFUSES(CWM_WRONG_SIZE, cwm_evaluate(now.cells, 4, 0));
  REFUSES(CWM_WRONG_SIZE, cwm_interpolate(now.cells, 3, 1));

  /* the same beside a byte that is none, no room and too few rows */
  REFUSES(CWM_WRONG_SIZE, cwm_recover(now.cells, 4, 1, unlike, 2));
  REFUSES(CWM_OUT_OF_RANGE, cwm_recover(now.cells, 4, 1, unlike, 4));
  REFUSES(CWM_WRONG_SIZE, cwm_correct(now.cells, 4, 1, filled, 2, 4, now.wrong, 3, &now.written));
  REFUSES(CWM_WRONG_SIZE, cwm_correct(now.cells, 4, 1, unlike, 4, 4, now.wrong, 1, &now.written));
  REFUSES(CWM_OUT_OF_RANGE, cwm_correct(now.cells, 4, 1, filled, 4, 4, now.wrong, 2, &now.written));
  REFUSES(CWM_OUT_OF_RANGE, cwm_correct(now.cells, 4, 1, unlike, 4, 4, now.wrong, 2, &now.written));
  now.cells[1] = before.cells[1] = 5;
  REFUSES(CWM_TOO_FEW, cwm_correct(now.cells, 4, 1, one, 4, 2, now.wrong, 2, &now.written));
  REFUSES(CWM_INCONSISTENT, cwm_correct(now.cells, 4, 1, filled, 4, 2, now.wrong, 2, &now.written));

  /* a point twice, other values, and none that is near */
  const uint64_t twice[4] = {1, 2, 2, 3}, twice_high[4] = {1, 2, 2, P}, values[4] = {3, 5, 9, 1};
  REFUSES(CWM_WRONG_SIZE, cwm_decode(twice_high, 4, values, 3, now.coefficients, 2, now.wrong, 3, &now.written));
  REFUSES(CWM_WRONG_SIZE, cwm_decode(twice_high, 4, values, 4, now.coefficients, 2, now.wrong, 0, &now.written));
  REFUSES(CWM_OUT_OF_RANGE, cwm_decode(twice_high, 4, values, 4, now.coefficients, 2, now.wrong, 3, &now.written));
  REFUSES(CWM_OUT_OF_RANGE, cwm_decode(twice, 4, high, 4, now.coefficients, 2, now.wrong, 3, &now.written));
  REFUSES(CWM_REPEATED, cwm_decode(twice, 4, values, 4, now.coefficients, 2, now.wrong, 3, &now.written));
  REFUSES(CWM_REPEATED, cwm_decode(twice, 3, values, 3, now.coefficients, 0, now.wrong, 3, &now.written));

  /* numbers of weights, x, and indices that do not rise */
  const uint32_t falling[2] = {1, 0}, beyond[2] = {0, 8};
  REFUSES(CWM_WRONG_SIZE, cwm_weights(high, 2, P, now.weights, 1));
  REFUSES(CWM_WRONG_SIZE, cwm_weights_at_roots(0, falling, 2, P, now.weights, 2));
  REFUSES(CWM_WRONG_SIZE, cwm_weights_at_roots(8, falling, 2, P, now.weights, 1));
  REFUSES(CWM_OUT_OF_RANGE, cwm_weights_at_roots(8, falling, 2, P, now.weights, 2));
  REFUSES(CWM_WRONG_INDEX, cwm_weights_at_roots(8, beyond, 2, 5, now.weights, 2));

  /* no coefficient, a word of P or more, no room */
  REFUSES(CWM_WRONG_SIZE, cwm_encode_poly(high, 0, now.bytes, 0, &now.written));
  REFUSES(CWM_OUT_OF_RANGE, cwm_encode_poly(high, 2, now.bytes, 16, &now.written));
  REFUSES(CWM_WRONG_SIZE, cwm_encode_poly(low, 2, now.bytes, 16, &now.written));

  /* faults of bytes come from left to right, and all before the room */
  uint8_t encoded[18] = {2, 255, 255, 255, 255, 255, 255, 255, 255, 0, 0, 0, 0, 0, 0, 0, 5, 9};
  REFUSES(CWM_OUT_OF_RANGE, cwm_decode_poly(encoded, 12, now.words, 0, &now.written));
  REFUSES(CWM_OUT_OF_RANGE, cwm_decode_poly(encoded, 18, now.words, 0, &now.written));
  encoded[1] = 0;
  REFUSES(CWM_END_OF_BUFFER, cwm_decode_poly(encoded, 16, now.words, 1, &now.written));
  REFUSES(CWM_EXTRA_DATA, cwm_decode_poly(encoded, 18, now.words, 1, &now.written));
  REFUSES(CWM_WRONG_SIZE, cwm_decode_poly(encoded, 17, now.words, 1, &now.written));
  encoded[0] = 0;
  REFUSES(CWM_INVALID_LENGTH, cwm_decode_poly(encoded, 17, now.words, 0, &now.written));
  memset(encoded, 255, sizeof encoded);
  REFUSES(CWM_INVALID_VARINT, cwm_decode_poly(encoded, 17, now.words, 0, &now.written));

  /* numbers that shards do not have, and no room for these */
  REFUSES(CWM_MISMATCH, cwm_shard_sizes((size_t)-1, 4, 3, &now.size));
  REFUSES(CWM_MISMATCH, cwm_split(low, 2, 0, 3, now.shards, 5));
  REFUSES(CWM_MISMATCH, cwm_shard_bytes_sizes((size_t)-1, 0, 0, &now.size));
  REFUSES(CWM_MISMATCH, cwm_split_bytes(encoded, 10, 4, 3, now.byte_shards, 5));

  /* shards of words: of three, any two give the data back */
  uint64_t shards[4 * SHARD];
  const uint32_t all[4] = {0, 1, 2, 0}, none[4] = {0, 1, 7, 0}, same[2] = {2, 2};
  if (cwm_shard_sizes(2, 2, 3, &size) != CWM_DONE || size != SHARD || cwm_split(low, 2, 2, 3, shards, 3 * SHARD) != CWM_DONE) return 1;
  memcpy(shards + 3 * SHARD, shards, SHARD * sizeof *shards);
  shards[3 * SHARD] ^= 1;
  uint64_t spoiled[4 * SHARD];
  memcpy(spoiled, shards, sizeof shards);
  spoiled[1] = P;
  REFUSES(CWM_WRONG_SIZE, cwm_join(all, 4, 0, 3, spoiled, 7, now.words, 0, &now.written));
  REFUSES(CWM_OUT_OF_RANGE, cwm_join(all, 4, 0, 3, spoiled, 8, now.words, 0, &now.written));
  REFUSES(CWM_TOO_FEW, cwm_join(all, 0, 0, 3, shards, 0, now.words, 0, &now.written));
  REFUSES(CWM_MISMATCH, cwm_join(none, 4, 4, 3, shards, 8, now.words, 0, &now.written));
  REFUSES(CWM_WRONG_INDEX, cwm_join(none, 4, 2, 3, shards, 8, now.words, 0, &now.written));
  REFUSES(CWM_CONFLICT, cwm_join(all, 4, 2, 3, shards, 8, now.words, 0, &now.written));
  REFUSES(CWM_CONFLICT, cwm_join(same, 2, 2, 3, shards, 4, now.words, 0, &now.written));
  REFUSES(CWM_CONFLICT, cwm_join(same, 2, 3, 3, shards, 4, now.words, 0, &now.written));
  shards[3 * SHARD] ^= 1;
  shards[0] ^= 1, shards[3 * SHARD] ^= 1;
  REFUSES(CWM_TOO_FEW, cwm_join(all, 1, 2, 3, shards, 2, now.words, 0, &now.written));
  REFUSES(CWM_INCONSISTENT, cwm_join(all, 4, 2, 3, shards, 8, now.words, 0, &now.written));
  shards[0] ^= 1, shards[3 * SHARD] ^= 1;
  REFUSES(CWM_WRONG_SIZE, cwm_join(all, 4, 2, 3, shards, 8, now.words, 1, &now.written));
  REFUSES(CWM_WRONG_SIZE,
          cwm_join_corrected(all, 4, 0, 3, spoiled, 7, now.words, 0, &now.written, now.wrong, 3, &now.many));
  REFUSES(CWM_WRONG_SIZE,
          cwm_join_corrected(all, 4, 0, 3, spoiled, 8, now.words, 0, &now.written, now.wrong, 3, &now.many));
  size_t left_out[4];
  REFUSES(CWM_OUT_OF_RANGE, cwm_join_corrected(all, 4, 0, 3, spoiled, 8, now.words, 0, &now.written, left_out, 4, &now.many));
  REFUSES(CWM_TOO_FEW, cwm_join_corrected(all, 0, 0, 3, shards, 0, now.words, 0, &now.written, left_out, 4, &now.many));
  REFUSES(CWM_MISMATCH, cwm_join_corrected(none, 4, 4, 3, shards, 8, now.words, 0, &now.written, left_out, 4, &now.many));
  REFUSES(CWM_WRONG_INDEX, cwm_join_corrected(none, 4, 2, 3, shards, 8, now.words, 0, &now.written, left_out, 4, &now.many));
  REFUSES(CWM_TOO_FEW, cwm_join_corrected(same, 2, 2, 3, shards, 4, now.words, 0, &now.written, left_out, 4, &now.many));
  shards[0] ^= 1;
  REFUSES(CWM_INCONSISTENT, cwm_join_corrected(all, 3, 2, 3, shards, 6, now.words, 0, &now.written, left_out, 4, &now.many));

  /* and of bytes */
  static const uint8_t bytes[11] = "0123456789";
  uint8_t byte_shards[4 * BYTES], high_bytes[4 * BYTES];
  if (cwm_shard_bytes_sizes(10, 2, 3, &size) != CWM_DONE || size != BYTES || cwm_split_bytes(bytes, 10, 2, 3, byte_shards, 3 * BYTES) != CWM_DONE)
    return 2;
  memcpy(byte_shards + 3 * BYTES, byte_shards, BYTES);
  byte_shards[3 * BYTES + 7] ^= 1;
  memcpy(high_bytes, byte_shards, sizeof byte_shards);
  memset(high_bytes + 8, 255, 8);
  REFUSES(CWM_WRONG_SIZE, cwm_join_bytes(all, 4, 0, 3, high_bytes, 95, now.block, 0, &now.written));
  REFUSES(CWM_OUT_OF_RANGE, cwm_join_bytes(all, 4, 0, 3, high_bytes, 96, now.block, 0, &now.written));
  REFUSES(CWM_TOO_FEW, cwm_join_bytes(all, 0, 0, 3, byte_shards, 0, now.block, 0, &now.written));
  REFUSES(CWM_MISMATCH, cwm_join_bytes(none, 4, 4, 3, byte_shards, 96, now.block, 0, &now.written));
  REFUSES(CWM_WRONG_INDEX, cwm_join_bytes(none, 4, 2, 3, byte_shards, 96, now.block, 0, &now.written));
  REFUSES(CWM_CONFLICT, cwm_join_bytes(all, 4, 2, 3, byte_shards, 96, now.block, 0, &now.written));
  REFUSES(CWM_CONFLICT, cwm_join_bytes(same, 2, 2, 3, byte_shards, 48, now.block, 0, &now.written));
  REFUSES(CWM_TOO_FEW, cwm_join_bytes(all, 1, 2, 3, byte_shards, 24, now.block, 0, &now.written));
  byte_shards[7] ^= 1;
  REFUSES(CWM_INCONSISTENT, cwm_join_bytes(all, 4, 2, 3, byte_shards, 96, now.block, 0, &now.written));
  byte_shards[7] ^= 1, byte_shards[3 * BYTES + 7] ^= 1;
  REFUSES(CWM_WRONG_SIZE, cwm_join_bytes(all, 4, 2, 3, byte_shards, 96, now.block, 9, &now.written));
  REFUSES(CWM_WRONG_SIZE,
          cwm_join_bytes_corrected(all, 4, 0, 3, high_bytes, 95, now.block, 0, &now.written, left_out, 4, &now.many));
  REFUSES(CWM_WRONG_SIZE,
          cwm_join_bytes_corrected(all, 4, 0, 3, high_bytes, 96, now.block, 0, &now.written, left_out, 3, &now.many));
  REFUSES(CWM_OUT_OF_RANGE,
          cwm_join_bytes_corrected(all, 4, 0, 3, high_bytes, 96, now.block, 0, &now.written, left_out, 4, &now.many));
  REFUSES(CWM_TOO_FEW, cwm_join_bytes_corrected(all, 0, 0, 3, byte_shards, 0, now.block, 0, &now.written, left_out, 4, &now.many));
  REFUSES(CWM_MISMATCH, cwm_join_bytes_corrected(none, 4, 4, 3, byte_shards, 96, now.block, 0, &now.written, left_out, 4, &now.many));
  REFUSES(CWM_WRONG_INDEX,
          cwm_join_bytes_corrected(none, 4, 2, 3, byte_shards, 96, now.block, 0, &now.written, left_out, 4, &now.many));
  REFUSES(CWM_TOO_FEW, cwm_join_bytes_corrected(same, 2, 2, 3, byte_shards, 48, now.block, 0, &now.written, left_out, 4, &now.many));
  byte_shards[7] ^= 1;
  REFUSES(CWM_INCONSISTENT,
          cwm_join_bytes_corrected(all, 3, 2, 3, byte_shards, 72, now.block, 0, &now.written, left_out, 4, &now.many));

  /* shards of words that are those of no bytes, and no room */
  uint64_t of_no_word[2 * SHARD];
  uint8_t of_no_byte[2 * 8 * SHARD];
  if (cwm_shard_sizes(0, 1, 2, &size) != CWM_DONE || size != SHARD || cwm_split(low, 0, 1, 2, of_no_word, 2 * SHARD) != CWM_DONE) return 3;
  for (size_t i = 0; i < sizeof of_no_byte; i++) of_no_byte[i] = (uint8_t)(of_no_word[i / 8] >> 8 * (7 - i % 8));
  REFUSES(CWM_INCONSISTENT, cwm_join_bytes(all, 2, 1, 2, of_no_byte, sizeof of_no_byte, now.block, 0, &now.written));

  /* systematic shards: of four rows any two give the others back; the fifth is another row of index 0 */
  static const uint8_t data[12] = "0123456789\n";
  const uint32_t in_order[5] = {0, 1, 2, 3, 0}, high_index[5] = {0, 1, 2, 4, 0}, copies[2] = {2, 2}, lost[2] = {3, 1}, none_wanted[2] = {1, 4};
  uint8_t row[5 * ROW] = {0}, no_element[5 * ROW];
  uint32_t mask = 7;
  if (cwm_systematic_sizes(12, 2, 4, 1, &size, &now.size) != CWM_DONE || size != ROW || now.size != 4) return 4;
  now.size = before.size;
  memcpy(row, data, 12);
  if (cwm_systematic_encode(data, 12, 2, 4, row + 2 * ROW, 2 * ROW, &mask) != CWM_DONE || mask != 0) return 5;
  memcpy(row + 4 * ROW, row, ROW);
  row[4 * ROW] ^= 1;
  memcpy(no_element, row, sizeof row);
  memset(no_element + 2 * ROW, 255, ROW);
  REFUSES(CWM_MISMATCH, cwm_systematic_sizes((size_t)-1, 4, 3, 9, &now.size, &now.many));
  REFUSES(CWM_MISMATCH, cwm_systematic_sizes((size_t)-1, 0, 3, 9, &now.size, &now.many));
  REFUSES(CWM_WRONG_SIZE, cwm_systematic_sizes((size_t)-1, 2, 3, 9, &now.size, &now.many));
  REFUSES(CWM_WRONG_INDEX, cwm_systematic_sizes(12, 2, 4, 4, &now.size, &now.many));
  REFUSES(CWM_MISMATCH, cwm_systematic_encode(data, 12, 0, 4, now.parity, 5, &now.mask));
  REFUSES(CWM_MISMATCH, cwm_systematic_encode(data, 12, 5, 4, now.parity, 5, &now.mask));
  REFUSES(CWM_WRONG_SIZE, cwm_systematic_encode(data, 12, 2, 4, now.parity, 2 * ROW - 1, &now.mask));

  REFUSES(CWM_MISMATCH, cwm_systematic_rebuild(high_index, 4, no_element, 31, 12, 5, 4, 0, none_wanted, 2, now.out, 15));
  REFUSES(CWM_WRONG_SIZE, cwm_systematic_rebuild(high_index, 4, no_element, 31, 12, 2, 4, 0, none_wanted, 2, now.out, 16));
  REFUSES(CWM_WRONG_SIZE, cwm_systematic_rebuild(high_index, 4, no_element, 32, 12, 2, 4, 0, none_wanted, 2, now.out, 15));
  REFUSES(CWM_WRONG_SIZE, cwm_systematic_rebuild(high_index, 0, no_element, 0, 12, 2, 4, 0, none_wanted, 2, now.out, 15));
  REFUSES(CWM_TOO_FEW, cwm_systematic_rebuild(high_index, 0, no_element, 0, 12, 2, 4, 0, none_wanted, 2, now.out, 16));
  REFUSES(CWM_WRONG_INDEX, cwm_systematic_rebuild(high_index, 4, no_element, 32, 12, 2, 4, 0, lost, 2, now.out, 16));
  REFUSES(CWM_WRONG_INDEX, cwm_systematic_rebuild(in_order, 4, no_element, 32, 12, 2, 4, 0, none_wanted, 2, now.out, 16));
  REFUSES(CWM_OUT_OF_RANGE, cwm_systematic_rebuild(in_order, 5, no_element, 40, 12, 2, 4, 0, lost, 2, now.out, 16));
  REFUSES(CWM_CONFLICT, cwm_systematic_rebuild(in_order, 5, row, 40, 12, 2, 4, 0, lost, 2, now.out, 16));
  REFUSES(CWM_CONFLICT, cwm_systematic_rebuild(copies, 2, row + 2 * ROW, 16, 12, 2, 4, 0, lost, 2, now.out, 16));
  REFUSES(CWM_TOO_FEW, cwm_systematic_rebuild(copies, 1, row + 2 * ROW, 8, 12, 2, 4, 0, lost, 2, now.out, 16));
  row[0] ^= 2;
  REFUSES(CWM_INCONSISTENT, cwm_systematic_rebuild(in_order, 4, row, 32, 12, 2, 4, 0, lost, 2, now.out, 16));
  REFUSES(CWM_INCONSISTENT, cwm_systematic_rebuild(in_order, 4, row, 32, 12, 2, 4, 0, lost, 0, now.out, 0));
  row[0] ^= 2;

  REFUSES(CWM_MISMATCH, cwm_systematic_rebuild_corrected(high_index, 4, no_element, 31, 12, 5, 4, 0, none_wanted, 2, now.out, 15,
                                                         now.wrong, 3, &now.many));
  REFUSES(CWM_WRONG_SIZE, cwm_systematic_rebuild_corrected(high_index, 4, no_element, 31, 12, 2, 4, 0, none_wanted, 2, now.out, 16,
                                                           left_out, 4, &now.many));
  REFUSES(CWM_WRONG_SIZE, cwm_systematic_rebuild_corrected(high_index, 4, no_element, 32, 12, 2, 4, 0, none_wanted, 2, now.out, 15,
                                                           left_out, 4, &now.many));
  REFUSES(CWM_WRONG_SIZE, cwm_systematic_rebuild_corrected(high_index, 4, no_element, 32, 12, 2, 4, 0, none_wanted, 2, now.out, 16,
                                                           now.wrong, 3, &now.many));
  REFUSES(CWM_TOO_FEW, cwm_systematic_rebuild_corrected(high_index, 0, no_element, 0, 12, 2, 4, 0, none_wanted, 2, now.out, 16,
                                                        now.wrong, 0, &now.many));
  REFUSES(CWM_WRONG_INDEX, cwm_systematic_rebuild_corrected(high_index, 4, no_element, 32, 12, 2, 4, 0, lost, 2, now.out, 16, left_out, 4,
                                                            &now.many));
  REFUSES(CWM_WRONG_INDEX, cwm_systematic_rebuild_corrected(in_order, 1, no_element, 8, 12, 2, 4, 0, none_wanted, 2, now.out, 16, left_out,
                                                            4, &now.many));
  /* unequal rows of one index, and a row with a word that is no element, count as missing */
  REFUSES(CWM_TOO_FEW, cwm_systematic_rebuild_corrected(copies, 2, row + 2 * ROW, 16, 12, 2, 4, 0, lost, 2, now.out, 16, now.wrong, 2,
                                                        &now.many));
  REFUSES(CWM_TOO_FEW, cwm_systematic_rebuild_corrected(in_order + 2, 2, no_element + 2 * ROW, 16, 12, 2, 4, 0, lost, 2, now.out, 16,
                                                        now.wrong, 2, &now.many));
  row[0] ^= 2;
  REFUSES(CWM_INCONSISTENT, cwm_systematic_rebuild_corrected(in_order, 3, row, 24, 12, 2, 4, 0, lost, 2, now.out, 16, now.wrong, 3,
                                                             &now.many));
  REFUSES(CWM_INCONSISTENT, cwm_systematic_rebuild_corrected(in_order, 3, row, 24, 12, 2, 4, 0, lost, 0, now.out, 0, now.wrong, 3,
                                                             &now.many));
  row[0] ^= 2;

  REFUSES(CWM_MISMATCH, cwm_systematic_decode(high_index, 4, no_element, 31, 5, 4, 0, now.data, 12));
  REFUSES(CWM_WRONG_SIZE, cwm_systematic_decode(high_index, 4, no_element, 31, 2, 4, 0, now.data, 12));
  REFUSES(CWM_TOO_FEW, cwm_systematic_decode(high_index, 0, no_element, 0, 2, 4, 0, now.data, 12));
  REFUSES(CWM_WRONG_INDEX, cwm_systematic_decode(high_index, 4, no_element, 32, 2, 4, 0, now.data, 12));
  REFUSES(CWM_OUT_OF_RANGE, cwm_systematic_decode(in_order, 5, no_element, 40, 2, 4, 0, now.data, 12));
  REFUSES(CWM_CONFLICT, cwm_systematic_decode(in_order, 5, row, 40, 2, 4, 0, now.data, 12));
  REFUSES(CWM_TOO_FEW, cwm_systematic_decode(copies, 1, row + 2 * ROW, 8, 2, 4, 0, now.data, 12));
  REFUSES(CWM_INCONSISTENT, cwm_systematic_decode(in_order, 4, row, 32, 2, 4, 0, now.data, 10));

  REFUSES(CWM_MISMATCH, cwm_systematic_verify(high_index, 4, no_element, 31, 12, 0, 4, 0, &now.belong));
  REFUSES(CWM_WRONG_SIZE, cwm_systematic_verify(high_index, 4, no_element, 31, 12, 2, 4, 0, &now.belong));
  REFUSES(CWM_TOO_FEW, cwm_systematic_verify(high_index, 0, no_element, 0, 12, 2, 4, 0, &now.belong));
  REFUSES(CWM_WRONG_INDEX, cwm_systematic_verify(high_index, 4, no_element, 32, 12, 2, 4, 0, &now.belong));
  REFUSES(CWM_OUT_OF_RANGE, cwm_systematic_verify(in_order, 5, no_element, 40, 12, 2, 4, 0, &now.belong));
  REFUSES(CWM_TOO_FEW, cwm_systematic_verify(copies, 1, row + 2 * ROW, 8, 12, 2, 4, 0, &now.belong));
  /* rows that differ are an answer */
  if (cwm_systematic_verify(copies, 2, row + 2 * ROW, 16, 12, 2, 4, 0, &now.belong) != CWM_DONE || now.belong != 0) return 6;
  now.belong = before.belong;

  /* the roots of these rows, and of rows under another mask */
  enum { PLACE = 2 * CWM_DIGEST_SIZE };
  const uint32_t many_shards = 65537, masks[5] = {0, 0, 0, 0, 0};
  uint8_t root[CWM_DIGEST_SIZE], other_root[CWM_DIGEST_SIZE], paths[4 * PLACE], other_paths[4 * PLACE], parity[2 * ROW];
  uint8_t masked[12], masked_row[4 * ROW] = {0};
  uint32_t other = 7, other_masks[4];
  if (cwm_commit(data, 12, 2, 4, parity, 2 * ROW, &mask, root, paths, 8) != CWM_DONE || mask != 0) return 7;
  memset(masked, 255, 12);
  memcpy(masked_row, masked, 12);
  if (cwm_commit(masked, 12, 2, 4, masked_row + 2 * ROW, 2 * ROW, &other, other_root, other_paths, 8) != CWM_DONE || other == 0) return 8;
  for (int i = 0; i < 4; i++) other_masks[i] = other;
  REFUSES(CWM_WRONG_INDEX, cwm_path_sizes(4, 4, &now.size, &now.many));
  REFUSES(CWM_MISMATCH, cwm_commit(data, 12, 0, 4, now.parity, 5, &now.mask, now.root, now.paths, 7));
  REFUSES(CWM_WRONG_SIZE, cwm_commit(data, 12, 2, 4, now.parity, 5, &now.mask, now.root, now.paths, 8));
  REFUSES(CWM_WRONG_SIZE, cwm_commit(data, 12, 2, 4, now.parity, 2 * ROW, &now.mask, now.root, now.paths, 7));
  REFUSES(CWM_WRONG_SIZE, cwm_commit(data, 0, 2, many_shards, now.parity, 0, &now.mask, now.root, now.paths, 8));
  REFUSES(CWM_MISMATCH, cwm_shard_is_under(root, row, 7, 12, 5, 4, 0, 4, paths, 2, &now.belong));
  REFUSES(CWM_WRONG_SIZE, cwm_shard_is_under(root, row, 7, 12, 2, 4, 0, 4, paths, 2, &now.belong));
  REFUSES(CWM_MISMATCH, cwm_join_under(root, in_order, 4, masks, 3, row, 31, paths, 7, 5, 4, 1, now.data, 12, now.wrong, 2, &now.many));
  REFUSES(CWM_WRONG_SIZE, cwm_join_under(root, in_order, 3, masks, 2, row, 24, paths, 6, 2, 4, 1, now.data, 12, now.wrong, 3, &now.many));
  REFUSES(CWM_WRONG_SIZE, cwm_join_under(root, in_order, 3, masks, 3, row, 23, paths, 6, 2, 4, 1, now.data, 12, now.wrong, 3, &now.many));
  REFUSES(CWM_WRONG_SIZE, cwm_join_under(root, in_order, 3, masks, 3, row, 24, paths, 5, 2, 4, 1, now.data, 12, now.wrong, 3, &now.many));
  REFUSES(CWM_WRONG_SIZE, cwm_join_under(root, in_order, 3, masks, 3, row, 24, paths, 6, 2, 4, 1, now.data, 12, now.wrong, 2, &now.many));
  REFUSES(CWM_TOO_MANY, cwm_join_under(root, in_order, 0, masks, 0, row, 0, paths, 0, 2, many_shards, 1, now.data, 12, now.wrong, 3, &now.many));
  /* no shard, one alone, and one that is not under the root beside one that is */
  REFUSES(CWM_TOO_FEW, cwm_join_under(root, in_order, 0, masks, 0, row, 0, paths, 0, 2, 4, 1, now.data, 12, now.wrong, 3, &now.many));
  REFUSES(CWM_TOO_FEW, cwm_join_under(root, in_order, 1, masks, 1, row, 8, paths, 2, 2, 4, 1, now.data, 12, now.wrong, 3, &now.many));
  REFUSES(CWM_TOO_FEW, cwm_join_under(root, high_index + 3, 2, masks, 2, row, 16, paths, 4, 2, 4, 0, now.data, 12, now.wrong, 3, &now.many));
  REFUSES(CWM_TOO_FEW, cwm_join_under(root, in_order, 2, other_masks, 2, row, 16, paths, 4, 2, 4, 0, now.data, 12, now.wrong, 3, &now.many));
  REFUSES(CWM_TOO_FEW, cwm_join_under(other_root, in_order, 3, masks, 3, row, 24, paths, 6, 2, 4, 0, now.data, 12, now.wrong, 3, &now.many));
  return 0;
}
