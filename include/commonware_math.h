/* commonware-math for C: polynomials over the Goldilocks field and data in shards, in the caller's memory.
 *
 * An element of the field is a whole number below P = 2^64 - 2^32 + 1, in a uint64_t. A call on elements tests each word,
 * and answers CWM_OUT_OF_RANGE if one is P or more. It does not read rows that are not filled. Coefficients go from the
 * constant upwards.
 *
 * Rows of cells lie one behind the other: cell (i, k) is cells[i * cols + k], and each column is a
 * polynomial of its own. A domain has N = 2^lg points, lg at most 32: point i is power i of the root of
 * order N, which is 0xee41f5320c4ea145 to the power 2^(32 - lg).
 *
 * Each function but cwm_version, cwm_has_vectors and cwm_status_name answers a status. If it is not CWM_DONE, the call wrote nothing.
 * A text names statuses in their order: if several apply, the call answers the first of them. If malloc gives no memory,
 * CWM_OUT_OF_MEMORY may come in place of each but the first.
 *
 * The library keeps nothing between calls, so calls on buffers of their own may run at the same time, in any threads.
 *
 * For each call the text says how much memory it takes until it ends, in words of 8 bytes. That is the most that we
 * measured, with an allocator that copies a block that grows.
 *
 * The caller has to see to what no function can test:
 * - a pointer is aligned for what it points to, and is not null; only if its length is 0, it may be null;
 * - the length behind it is true, and below 2^63 bytes;
 * - what is written does not overlap with anything else that is handed in;
 * - malloc, realloc and free are the C library's, or keep its promises;
 * - no function is called from a signal handler.
 */
#ifndef COMMONWARE_MATH_H
#define COMMONWARE_MATH_H

#include <stddef.h>
#include <stdint.h>

#ifdef __cplusplus
extern "C" {
#endif

/* The version of this header, and as one number. */
#define CWM_VERSION_MAJOR 1
#define CWM_VERSION_MINOR 0
#define CWM_VERSION_PATCH 0
#define CWM_VERSION (10000 * CWM_VERSION_MAJOR + 100 * CWM_VERSION_MINOR + CWM_VERSION_PATCH)

/* Compilers warn where a status is not used. */
#if defined(__GNUC__) || defined(__clang__)
#define CWM_MUST_USE __attribute__((warn_unused_result))
#else
#define CWM_MUST_USE
#endif

/* P, the modulus. */
#define CWM_MODULUS UINT64_C(0xffffffff00000001)

/* What a call answers. */
enum cwm_status {
  CWM_DONE = 0,            /* the call did what it says */
  CWM_OUT_OF_MEMORY = 1,   /* malloc gave none */
  CWM_OUT_OF_RANGE = 2,    /* a word is no element, or a byte that says whether a row is filled is neither 0 nor 1 */
  CWM_WRONG_SIZE = 3,      /* a number of words, rows or columns is none that the call takes, or there is no room */
  CWM_TOO_FEW = 4,         /* there are fewer than `min` distinct indices of shards, or fewer filled rows than coefficients */
  CWM_MISMATCH = 5,        /* not 1 <= min <= total */
  CWM_WRONG_INDEX = 6,     /* an index is not below the total, or, for weights, not above the one before it */
  CWM_CONFLICT = 7,        /* two shards have one index, and differ */
  CWM_INCONSISTENT = 8,    /* nothing fits: no data have all of the shards, or no polynomials are near the values */
  CWM_END_OF_BUFFER = 9,   /* the bytes end within a polynomial */
  CWM_INVALID_VARINT = 10, /* the bytes begin with no length */
  CWM_INVALID_LENGTH = 11, /* the length is zero */
  CWM_EXTRA_DATA = 12,     /* bytes follow the polynomial */
  CWM_REPEATED = 13,       /* a point is there twice */
  CWM_TOO_MANY = 14,       /* a block with a root has more than 65,536 shards */
  CWM_WRONG_ROOT = 15      /* the data of the shards under a root have another root */
};

/* Returns the version of the library, as CWM_VERSION is that of the header. */
uint32_t cwm_version(void);

/* Returns 1 if the library computes eight words at a time, by vectors, and else 0. Its answers are the same either way. */
uint32_t cwm_has_vectors(void);

/* Returns the name of a status, as "CWM_DONE". For a number that is no status it is "no status". */
static inline const char *cwm_status_name(uint32_t status) {
  switch (status) {
    case CWM_DONE: return "CWM_DONE";
    case CWM_OUT_OF_MEMORY: return "CWM_OUT_OF_MEMORY";
    case CWM_OUT_OF_RANGE: return "CWM_OUT_OF_RANGE";
    case CWM_WRONG_SIZE: return "CWM_WRONG_SIZE";
    case CWM_TOO_FEW: return "CWM_TOO_FEW";
    case CWM_MISMATCH: return "CWM_MISMATCH";
    case CWM_WRONG_INDEX: return "CWM_WRONG_INDEX";
    case CWM_CONFLICT: return "CWM_CONFLICT";
    case CWM_INCONSISTENT: return "CWM_INCONSISTENT";
    case CWM_END_OF_BUFFER: return "CWM_END_OF_BUFFER";
    case CWM_INVALID_VARINT: return "CWM_INVALID_VARINT";
    case CWM_INVALID_LENGTH: return "CWM_INVALID_LENGTH";
    case CWM_EXTRA_DATA: return "CWM_EXTRA_DATA";
    case CWM_REPEATED: return "CWM_REPEATED";
    case CWM_TOO_MANY: return "CWM_TOO_MANY";
    case CWM_WRONG_ROOT: return "CWM_WRONG_ROOT";
    default: return "no status";
  }
}

/* How many bytes hold the text of any status and a zero behind it. */
#define CWM_TEXT_SIZE 32

/* Writes the text of a status, in ASCII, and zeros behind it, up to m bytes. For a number that is no status it is
 * "no status". If m is below CWM_TEXT_SIZE: CWM_WRONG_SIZE. */
uint32_t cwm_status_text(uint32_t status, char *text, size_t m);

/* Writes the value at x of the polynomial with these n coefficients into *out.
 * n is 1 to 2^32 - 1, else CWM_WRONG_SIZE. A word of P or more, x too: CWM_OUT_OF_RANGE. Takes memory for 512 words at
 * most, and for 2,048 if n is 2^17 or more. */
CWM_MUST_USE uint32_t cwm_eval(const uint64_t *coefficients, size_t n, uint64_t x, uint64_t *out);

/* Evaluates polynomials at all points of a domain: row i of the cells holds coefficient i of each polynomial, and gets
 * the values at point i.
 * n cells in rows of `cols`: cols is 1 or more, n is cols times the number of rows, and that is a power of two, 2^32 at
 * most, else CWM_WRONG_SIZE. A word of P or more: CWM_OUT_OF_RANGE. Takes memory for n words, one more a row, and 64. */
CWM_MUST_USE uint32_t cwm_evaluate(uint64_t *cells, size_t n, size_t cols);

/* Goes the way back: row i holds the values at point i, and gets coefficient i of each polynomial.
 * Sizes, statuses and memory as for cwm_evaluate. */
CWM_MUST_USE uint32_t cwm_interpolate(uint64_t *cells, size_t n, size_t cols);

/* Recovers polynomials of at most m coefficients from any m rows of their values. If filled[i] is 1, row i of the cells
 * holds the values at point i. If it is 0, the row may hold anything, and is not read. Let m rows be filled. In each
 * column the call finds the only polynomial of at most m coefficients that has their values. Puts its coefficients in
 * place of the cells, coefficient i in row i, and zeros from row m on.
 * n cells in rows of `cols`: cols is 1 or more, n is cols times rows, and rows is a power of two, 2^32 at most, else
 * CWM_WRONG_SIZE. A byte of `filled` that is neither 0 nor 1, or a word of P or more in a filled row:
 * CWM_OUT_OF_RANGE. Takes memory for n words, four more a row, and 1024. */
CWM_MUST_USE uint32_t cwm_recover(uint64_t *cells, size_t n, size_t cols, const uint8_t *filled, size_t rows);

/* Does what cwm_recover does though some of the filled rows are wrong, and says which. A row is wrong if one of its
 * cells is. Let m rows be filled. Puts in place of the cells the coefficients of polynomials of at most `count`
 * coefficients that have the values of all filled rows but at most (m - count) / 2, rounded down. They are the only such
 * polynomials. Writes the numbers of the wrong rows, rising, over the first of the `room` places of `wrong`, and how many
 * they are into *written. If more rows are wrong than that, they may fit other polynomials, and the call then gives these.
 * n, cols and rows are as for cwm_recover, and room is rows / 2 or more, else CWM_WRONG_SIZE. The bytes of `filled` and the
 * words of filled rows are as for cwm_recover, else CWM_OUT_OF_RANGE; a row that is not filled is not read. count is at most
 * m, else CWM_TOO_FEW. No such polynomials: CWM_INCONSISTENT. With no wrong row it takes the time of cwm_recover; with some,
 * time grows with their number and with m^2. Takes three times the memory of cwm_recover. */
CWM_MUST_USE uint32_t cwm_correct(uint64_t *cells, size_t n, size_t cols, const uint8_t *filled, size_t rows, size_t count,
                                  size_t *wrong, size_t room, size_t *written);

/* Finds the polynomial of k coefficients from its values at n points though some values are wrong, and says which. It
 * has all of the values but at most (n - k) / 2, rounded down, and is the only such polynomial. Writes its coefficients.
 * Writes the places of the wrong values, rising, over the first of the `room` places of `wrong`, and how many they are
 * into *written. If more values are wrong than that, they may fit another polynomial.
 * m is n, k is at most n, and room is (n - k) / 2 or more, else CWM_WRONG_SIZE. A word of P or more:
 * CWM_OUT_OF_RANGE. A point that is there twice: CWM_REPEATED. No such polynomial: CWM_INCONSISTENT. Time grows with n^2.
 * Takes memory for 9 n words. */
CWM_MUST_USE uint32_t cwm_decode(const uint64_t *points, size_t n, const uint64_t *values, size_t m, uint64_t *coefficients,
                                 size_t k, size_t *wrong, size_t room, size_t *written);

/* Writes for each of the n points a weight: the sum of the values at the points, each times its weight,
 * is the value at x, for every polynomial of at most n coefficients. If x is one of the points, the
 * first such has weight 1 and the others 0. Otherwise, if a point is there twice, all weights are 0.
 * m is n, else CWM_WRONG_SIZE. A word of P or more: CWM_OUT_OF_RANGE. Time grows with n^2. Takes memory for 3 n words. */
CWM_MUST_USE uint32_t cwm_weights(const uint64_t *points, size_t n, uint64_t x, uint64_t *weights, size_t m);

/* Writes the same weights for the points of a domain that have these n indices; N is `total` rounded up
 * to a power of two. total is 1 or more and m is n, else CWM_WRONG_SIZE. x of P or more: CWM_OUT_OF_RANGE. The indices
 * strictly rise and are below total, else CWM_WRONG_INDEX. If n^2 is at most N lg N, time grows with n^2, and it takes
 * memory for 3 n words. Else time grows with N lg N if x is zero, and with N lg^2 N at most, and it takes memory for
 * 7 N words. */
CWM_MUST_USE uint32_t cwm_weights_at_roots(uint32_t total, const uint32_t *indices, size_t n, uint64_t x, uint64_t *weights,
                                           size_t m);

/* Writes the encoding of the polynomial with these n coefficients over the first of the m bytes of out,
 * and their number into *written. The encoding is n in as few bytes as possible, 1 to 5, seven bits a byte and the lowest
 * first, where bit 7 says that another follows; then each coefficient as 8 bytes, highest first. 8 n + 5 bytes are enough.
 * n is 1 to 2^32 - 1, else CWM_WRONG_SIZE. A word of P or more: CWM_OUT_OF_RANGE. Too little room: CWM_WRONG_SIZE. Takes
 * memory for a few words. */
CWM_MUST_USE uint32_t cwm_encode_poly(const uint64_t *coefficients, size_t n, uint8_t *out, size_t m, size_t *written);

/* Writes the coefficients of the polynomial that the n bytes encode over the first of the m words of out,
 * and their number into *count. Bytes that are no encoding give the fault that comes first in them, whichever it is:
 * CWM_INVALID_VARINT, CWM_INVALID_LENGTH, CWM_END_OF_BUFFER, CWM_OUT_OF_RANGE for a word of P or more, CWM_EXTRA_DATA.
 * After these, too little room: CWM_WRONG_SIZE; n / 8 words are enough. Takes no memory. */
CWM_MUST_USE uint32_t cwm_decode_poly(const uint8_t *bytes, size_t n, uint64_t *out, size_t m, size_t *count);

/* The calls for shards split data of n words, each any uint64_t, into `total` shards, any `min` of which give them back.
 * A shard has an index, from 0 to total - 1. All have the same number of words, about n / min, all below P. The shards
 * hide nothing of the data. Keep min, total and the index beside each shard; the number of data words need not be kept.
 *
 * Writes how many words each shard of `words` words of data has into *cells.
 * 1 <= min <= total, else CWM_MISMATCH. The words of the data, and total times *cells, are below 2^57, else
 * CWM_WRONG_SIZE. Takes no memory. */
CWM_MUST_USE uint32_t cwm_shard_sizes(size_t words, uint32_t min, uint32_t total, size_t *cells);

/* Writes the shards of the n words of data: shard i is row i of the m words of `cells`, in `total` rows of
 * as many words as cwm_shard_sizes says.
 * 1 <= min <= total, else CWM_MISMATCH. m is total times the size of a shard, and cwm_shard_sizes takes the sizes,
 * else CWM_WRONG_SIZE. N is `total` rounded up to a power of two. Takes memory for N words, and for N rows of w words: w is
 * the size of a shard, but at most 8, or 2^15 / N if that is more. */
CWM_MUST_USE uint32_t cwm_split(const uint64_t *data, size_t n, uint32_t min, uint32_t total, uint64_t *cells, size_t m);

/* Writes the data that k shards give back over the first of the m words of data, and their number into
 * *written. Row i of the n words of `cells`, in k rows, is the shard whose index is indices[i]. The order
 * does not matter, and a shard that is there twice counts once. The call writes at most min * (n / k) words,
 * and no more than were split.
 * n is a multiple of k, and 0 if k is, else CWM_WRONG_SIZE. A word of P or more: CWM_OUT_OF_RANGE. Then,
 * in this order: no shard at all: CWM_TOO_FEW; not 1 <= min <= total: CWM_MISMATCH; an index of `total` or
 * more: CWM_WRONG_INDEX; unequal shards of one index: CWM_CONFLICT; fewer than `min` distinct indices:
 * CWM_TOO_FEW; shards of no data: CWM_INCONSISTENT; too little room: CWM_WRONG_SIZE. So the call finds damage to one
 * shard if there are more than `min` distinct indices; if there are just `min`, it may not. Nothing is signed: one
 * forged shard among just `min` changes what comes back. Keep a hash of the data to compare.
 * N is `total` rounded up to a power of two. Takes memory for `min` times the words of a shard, for 9 times N rows of 64
 * words and of the lesser of `min` and the words of a shard, for 3 words for each of the k rows, and for 16,384. A refusal
 * may also take it for 2 words for each row and one shard. If there are fewer than `min` distinct indices, it takes memory
 * for the k rows, 6 words more each and one shard, however large `total` is. Else memory grows with `total`: limit it before
 * you join shards from someone you do not trust. */
CWM_MUST_USE uint32_t cwm_join(const uint32_t *indices, size_t k, uint32_t min, uint32_t total, const uint64_t *cells, size_t n,
                               uint64_t *data, size_t m, size_t *written);

/* Does what cwm_join does though some of the shards are wrong, and says which. An index whose shards have unequal cells
 * counts as missing. Let i distinct indices remain. The call finds the only data that at most (i - min) / 2 of them,
 * rounded down, contradict. Writes the positions of the shards that are not shards of the data, rising, over the first
 * of the `room` places of `left_out`, and how many they are into *many. The position of a shard is its row. If more shards
 * are wrong than that, they may have other data, and the call then gives these.
 * n is as for cwm_join, and room is k or more, else CWM_WRONG_SIZE. The other statuses are those of cwm_join, in the same
 * order; but there is no CWM_CONFLICT, CWM_TOO_FEW says that i is below min, and CWM_INCONSISTENT that there are no such data.
 * With no wrong shard it takes time and memory as cwm_join. Else time grows with k^2 and with the number of wrong shards, and
 * it takes memory for the k rows and 8 words more each, and for 9 times N rows of a shard's words and of 64 more: limit
 * `total` and k. If there are fewer than `min` distinct indices, it takes memory for the k rows twice and 12 words more each,
 * however large `total` is. */
CWM_MUST_USE uint32_t cwm_join_corrected(const uint32_t *indices, size_t k, uint32_t min, uint32_t total, const uint64_t *cells,
                                         size_t n, uint64_t *data, size_t m, size_t *written, size_t *left_out, size_t room,
                                         size_t *many);

/* The same calls for n bytes, any n. The shards store n, so a join gives back exactly these bytes. A shard is bytes: each of
 * its words as eight, the highest first. Keep min, total and the index beside each shard.
 *
 * Writes how many bytes each shard of so many bytes of data has into *size.
 * 1 <= min <= total, else CWM_MISMATCH. total times *size is below 2^60, else CWM_WRONG_SIZE. Takes no memory. */
CWM_MUST_USE uint32_t cwm_shard_bytes_sizes(size_t bytes, uint32_t min, uint32_t total, size_t *size);

/* Writes the shards of the n bytes of data: shard i is row i of the m bytes of `shards`, in `total` rows of as many
 * bytes as cwm_shard_bytes_sizes says. Cut large data into blocks of some 256 KiB, and split each by itself: the words of
 * a block then stay in the processor's cache.
 * 1 <= min <= total, else CWM_MISMATCH. m is total times the size of a shard, and cwm_shard_bytes_sizes takes the sizes,
 * else CWM_WRONG_SIZE. Takes memory as cwm_split does. */
CWM_MUST_USE uint32_t cwm_split_bytes(const uint8_t *data, size_t n, uint32_t min, uint32_t total, uint8_t *shards, size_t m);

/* Writes the data that k shards give back over the first of the m bytes of data, and their number into *written. Row i
 * of the n bytes of `shards`, in k rows, is the shard whose index is indices[i]. The order does not matter, and a shard
 * that is there twice counts once. The call writes fewer than min * (n / k) bytes.
 * n is a multiple of 8 k, and 0 if k is, else CWM_WRONG_SIZE. A word of P or more: CWM_OUT_OF_RANGE. Then as cwm_join;
 * shards of words that are those of no bytes: CWM_INCONSISTENT, before too little room. Takes memory as cwm_join does: it
 * reads words from the bytes where these lie. Limit `total` before you join shards from someone you do not trust. */
CWM_MUST_USE uint32_t cwm_join_bytes(const uint32_t *indices, size_t k, uint32_t min, uint32_t total, const uint8_t *shards,
                                     size_t n, uint8_t *data, size_t m, size_t *written);

/* Does what cwm_join_bytes does though some of the shards are wrong, and says which. As for cwm_join_corrected, an index
 * whose shards are unequal counts as missing. Let i distinct indices remain. The call finds the only data that at most
 * (i - min) / 2 of them, rounded down, contradict. Writes the positions of the shards that are not shards of the data,
 * rising, over the first of the `room` places of `left_out`, and how many they are into *many. The position of a shard is
 * its row. If more shards are wrong than that, they may have other data, and the call then gives these.
 * n is as for cwm_join_bytes, and room is k or more, else CWM_WRONG_SIZE. The other statuses are those of cwm_join_bytes, in
 * the same order; but there is no CWM_CONFLICT, CWM_TOO_FEW says that i is below min, and CWM_INCONSISTENT that there are no
 * such data. Takes time and memory as cwm_join_corrected does: limit `total` and k. */
CWM_MUST_USE uint32_t cwm_join_bytes_corrected(const uint32_t *indices, size_t k, uint32_t min, uint32_t total,
                                               const uint8_t *shards, size_t n, uint8_t *data, size_t m, size_t *written,
                                               size_t *left_out, size_t room, size_t *many);

/* Systematic shards: the data as they are, and parity rows. Of the two kinds of shards take these for bytes that are mostly
 * read whole: if no data row is lost, the data are there and nothing has to be computed. Take cwm_split_bytes where the data
 * are to be packed into elements as the Rust crate packs words.
 *
 * `size` bytes of data, any number, fill `min` data rows: row i begins at byte i times the size of a row, and zeros stand
 * behind the last byte. Parity rows make them `total` rows, and any `min` rows give all others back. Data rows have the indices
 * from 0 to min - 1, and parity rows those from min to total - 1. All rows have the same number of bytes, about size / min and
 * a multiple of 8: each 8 are a word, the lowest byte first. Rows that are handed in or written lie one behind the other.
 *
 * A word of the data can be no element. So the upper 32 bits of each are xored with a mask before it is taken as one: with
 * the least that leaves the upper 32 bits of no word all ones. It is nearly always 0. In the rows the data stand as they are.
 *
 * Column by column the elements of the rows are values of one polynomial of at most `min` coefficients: row i has that at point
 * i of the domain of N points, where N is `total` rounded up to a power of two.
 *
 * A data row is a piece of the data as it is: it hides nothing. Keep size, min, total, the mask and the index beside each row.
 *
 * Writes how many bytes a row has into *row, and how many bytes of the data are in row `index` into *data. In the last data
 * rows these can be fewer than a row has, or none, and in a parity row they are none.
 * 1 <= min <= total, else CWM_MISMATCH. All data rows have fewer than 2^31 words, and all rows fewer than 2^60, else
 * CWM_WRONG_SIZE. index is below total, else CWM_WRONG_INDEX. Takes no memory. */
CWM_MUST_USE uint32_t cwm_systematic_sizes(size_t size, uint32_t min, uint32_t total, uint32_t index, size_t *row,
                                           size_t *data);

/* Writes the parity rows of the `size` bytes of data, by rising index, over the m bytes of `parity`, and the mask into *mask.
 * If min is total, there are none, and m is 0.
 * 1 <= min <= total, else CWM_MISMATCH. cwm_systematic_sizes takes the sizes, and m is total - min times the size of a row,
 * else CWM_WRONG_SIZE. Takes memory for 3 * min * (total - min) + 16 * N + 2^14 words, and, if the mask is not 0, for a byte for
 * each word of the data rows. */
CWM_MUST_USE uint32_t cwm_systematic_encode(const uint8_t *data, size_t size, uint32_t min, uint32_t total, uint8_t *parity,
                                            size_t m, uint32_t *mask);

/* Writes the rows of w wanted indices, data rows or parity rows, in their order over the m bytes of `out`. k rows are in
 * hand: row i of the n bytes of `rows` is the row of index indices[i]. The order does not matter, and a row that is there
 * twice counts once. A wanted row that is in hand is copied. If w is 0, the rows are only checked.
 * 1 <= min <= total, else CWM_MISMATCH. cwm_systematic_sizes takes the sizes, n is k times the size of a row, and m is w times
 * that, else CWM_WRONG_SIZE. Then, in this order: no row at all: CWM_TOO_FEW; an index of `total` or more, of a row or one
 * that is wanted: CWM_WRONG_INDEX; a word that is no element, so one of a parity row that is P or more, or one of a data row
 * whose upper 32 bits are all ones under the mask: CWM_OUT_OF_RANGE; unequal rows of one index: CWM_CONFLICT; fewer than `min`
 * distinct indices: CWM_TOO_FEW; rows that are not those of any data: CWM_INCONSISTENT. So the call finds damage to one row
 * if there are more than `min` distinct indices; if there are just `min`, it may not. Nothing is signed: keep a hash of the
 * data to compare.
 * Takes memory for 17 * k + 4352 words. Let e be how many indices are in hand past the first `min`, and how many rows are
 * wanted and not in hand: if e is not 0, also for 3 * min * e + 16 * N + 2^14 words. If there are fewer than `min` distinct
 * indices, it takes memory for the k rows alone, however large `total` is. Else memory grows with `total`: limit it before you
 * rebuild rows from someone you do not trust. */
CWM_MUST_USE uint32_t cwm_systematic_rebuild(const uint32_t *indices, size_t k, const uint8_t *rows, size_t n, size_t size,
                                             uint32_t min, uint32_t total, uint32_t mask, const uint32_t *wanted, size_t w,
                                             uint8_t *out, size_t m);

/* Does what cwm_systematic_rebuild does though some of the rows are wrong, and says which. A row with a word that is no
 * element counts as missing, and so does an index whose other rows are unequal. Let i distinct indices remain. The call finds
 * the only data that at most (i - min) / 2 of them, rounded down, contradict, and writes their rows of the wanted indices.
 * Writes the positions of the rows in hand that are not rows of the data, rising, over the first of the `room` places of
 * `left_out`, and how many they are into *many. The position of a row is its place among the k. If more rows are wrong than
 * that, they may have other data, and the call then gives rows of these.
 * n and m are as for cwm_systematic_rebuild, and room is k or more, else CWM_WRONG_SIZE. The other statuses are those of
 * cwm_systematic_rebuild, in the same order; but there is no CWM_OUT_OF_RANGE and no CWM_CONFLICT, CWM_TOO_FEW says that i is
 * below min, and CWM_INCONSISTENT that there are no such data. Time grows with k^2 and with the number of wrong rows. Takes
 * memory for 8 words for each of the k rows and for 9 times N rows of a row's words and of 64 more, whether a row is wrong or
 * not: limit `total` and k. */
CWM_MUST_USE uint32_t cwm_systematic_rebuild_corrected(const uint32_t *indices, size_t k, const uint8_t *rows, size_t n,
                                                       size_t size, uint32_t min, uint32_t total, uint32_t mask,
                                                       const uint32_t *wanted, size_t w, uint8_t *out, size_t m,
                                                       size_t *left_out, size_t room, size_t *many);

/* Writes the `size` bytes of data that k rows give back. The rows are handed in as for cwm_systematic_rebuild, and data rows in
 * hand are copied.
 * 1 <= min <= total, else CWM_MISMATCH. cwm_systematic_sizes takes the sizes, and n is k times the size of a row, else
 * CWM_WRONG_SIZE. Then as cwm_systematic_rebuild; and if a byte of the data rows past the end of the data is not zero:
 * CWM_INCONSISTENT. Takes memory as cwm_systematic_rebuild does for all data rows: limit `total`. */
CWM_MUST_USE uint32_t cwm_systematic_decode(const uint32_t *indices, size_t k, const uint8_t *rows, size_t n, uint32_t min,
                                            uint32_t total, uint32_t mask, uint8_t *data, size_t size);

/* Writes 1 into *belong if the k rows are rows of the same data, and else 0: unequal rows of one index are not. Rows of just
 * `min` distinct indices always are, if none of one index differ. The rows are handed in as for cwm_systematic_rebuild.
 * Statuses as for cwm_systematic_decode, in the same order; but there is no CWM_CONFLICT and no CWM_INCONSISTENT, since the
 * answer is then 0. Bytes past the end of the data are not looked at. Takes memory as cwm_systematic_rebuild does where no row
 * is wanted: limit `total`. */
CWM_MUST_USE uint32_t cwm_systematic_verify(const uint32_t *indices, size_t k, const uint8_t *rows, size_t n, size_t size,
                                            uint32_t min, uint32_t total, uint32_t mask, uint32_t *belong);

/* Roots of systematic shards: 32 bytes that bind the data, and with them each shard is checked alone, whoever hands it in.
 *
 * The record of a shard is the size of the data, its index, min, total and the mask, 8 bytes each, the highest first, and then
 * its row. The leaf of a record is the SHA-512/256 of a byte of 0 and the record. Each level above the leaves has a node for
 * each two nodes, the SHA-512/256 of a byte of 1 and their digests; a last node without a neighbour goes up as it is. The only
 * node of the last level is the root. It depends on the data, min and total alone.
 *
 * The path of a shard is the digests of the neighbours on its way up, from below. Paths of several shards lie in places of
 * equally many digests: a place begins with the path of its shard, and the digests behind the path are not read.
 *
 * If an honest cwm_commit made the root, a shard that is under it is the one that was committed to, and so are the data that
 * cwm_join_under gives, or two different messages that were hashed have the same digest. Someone who makes a root himself can
 * make it of shards of no data. A root hides nothing. Get it from where you trust it. */

/* How many bytes a digest has. */
#define CWM_DIGEST_SIZE 32

/* Writes how many digests the path of shard `index` has into *steps, and how many the longest path has, which a place has,
 * into *room.
 * index is below total, else CWM_WRONG_INDEX. Takes no memory. */
CWM_MUST_USE uint32_t cwm_path_sizes(uint32_t total, uint32_t index, size_t *steps, size_t *room);

/* Does what cwm_systematic_encode does, writes the root over the 32 bytes of `root`, and writes over the p digests of `paths`,
 * of 32 bytes each, a place for each shard, by rising index: its path, and zeros behind it.
 * 1 <= min <= total, else CWM_MISMATCH. size and m are as for cwm_systematic_encode, and p is total times the `room` of
 * cwm_path_sizes, else CWM_WRONG_SIZE. total is at most 65,536, else CWM_TOO_MANY. Takes memory as cwm_systematic_encode does,
 * for the parity rows twice, for a row, for p digests, and for 24 words for each shard. */
CWM_MUST_USE uint32_t cwm_commit(const uint8_t *data, size_t size, uint32_t min, uint32_t total, uint8_t *parity, size_t m,
                                 uint32_t *mask, uint8_t *root, uint8_t *paths, size_t p);

/* Writes 1 into *under if the n bytes of `shard` are under the root as the row of this index and this mask, by the p digests of
 * `path`, and else 0: also if p is not the `steps` of cwm_path_sizes, or index is `total` or more.
 * 1 <= min <= total, else CWM_MISMATCH. cwm_systematic_sizes takes the sizes, and n is the size of a row, else CWM_WRONG_SIZE.
 * Takes no memory. */
CWM_MUST_USE uint32_t cwm_shard_is_under(const uint8_t *root, const uint8_t *shard, size_t n, size_t size, uint32_t min,
                                         uint32_t total, uint32_t mask, uint32_t index, const uint8_t *path, size_t p,
                                         uint32_t *under);

/* Writes the `size` bytes of data that the shards under the root give back. Shard i of k has the index indices[i], the mask
 * masks[i], row i of the n bytes of `shards`, and its path in place i of the p digests of `paths`. Leaves out each shard that is
 * not under the root by its path, as cwm_shard_is_under tells it. Writes the positions of these, rising, over the first of the
 * `room` places of `left_out`, and how many they are into *many. The position of a shard is its place among the k.
 * If `strict` is not 0, the call commits to the data again, and gives them only if this is their root. So it gives no two
 * different data under one root, whoever made it, unless two different messages that were hashed have the same digest.
 * 1 <= min <= total, else CWM_MISMATCH. cwm_systematic_sizes takes the sizes, n is k times the size of a row, l is k, p is k
 * times the longest path, which cwm_path_sizes writes, and `left_out` has room for k or more, else CWM_WRONG_SIZE. Then, in
 * this order: total is more than 65,536: CWM_TOO_MANY; shards under the root have different masks: CWM_INCONSISTENT; what
 * cwm_systematic_decode refuses of the rows of the shards under the root: fewer than `min` distinct indices are CWM_TOO_FEW;
 * and if strict is not 0 and the data have another root: CWM_WRONG_ROOT. Takes memory as cwm_systematic_decode does and for
 * 20 words for each of the k shards. If strict is not 0, also for the data, and as cwm_commit does but for the paths. */
CWM_MUST_USE uint32_t cwm_join_under(const uint8_t *root, const uint32_t *indices, size_t k, const uint32_t *masks, size_t l,
                                     const uint8_t *shards, size_t n, const uint8_t *paths, size_t p, uint32_t min,
                                     uint32_t total, uint32_t strict, uint8_t *data, size_t size, size_t *left_out,
                                     size_t room, size_t *many);

#ifdef __cplusplus
}
#endif

#endif
