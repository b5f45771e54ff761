//! Data cut into shards, and polynomials over the Goldilocks field, by a library whose every function is proved.
//!
//! ```
//! let data = b"any three of five shards give these bytes back";
//! let shards = commonware_math_proved::split_bytes(data, 3, 5)?;
//! let left = [(4, &shards[4]), (0, &shards[0]), (2, &shards[2])];
//! assert_eq!(commonware_math_proved::join_bytes(&left, 3, 5)?, data);
//! # Ok::<(), commonware_math_proved::Error>(())
//! ```
//!
//! These shards are values of polynomials whose coefficients are the data. For bytes that are mostly read whole take
//! [`systematic`]: there the data stand in the first `min` shards as they are, and parity shards follow.
//!
//! An element of the field is a whole number below [`MODULUS`], in a `u64`. Cells lie row by row: cell (i, k) is
//! `cells[i * cols + k]`, and each column is a polynomial of its own. A domain has N points, N a power of two up to
//! 2^32: point i is power i of the root of order N.
//!
//! A refused call leaves what it writes in place as it was. No call shares anything with another, so calls may run in
//! threads at the same time.
#![deny(missing_docs, unsafe_op_in_unsafe_fn)]
#![deny(unsafe_code)]

#[allow(unsafe_code, missing_docs)]
mod library;
pub mod roots;
pub mod systematic;

use std::fmt;

/// P, the modulus of the field: 2^64 - 2^32 + 1.
pub const MODULUS: u64 = 0xffff_ffff_0000_0001;

/// Why a call was refused.
#[derive(Clone, Copy, Debug, PartialEq, Eq, Hash)]
#[non_exhaustive]
pub enum Error {
    /// Memory ran out.
    OutOfMemory,
    /// A word is [`MODULUS`] or more, or the high half of a word of a systematic data shard is all ones under the mask.
    OutOfRange,
    /// A number of words, rows or columns is none that the call takes.
    WrongSize,
    /// There are fewer than `min` distinct indices of shards, or fewer filled rows than coefficients.
    TooFew,
    /// Not 1 <= `min` <= `total`, or shards of different lengths.
    Mismatch,
    /// An index is not below the total, or, for weights, not above the one before it.
    WrongIndex,
    /// Two shards have one index and unequal words.
    Conflict,
    /// Nothing fits: the shards are those of no data, or no polynomial is near the values.
    Inconsistent,
    /// The bytes end within a polynomial.
    EndOfBuffer,
    /// The bytes begin with no length.
    InvalidVarint,
    /// The length is zero.
    InvalidLength,
    /// Bytes follow the polynomial.
    ExtraData,
    /// A point is there twice.
    Repeated,
    /// A block with a root has more than 65,536 shards.
    TooMany,
    /// The data of the shards under a root have another root.
    WrongRoot,
    /// A status that this package doesn't know.
    Unknown(u32),
}

/// The errors, by their statuses from 1 on.
const ERRORS: [Error; 15] = [
    Error::OutOfMemory,
    Error::OutOfRange,
    Error::WrongSize,
    Error::TooFew,
    Error::Mismatch,
    Error::WrongIndex,
    Error::Conflict,
    Error::Inconsistent,
    Error::EndOfBuffer,
    Error::InvalidVarint,
    Error::InvalidLength,
    Error::ExtraData,
    Error::Repeated,
    Error::TooMany,
    Error::WrongRoot,
];

impl Error {
    fn of_status(status: u32) -> Error {
        let place = (status as usize).wrapping_sub(1);
        ERRORS.get(place).copied().unwrap_or(Error::Unknown(status))
    }

    /// Returns the number that the library has for it.
    ///
    /// ```
    /// assert_eq!(commonware_math_proved::Error::OutOfRange.status(), 2);
    /// ```
    pub fn status(self) -> u32 {
        match self {
            Error::Unknown(status) => status,
            _ => ERRORS.iter().position(|error| *error == self).map_or(0, |place| place as u32 + 1),
        }
    }
}

impl fmt::Display for Error {
    fn fmt(&self, f: &mut fmt::Formatter<'_>) -> fmt::Result {
        f.write_str(&library::status_text(self.status()))
    }
}

impl std::error::Error for Error {}

/// Returns the version of the library: major, minor and patch.
///
/// ```
/// assert_eq!(commonware_math_proved::version().0, 1);
/// ```
pub fn version() -> (u32, u32, u32) {
    let number = library::version();
    (number / 10_000, number / 100 % 100, number % 100)
}

/// Returns whether the library computes eight words at a time, by vectors. Its answers are the same either way.
pub fn has_vectors() -> bool {
    library::has_vectors()
}

/// Room for so many items.
fn room_for<T>(count: usize) -> Result<Vec<T>, Error> {
    let mut items = Vec::new();
    items.try_reserve_exact(count).map_err(|_| Error::OutOfMemory)?;
    Ok(items)
}

/// So many items, all zero.
fn zeros<T: Clone + Default>(count: usize) -> Result<Vec<T>, Error> {
    let mut items = room_for(count)?;
    items.resize(count, T::default());
    Ok(items)
}

/// Returns the value at x of the polynomial with these coefficients, from the constant upwards.
///
/// There are 1 to 2^32 - 1 of them, else [`Error::WrongSize`].
///
/// ```
/// // 4 + 6 X + 8 X^2
/// assert_eq!(commonware_math_proved::eval(&[4, 6, 8], 5)?, 234);
/// # Ok::<(), commonware_math_proved::Error>(())
/// ```
pub fn eval(coefficients: &[u64], x: u64) -> Result<u64, Error> {
    let mut value = 0;
    library::eval(coefficients, x, &mut value)?;
    Ok(value)
}

/// Puts the values at all points of a domain in place of the coefficients, in each column.
///
/// Row i holds coefficient i of each polynomial, and gets the values at point i. `cols` is 1 or more and the number of
/// rows a power of two, else [`Error::WrongSize`].
///
/// ```
/// let mut cells = [4, 6, 8, 0];
/// commonware_math_proved::evaluate(&mut cells, 1)?;
/// assert_eq!(cells[0], 4 + 6 + 8);
/// # Ok::<(), commonware_math_proved::Error>(())
/// ```
pub fn evaluate(cells: &mut [u64], cols: usize) -> Result<(), Error> {
    library::evaluate(cells, cols)
}

/// Goes the way back from [`evaluate`]: puts the coefficients in place of the values, in each column.
///
/// ```
/// let mut cells = [4, 6, 8, 0];
/// commonware_math_proved::evaluate(&mut cells, 1)?;
/// commonware_math_proved::interpolate(&mut cells, 1)?;
/// assert_eq!(cells, [4, 6, 8, 0]);
/// # Ok::<(), commonware_math_proved::Error>(())
/// ```
pub fn interpolate(cells: &mut [u64], cols: usize) -> Result<(), Error> {
    library::interpolate(cells, cols)
}

/// Puts the coefficients in place of the values of the rows that are filled; the other rows may hold anything.
///
/// `filled` has one item a row. Polynomials of at most m coefficients come back from any m rows.
///
/// ```
/// let mut cells = [4, 6, 0, 0];
/// commonware_math_proved::evaluate(&mut cells, 1)?;
/// cells[0] = u64::MAX;
/// cells[3] = u64::MAX;
/// commonware_math_proved::recover(&mut cells, 1, &[false, true, true, false])?;
/// assert_eq!(cells, [4, 6, 0, 0]);
/// # Ok::<(), commonware_math_proved::Error>(())
/// ```
pub fn recover(cells: &mut [u64], cols: usize, filled: &[bool]) -> Result<(), Error> {
    library::recover(cells, cols, filled)
}

/// Does what [`recover`] does though some of the filled rows are wrong, and returns which, by rising number.
///
/// The polynomials have at most `count` coefficients; of m filled rows at most (m - count) / 2 may be wrong. If no
/// polynomials are so near: [`Error::Inconsistent`].
///
/// ```
/// let mut cells = [4, 6, 0, 0];
/// commonware_math_proved::evaluate(&mut cells, 1)?;
/// cells[2] += 1;
/// assert_eq!(commonware_math_proved::correct(&mut cells, 1, &[true; 4], 2)?, [2]);
/// assert_eq!(cells, [4, 6, 0, 0]);
/// # Ok::<(), commonware_math_proved::Error>(())
/// ```
pub fn correct(cells: &mut [u64], cols: usize, filled: &[bool], count: usize) -> Result<Vec<usize>, Error> {
    let mut wrong = zeros(filled.len() / 2)?;
    let mut written = 0;
    library::correct(cells, cols, filled, count, &mut wrong, &mut written)?;
    wrong.truncate(written);
    Ok(wrong)
}

/// What [`decode`] found.
#[derive(Clone, Debug, PartialEq, Eq)]
pub struct Decoded {
    /// The coefficients, from the constant upwards.
    pub coefficients: Vec<u64>,
    /// The places of the values that are wrong, by rising number.
    pub wrong: Vec<usize>,
}

/// Finds the only polynomial of `count` coefficients that has all n values at the points but at most (n - count) / 2.
///
/// If there is none: [`Error::Inconsistent`]. If a point is there twice: [`Error::Repeated`].
///
/// ```
/// // 1 + 2 X, and one value that is not
/// let found = commonware_math_proved::decode(&[1, 2, 3, 4], &[3, 5, 8, 9], 2)?;
/// assert_eq!(found.coefficients, [1, 2]);
/// assert_eq!(found.wrong, [2]);
/// # Ok::<(), commonware_math_proved::Error>(())
/// ```
pub fn decode(points: &[u64], values: &[u64], count: usize) -> Result<Decoded, Error> {
    if count > points.len() {
        return Err(Error::WrongSize);
    }
    let mut coefficients = zeros(count)?;
    let mut wrong = zeros((points.len() - count) / 2)?;
    let mut written = 0;
    library::decode(points, values, &mut coefficients, &mut wrong, &mut written)?;
    wrong.truncate(written);
    Ok(Decoded { coefficients, wrong })
}

/// Returns a weight for each of n points: the values at the points, each times its weight, add up to the value at x,
/// for every polynomial of at most n coefficients.
///
/// If x is one of the points, the first such has weight 1 and the others 0. Otherwise, if a point is there twice, all
/// weights are 0.
///
/// ```
/// assert_eq!(commonware_math_proved::weights(&[1, 2], 3)?, [commonware_math_proved::MODULUS - 1, 2]);
/// # Ok::<(), commonware_math_proved::Error>(())
/// ```
pub fn weights(points: &[u64], x: u64) -> Result<Vec<u64>, Error> {
    let mut found = zeros(points.len())?;
    library::weights(points, x, &mut found)?;
    Ok(found)
}

/// Returns the same weights for the points of a domain that have these indices, which rise and are below `total`. The
/// domain has `total` points, rounded up to a power of two.
///
/// ```
/// assert_eq!(commonware_math_proved::weights_at_roots(2, &[0, 1], 1)?, [1, 0]);
/// # Ok::<(), commonware_math_proved::Error>(())
/// ```
pub fn weights_at_roots(total: u32, indices: &[u32], x: u64) -> Result<Vec<u64>, Error> {
    let mut found = zeros(indices.len())?;
    library::weights_at_roots(total, indices, x, &mut found)?;
    Ok(found)
}

/// Returns the encoding of the polynomial: how many coefficients, then each as 8 bytes, highest first.
///
/// ```
/// let bytes = commonware_math_proved::encode_poly(&[4, 6])?;
/// assert_eq!(bytes, [2, 0, 0, 0, 0, 0, 0, 0, 4, 0, 0, 0, 0, 0, 0, 0, 6]);
/// # Ok::<(), commonware_math_proved::Error>(())
/// ```
pub fn encode_poly(coefficients: &[u64]) -> Result<Vec<u8>, Error> {
    let mut out = zeros(coefficients.len().saturating_mul(8).saturating_add(5))?;
    let mut written = 0;
    library::encode_poly(coefficients, &mut out, &mut written)?;
    out.truncate(written);
    Ok(out)
}

/// Returns the coefficients of the polynomial that the bytes encode. Bytes behind it are [`Error::ExtraData`].
///
/// ```
/// let bytes = commonware_math_proved::encode_poly(&[4, 6])?;
/// assert_eq!(commonware_math_proved::decode_poly(&bytes)?, [4, 6]);
/// assert_eq!(commonware_math_proved::decode_poly(&bytes[..9]), Err(commonware_math_proved::Error::EndOfBuffer));
/// # Ok::<(), commonware_math_proved::Error>(())
/// ```
pub fn decode_poly(bytes: &[u8]) -> Result<Vec<u64>, Error> {
    let mut out = zeros(bytes.len() / 8)?;
    let mut count = 0;
    library::decode_poly(bytes, &mut out, &mut count)?;
    out.truncate(count);
    Ok(out)
}

/// Returns how many words each of `total` shards of so many words has, of which any `min` give them back.
///
/// ```
/// assert_eq!(commonware_math_proved::shard_sizes(10, 4, 8)?, 3);
/// # Ok::<(), commonware_math_proved::Error>(())
/// ```
pub fn shard_sizes(words: usize, min: u32, total: u32) -> Result<usize, Error> {
    let mut cells = 0;
    library::shard_sizes(words, min, total, &mut cells)?;
    Ok(cells)
}

/// Cuts the words into shards: `total` rows of as many words as [`shard_sizes`] says, of which any `min` give the data
/// back. Words of the data may be any; those of shards are below [`MODULUS`].
///
/// ```
/// let (min, total) = (4, 8);
/// let data = [u64::MAX; 10];
/// let size = commonware_math_proved::shard_sizes(data.len(), min, total)?;
/// let shards = commonware_math_proved::split(&data, min, total)?;
/// assert_eq!(shards.len(), total as usize * size);
/// # Ok::<(), commonware_math_proved::Error>(())
/// ```
pub fn split(data: &[u64], min: u32, total: u32) -> Result<Vec<u64>, Error> {
    let mut cells = zeros(total as usize * shard_sizes(data.len(), min, total)?)?;
    library::split(data, min, total, &mut cells)?;
    Ok(cells)
}

/// Returns the words that the shards give back. Row i of the cells is the shard with index `indices[i]`.
///
/// If there are more than `min` distinct indices, it is sure to find damage to one shard. If there are just `min`, it
/// may not. Limit `total` and the number of shards before you join shards from
/// someone you do not trust: memory and time grow with them.
///
/// ```
/// let shards = commonware_math_proved::split(&[7, 8, 9], 1, 2)?;
/// let second = &shards[shards.len() / 2..];
/// assert_eq!(commonware_math_proved::join(&[1], 1, 2, second)?, [7, 8, 9]);
/// # Ok::<(), commonware_math_proved::Error>(())
/// ```
pub fn join(indices: &[u32], min: u32, total: u32, cells: &[u64]) -> Result<Vec<u64>, Error> {
    let cols = cells.len() / indices.len().max(1);
    let mut data = zeros((min as usize).min(indices.len()) * cols)?;
    let mut written = 0;
    library::join(indices, min, total, cells, &mut data, &mut written)?;
    data.truncate(written);
    Ok(data)
}

/// What [`join_corrected`] found.
#[derive(Clone, Debug, PartialEq, Eq)]
pub struct Joined {
    /// The words of the data.
    pub data: Vec<u64>,
    /// The rows that are no shards of the data, by rising number.
    pub left_out: Vec<usize>,
}

/// Does what [`join`] does though some of the shards are wrong: returns the data and the rows that are wrong.
///
/// An index whose shards have unequal cells counts as missing. Of i distinct indices that remain at most
/// (i - `min`) / 2 may have wrong shards. If no data are so near: [`Error::Inconsistent`]. If some shard is wrong, time
/// grows with the square of the number of shards.
///
/// ```
/// let mut shards = commonware_math_proved::split(&[7, 8, 9], 1, 3)?;
/// let size = shards.len() / 3;
/// shards[2 * size] ^= 1;
/// let found = commonware_math_proved::join_corrected(&[0, 1, 2], 1, 3, &shards)?;
/// assert_eq!(found.data, [7, 8, 9]);
/// assert_eq!(found.left_out, [2]);
/// # Ok::<(), commonware_math_proved::Error>(())
/// ```
pub fn join_corrected(indices: &[u32], min: u32, total: u32, cells: &[u64]) -> Result<Joined, Error> {
    let cols = cells.len() / indices.len().max(1);
    let mut data = zeros((min as usize).min(indices.len()) * cols)?;
    let mut left_out = zeros(indices.len())?;
    let (mut written, mut many) = (0, 0);
    library::join_corrected(indices, min, total, cells, &mut data, &mut written, &mut left_out, &mut many)?;
    data.truncate(written);
    left_out.truncate(many);
    Ok(Joined { data, left_out })
}

/// Returns how many bytes each of `total` shards of so many bytes has, of which any `min` give them back.
///
/// ```
/// assert_eq!(commonware_math_proved::shard_bytes_sizes(1000, 4, 6)?, 264);
/// # Ok::<(), commonware_math_proved::Error>(())
/// ```
pub fn shard_bytes_sizes(bytes: usize, min: u32, total: u32) -> Result<usize, Error> {
    let mut size = 0;
    library::shard_bytes_sizes(bytes, min, total, &mut size)?;
    Ok(size)
}

/// Cuts the bytes into shards: `total` of one length, of which any `min` give the bytes back.
///
/// Keep the index of each beside it, and `min` and `total`. The number of bytes need not be kept. The shards hide
/// nothing of the data. Cut large data into blocks of some 256 KiB and split each by itself: that is faster, and takes
/// little memory.
///
/// ```
/// let shards = commonware_math_proved::split_bytes(b"0123456789", 2, 3)?;
/// assert_eq!(shards.iter().map(Vec::len).collect::<Vec<_>>(), [24, 24, 24]);
/// # Ok::<(), commonware_math_proved::Error>(())
/// ```
pub fn split_bytes(data: &[u8], min: u32, total: u32) -> Result<Vec<Vec<u8>>, Error> {
    let size = shard_bytes_sizes(data.len(), min, total)?;
    let mut shards = zeros(total as usize * size)?;
    library::split_bytes(data, min, total, &mut shards)?;
    let mut found = room_for(total as usize)?;
    for shard in shards.chunks_exact(size) {
        let mut copy = room_for(size)?;
        copy.extend_from_slice(shard);
        found.push(copy);
    }
    Ok(found)
}

/// Returns the bytes that the shards, each beside its index, give back: `min` of them or more, in any order.
///
/// It refuses shards of different lengths with [`Error::Mismatch`]. If there are more than `min` distinct indices, it
/// is sure to find damage to one shard. If there are just `min`, it may not. Limit `total` and the number of shards before
/// you join shards from someone you do not trust: memory and time grow with them.
///
/// ```
/// use commonware_math_proved::{join_bytes, split_bytes, Error};
///
/// let shards = split_bytes(b"0123456789", 2, 3)?;
/// assert_eq!(join_bytes(&[(2, &shards[2]), (0, &shards[0])], 2, 3)?, b"0123456789");
/// assert_eq!(join_bytes(&[(2, &shards[2])], 2, 3), Err(Error::TooFew));
/// # Ok::<(), Error>(())
/// ```
pub fn join_bytes<S: AsRef<[u8]>>(shards: &[(u32, S)], min: u32, total: u32) -> Result<Vec<u8>, Error> {
    let (indices, rows) = rows_of(shards)?;
    let size = rows.len() / indices.len().max(1);
    let mut data = zeros((min as usize).min(indices.len()) * size)?;
    let mut written = 0;
    library::join_bytes(&indices, min, total, &rows, &mut data, &mut written)?;
    data.truncate(written);
    Ok(data)
}

/// What [`join_bytes_corrected`] found.
#[derive(Clone, Debug, PartialEq, Eq)]
pub struct JoinedBytes {
    /// The bytes.
    pub data: Vec<u8>,
    /// The positions, in the slice that was handed in, of those that are no shards of the bytes, by rising number.
    pub left_out: Vec<usize>,
}

/// Does what [`join_bytes`] does though some of the shards are wrong: returns the bytes and which are wrong.
///
/// An index whose shards are unequal counts as missing. Of i distinct indices that remain at most (i - `min`) / 2 may
/// have wrong shards. If no bytes are so near: [`Error::Inconsistent`]. If some shard is wrong, time grows with
/// the square of the number of shards.
///
/// ```
/// use commonware_math_proved::{join_bytes_corrected, split_bytes, Error};
///
/// let mut shards = split_bytes(b"0123456789", 2, 4)?;
/// shards[2][0] ^= 1;
/// let left = [(3, &shards[3]), (2, &shards[2]), (1, &shards[1]), (0, &shards[0])];
/// let found = join_bytes_corrected(&left, 2, 4)?;
/// assert_eq!(found.data, b"0123456789");
/// assert_eq!(found.left_out, [1]);
/// assert_eq!(join_bytes_corrected(&left[..3], 2, 4), Err(Error::Inconsistent));
/// # Ok::<(), Error>(())
/// ```
pub fn join_bytes_corrected<S: AsRef<[u8]>>(shards: &[(u32, S)], min: u32, total: u32) -> Result<JoinedBytes, Error> {
    let (indices, rows) = rows_of(shards)?;
    let size = rows.len() / indices.len().max(1);
    let mut data = zeros((min as usize).min(indices.len()) * size)?;
    let mut left_out = zeros(indices.len())?;
    let (mut written, mut many) = (0, 0);
    library::join_bytes_corrected(&indices, min, total, &rows, &mut data, &mut written, &mut left_out, &mut many)?;
    data.truncate(written);
    left_out.truncate(many);
    Ok(JoinedBytes { data, left_out })
}

/// The indices of the shards, and the shards one behind the other, all of one length.
fn rows_of<S: AsRef<[u8]>>(shards: &[(u32, S)]) -> Result<(Vec<u32>, Vec<u8>), Error> {
    let size = shards.first().map_or(0, |(_, shard)| shard.as_ref().len());
    let mut rows = room_for(size.saturating_mul(shards.len()))?;
    let mut indices = room_for(shards.len())?;
    for (index, shard) in shards {
        if shard.as_ref().len() != size {
            return Err(Error::Mismatch);
        }
        indices.push(*index);
        rows.extend_from_slice(shard.as_ref());
    }
    Ok((indices, rows))
}
