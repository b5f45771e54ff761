//! Systematic shards: the first `min` hold the data byte for byte, parity shards follow, and any `min` give all others back.
//!
//! ```
//! use commonware_math_proved::systematic::{decode, encode, rebuild};
//!
//! let data = b"any three of five shards give these bytes back";
//! let (shards, code) = encode(data, 3, 5)?;
//! assert_eq!(shards[0], b"any three of fiv");
//! let left = [(0, &shards[0]), (2, &shards[2]), (4, &shards[4])];
//! assert_eq!(rebuild(&code, &left, &[1])?, shards[1..2]);
//! assert_eq!(decode(&code, &left)?, data);
//! # Ok::<(), commonware_math_proved::Error>(())
//! ```
//!
//! As long as no data shard is lost, the data are read without this package: they are the data shards one behind the
//! other, up to the length of the data. So take these calls for bytes that are mostly read whole. Take
//! [`split_bytes`](crate::split_bytes) where the data are to be packed into elements as the Rust crate packs words. A data
//! shard is a piece of the data as it is: it hides nothing at all.
//!
//! Keep beside each shard its index, and for each block its [`Code`]. Nothing is signed: keep a hash of the data too, since
//! among just `min` shards damage goes unnoticed. Cut large data into blocks of some 256 KiB, and encode each by itself.

use crate::library;
use crate::{room_for, rows_of, zeros, Error};

/// How the shards of a block were made: what has to be kept to read them.
#[derive(Clone, Copy, Debug, PartialEq, Eq, Hash)]
pub struct Code {
    /// How many bytes the data have.
    pub size: usize,
    /// How many shards hold the data: so many, whichever they are, give all others back.
    pub min: u32,
    /// How many shards there are, with those of parity.
    pub total: u32,
    /// The mask of the words of the data, which [`encode`] found. It is nearly always 0.
    pub mask: u32,
}

impl Code {
    /// Returns how many bytes a shard has: a multiple of 8.
    ///
    /// If not 1 <= `min` <= `total`: [`Error::Mismatch`]. If there are 2^31 words of data or more, or 2^60 words in all
    /// shards or more: [`Error::WrongSize`].
    ///
    /// ```
    /// use commonware_math_proved::systematic::Code;
    ///
    /// let code = Code { size: 1000, min: 10, total: 16, mask: 0 };
    /// assert_eq!(code.shard_size()?, 104);
    /// # Ok::<(), commonware_math_proved::Error>(())
    /// ```
    pub fn shard_size(&self) -> Result<usize, Error> {
        Ok(self.sizes(0)?.0)
    }

    /// Returns how many bytes of the shard of this index are data. Zeros fill the others of a data shard.
    ///
    /// It refuses as [`Code::shard_size`] does, and an index of `total` or more with [`Error::WrongIndex`].
    ///
    /// ```
    /// use commonware_math_proved::systematic::Code;
    ///
    /// let code = Code { size: 1000, min: 10, total: 16, mask: 0 };
    /// assert_eq!(code.data_size(0)?, 104);
    /// assert_eq!(code.data_size(9)?, 64);
    /// # Ok::<(), commonware_math_proved::Error>(())
    /// ```
    pub fn data_size(&self, index: u32) -> Result<usize, Error> {
        Ok(self.sizes(index)?.1)
    }

    fn sizes(&self, index: u32) -> Result<(usize, usize), Error> {
        let (mut row, mut data) = (0, 0);
        library::systematic_sizes(self, index, &mut row, &mut data)?;
        Ok((row, data))
    }
}

/// The indices of the shards, and the shards one behind the other, with the size of each, which is the one that the code says.
fn held<S: AsRef<[u8]>>(code: &Code, shards: &[(u32, S)]) -> Result<(Vec<u32>, Vec<u8>, usize), Error> {
    let size = code.shard_size()?;
    let (indices, rows) = rows_of(shards)?;
    match indices.len().checked_mul(size) {
        Some(length) if length == rows.len() => Ok((indices, rows, size)),
        _ => Err(Error::WrongSize),
    }
}

/// Adds so many rows of one size, which lie one behind the other. Zeros fill what lies past the last byte.
pub(crate) fn add_rows(rows: &mut Vec<Vec<u8>>, bytes: &[u8], size: usize, count: usize) -> Result<(), Error> {
    for at in (0..count).map(|i| i * size) {
        let mut row = room_for(size)?;
        row.extend_from_slice(&bytes[at.min(bytes.len())..(at + size).min(bytes.len())]);
        row.resize(size, 0);
        rows.push(row);
    }
    Ok(())
}

/// Cuts the bytes into `min` data shards, adds parity shards, and returns all `total` shards, and how they were made.
///
/// The data shards are the bytes as they are, with zeros behind the last one. It refuses as [`Code::shard_size`] does.
///
/// ```
/// use commonware_math_proved::systematic::encode;
///
/// let (shards, code) = encode(b"0123456789", 2, 3)?;
/// assert_eq!(shards[..2], [*b"01234567", *b"89\0\0\0\0\0\0"]);
/// assert_eq!((shards[2].len(), code.mask), (8, 0));
/// # Ok::<(), commonware_math_proved::Error>(())
/// ```
pub fn encode(data: &[u8], min: u32, total: u32) -> Result<(Vec<Vec<u8>>, Code), Error> {
    let mut code = Code { size: data.len(), min, total, mask: 0 };
    let size = code.shard_size()?;
    let mut parity = zeros((total - min) as usize * size)?;
    library::systematic_encode(data, min, total, &mut parity, &mut code.mask)?;
    let mut shards = room_for(total as usize)?;
    add_rows(&mut shards, data, size, min as usize)?;
    add_rows(&mut shards, &parity, size, (total - min) as usize)?;
    Ok((shards, code))
}

/// Returns the shards of the wanted indices, in their order, from `min` shards or more, each beside its index.
///
/// If there are more than `min` distinct indices, it is sure to find damage to one shard. If there are just `min`, it may
/// not. It refuses, in this order:
///
/// - a code as [`Code::shard_size`] does;
/// - shards of different lengths: [`Error::Mismatch`], and of another length than the code says: [`Error::WrongSize`];
/// - no shard: [`Error::TooFew`];
/// - an index, wanted or not, of `total` or more: [`Error::WrongIndex`];
/// - a word of a parity shard of [`MODULUS`](crate::MODULUS) or more, or one of a data shard whose high half is all ones
///   under the mask: [`Error::OutOfRange`];
/// - unequal shards of one index: [`Error::Conflict`]; equal ones count once;
/// - fewer than `min` distinct indices: [`Error::TooFew`];
/// - shards that are not of the same data: [`Error::Inconsistent`].
///
/// Limit the numbers of the code before you rebuild shards from someone you do not trust: memory and time grow with them.
///
/// ```
/// use commonware_math_proved::{systematic::{encode, rebuild}, Error};
///
/// let (shards, code) = encode(b"0123456789", 2, 3)?;
/// assert_eq!(rebuild(&code, &[(1, &shards[1]), (2, &shards[2])], &[0])?, [b"01234567"]);
/// assert_eq!(rebuild(&code, &[(1, &shards[1])], &[0]), Err(Error::TooFew));
/// # Ok::<(), Error>(())
/// ```
pub fn rebuild<S: AsRef<[u8]>>(code: &Code, shards: &[(u32, S)], wanted: &[u32]) -> Result<Vec<Vec<u8>>, Error> {
    let (indices, rows, size) = held(code, shards)?;
    let mut out = zeros(wanted.len().checked_mul(size).ok_or(Error::OutOfMemory)?)?;
    library::systematic_rebuild(code, &indices, &rows, wanted, &mut out)?;
    let mut rebuilt = room_for(wanted.len())?;
    add_rows(&mut rebuilt, &out, size, wanted.len())?;
    Ok(rebuilt)
}

/// What [`rebuild_corrected`] found.
#[derive(Clone, Debug, PartialEq, Eq)]
pub struct Rebuilt {
    /// The shards of the wanted indices, in their order.
    pub shards: Vec<Vec<u8>>,
    /// The positions, in the slice that was handed in, of those that are no shards of the data, by rising number.
    pub left_out: Vec<usize>,
}

/// Does what [`rebuild`] does though some of the shards are wrong: returns the wanted shards, and which are wrong.
///
/// A shard with a word that may not stand there counts as missing, and so does an index whose other shards differ. Of m
/// distinct indices that remain at most (m - `min`) / 2 may have wrong shards. It refuses as [`rebuild`] does, but with
/// [`Error::TooFew`] if m is below `min`, and with [`Error::Inconsistent`] if no data are so near; there is no
/// [`Error::OutOfRange`] and no [`Error::Conflict`].
///
/// ```
/// use commonware_math_proved::systematic::{encode, rebuild_corrected};
///
/// let (mut shards, code) = encode(b"0123456789", 2, 4)?;
/// shards[2][0] ^= 1;
/// let found = rebuild_corrected(&code, &[(3, &shards[3]), (2, &shards[2]), (1, &shards[1]), (0, &shards[0])], &[1])?;
/// assert_eq!(found.shards, shards[1..2]);
/// assert_eq!(found.left_out, [1]);
/// # Ok::<(), commonware_math_proved::Error>(())
/// ```
pub fn rebuild_corrected<S: AsRef<[u8]>>(code: &Code, shards: &[(u32, S)], wanted: &[u32]) -> Result<Rebuilt, Error> {
    let (indices, rows, size) = held(code, shards)?;
    let mut out = zeros(wanted.len().checked_mul(size).ok_or(Error::OutOfMemory)?)?;
    let mut left_out = zeros(indices.len())?;
    let mut many = 0;
    library::systematic_rebuild_corrected(code, &indices, &rows, wanted, &mut out, &mut left_out, &mut many)?;
    left_out.truncate(many);
    let mut rebuilt = room_for(wanted.len())?;
    add_rows(&mut rebuilt, &out, size, wanted.len())?;
    Ok(Rebuilt { shards: rebuilt, left_out })
}

/// Returns the data from `min` shards or more, each beside its index. Data shards that are there are copied.
///
/// It refuses as [`rebuild`] does, and with [`Error::Inconsistent`] too if a byte past the end of the data is not zero.
///
/// ```
/// use commonware_math_proved::systematic::{decode, encode};
///
/// let (shards, code) = encode(b"0123456789", 2, 3)?;
/// assert_eq!(decode(&code, &[(2, &shards[2]), (0, &shards[0])])?, b"0123456789");
/// # Ok::<(), commonware_math_proved::Error>(())
/// ```
pub fn decode<S: AsRef<[u8]>>(code: &Code, shards: &[(u32, S)]) -> Result<Vec<u8>, Error> {
    let (indices, rows, _) = held(code, shards)?;
    let mut data = zeros(code.size)?;
    library::systematic_decode(code, &indices, &rows, &mut data)?;
    Ok(data)
}

/// Returns whether the shards, `min` or more, each beside its index, are shards of the same data.
///
/// Just `min` shards always are, of some data. It refuses as [`rebuild`] does, but for [`Error::Conflict`] and
/// [`Error::Inconsistent`].
///
/// ```
/// use commonware_math_proved::systematic::{encode, verify};
///
/// let (shards, code) = encode(b"0123456789", 2, 3)?;
/// assert!(verify(&code, &[(0, &shards[0]), (1, &shards[1]), (2, &shards[2])])?);
/// assert!(!verify(&code, &[(0, &shards[0]), (1, &shards[1]), (2, &shards[0])])?);
/// # Ok::<(), commonware_math_proved::Error>(())
/// ```
pub fn verify<S: AsRef<[u8]>>(code: &Code, shards: &[(u32, S)]) -> Result<bool, Error> {
    let (indices, rows, _) = held(code, shards)?;
    let mut belong = 0;
    library::systematic_verify(code, &indices, &rows, &mut belong)?;
    Ok(belong == 1)
}
