//! Roots of systematic shards: 32 bytes that bind the data, and with them each shard is checked alone, whoever hands it in.
//!
//! ```
//! use commonware_math_proved::roots::{commit, join_under, Shown};
//!
//! let data = b"any three of five shards give these bytes back";
//! let made = commit(data, 3, 5)?;
//! let shown = |i: usize, from: usize| Shown { index: i as u32, mask: made.code.mask, bytes: &made.shards[from], path: &made.paths[i] };
//! let handed = [shown(0, 0), shown(1, 0), shown(2, 2), shown(4, 4)];
//! assert_eq!(join_under(&made.root, data.len(), 3, 5, &handed, false)?, (data.to_vec(), vec![1]));
//! # Ok::<(), commonware_math_proved::Error>(())
//! ```
//!
//! The root depends on the data, `min` and `total` alone. Give each holder of a shard its index, the mask and its path with it,
//! and keep the root where nobody else can change it. If an honest [`commit`] made it, [`join_under`] gives the data that were
//! committed to, or two different messages that were hashed have the same digest. Someone who makes a root himself can make it
//! of shards of no data: a strict join refuses these. A root hides nothing. The header of the library says what is hashed.

use crate::library;
use crate::systematic::{add_rows, Code};
use crate::{room_for, zeros, Error};
use std::fmt;
use std::str::FromStr;

/// A digest: 32 bytes.
pub type Digest = [u8; 32];

/// A root. It prints as 64 hexadecimal digits, and is read from these.
///
/// ```
/// use commonware_math_proved::roots::Root;
///
/// let root = Root([7; 32]);
/// assert_eq!(root.to_string().parse(), Ok(root));
/// assert!("07".parse::<Root>().is_err());
/// ```
#[derive(Clone, Copy, Debug, PartialEq, Eq, Hash)]
pub struct Root(pub Digest);

impl fmt::Display for Root {
    fn fmt(&self, f: &mut fmt::Formatter<'_>) -> fmt::Result {
        self.0.iter().try_for_each(|byte| write!(f, "{byte:02x}"))
    }
}

/// A text is no root.
#[derive(Clone, Copy, Debug, PartialEq, Eq)]
pub struct NoRoot;

impl fmt::Display for NoRoot {
    fn fmt(&self, f: &mut fmt::Formatter<'_>) -> fmt::Result {
        f.write_str("not 64 hexadecimal digits")
    }
}

impl std::error::Error for NoRoot {}

impl FromStr for Root {
    type Err = NoRoot;

    fn from_str(text: &str) -> Result<Root, NoRoot> {
        if text.len() != 64 || !text.bytes().all(|c| c.is_ascii_hexdigit()) {
            return Err(NoRoot);
        }
        let mut root = [0; 32];
        for (i, byte) in root.iter_mut().enumerate() {
            *byte = u8::from_str_radix(&text[2 * i..2 * i + 2], 16).map_err(|_| NoRoot)?;
        }
        Ok(Root(root))
    }
}

/// What [`commit`] gives.
#[derive(Clone, Debug, PartialEq, Eq)]
pub struct Committed {
    /// All shards, as [`encode`](crate::systematic::encode) gives them.
    pub shards: Vec<Vec<u8>>,
    /// How they were made.
    pub code: Code,
    /// The root.
    pub root: Root,
    /// The path of each shard.
    pub paths: Vec<Vec<Digest>>,
}

/// A shard as someone hands it in.
#[derive(Clone, Copy, Debug)]
pub struct Shown<'a> {
    /// Its index.
    pub index: u32,
    /// The mask of the data.
    pub mask: u32,
    /// Its bytes.
    pub bytes: &'a [u8],
    /// Its path.
    pub path: &'a [Digest],
}

/// How many digests the path of the shard of this index has, and how many the longest.
fn path_sizes(total: u32, index: u32) -> Result<(usize, usize), Error> {
    let (mut steps, mut room) = (0, 0);
    library::path_sizes(total, index, &mut steps, &mut room)?;
    Ok((steps, room))
}

/// Returns all `total` shards, how they were made, the root, and the path of each shard.
///
/// It refuses as [`Code::shard_size`] does, and then more than 65,536 shards with [`Error::TooMany`].
pub fn commit(data: &[u8], min: u32, total: u32) -> Result<Committed, Error> {
    let mut code = Code { size: data.len(), min, total, mask: 0 };
    let size = code.shard_size()?;
    if total > 65_536 {
        return Err(Error::TooMany);
    }
    let room = path_sizes(total, 0)?.1;
    let mut parity = zeros((total - min) as usize * size)?;
    let mut places: Vec<Digest> = zeros(total as usize * room)?;
    let mut root = [0; 32];
    library::commit(data, min, total, &mut parity, &mut code.mask, &mut root, &mut places)?;
    let mut shards = room_for(total as usize)?;
    add_rows(&mut shards, data, size, min as usize)?;
    add_rows(&mut shards, &parity, size, (total - min) as usize)?;
    let mut paths = room_for(total as usize)?;
    for index in 0..total {
        let steps = path_sizes(total, index)?.0;
        let mut path = room_for(steps)?;
        path.extend_from_slice(&places[index as usize * room..index as usize * room + steps]);
        paths.push(path);
    }
    Ok(Committed { shards, code, root: Root(root), paths })
}

/// Returns whether these bytes are under the root as the shard of this index, by the path. A shard or a path of another length is
/// not.
///
/// It refuses as [`Code::shard_size`] does.
///
/// ```
/// use commonware_math_proved::roots::{commit, is_under};
///
/// let made = commit(b"0123456789", 2, 3)?;
/// assert!(is_under(&made.root, &made.code, 1, &made.shards[1], &made.paths[1])?);
/// assert!(!is_under(&made.root, &made.code, 0, &made.shards[1], &made.paths[1])?);
/// # Ok::<(), commonware_math_proved::Error>(())
/// ```
pub fn is_under(root: &Root, code: &Code, index: u32, shard: &[u8], path: &[Digest]) -> Result<bool, Error> {
    let mut under = 0;
    if shard.len() == code.shard_size()? {
        library::shard_is_under(&root.0, code, index, shard, path, &mut under)?;
    }
    Ok(under == 1)
}

/// Returns the `size` bytes of data that the shards under the root give back, and the positions of the others, rising. The position
/// of a shard is its place among them.
///
/// If `strict` is true, this is the root of the data. It refuses, in this order:
///
/// - `size`, `min` and `total` as [`Code::shard_size`] does;
/// - more than 65,536 shards in `total`: [`Error::TooMany`];
/// - shards under the root with different masks: [`Error::Inconsistent`];
/// - what [`decode`](crate::systematic::decode) refuses of the shards under the root;
/// - if `strict` is true, data with another root: [`Error::WrongRoot`].
pub fn join_under(
    root: &Root,
    size: usize,
    min: u32,
    total: u32,
    shards: &[Shown<'_>],
    strict: bool,
) -> Result<(Vec<u8>, Vec<usize>), Error> {
    let row = Code { size, min, total, mask: 0 }.shard_size()?;
    let room = path_sizes(total, 0)?.1;
    let (mut indices, mut masks, mut places) =
        (room_for(shards.len())?, room_for(shards.len())?, room_for(shards.len())?);
    let mut rows = room_for(shards.len().checked_mul(row).ok_or(Error::OutOfMemory)?)?;
    let mut paths: Vec<Digest> = room_for(shards.len().checked_mul(room).ok_or(Error::OutOfMemory)?)?;
    let mut others = room_for(shards.len())?;
    for (place, shard) in shards.iter().enumerate() {
        // What has another length than a shard or a path is not under the root.
        if shard.index >= total || shard.bytes.len() != row || shard.path.len() != path_sizes(total, shard.index)?.0 {
            others.push(place);
            continue;
        }
        indices.push(shard.index);
        masks.push(shard.mask);
        places.push(place);
        rows.extend_from_slice(shard.bytes);
        paths.extend_from_slice(shard.path);
        paths.resize(indices.len() * room, [0; 32]);
    }
    let (mut data, mut left_out, mut many) = (zeros(size)?, zeros(indices.len())?, 0);
    library::join_under(
        &root.0,
        &indices,
        &masks,
        &rows,
        &paths,
        min,
        total,
        strict,
        &mut data,
        &mut left_out,
        &mut many,
    )?;
    others.extend(left_out[..many].iter().map(|&i: &usize| -> usize { places[i] }));
    others.sort_unstable();
    Ok((data, others))
}
