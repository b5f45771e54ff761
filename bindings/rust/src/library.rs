//! The C library's functions, over slices. All unsafe lines of the package are here.
//!
//! Each call meets what `commonware_math.h` asks of its caller, and this holds for all of them: a slice's pointer is
//! aligned and not null, also where it has no item, its length is true and below 2^63 bytes, and what is written is
//! borrowed alone, so that it overlaps with nothing. Rust's allocator on the system's `malloc` is left as it is.

use crate::roots::Digest;
use crate::systematic::Code;
use crate::Error;
use std::ffi::c_char;

mod declared {
    use std::ffi::c_char;

    // The declarations of `commonware_math.h`.
    #[rustfmt::skip]
    unsafe extern "C" {
        pub fn cwm_version() -> u32;
        pub fn cwm_has_vectors() -> u32;
        pub fn cwm_status_text(status: u32, text: *mut c_char, m: usize) -> u32;
        pub fn cwm_eval(coefficients: *const u64, n: usize, x: u64, out: *mut u64) -> u32;
        pub fn cwm_evaluate(cells: *mut u64, n: usize, cols: usize) -> u32;
        pub fn cwm_interpolate(cells: *mut u64, n: usize, cols: usize) -> u32;
        pub fn cwm_recover(cells: *mut u64, n: usize, cols: usize, filled: *const u8, rows: usize) -> u32;
        pub fn cwm_correct(cells: *mut u64, n: usize, cols: usize, filled: *const u8, rows: usize, count: usize, wrong: *mut usize, room: usize, written: *mut usize) -> u32;
        pub fn cwm_decode(points: *const u64, n: usize, values: *const u64, m: usize, coefficients: *mut u64, k: usize, wrong: *mut usize, room: usize, written: *mut usize) -> u32;
        pub fn cwm_weights(points: *const u64, n: usize, x: u64, weights: *mut u64, m: usize) -> u32;
        pub fn cwm_weights_at_roots(total: u32, indices: *const u32, n: usize, x: u64, weights: *mut u64, m: usize) -> u32;
        pub fn cwm_encode_poly(coefficients: *const u64, n: usize, out: *mut u8, m: usize, written: *mut usize) -> u32;
        pub fn cwm_decode_poly(bytes: *const u8, n: usize, out: *mut u64, m: usize, count: *mut usize) -> u32;
        pub fn cwm_shard_sizes(words: usize, min: u32, total: u32, cells: *mut usize) -> u32;
        pub fn cwm_split(data: *const u64, n: usize, min: u32, total: u32, cells: *mut u64, m: usize) -> u32;
        pub fn cwm_join(indices: *const u32, k: usize, min: u32, total: u32, cells: *const u64, n: usize, data: *mut u64, m: usize, written: *mut usize) -> u32;
        pub fn cwm_join_corrected(indices: *const u32, k: usize, min: u32, total: u32, cells: *const u64, n: usize, data: *mut u64, m: usize, written: *mut usize, left_out: *mut usize, room: usize, many: *mut usize) -> u32;
        pub fn cwm_shard_bytes_sizes(bytes: usize, min: u32, total: u32, size: *mut usize) -> u32;
        pub fn cwm_split_bytes(data: *const u8, n: usize, min: u32, total: u32, shards: *mut u8, m: usize) -> u32;
        pub fn cwm_join_bytes(indices: *const u32, k: usize, min: u32, total: u32, shards: *const u8, n: usize, data: *mut u8, m: usize, written: *mut usize) -> u32;
        pub fn cwm_join_bytes_corrected(indices: *const u32, k: usize, min: u32, total: u32, shards: *const u8, n: usize, data: *mut u8, m: usize, written: *mut usize, left_out: *mut usize, room: usize, many: *mut usize) -> u32;
        pub fn cwm_systematic_sizes(size: usize, min: u32, total: u32, index: u32, row: *mut usize, data: *mut usize) -> u32;
        pub fn cwm_systematic_encode(data: *const u8, size: usize, min: u32, total: u32, parity: *mut u8, m: usize, mask: *mut u32) -> u32;
        pub fn cwm_systematic_rebuild(indices: *const u32, k: usize, rows: *const u8, n: usize, size: usize, min: u32, total: u32, mask: u32, wanted: *const u32, w: usize, out: *mut u8, m: usize) -> u32;
        pub fn cwm_systematic_decode(indices: *const u32, k: usize, rows: *const u8, n: usize, min: u32, total: u32, mask: u32, data: *mut u8, size: usize) -> u32;
        pub fn cwm_systematic_verify(indices: *const u32, k: usize, rows: *const u8, n: usize, size: usize, min: u32, total: u32, mask: u32, belong: *mut u32) -> u32;
        pub fn cwm_systematic_rebuild_corrected(indices: *const u32, k: usize, rows: *const u8, n: usize, size: usize, min: u32, total: u32, mask: u32, wanted: *const u32, w: usize, out: *mut u8, m: usize, left_out: *mut usize, room: usize, many: *mut usize) -> u32;
        pub fn cwm_path_sizes(total: u32, index: u32, steps: *mut usize, room: *mut usize) -> u32;
        pub fn cwm_commit(data: *const u8, size: usize, min: u32, total: u32, parity: *mut u8, m: usize, mask: *mut u32, root: *mut u8, paths: *mut u8, p: usize) -> u32;
        pub fn cwm_shard_is_under(root: *const u8, shard: *const u8, n: usize, size: usize, min: u32, total: u32, mask: u32, index: u32, path: *const u8, p: usize, under: *mut u32) -> u32;
        pub fn cwm_join_under(root: *const u8, indices: *const u32, k: usize, masks: *const u32, l: usize, shards: *const u8, n: usize, paths: *const u8, p: usize, min: u32, total: u32, strict: u32, data: *mut u8, size: usize, left_out: *mut usize, room: usize, many: *mut usize) -> u32;
    }
}

fn done(status: u32) -> Result<(), Error> {
    match status {
        0 => Ok(()),
        other => Err(Error::of_status(other)),
    }
}

pub fn version() -> u32 {
    // SAFETY: it takes nothing.
    unsafe { declared::cwm_version() }
}

pub fn has_vectors() -> bool {
    // SAFETY: it takes nothing.
    unsafe { declared::cwm_has_vectors() == 1 }
}

pub fn status_text(status: u32) -> String {
    let mut text: [c_char; 32] = [0; 32];
    // SAFETY: the array is as long as is said.
    let answer = unsafe { declared::cwm_status_text(status, text.as_mut_ptr(), text.len()) };
    debug_assert_eq!(answer, 0);
    text.iter().take_while(|c| **c != 0).map(|c| *c as u8 as char).collect()
}

pub fn eval(coefficients: &[u64], x: u64, out: &mut u64) -> Result<(), Error> {
    // SAFETY: as above.
    done(unsafe { declared::cwm_eval(coefficients.as_ptr(), coefficients.len(), x, out) })
}

pub fn evaluate(cells: &mut [u64], cols: usize) -> Result<(), Error> {
    // SAFETY: as above.
    done(unsafe { declared::cwm_evaluate(cells.as_mut_ptr(), cells.len(), cols) })
}

pub fn interpolate(cells: &mut [u64], cols: usize) -> Result<(), Error> {
    // SAFETY: as above.
    done(unsafe { declared::cwm_interpolate(cells.as_mut_ptr(), cells.len(), cols) })
}

pub fn recover(cells: &mut [u64], cols: usize, filled: &[bool]) -> Result<(), Error> {
    // SAFETY: as above, and a `bool` is a byte that is 0 or 1.
    done(unsafe { declared::cwm_recover(cells.as_mut_ptr(), cells.len(), cols, filled.as_ptr().cast(), filled.len()) })
}

#[rustfmt::skip]
pub fn correct(cells: &mut [u64], cols: usize, filled: &[bool], count: usize, wrong: &mut [usize], written: &mut usize) -> Result<(), Error> {
    // SAFETY: as above, and a `bool` is a byte that is 0 or 1.
    done(unsafe { declared::cwm_correct(cells.as_mut_ptr(), cells.len(), cols, filled.as_ptr().cast(), filled.len(), count, wrong.as_mut_ptr(), wrong.len(), written) })
}

#[rustfmt::skip]
pub fn decode(points: &[u64], values: &[u64], coefficients: &mut [u64], wrong: &mut [usize], written: &mut usize) -> Result<(), Error> {
    // SAFETY: as above.
    done(unsafe { declared::cwm_decode(points.as_ptr(), points.len(), values.as_ptr(), values.len(), coefficients.as_mut_ptr(), coefficients.len(), wrong.as_mut_ptr(), wrong.len(), written) })
}

pub fn weights(points: &[u64], x: u64, weights: &mut [u64]) -> Result<(), Error> {
    // SAFETY: as above.
    done(unsafe { declared::cwm_weights(points.as_ptr(), points.len(), x, weights.as_mut_ptr(), weights.len()) })
}

#[rustfmt::skip]
pub fn weights_at_roots(total: u32, indices: &[u32], x: u64, weights: &mut [u64]) -> Result<(), Error> {
    // SAFETY: as above.
    done(unsafe { declared::cwm_weights_at_roots(total, indices.as_ptr(), indices.len(), x, weights.as_mut_ptr(), weights.len()) })
}

pub fn encode_poly(coefficients: &[u64], out: &mut [u8], written: &mut usize) -> Result<(), Error> {
    // SAFETY: as above.
    done(unsafe {
        declared::cwm_encode_poly(coefficients.as_ptr(), coefficients.len(), out.as_mut_ptr(), out.len(), written)
    })
}

pub fn decode_poly(bytes: &[u8], out: &mut [u64], count: &mut usize) -> Result<(), Error> {
    // SAFETY: as above.
    done(unsafe { declared::cwm_decode_poly(bytes.as_ptr(), bytes.len(), out.as_mut_ptr(), out.len(), count) })
}

pub fn shard_sizes(words: usize, min: u32, total: u32, cells: &mut usize) -> Result<(), Error> {
    // SAFETY: as above.
    done(unsafe { declared::cwm_shard_sizes(words, min, total, cells) })
}

pub fn split(data: &[u64], min: u32, total: u32, cells: &mut [u64]) -> Result<(), Error> {
    // SAFETY: as above.
    done(unsafe { declared::cwm_split(data.as_ptr(), data.len(), min, total, cells.as_mut_ptr(), cells.len()) })
}

#[rustfmt::skip]
pub fn join(indices: &[u32], min: u32, total: u32, cells: &[u64], data: &mut [u64], written: &mut usize) -> Result<(), Error> {
    // SAFETY: as above.
    done(unsafe { declared::cwm_join(indices.as_ptr(), indices.len(), min, total, cells.as_ptr(), cells.len(), data.as_mut_ptr(), data.len(), written) })
}

#[rustfmt::skip]
#[allow(clippy::too_many_arguments)]
pub fn join_corrected(indices: &[u32], min: u32, total: u32, cells: &[u64], data: &mut [u64], written: &mut usize, left_out: &mut [usize], many: &mut usize) -> Result<(), Error> {
    // SAFETY: as above.
    done(unsafe { declared::cwm_join_corrected(indices.as_ptr(), indices.len(), min, total, cells.as_ptr(), cells.len(), data.as_mut_ptr(), data.len(), written, left_out.as_mut_ptr(), left_out.len(), many) })
}

pub fn shard_bytes_sizes(bytes: usize, min: u32, total: u32, size: &mut usize) -> Result<(), Error> {
    // SAFETY: as above.
    done(unsafe { declared::cwm_shard_bytes_sizes(bytes, min, total, size) })
}

pub fn split_bytes(data: &[u8], min: u32, total: u32, shards: &mut [u8]) -> Result<(), Error> {
    // SAFETY: as above.
    done(unsafe { declared::cwm_split_bytes(data.as_ptr(), data.len(), min, total, shards.as_mut_ptr(), shards.len()) })
}

#[rustfmt::skip]
pub fn join_bytes(indices: &[u32], min: u32, total: u32, shards: &[u8], data: &mut [u8], written: &mut usize) -> Result<(), Error> {
    // SAFETY: as above.
    done(unsafe { declared::cwm_join_bytes(indices.as_ptr(), indices.len(), min, total, shards.as_ptr(), shards.len(), data.as_mut_ptr(), data.len(), written) })
}

#[rustfmt::skip]
#[allow(clippy::too_many_arguments)]
pub fn join_bytes_corrected(indices: &[u32], min: u32, total: u32, shards: &[u8], data: &mut [u8], written: &mut usize, left_out: &mut [usize], many: &mut usize) -> Result<(), Error> {
    // SAFETY: as above.
    done(unsafe { declared::cwm_join_bytes_corrected(indices.as_ptr(), indices.len(), min, total, shards.as_ptr(), shards.len(), data.as_mut_ptr(), data.len(), written, left_out.as_mut_ptr(), left_out.len(), many) })
}

pub fn systematic_sizes(code: &Code, index: u32, row: &mut usize, data: &mut usize) -> Result<(), Error> {
    // SAFETY: as above.
    done(unsafe { declared::cwm_systematic_sizes(code.size, code.min, code.total, index, row, data) })
}

#[rustfmt::skip]
pub fn systematic_encode(data: &[u8], min: u32, total: u32, parity: &mut [u8], mask: &mut u32) -> Result<(), Error> {
    // SAFETY: as above.
    done(unsafe { declared::cwm_systematic_encode(data.as_ptr(), data.len(), min, total, parity.as_mut_ptr(), parity.len(), mask) })
}

#[rustfmt::skip]
pub fn systematic_rebuild(code: &Code, indices: &[u32], rows: &[u8], wanted: &[u32], out: &mut [u8]) -> Result<(), Error> {
    // SAFETY: as above.
    done(unsafe { declared::cwm_systematic_rebuild(indices.as_ptr(), indices.len(), rows.as_ptr(), rows.len(), code.size, code.min, code.total, code.mask, wanted.as_ptr(), wanted.len(), out.as_mut_ptr(), out.len()) })
}

#[rustfmt::skip]
pub fn systematic_decode(code: &Code, indices: &[u32], rows: &[u8], data: &mut [u8]) -> Result<(), Error> {
    // SAFETY: as above.
    done(unsafe { declared::cwm_systematic_decode(indices.as_ptr(), indices.len(), rows.as_ptr(), rows.len(), code.min, code.total, code.mask, data.as_mut_ptr(), data.len()) })
}

#[rustfmt::skip]
pub fn systematic_verify(code: &Code, indices: &[u32], rows: &[u8], belong: &mut u32) -> Result<(), Error> {
    // SAFETY: as above.
    done(unsafe { declared::cwm_systematic_verify(indices.as_ptr(), indices.len(), rows.as_ptr(), rows.len(), code.size, code.min, code.total, code.mask, belong) })
}
#[rustfmt::skip]
#[allow(clippy::too_many_arguments)]
pub fn systematic_rebuild_corrected(code: &Code, indices: &[u32], rows: &[u8], wanted: &[u32], out: &mut [u8], left_out: &mut [usize], many: &mut usize) -> Result<(), Error> {
    // SAFETY: as above.
    done(unsafe { declared::cwm_systematic_rebuild_corrected(indices.as_ptr(), indices.len(), rows.as_ptr(), rows.len(), code.size, code.min, code.total, code.mask, wanted.as_ptr(), wanted.len(), out.as_mut_ptr(), out.len(), left_out.as_mut_ptr(), left_out.len(), many) })
}

pub fn path_sizes(total: u32, index: u32, steps: &mut usize, room: &mut usize) -> Result<(), Error> {
    // SAFETY: as above.
    done(unsafe { declared::cwm_path_sizes(total, index, steps, room) })
}

#[rustfmt::skip]
pub fn commit(data: &[u8], min: u32, total: u32, parity: &mut [u8], mask: &mut u32, root: &mut Digest, paths: &mut [Digest]) -> Result<(), Error> {
    // SAFETY: as above; digests are 32 bytes each, without gaps.
    done(unsafe { declared::cwm_commit(data.as_ptr(), data.len(), min, total, parity.as_mut_ptr(), parity.len(), mask, root.as_mut_ptr(), paths.as_mut_ptr().cast(), paths.len()) })
}

#[rustfmt::skip]
pub fn shard_is_under(root: &Digest, code: &Code, index: u32, shard: &[u8], path: &[Digest], under: &mut u32) -> Result<(), Error> {
    // SAFETY: as above.
    done(unsafe { declared::cwm_shard_is_under(root.as_ptr(), shard.as_ptr(), shard.len(), code.size, code.min, code.total, code.mask, index, path.as_ptr().cast(), path.len(), under) })
}

#[rustfmt::skip]
#[allow(clippy::too_many_arguments)]
pub fn join_under(root: &Digest, indices: &[u32], masks: &[u32], shards: &[u8], paths: &[Digest], min: u32, total: u32, strict: bool, data: &mut [u8], left_out: &mut [usize], many: &mut usize) -> Result<(), Error> {
    // SAFETY: as above.
    done(unsafe { declared::cwm_join_under(root.as_ptr(), indices.as_ptr(), indices.len(), masks.as_ptr(), masks.len(), shards.as_ptr(), shards.len(), paths.as_ptr().cast(), paths.len(), min, total, u32::from(strict), data.as_mut_ptr(), data.len(), left_out.as_mut_ptr(), left_out.len(), many) })
}
