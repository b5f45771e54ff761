//! A text stands in four data shards and two parity shards, and one root of 32 bytes binds it. Someone forges a shard; the root tells which.
#![deny(unsafe_code)]

use commonware_math_proved::roots::{commit, is_under, join_under, Shown};
use commonware_math_proved::Error;

fn main() -> Result<(), Error> {
    // the data shards one behind the other are the text, and the parity shards stand behind them
    let text = b"Only what the root binds is taken, and a forged shard left out.\n";
    let mut made = commit(text, 4, 6)?;

    // shard 1 is forged
    made.shards[1].copy_from_slice(b"claims of a liar");
    print!("{}", String::from_utf8_lossy(&made.shards[..4].concat()));
    assert!(!is_under(&made.root, &made.code, 1, &made.shards[1], &made.paths[1])?);

    // all six are handed in, and the text comes back
    let shown = |i: usize| Shown { index: i as u32, mask: made.code.mask, bytes: &made.shards[i], path: &made.paths[i] };
    let (data, left_out) = join_under(&made.root, text.len(), 4, 6, &[0, 1, 2, 3, 4, 5].map(shown), true)?;
    println!("left out: {}, at position {}", left_out.len(), left_out[0]);
    print!("{}", String::from_utf8_lossy(&data));
    Ok(())
}
