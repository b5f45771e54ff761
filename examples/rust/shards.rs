//! Bytes are split into eight shards, four of them are lost, and the bytes are got back from the others.
#![deny(unsafe_code)]

use commonware_math_proved::{join_bytes, split_bytes, Error};

fn main() -> Result<(), Error> {
    // any `min` of `total` shards give the data back
    let (min, total) = (4, 8);
    let data = b"Any four of these eight shards give back these bytes, unchanged.";
    let mut shards = split_bytes(data, min, total)?;
    println!("bytes a shard: {}", shards[0].len());

    // shards 7, 2, 4 and 1 are left, in this order: each is known by its index
    let left = [7, 2, 4, 1].map(|i| (i, &shards[i as usize]));
    println!("{}", String::from_utf8_lossy(&join_bytes(&left, min, total)?));

    // fewer than `min` shards, and damage to one of more than `min`, are refused
    println!("join of three: {}", join_bytes(&left[..3], min, total).unwrap_err());
    shards[2][0] ^= 1;
    let five = [7, 2, 4, 1, 0].map(|i| (i, &shards[i as usize]));
    println!("join of five, one damaged: {}", join_bytes(&five, min, total).unwrap_err());
    Ok(())
}
