//! A text stands in four data shards as it is, and two parity shards are added. One shard is lost, and made anew.
#![deny(unsafe_code)]

use commonware_math_proved::systematic::{encode, rebuild};
use commonware_math_proved::Error;

fn main() -> Result<(), Error> {
    // the data shards one behind the other are the text, and the parity shards stand behind them
    let text = b"Four shards are these bytes as they stand, two more are parity.\n";
    let (mut shards, code) = encode(text, 4, 6)?;

    // shard 0 is lost, and the shards 1 to 4 give it back
    shards[0].fill(b'?');
    print!("{}", String::from_utf8_lossy(&shards[..4].concat()));
    let left = [1, 2, 3, 4].map(|i| (i, &shards[i as usize]));
    let rebuilt = rebuild(&code, &left, &[0])?.remove(0);
    shards[0] = rebuilt;
    print!("{}", String::from_utf8_lossy(&shards[..4].concat()));
    Ok(())
}
