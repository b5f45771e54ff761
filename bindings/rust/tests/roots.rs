//! Roots of systematic shards: what was committed to comes back, whatever is forged, and nothing else.

use commonware_math_proved::roots::{commit, is_under, join_under, Committed, Root, Shown};
use commonware_math_proved::systematic::{encode, Code};
use commonware_math_proved::Error;

fn shown(made: &Committed, i: usize) -> Shown<'_> {
    Shown { index: i as u32, mask: made.code.mask, bytes: &made.shards[i], path: &made.paths[i] }
}

#[test]
fn shards_are_those_of_encode_and_under_the_root() {
    for total in 1..20_u32 {
        let min = 1 + total / 2;
        let data: Vec<u8> = (0..10 * total as u8).collect();
        let made = commit(&data, min, total).unwrap();
        assert_eq!((made.shards.clone(), made.code), encode(&data, min, total).unwrap());
        for i in 0..total as usize {
            assert_eq!(is_under(&made.root, &made.code, i as u32, &made.shards[i], &made.paths[i]), Ok(true));
            let mut forged = made.shards[i].clone();
            forged[0] ^= 1;
            assert_eq!(is_under(&made.root, &made.code, i as u32, &forged, &made.paths[i]), Ok(false));
            assert_eq!(is_under(&made.root, &made.code, i as u32, &forged[1..], &made.paths[i]), Ok(false));
            assert_eq!(is_under(&made.root, &made.code, total, &made.shards[i], &made.paths[i]), Ok(false));
        }
    }
}

#[test]
fn a_root_of_these_bytes() {
    let made = commit(b"twelve bytes", 2, 3).unwrap();
    assert_eq!(made.root.0[..8], [107, 7, 220, 229, 212, 151, 106, 149]);
    assert_eq!(made.root.to_string().parse(), Ok(made.root));
    assert!("+7".repeat(32).parse::<Root>().is_err());
}

#[test]
fn forged_shards_are_left_out() {
    let data = b"what was committed to comes back";
    let made = commit(data, 3, 7).unwrap();
    let forged = vec![7; made.shards[0].len()];
    let mut handed: Vec<Shown> = (0..7).map(|i| shown(&made, i)).collect();
    handed[1].bytes = &forged;
    handed[2].bytes = &forged[1..];
    handed[3].path = &made.paths[3][1..];
    handed[4].index = 9;
    for strict in [false, true] {
        assert_eq!(join_under(&made.root, data.len(), 3, 7, &handed, strict), Ok((data.to_vec(), vec![1, 2, 3, 4])));
    }
    handed[5].mask = 1;
    assert_eq!(join_under(&made.root, data.len(), 3, 7, &handed, false), Err(Error::TooFew));
    assert_eq!(join_under(&Root([0; 32]), data.len(), 3, 7, &handed, true), Err(Error::TooFew));
}

#[test]
fn refusals() {
    assert_eq!(commit(b"", 3, 2).map(|made| made.root), Err(Error::Mismatch));
    assert_eq!(commit(b"", 2, 65_537).map(|made| made.root), Err(Error::TooMany));
    assert_eq!(join_under(&Root([0; 32]), 0, 2, 65_537, &[], false), Err(Error::TooMany));
    let code = Code { size: 8, min: 3, total: 2, mask: 0 };
    assert_eq!(is_under(&Root([0; 32]), &code, 0, &[], &[]), Err(Error::Mismatch));
}
