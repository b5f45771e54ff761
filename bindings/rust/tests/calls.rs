//! Every call, every error, and the answers of the Rust crate.

use commonware_math_proved::*;

/// The generator splitmix64.
struct Words(u64);

impl Words {
    fn next(&mut self) -> u64 {
        self.0 = self.0.wrapping_add(0x9e37_79b9_7f4a_7c15);
        let a = (self.0 ^ (self.0 >> 30)).wrapping_mul(0xbf58_476d_1ce4_e5b9);
        let b = (a ^ (a >> 27)).wrapping_mul(0x94d0_49bb_1331_11eb);
        b ^ (b >> 31)
    }

    fn element(&mut self) -> u64 {
        loop {
            let word = self.next();
            if word < MODULUS {
                return word;
            }
        }
    }

    fn below(&mut self, n: usize) -> usize {
        (self.next() % n as u64) as usize
    }

    /// So many distinct numbers below n, in any order.
    fn choice(&mut self, n: usize, count: usize) -> Vec<usize> {
        let mut all: Vec<usize> = (0..n).collect();
        for i in 0..count {
            let j = i + self.below(n - i);
            all.swap(i, j);
        }
        all.truncate(count);
        all
    }
}

#[test]
fn shards_of_bytes_come_back() {
    let mut words = Words(1);
    for length in 0..200 {
        let total = 1 + words.below(12);
        let min = 1 + words.below(total);
        let data: Vec<u8> = (0..length).map(|_| words.next() as u8).collect();
        let shards = split_bytes(&data, min as u32, total as u32).unwrap();
        assert_eq!(shards.len(), total);
        assert_eq!(shards[0].len(), shard_bytes_sizes(length, min as u32, total as u32).unwrap());
        let count = min + words.below(total - min + 1);
        let left: Vec<(u32, &[u8])> =
            words.choice(total, count).into_iter().map(|i| (i as u32, &shards[i][..])).collect();
        assert_eq!(join_bytes(&left, min as u32, total as u32), Ok(data.clone()));
        // of all shards as many wrong as can be
        let mut all: Vec<(u32, Vec<u8>)> = (0..).zip(shards).collect();
        let mut wrong = words.choice(total, (total - min) / 2);
        wrong.sort();
        for i in &wrong {
            all[*i].1[7] ^= 1;
        }
        let found = join_bytes_corrected(&all, min as u32, total as u32).unwrap();
        assert_eq!((found.data, found.left_out), (data, wrong));
    }
}

#[test]
fn shards_of_words_come_back() {
    let mut words = Words(2);
    for length in 0..100 {
        let data: Vec<u64> = (0..length).map(|_| words.next()).collect();
        let size = shard_sizes(length, 3, 7).unwrap();
        let shards = split(&data, 3, 7).unwrap();
        let indices: Vec<u32> = words.choice(7, 4).into_iter().map(|i| i as u32).collect();
        let left: Vec<u64> = indices.iter().flat_map(|i| &shards[*i as usize * size..][..size]).copied().collect();
        assert_eq!(join(&indices, 3, 7, &left), Ok(data.clone()));
        let mut all = shards;
        let wrong = words.below(7);
        all[wrong * size] = (all[wrong * size] + 1) % MODULUS;
        let found = join_corrected(&[0, 1, 2, 3, 4, 5, 6], 3, 7, &all).unwrap();
        assert_eq!((found.data, found.left_out), (data, vec![wrong]));
        // of four none may be wrong
        let mut four = all[..4 * size].to_vec();
        four[0] = (four[0] + 1 + u64::from(wrong == 0)) % MODULUS;
        assert_eq!(join_corrected(&[0, 1, 2, 3], 3, 7, &four), Err(Error::Inconsistent));
    }
}

#[test]
fn systematic_shards_come_back() {
    let mut words = Words(4);
    for length in 0..200 {
        let total = 1 + words.below(12);
        let min = 1 + words.below(total);
        // words whose high half is all ones force a mask
        let data: Vec<u8> =
            (0..length).map(|i| if length % 3 == 0 && i < 24 { 0xff } else { words.next() as u8 }).collect();
        let (shards, code) = systematic::encode(&data, min as u32, total as u32).unwrap();
        assert_eq!((shards.len(), code.size), (total, length));
        assert_eq!(code.mask, u32::from(length % 3 == 0 && length > 7));
        assert!(shards.iter().all(|shard| shard.len() == code.shard_size().unwrap()));
        assert_eq!(shards[..min].concat()[..length], data);
        assert_eq!((0..min as u32).map(|i| code.data_size(i).unwrap()).sum::<usize>(), length);
        let count = min + words.below(total - min + 1);
        let left: Vec<(u32, &[u8])> =
            words.choice(total, count).into_iter().map(|i| (i as u32, &shards[i][..])).collect();
        let wanted: Vec<u32> = (0..total as u32).collect();
        assert_eq!(systematic::rebuild(&code, &left, &wanted), Ok(shards.clone()));
        assert_eq!(systematic::decode(&code, &left), Ok(data));
        assert_eq!(systematic::verify(&code, &left), Ok(true));
        if count > min && length > 0 {
            let mut damaged: Vec<(u32, Vec<u8>)> = left.iter().map(|(i, shard)| (*i, shard.to_vec())).collect();
            damaged[count - 1].1[0] ^= 1;
            assert_eq!(systematic::verify(&code, &damaged), Ok(false));
            assert_eq!(systematic::rebuild(&code, &damaged, &[0]), Err(Error::Inconsistent));
        }
        // of all shards as many wrong as can be
        let mut all: Vec<(u32, Vec<u8>)> = (0..).zip(shards.clone()).collect();
        let mut wrong = words.choice(total, if length > 0 { (total - min) / 2 } else { 0 });
        wrong.sort();
        for i in &wrong {
            all[*i].1[7] ^= 1;
        }
        let found = systematic::rebuild_corrected(&code, &all, &wanted).unwrap();
        assert_eq!((found.shards, found.left_out), (shards, wrong));
    }
}

#[test]
fn refusals_of_systematic_shards() {
    let (shards, code) = systematic::encode(b"0123456789", 2, 4).unwrap();
    let (a, b, c, high) = (&shards[0][..], &shards[1][..], &shards[2][..], &[0xff; 8][..]);
    assert_eq!(systematic::encode(b"", 0, 1), Err(Error::Mismatch));
    assert_eq!(systematic::encode(b"", 2, 1), Err(Error::Mismatch));
    assert_eq!(systematic::Code { size: 1 << 34, ..code }.shard_size(), Err(Error::WrongSize));
    assert_eq!(code.data_size(4), Err(Error::WrongIndex));
    for refused in [
        |code: &systematic::Code, shards: &[(u32, &[u8])]| systematic::rebuild(code, shards, &[0]).map(|_| ()),
        |code: &systematic::Code, shards: &[(u32, &[u8])]| systematic::decode(code, shards).map(|_| ()),
        |code: &systematic::Code, shards: &[(u32, &[u8])]| systematic::verify(code, shards).map(|_| ()),
    ] {
        assert_eq!(refused(&systematic::Code { min: 5, ..code }, &[(0, a), (1, b)]), Err(Error::Mismatch));
        assert_eq!(refused(&systematic::Code { size: 1 << 34, ..code }, &[(0, a)]), Err(Error::WrongSize));
        assert_eq!(refused(&code, &[(0, a), (1, &b[..7])]), Err(Error::Mismatch));
        assert_eq!(refused(&code, &[(0, &a[..7]), (1, &b[..7])]), Err(Error::WrongSize));
        assert_eq!(refused(&code, &[]), Err(Error::TooFew));
        assert_eq!(refused(&code, &[(0, a), (4, b)]), Err(Error::WrongIndex));
        assert_eq!(refused(&code, &[(0, a), (2, high)]), Err(Error::OutOfRange));
        assert_eq!(refused(&code, &[(0, high), (2, c)]), Err(Error::OutOfRange));
        assert_eq!(refused(&code, &[(0, a), (0, a)]), Err(Error::TooFew));
    }
    assert_eq!(systematic::rebuild(&code, &[(0, a), (1, b)], &[4]), Err(Error::WrongIndex));
    assert_eq!(systematic::rebuild(&code, &[(0, a), (0, b)], &[1]), Err(Error::Conflict));
    assert_eq!(systematic::verify(&code, &[(0, a), (0, b)]), Ok(false));
    assert_eq!(systematic::decode(&code, &[(0, a), (1, b), (2, a)]), Err(Error::Inconsistent));
    // the bytes past the end of the data are zeros
    assert_eq!(systematic::decode(&code, &[(0, a), (1, &b"89\x01\0\0\0\0\0"[..])]), Err(Error::Inconsistent));
}

#[test]
fn polynomials_come_back() {
    let mut words = Words(3);
    for lg in 0..8 {
        let rows = 1 << lg;
        let old: Vec<u64> = (0..2 * rows).map(|i| if i < rows { words.element() } else { 0 }).collect();
        let mut cells = old.clone();
        evaluate(&mut cells, 2).unwrap();
        let mut again = cells.clone();
        interpolate(&mut again, 2).unwrap();
        assert_eq!(again, old);
        // half of the rows, or the one
        let mut filled = vec![false; rows];
        for i in words.choice(rows, rows.div_ceil(2)) {
            filled[i] = true;
        }
        let mut left = cells.clone();
        for i in (0..rows).filter(|i| !filled[*i]) {
            left[2 * i..2 * i + 2].fill(u64::MAX);
        }
        recover(&mut left, 2, &filled).unwrap();
        assert_eq!(left, old);
        // a quarter of the rows wrong
        let mut wrong = words.choice(rows, rows / 4);
        wrong.sort();
        for i in &wrong {
            cells[2 * i] = (cells[2 * i] + 1) % MODULUS;
        }
        assert_eq!(correct(&mut cells, 2, &vec![true; rows], rows.div_ceil(2)).unwrap(), wrong);
        assert_eq!(cells, old);
        // the same by values and points
        let coefficients: Vec<u64> = old.iter().step_by(2).copied().take(rows.div_ceil(2)).collect();
        let points: Vec<u64> = (0..rows as u64).map(|i| 3 * i + 1).collect();
        let mut values: Vec<u64> = points.iter().map(|x| eval(&coefficients, *x).unwrap()).collect();
        for i in &wrong {
            values[*i] = (values[*i] + 1) % MODULUS;
        }
        let found = decode(&points, &values, coefficients.len()).unwrap();
        assert_eq!((found.coefficients, found.wrong), (coefficients.clone(), wrong));
        let encoded = encode_poly(&coefficients).unwrap();
        assert_eq!(decode_poly(&encoded).unwrap(), coefficients);
    }
}

#[test]
fn every_error() {
    assert_eq!(eval(&[MODULUS], 5), Err(Error::OutOfRange));
    assert_eq!(eval(&[], 5), Err(Error::WrongSize));
    assert_eq!(evaluate(&mut [1, 2, 3], 1), Err(Error::WrongSize));
    assert_eq!(evaluate(&mut [], 1), Err(Error::WrongSize));
    assert_eq!(interpolate(&mut [MODULUS, 0], 1), Err(Error::OutOfRange));
    assert_eq!(recover(&mut [1, 2], 1, &[true]), Err(Error::WrongSize));
    assert_eq!(correct(&mut [1, 2], 1, &[true, false], 2), Err(Error::TooFew));
    assert_eq!(correct(&mut [1, 2, 3, 4], 1, &[true; 4], 2), Err(Error::Inconsistent));
    assert_eq!(decode(&[1, 1], &[2, 3], 1), Err(Error::Repeated));
    assert_eq!(decode(&[1], &[2, 3], 1), Err(Error::WrongSize));
    assert_eq!(decode(&[1], &[2], 2), Err(Error::WrongSize));
    assert_eq!(weights(&[MODULUS], 0), Err(Error::OutOfRange));
    assert_eq!(weights_at_roots(4, &[1, 1], 0), Err(Error::WrongIndex));
    assert_eq!(weights_at_roots(0, &[], 0), Err(Error::WrongSize));
    assert_eq!(decode_poly(&[]), Err(Error::EndOfBuffer));
    assert_eq!(decode_poly(&[0x80, 0]), Err(Error::InvalidVarint));
    assert_eq!(decode_poly(&[0]), Err(Error::InvalidLength));
    assert_eq!(decode_poly(&[1, 0, 0, 0, 0, 0, 0, 0, 4, 9]), Err(Error::ExtraData));
    assert_eq!(split(&[1], 3, 2), Err(Error::Mismatch));
    assert_eq!(shard_sizes(usize::MAX, 1, 1), Err(Error::WrongSize));
    let none: [(u32, &[u8]); 0] = [];
    assert_eq!(join_bytes(&none, 1, 1), Err(Error::TooFew));
    assert_eq!(split_bytes(&[], 0, 1), Err(Error::Mismatch));
    assert_eq!(shard_bytes_sizes(1 << 62, 1, 1), Err(Error::WrongSize));
    // 2^59 bytes of shards are taken by none
    assert!(matches!(shard_bytes_sizes(1 << 58, 1, 2), Ok(_)));

    let shards = split_bytes(b"0123456789", 2, 4).unwrap();
    let (a, b) = (&shards[0], &shards[1]);
    assert_eq!(join_bytes(&[(0, a), (4, b)], 2, 4), Err(Error::WrongIndex));
    assert_eq!(join_bytes(&[(0, a), (0, b)], 2, 4), Err(Error::Conflict));
    assert_eq!(join_bytes(&[(0, a), (0, a)], 2, 4), Err(Error::TooFew));
    assert_eq!(join_bytes(&[(0, &a[..8]), (1, b)], 2, 4), Err(Error::Mismatch));
    assert_eq!(join_bytes(&[(0, &a[..9]), (1, &b[..9])], 2, 4), Err(Error::WrongSize));
    assert_eq!(join_bytes(&[(0, a), (1, a), (2, a)], 2, 4), Err(Error::Inconsistent));
    assert_eq!(join_bytes(&[(0, [0xff; 24]), (1, [0xff; 24])], 2, 4), Err(Error::OutOfRange));
    assert_eq!(join_bytes_corrected(&none, 1, 1), Err(Error::TooFew));
    assert_eq!(join_bytes_corrected(&[(0, a), (4, b)], 2, 4), Err(Error::WrongIndex));
    assert_eq!(join_bytes_corrected(&[(0, a), (0, b), (1, b)], 2, 4), Err(Error::TooFew));
    assert_eq!(join_bytes_corrected(&[(0, &a[..8]), (1, b)], 2, 4), Err(Error::Mismatch));
    assert_eq!(join_bytes_corrected(&[(0, &a[..9]), (1, &b[..9])], 2, 4), Err(Error::WrongSize));
    assert_eq!(join_bytes_corrected(&[(0, a), (1, a), (2, a)], 2, 4), Err(Error::Inconsistent));
    assert_eq!(join_bytes_corrected(&[(0, [0xff; 24]), (1, [0xff; 24])], 2, 4), Err(Error::OutOfRange));
    assert_eq!(join(&[0], 1, 1, &[MODULUS]), Err(Error::OutOfRange));
}

#[test]
fn errors_have_the_texts_of_the_library() {
    let texts = [
        (Error::OutOfMemory, "out of memory"),
        (Error::OutOfRange, "out of range"),
        (Error::WrongSize, "wrong size"),
        (Error::TooFew, "too few"),
        (Error::Mismatch, "mismatch"),
        (Error::WrongIndex, "wrong index"),
        (Error::Conflict, "unequal shards of one index"),
        (Error::Inconsistent, "nothing fits"),
        (Error::EndOfBuffer, "end of buffer"),
        (Error::InvalidVarint, "invalid varint"),
        (Error::InvalidLength, "invalid length"),
        (Error::ExtraData, "extra data"),
        (Error::Repeated, "repeated point"),
        (Error::TooMany, "more than 65536 shards"),
        (Error::WrongRoot, "the root of no data"),
        (Error::Unknown(99), "no status"),
    ];
    for (error, text) in texts {
        assert_eq!(error.to_string(), text);
    }
}

#[test]
fn threads_give_the_same() {
    let data = vec![7u8; 100_000];
    let alone = split_bytes(&data, 10, 16).unwrap();
    let found: Vec<_> = std::thread::scope(|scope| {
        let running: Vec<_> = (0..4).map(|_| scope.spawn(|| split_bytes(&data, 10, 16).unwrap())).collect();
        running.into_iter().map(|thread| thread.join().unwrap()).collect()
    });
    assert!(found.iter().all(|shards| *shards == alone));
}

/// The answers of the Rust crate, as far as C has the calls: a line is `CALL ARGUMENTS -> ANSWER`.
#[test]
fn answers_of_the_rust_crate() {
    let file = concat!(env!("CARGO_MANIFEST_DIR"), "/../../crates/rows/data/commonware.rows");
    let text = std::fs::read_to_string(file).unwrap();
    let mut run = 0;
    // (a line `every` is for runs with allocations refused)
    for line in text.lines().filter(|line| !line.is_empty() && !line.starts_with('#') && !line.starts_with("every ")) {
        let (call, answer) = line.split_once("->").unwrap();
        let (name, arguments) = call.split_once(' ').unwrap();
        let found = match name {
            "eval" => {
                let (coefficients, x) = arguments.split_once('@').unwrap();
                eval(&numbers(coefficients), numbers(x)[0]).unwrap().to_string()
            }
            "weights" => spaced(&weights(&numbers(arguments), 0).unwrap()),
            "lagrange" => {
                let (total, indices) = arguments.split_once(';').unwrap();
                let indices: Vec<u32> = numbers(indices).iter().map(|i| *i as u32).collect();
                let found = weights_at_roots(numbers(total)[0] as u32, &indices, 0).unwrap();
                indices.iter().zip(found).map(|(i, w)| format!("{i}:{w}")).collect::<Vec<_>>().join(" ")
            }
            "recover" => recovered_rows(arguments),
            "recover_ones" => recovered_ones(arguments),
            "recover_words" => recovered_words(arguments),
            "pack" | "unpack" | "vanishing" => continue,
            other => panic!("{other}"),
        };
        assert_eq!(found.trim(), answer.trim(), "{line}");
        run += 1;
    }
    assert_eq!(run, 64);
}

fn numbers(text: &str) -> Vec<u64> {
    let words = text.split(|c: char| !c.is_ascii_digit()).filter(|word| !word.is_empty());
    words.map(|word| word.parse().unwrap()).collect()
}

fn spaced(words: &[u64]) -> String {
    words.iter().map(u64::to_string).collect::<Vec<_>>().join(" ")
}

/// The rows up to the last that is not zero, and how many follow.
fn shown(cells: &[u64], cols: usize) -> String {
    let rows: Vec<&[u64]> = cells.chunks(cols).collect();
    let used = rows.iter().rposition(|row| row.iter().any(|cell| *cell != 0)).map_or(0, |last| last + 1);
    let texts: Vec<String> = rows[..used].iter().map(|row| spaced(row)).collect();
    format!("{} + {} zero rows", texts.join(" ; "), rows.len() - used)
}

/// `LG COLUMNS ROW: CELL .. ; ..`
fn recovered_rows(arguments: &str) -> String {
    let mut parts = arguments.split(';');
    let first = numbers(parts.next().unwrap());
    let (rows, cols) = (1 << first[0], first[1] as usize);
    let mut cells = vec![u64::MAX; rows * cols];
    let mut filled = vec![false; rows];
    let others = parts.map(numbers).filter(|row| !row.is_empty());
    for row in std::iter::once(first[2..].to_vec()).filter(|row| !row.is_empty()).chain(others) {
        let i = row[0] as usize;
        filled[i] = true;
        cells[i * cols..][..cols].copy_from_slice(&row[1..]);
    }
    recover(&mut cells, cols, &filled).unwrap();
    shown(&cells, cols)
}

/// The rows that a rule of two letters fills: of the even and of the odd rows none are missing, those below half, or all.
fn filled_by(rule: &str, rows: usize) -> Vec<bool> {
    let letters = rule.as_bytes();
    let is_filled = |i: usize| match letters[i % 2] {
        b'n' => true,
        b's' => 2 * i >= rows,
        _ => false,
    };
    (0..rows).map(is_filled).collect()
}

/// `LG RULE`: one column, in which the filled rows hold one.
fn recovered_ones(arguments: &str) -> String {
    let (lg, rule) = arguments.trim().split_once(' ').unwrap();
    let rows = 1 << lg.parse::<u32>().unwrap();
    let filled = filled_by(rule, rows);
    let mut cells: Vec<u64> = filled.iter().map(|is| if *is { 1 } else { u64::MAX }).collect();
    recover(&mut cells, 1, &filled).unwrap();
    shown(&cells, 1)
}

/// `LG RULE`: two columns, in which the filled rows hold words of splitmix64; the hash FNV-1a of the coefficients.
fn recovered_words(arguments: &str) -> String {
    let (lg, rule) = arguments.trim().split_once(' ').unwrap();
    let lg: u32 = lg.parse().unwrap();
    let rows = 1 << lg;
    let filled = filled_by(rule, rows);
    let mut words = Words(u64::from(lg) << 32);
    let mut cells = vec![u64::MAX; 2 * rows];
    for i in (0..rows).filter(|i| filled[*i]) {
        cells[2 * i] = words.element();
        cells[2 * i + 1] = words.element();
    }
    recover(&mut cells, 2, &filled).unwrap();
    let step = |hash: u64, byte: u8| (hash ^ u64::from(byte)).wrapping_mul(0x0100_0000_01b3);
    let bytes = cells.iter().flat_map(|cell| cell.to_le_bytes());
    format!("fnv {:016x}", bytes.fold(0xcbf2_9ce4_8422_2325, step))
}
