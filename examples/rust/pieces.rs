//! A file is cut into plain pieces, and parity pieces are added. Two pieces are lost, and made anew from the others.
//!
//! The first MIN pieces, one behind the other, are the file: any program reads them. All are gone through strip by
//! strip, so memory stays small however long the file is. Each strip is a block of its own, and its mask is kept.
#![deny(unsafe_code)]

use commonware_math_proved::systematic::{encode, rebuild, Code};
use std::error::Error;
use std::fs::{self, File};
use std::io::{Read, Write};
use std::path::Path;

const MIN: u32 = 4;
const TOTAL: u32 = 6;
const STRIP: usize = 1024;

/// Opens the piece of this index, to be read.
fn open(folder: &Path, index: u32) -> std::io::Result<(u32, File)> {
    Ok((index, File::open(folder.join(format!("file.{index}")))?))
}

/// Opens the piece of this index, to be written.
fn create(folder: &Path, index: u32) -> std::io::Result<File> {
    File::create(folder.join(format!("file.{index}")))
}

/// Reads the next n bytes of each piece; zeros stand for what lies past its end.
fn take(pieces: &[(u32, File)], n: usize) -> std::io::Result<Vec<(u32, Vec<u8>)>> {
    let mut rows = Vec::new();
    for (index, piece) in pieces {
        let mut row = Vec::new();
        piece.take(n as u64).read_to_end(&mut row)?;
        row.resize(n, 0);
        rows.push((*index, row));
    }
    Ok(rows)
}

fn run(folder: &Path) -> Result<(), Box<dyn Error>> {
    // the file is lines with a number each; a piece has `size` bytes, and the last one what is left
    let file: String = (0..1999).map(|i| format!("line {i:4}\n")).collect();
    let whole = Code { size: file.len(), min: MIN, total: TOTAL, mask: 0 };
    let size = whole.shard_size()?;
    for (index, piece) in (0..).zip(file.as_bytes().chunks(size)) {
        create(folder, index)?.write_all(piece)?;
    }

    // the parity pieces, and the code of each strip
    let data: Vec<(u32, File)> = (0..MIN).map(|i| open(folder, i)).collect::<Result<_, _>>()?;
    let mut parity: Vec<File> = (MIN..TOTAL).map(|i| create(folder, i)).collect::<Result<_, _>>()?;
    let mut codes: Vec<Code> = Vec::new();
    for at in (0..size).step_by(STRIP) {
        let block: Vec<u8> = take(&data, STRIP.min(size - at))?.into_iter().flat_map(|(_, row)| row).collect();
        let (rows, code) = encode(&block, MIN, TOTAL)?;
        for (piece, row) in parity.iter_mut().zip(&rows[MIN as usize..]) {
            piece.write_all(row)?;
        }
        codes.push(code);
    }

    // pieces 3 and 5 are lost, and the others give them back
    let lost = [3, 5];
    let left: Vec<(u32, File)> = [0, 1, 2, 4].into_iter().map(|i| open(folder, i)).collect::<Result<_, _>>()?;
    let mut anew: Vec<File> = lost.iter().map(|i| create(folder, *i)).collect::<Result<_, _>>()?;
    for code in &codes {
        let rows = take(&left, code.shard_size()?)?;
        for (piece, row) in anew.iter_mut().zip(rebuild(code, &rows, &lost)?) {
            piece.write_all(&row)?;
        }
    }
    for (index, piece) in lost.iter().zip(&anew) {
        // the zeros that fill the last data piece go
        if *index < MIN {
            piece.set_len(whole.data_size(*index)? as u64)?;
        }
    }

    for index in 0..TOTAL {
        let piece = fs::read(folder.join(format!("file.{index}")))?;
        let kind = match index {
            0..MIN => format!(", from {}", String::from_utf8_lossy(&piece[..9])),
            _ => " of parity".into(),
        };
        println!("piece {index}: {} bytes{kind}", piece.len());
    }
    Ok(())
}

fn main() -> Result<(), Box<dyn Error>> {
    let folder = std::env::temp_dir().join(format!("pieces-{}", std::process::id()));
    fs::create_dir(&folder)?;
    let answer = run(&folder);
    fs::remove_dir_all(&folder)?;
    answer
}
