//! Two polynomials are evaluated at eight points, five of the eight rows of values are lost, and the
//! coefficients are recovered from the other three.
#![deny(unsafe_code)]

use commonware_math_proved::{eval, evaluate, recover, Error, MODULUS};

fn main() -> Result<(), Error> {
    // row i holds coefficient i of both: 4 + 6 X + 8 X^2 and 1 + X^2
    let coefficients = [4, 1, 6, 0, 8, 1];
    let mut cells = vec![0; 16];
    cells[..6].copy_from_slice(&coefficients);
    evaluate(&mut cells, 2)?;

    let filled: Vec<bool> = (0..8).map(|i| [1, 4, 6].contains(&i)).collect();
    for i in (0..8).filter(|i| !filled[*i]) {
        cells[2 * i..2 * i + 2].fill(u64::MAX);
    }
    recover(&mut cells, 2, &filled)?;

    println!("recovered: {:?}", &cells[..6]);
    println!("the rest is zero: {}", cells[6..].iter().all(|c| *c == 0));
    println!("value at 5: {}", eval(&[4, 6, 8], 5)?);
    println!("a word of P: {}", eval(&[MODULUS], 5).unwrap_err());
    Ok(())
}
