//! Prints the output expected of the Rattle program `batches`: batches of every length, both ways,
//! for each variant, and calls that are refused.

use katan_model::calls::{call_many, Direction};
use katan_model::Variant;

/// Xorshift, the generator that `batches` has too.
fn next(mut x: u64) -> u64 {
    x ^= x << 13;
    x ^= x >> 7;
    x ^ (x << 17)
}

fn numbers(seed: u64) -> impl Iterator<Item = u64> {
    std::iter::successors(Some(next(seed)), |x| Some(next(*x)))
}

/// All results in one number, in their order.
fn digest(results: &[u64]) -> u64 {
    results.iter().fold(0, |h: u64, x| h.rotate_left(1) ^ x)
}

fn batch(k: u64) {
    let n = (k % 64 + 1) as usize;
    let number = (k / 64 % 6 + 1) as u8;
    let (letter, direction) = if k < 384 {
        ('e', Direction::Encrypt)
    } else {
        ('d', Direction::Decrypt)
    };
    let width = Variant::from_number(number).unwrap().width();
    let keys: Vec<u8> = numbers(k + 1).map(|x| (x >> 33) as u8).take(640).collect();
    let blocks: Vec<u64> = numbers(k + 1001)
        .map(|x| x >> (64 - width))
        .take(64)
        .collect();
    let mut out = [0; 64];
    let done = call_many(
        direction,
        number,
        &keys[..10 * n],
        &blocks[..n],
        &mut out[..n],
    );
    assert_eq!(done, Ok(()));
    println!("{letter} {number} {n} {:016x}", digest(&out));
}

/// A call with zero keys and equal blocks, on outputs that are all 7.
fn call(variant: u8, keys: usize, blocks: usize, results: usize, block: u64) {
    let mut out = [7; 65];
    let answer = call_many(
        Direction::Encrypt,
        variant,
        &[0; 650][..keys],
        &[block; 65][..blocks],
        &mut out[..results],
    );
    match answer {
        Ok(()) => println!("done {:016x}", digest(&out)),
        Err(refusal) => println!("refused {} {:016x}", refusal.0, digest(&out)),
    }
}

fn main() {
    for k in 0..768 {
        batch(k);
    }
    call(0, 0, 0, 1, 1 << 32);
    call(7, 10, 1, 1, 0);
    call(1, 0, 0, 0, 0);
    call(1, 650, 65, 65, 0);
    call(1, 9, 1, 1, 1 << 32);
    call(1, 20, 1, 1, 0);
    call(1, 10, 1, 2, 0);
    call(1, 10, 1, 0, 0);
    call(1, 10, 1, 1, 1 << 32);
    call(5, 640, 64, 64, 1 << 48);
    call(3, 10, 1, 1, u64::MAX);
    call(4, 20, 2, 2, (1 << 32) - 1);
}
