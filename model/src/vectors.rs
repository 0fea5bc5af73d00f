//! The cases that the Rattle program `vectors` is run on, and what it must print.

use crate::calls::{call_decrypt, call_encrypt, call_registers_at, Refusal};
use crate::cipher::Variant::{self, *};
use crate::random::Random;
use std::fmt;

const ONES: [u8; 10] = [0xff; 10];
const ZERO: [u8; 10] = [0; 10];

/// Published vectors: variant, key, plaintext, ciphertext.
pub const PUBLISHED: [(Variant, [u8; 10], u64, u64); 6] = [
    (Katan32, ONES, 0, 0x7e1ff945),
    (Katan32, ZERO, 0xffffffff, 0x432e61da),
    (Katan48, ONES, 0, 0x4b7efcfb8659),
    (Katan48, ZERO, 0xffffffffffff, 0xa4bd196d0b85),
    (Katan64, ONES, 0, 0x21f2e99c0fab828a),
    (Ktantan32, ONES, 0, 0x22ea3988),
];

/// Document 01's cases on the first positions, each from a zero block at position 0: variant, key,
/// position, registers.
pub fn first_positions() -> Vec<(Variant, [u8; 10], u8, u64)> {
    let mut key63 = ZERO;
    key63[7] = 0x80;
    let mut key31 = ZERO;
    key31[3] = 0x80;
    let mut key14 = ZERO;
    key14[1] = 0x40;
    vec![
        (Katan32, ONES, 1, 0x00080001),
        (Katan32, ONES, 2, 0x00180003),
        (Katan32, ONES, 3, 0x00380007),
        (Katan32, ONES, 4, 0x0078000f),
        (Katan32, ONES, 5, 0x00f8001e),
        (Katan48, ONES, 1, 0x000060000003),
        (Katan64, ONES, 1, 0x0000038000000007),
        (Ktantan32, key63, 1, 0x00000001),
        (Ktantan32, key31, 1, 0x00080000),
        (Ktantan32, key14, 1, 0),
        (Ktantan32, key14, 2, 0),
        (Ktantan32, key14, 3, 0),
        (Ktantan32, key14, 4, 0),
        (Ktantan32, key14, 5, 0x00080001),
    ]
}

/// One line of the program's input.
pub enum Call {
    Encrypt {
        variant: u8,
        key: Vec<u8>,
        block: u64,
    },
    Decrypt {
        variant: u8,
        key: Vec<u8>,
        block: u64,
    },
    RegistersAt {
        variant: u8,
        key: [u8; 10],
        from: u8,
        to: u8,
        block: u64,
    },
}

impl Call {
    fn encrypt(variant: u8, key: &[u8], block: u64) -> Call {
        Call::Encrypt {
            variant,
            key: key.to_vec(),
            block,
        }
    }

    fn decrypt(variant: u8, key: &[u8], block: u64) -> Call {
        Call::Decrypt {
            variant,
            key: key.to_vec(),
            block,
        }
    }

    fn registers_at(variant: u8, key: [u8; 10], from: u8, to: u8, block: u64) -> Call {
        Call::RegistersAt {
            variant,
            key,
            from,
            to,
            block,
        }
    }

    /// The line that the program must print.
    pub fn answer(&self) -> String {
        let answer = match self {
            Call::Encrypt {
                variant,
                key,
                block,
            } => call_encrypt(*variant, key, *block),
            Call::Decrypt {
                variant,
                key,
                block,
            } => call_decrypt(*variant, key, *block),
            Call::RegistersAt {
                variant,
                key,
                from,
                to,
                block,
            } => call_registers_at(*variant, key, *from, *to, *block),
        };
        match answer {
            Ok(block) => format!("{block:016x}"),
            Err(Refusal(number)) => format!("refused {number}"),
        }
    }
}

/// A key's bytes, byte 0 first; `-` for none.
fn key_digits(key: &[u8]) -> String {
    if key.is_empty() {
        "-".to_string()
    } else {
        key.iter().map(|byte| format!("{byte:02x}")).collect()
    }
}

impl fmt::Display for Call {
    fn fmt(&self, f: &mut fmt::Formatter) -> fmt::Result {
        match self {
            Call::Encrypt {
                variant,
                key,
                block,
            } => {
                write!(f, "e {variant} {} {block:016x}", key_digits(key))
            }
            Call::Decrypt {
                variant,
                key,
                block,
            } => {
                write!(f, "d {variant} {} {block:016x}", key_digits(key))
            }
            Call::RegistersAt {
                variant,
                key,
                from,
                to,
                block,
            } => {
                write!(
                    f,
                    "s {variant} {} {from} {to} {block:016x}",
                    key_digits(key)
                )
            }
        }
    }
}

/// Every case, in the order of the input's lines.
pub fn calls() -> Vec<Call> {
    let mut random = Random::new(0x4b4154414e);
    let mut calls = Vec::new();
    published(&mut calls);
    worked(&mut calls);
    for variant in Variant::ALL {
        edges(variant, &mut random, &mut calls);
        random_blocks(variant, &mut random, &mut calls);
        random_positions(variant, &mut random, &mut calls);
    }
    refused(&mut random, &mut calls);
    calls
}

fn published(calls: &mut Vec<Call>) {
    for (variant, key, plaintext, ciphertext) in PUBLISHED {
        calls.push(Call::encrypt(variant.number(), &key, plaintext));
        calls.push(Call::decrypt(variant.number(), &key, ciphertext));
    }
}

/// Document 01's cases, from position 0 and back.
fn worked(calls: &mut Vec<Call>) {
    for (variant, key, position, registers) in first_positions() {
        calls.push(Call::registers_at(variant.number(), key, 0, position, 0));
        calls.push(Call::registers_at(
            variant.number(),
            key,
            position,
            0,
            registers,
        ));
    }
    for variant in Variant::ALL {
        for position in [1, 2, 3, 127, 253, 254] {
            calls.push(Call::registers_at(variant.number(), ZERO, 0, position, 0));
        }
    }
}

/// The smallest and largest keys and blocks, and each key bit by itself.
fn edges(variant: Variant, random: &mut Random, calls: &mut Vec<Call>) {
    let number = variant.number();
    let largest = u64::MAX >> (64 - variant.width());
    for key in [ZERO, ONES] {
        for block in [0, 1, 1 << (variant.width() - 1), largest] {
            calls.push(Call::encrypt(number, &key, block));
            calls.push(Call::decrypt(number, &key, block));
        }
    }
    let block = random.bits(variant.width());
    for i in 0..80 {
        let mut key = ZERO;
        key[i / 8] = 1 << (i % 8);
        calls.push(Call::encrypt(number, &key, block));
    }
}

fn random_blocks(variant: Variant, random: &mut Random, calls: &mut Vec<Call>) {
    for _ in 0..200 {
        let key = random.key();
        calls.push(Call::encrypt(
            variant.number(),
            &key,
            random.bits(variant.width()),
        ));
        let key = random.key();
        calls.push(Call::decrypt(
            variant.number(),
            &key,
            random.bits(variant.width()),
        ));
    }
    // Both ways with one key and block.
    for _ in 0..20 {
        let key = random.key();
        let block = random.bits(variant.width());
        let result = crate::cipher::encrypt(variant, &key, block);
        calls.push(Call::encrypt(variant.number(), &key, block));
        calls.push(Call::decrypt(variant.number(), &key, result));
    }
}

fn random_positions(variant: Variant, random: &mut Random, calls: &mut Vec<Call>) {
    let mut push = |random: &mut Random, from: u8, to: u8| {
        let key = random.key();
        let block = random.bits(variant.width());
        calls.push(Call::registers_at(variant.number(), key, from, to, block));
    };
    for _ in 0..120 {
        let (from, to) = (random.below(255) as u8, random.below(255) as u8);
        push(random, from, to);
    }
    for _ in 0..10 {
        let p = random.below(255) as u8;
        push(random, 0, p);
        push(random, p, 0);
        push(random, 254, p);
        push(random, p, 254);
        push(random, p, p);
        // One round.
        let p = random.below(254) as u8;
        push(random, p, p + 1);
        push(random, p + 1, p);
    }
    for (from, to) in [(0, 0), (254, 254), (0, 254), (254, 0), (0, 1), (1, 0)] {
        push(random, from, to);
    }
    for (from, to) in [(1, 254), (254, 1), (253, 254), (254, 253)] {
        push(random, from, to);
    }
}

/// Calls with one fault, and with two and three.
fn refused(random: &mut Random, calls: &mut Vec<Call>) {
    let key_lengths = [10, 0, 1, 9, 11, 20, 79, 80];
    for variant in [0, 7, 8, 128, 255] {
        for length in key_lengths {
            for block in [random.bits(32), random.bits(64), u64::MAX] {
                let key = random.bytes(length);
                calls.push(Call::encrypt(variant, &key, block));
                calls.push(Call::decrypt(variant, &key, block));
            }
        }
        for (from, to) in [(0, 254), (255, 3), (3, 255), (255, 255)] {
            for block in [random.bits(32), u64::MAX] {
                calls.push(Call::registers_at(variant, random.key(), from, to, block));
            }
        }
    }
    for variant in Variant::ALL {
        let (number, width) = (variant.number(), variant.width());
        let mut blocks = vec![random.bits(width)];
        if width < 64 {
            blocks.push(1 << width);
            blocks.push((1 << width) + random.bits(width));
            blocks.push(1 << 63);
            blocks.push(u64::MAX);
        }
        for block in &blocks {
            for length in key_lengths {
                let key = random.bytes(length);
                calls.push(Call::encrypt(number, &key, *block));
                calls.push(Call::decrypt(number, &key, *block));
            }
            for (from, to) in [(0, 254), (254, 0), (9, 9), (255, 3), (3, 255), (255, 255)] {
                calls.push(Call::registers_at(number, random.key(), from, to, *block));
            }
        }
    }
}

#[cfg(test)]
mod tests {
    use super::*;

    #[test]
    fn lines() {
        let key: Vec<u8> = (0..10).collect();
        let call = Call::encrypt(1, &key, 0x80000001);
        assert_eq!(
            call.to_string(),
            "e 1 00010203040506070809 0000000080000001"
        );
        let call = Call::decrypt(255, &[], u64::MAX);
        assert_eq!(call.to_string(), "d 255 - ffffffffffffffff");
        let call = Call::registers_at(1, ONES, 0, 5, 0);
        assert_eq!(
            call.to_string(),
            "s 1 ffffffffffffffffffff 0 5 0000000000000000"
        );
        assert_eq!(call.answer(), "0000000000f8001e");
    }

    /// The first fault in the order 1, 2, 6, 7 is the answer.
    #[test]
    fn refusals() {
        let block = 1 << 32;
        assert_eq!(Call::encrypt(7, &[0; 9], block).answer(), "refused 1");
        assert_eq!(Call::decrypt(1, &[0; 9], block).answer(), "refused 2");
        assert_eq!(Call::encrypt(4, &ZERO, block).answer(), "refused 7");
        assert_eq!(
            Call::registers_at(0, ZERO, 255, 0, block).answer(),
            "refused 1"
        );
        assert_eq!(
            Call::registers_at(1, ZERO, 255, 0, block).answer(),
            "refused 6"
        );
        assert_eq!(
            Call::registers_at(1, ZERO, 0, 255, block).answer(),
            "refused 6"
        );
        assert_eq!(
            Call::registers_at(1, ZERO, 0, 0, block).answer(),
            "refused 7"
        );
    }

    /// A line is at most 255 bytes, and a key at most 80.
    #[test]
    fn sizes() {
        assert!(calls().iter().all(|call| call.to_string().len() <= 255));
    }
}
