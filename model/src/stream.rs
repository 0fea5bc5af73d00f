//! Request (i) of document 02: counter mode as NIST SP 800-38A has it, one block at a time.

use crate::cipher::{encrypt, Variant};

/// The bytes of a block.
pub fn block_length(variant: Variant) -> usize {
    variant.width() as usize / 8
}

/// How many blocks data of so many bytes takes; the last may be short.
pub fn blocks_of(variant: Variant, length: usize) -> usize {
    length.div_ceil(block_length(variant))
}

/// The data combined with the stream: block i is the encryption of `start` + i, low byte first.
pub fn keystream(variant: Variant, key: &[u8; 10], start: u64, data: &[u8]) -> Vec<u8> {
    let mut combined = Vec::new();
    for (i, part) in data.chunks(block_length(variant)).enumerate() {
        let block = encrypt(variant, key, start + i as u64);
        for (j, byte) in part.iter().enumerate() {
            combined.push(byte ^ (block >> (8 * j)) as u8);
        }
    }
    combined
}

#[cfg(test)]
mod tests {
    use super::*;
    use crate::vectors::PUBLISHED;

    /// Zeros become the stream itself, here one block of it: a published ciphertext.
    #[test]
    fn published_vectors() {
        for (variant, key, plaintext, ciphertext) in PUBLISHED {
            let length = block_length(variant);
            let stream = keystream(variant, &key, plaintext, &vec![0; length]);
            assert_eq!(stream, ciphertext.to_le_bytes()[..length]);
        }
        let stream = keystream(Variant::Katan32, &[0xff; 10], 0, &[0; 4]);
        assert_eq!(stream, [0x45, 0xf9, 0x1f, 0x7e]);
    }

    /// Two whole blocks and a short one, over a carry from the counter's low byte.
    #[test]
    fn hand_made_counters() {
        let key = [1, 2, 3, 4, 5, 6, 7, 8, 9, 10];
        for variant in Variant::ALL {
            let length = block_length(variant);
            let stream: Vec<u8> = [0xff, 0x100, 0x101]
                .into_iter()
                .flat_map(|counter| {
                    encrypt(variant, &key, counter).to_le_bytes()[..length].to_vec()
                })
                .collect();
            for short in 1..=length {
                let data: Vec<u8> = (1..=2 * length + short).map(|j| 3 * j as u8).collect();
                let expected: Vec<u8> = data.iter().zip(&stream).map(|(a, b)| a ^ b).collect();
                assert_eq!(keystream(variant, &key, 0xff, &data), expected);
            }
        }
    }
}
