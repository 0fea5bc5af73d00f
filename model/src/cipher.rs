//! The six ciphers, bit by bit, as sections 4 and 5 of the paper give them.

/// How many rounds a whole encryption has: rounds 0 to 253.
pub const ROUNDS: u8 = 254;

#[derive(Clone, Copy, Debug, PartialEq, Eq)]
pub enum Variant {
    Katan32,
    Katan48,
    Katan64,
    Ktantan32,
    Ktantan48,
    Ktantan64,
}

use Variant::*;

impl Variant {
    pub const ALL: [Variant; 6] = [Katan32, Katan48, Katan64, Ktantan32, Ktantan48, Ktantan64];

    /// The variant with a number of document 01, 1 to 6.
    pub fn from_number(number: u8) -> Option<Variant> {
        Variant::ALL.into_iter().find(|v| v.number() == number)
    }

    pub fn number(self) -> u8 {
        match self {
            Katan32 => 1,
            Katan48 => 2,
            Katan64 => 3,
            Ktantan32 => 4,
            Ktantan48 => 5,
            Ktantan64 => 6,
        }
    }

    /// The block width n.
    pub fn width(self) -> u32 {
        match self {
            Katan32 | Ktantan32 => 32,
            Katan48 | Ktantan48 => 48,
            Katan64 | Ktantan64 => 64,
        }
    }

    /// The lengths of L1 and L2.
    pub(crate) fn register_lengths(self) -> (usize, usize) {
        match self {
            Katan32 | Ktantan32 => (13, 19),
            Katan48 | Ktantan48 => (19, 29),
            Katan64 | Ktantan64 => (25, 39),
        }
    }

    /// x1 to x5, at indices 1 to 5.
    pub(crate) fn x(self) -> [usize; 6] {
        match self {
            Katan32 | Ktantan32 => [0, 12, 7, 8, 5, 3],
            Katan48 | Ktantan48 => [0, 18, 12, 15, 7, 6],
            Katan64 | Ktantan64 => [0, 24, 15, 20, 11, 9],
        }
    }

    /// y1 to y6, at indices 1 to 6.
    pub(crate) fn y(self) -> [usize; 7] {
        match self {
            Katan32 | Ktantan32 => [0, 18, 7, 12, 10, 8, 3],
            Katan48 | Ktantan48 => [0, 28, 19, 21, 13, 15, 6],
            Katan64 | Ktantan64 => [0, 38, 25, 33, 21, 14, 9],
        }
    }

    pub(crate) fn clocks_a_round(self) -> u32 {
        match self {
            Katan32 | Ktantan32 => 1,
            Katan48 | Ktantan48 => 2,
            Katan64 | Ktantan64 => 3,
        }
    }

    pub(crate) fn is_katan(self) -> bool {
        matches!(self, Katan32 | Katan48 | Katan64)
    }

    /// Whether a number is a block of this variant, which has to be below 2^n.
    pub fn is_block(self, block: u64) -> bool {
        (block as u128) < 1u128 << self.width()
    }
}

/// Bit i of a number.
fn bit(number: u64, i: usize) -> u8 {
    (number >> i & 1) as u8
}

/// The 80 key bits; bit 8j + b is bit b of byte j.
fn key_bits(key: &[u8; 10]) -> Vec<u8> {
    let mut bits = Vec::new();
    for byte in key {
        for b in 0..8 {
            bits.push(bit(*byte as u64, b));
        }
    }
    bits
}

/// T, the round-counting LFSR, after one clock: T shifted left, with the feedback of
/// x^8 + x^7 + x^5 + x^3 + 1 as the new T0.
pub(crate) fn tick(t: [u8; 8]) -> [u8; 8] {
    let feedback = t[7] ^ t[6] ^ t[4] ^ t[2];
    [feedback, t[0], t[1], t[2], t[3], t[4], t[5], t[6]]
}

/// T in a round: all ones, clocked once before round 0 and once after each round.
pub(crate) fn counter(round: u8) -> [u8; 8] {
    let mut t = tick([1; 8]);
    for _ in 0..round {
        t = tick(t);
    }
    t
}

/// The two subkey bits of a round.
#[derive(Clone, Copy, Debug, PartialEq, Eq)]
pub(crate) struct Subkey {
    pub(crate) ka: u8,
    pub(crate) kb: u8,
}

/// KATAN: k_i is key bit i for i below 80, then k_(i-80) xor k_(i-61) xor k_(i-50) xor k_(i-13).
/// This gives k_0 to k_507.
fn katan_sequence(key: &[u8; 10]) -> Vec<u8> {
    let mut k = key_bits(key);
    for i in 80..2 * ROUNDS as usize {
        k.push(k[i - 80] ^ k[i - 61] ^ k[i - 50] ^ k[i - 13]);
    }
    k
}

/// The y-th bit of the 16-bit word x; y is given as y3 y2 y1 y0.
fn mux16to1(x: &[u8], y: [u8; 4]) -> u8 {
    let [y3, y2, y1, y0] = y;
    x[(8 * y3 + 4 * y2 + 2 * y1 + y0) as usize]
}

/// The y-th of four bits, which are given highest first; y is given as y1 y0.
fn mux4to1(x: [u8; 4], y: [u8; 2]) -> u8 {
    let [x3, x2, x1, x0] = x;
    match y {
        [0, 0] => x0,
        [0, 1] => x1,
        [1, 0] => x2,
        _ => x3,
    }
}

fn not(b: u8) -> u8 {
    b ^ 1
}

/// KTANTAN: the key is the words w4 || w3 || w2 || w1 || w0, and T picks the bits.
fn ktantan_subkey(key: &[u8; 10], round: u8) -> Subkey {
    let k = key_bits(key);
    let t = counter(round);
    let a: Vec<u8> = (0..5)
        .map(|i| mux16to1(&k[16 * i..16 * i + 16], [t[7], t[6], t[5], t[4]]))
        .collect();
    let ka = (not(t[3]) & not(t[2]) & a[0])
        ^ ((t[3] | t[2]) & mux4to1([a[4], a[3], a[2], a[1]], [t[1], t[0]]));
    let kb = (not(t[3]) & t[2] & a[4])
        ^ ((t[3] | not(t[2])) & mux4to1([a[3], a[2], a[1], a[0]], [not(t[1]), not(t[0])]));
    Subkey { ka, kb }
}

/// The subkey bits of rounds 0 to 253. In KATAN those of round i are k_2i and k_(2i+1).
pub(crate) fn subkeys(variant: Variant, key: &[u8; 10]) -> Vec<Subkey> {
    if variant.is_katan() {
        let k = katan_sequence(key);
        (0..ROUNDS as usize)
            .map(|i| Subkey {
                ka: k[2 * i],
                kb: k[2 * i + 1],
            })
            .collect()
    } else {
        (0..ROUNDS)
            .map(|round| ktantan_subkey(key, round))
            .collect()
    }
}

/// L1 and L2; index i is bit i.
#[derive(Clone, Debug, PartialEq, Eq)]
pub(crate) struct Registers {
    pub(crate) l1: Vec<u8>,
    pub(crate) l2: Vec<u8>,
}

/// Block bit 0 is L2 bit 0; L1 bit 0 follows L2's highest bit.
pub(crate) fn load(variant: Variant, block: u64) -> Registers {
    let (length1, length2) = variant.register_lengths();
    Registers {
        l1: (0..length1).map(|i| bit(block, length2 + i)).collect(),
        l2: (0..length2).map(|i| bit(block, i)).collect(),
    }
}

fn unload(registers: &Registers) -> u64 {
    let mut block = 0;
    for (i, b) in registers.l2.iter().chain(&registers.l1).enumerate() {
        block |= (*b as u64) << i;
    }
    block
}

/// One clock: both functions of the old registers, then both shifts; fb enters L1, fa enters L2.
pub(crate) fn clock(variant: Variant, ir: u8, k: Subkey, old: &Registers) -> Registers {
    let (x, y) = (variant.x(), variant.y());
    let (l1, l2) = (&old.l1, &old.l2);
    let fa = l1[x[1]] ^ l1[x[2]] ^ (l1[x[3]] & l1[x[4]]) ^ (l1[x[5]] & ir) ^ k.ka;
    let fb = l2[y[1]] ^ l2[y[2]] ^ (l2[y[3]] & l2[y[4]]) ^ (l2[y[5]] & l2[y[6]]) ^ k.kb;
    Registers {
        l1: shifted(l1, fb),
        l2: shifted(l2, fa),
    }
}

/// A register shifted left: bit i moves to i + 1, the highest falls off, and `entering` is bit 0.
fn shifted(register: &[u8], entering: u8) -> Vec<u8> {
    let mut new = vec![entering];
    new.extend(&register[..register.len() - 1]);
    new
}

/// The registers that one clock carries to `new`. x1 and y1 are the registers' highest bits: all
/// others are read back by shifting right, and those two are solved for.
fn clock_back(variant: Variant, ir: u8, k: Subkey, new: &Registers) -> Registers {
    let (x, y) = (variant.x(), variant.y());
    let (fb, fa) = (new.l1[0], new.l2[0]);
    let mut l1 = new.l1[1..].to_vec();
    let mut l2 = new.l2[1..].to_vec();
    l1.push(fa ^ l1[x[2]] ^ (l1[x[3]] & l1[x[4]]) ^ (l1[x[5]] & ir) ^ k.ka);
    l2.push(fb ^ l2[y[2]] ^ (l2[y[3]] & l2[y[4]]) ^ (l2[y[5]] & l2[y[6]]) ^ k.kb);
    Registers { l1, l2 }
}

/// One round: all its clocks share IR, which is T7, and the two subkey bits.
fn round_forward(variant: Variant, round: u8, k: Subkey, old: Registers) -> Registers {
    let ir = counter(round)[7];
    let mut registers = old;
    for _ in 0..variant.clocks_a_round() {
        registers = clock(variant, ir, k, &registers);
    }
    registers
}

fn round_back(variant: Variant, round: u8, k: Subkey, new: Registers) -> Registers {
    let ir = counter(round)[7];
    let mut registers = new;
    for _ in 0..variant.clocks_a_round() {
        registers = clock_back(variant, ir, k, &registers);
    }
    registers
}

/// The registers at position `to`, where those at position `from` are `block`: rounds `from` to
/// `to` - 1 run forward, or rounds `to` to `from` - 1 run back.
pub fn registers_at(variant: Variant, key: &[u8; 10], from: u8, to: u8, block: u64) -> u64 {
    assert!(from <= ROUNDS && to <= ROUNDS && variant.is_block(block));
    let k = subkeys(variant, key);
    let mut registers = load(variant, block);
    for round in from..to {
        registers = round_forward(variant, round, k[round as usize], registers);
    }
    for round in (to..from).rev() {
        registers = round_back(variant, round, k[round as usize], registers);
    }
    unload(&registers)
}

/// The registers at positions 0 to 254, where those at position 0 are `block`: one round after the
/// other, all of them forward.
pub fn trace(variant: Variant, key: &[u8; 10], block: u64) -> Vec<u64> {
    assert!(variant.is_block(block));
    let mut registers = load(variant, block);
    let mut trace = vec![block];
    for (round, k) in (0..).zip(subkeys(variant, key)) {
        registers = round_forward(variant, round, k, registers);
        trace.push(unload(&registers));
    }
    trace
}

pub fn encrypt(variant: Variant, key: &[u8; 10], block: u64) -> u64 {
    registers_at(variant, key, 0, ROUNDS, block)
}

pub fn decrypt(variant: Variant, key: &[u8; 10], block: u64) -> u64 {
    registers_at(variant, key, ROUNDS, 0, block)
}

#[cfg(test)]
mod tests {
    use super::*;
    use crate::random::Random;

    const ONES: [u8; 10] = [0xff; 10];
    const ZERO: [u8; 10] = [0; 10];

    /// T as a number, T7 highest.
    fn number(t: [u8; 8]) -> u8 {
        (0..8).map(|i| t[i] << i).sum()
    }

    fn with_key_bit(i: usize) -> [u8; 10] {
        let mut key = ZERO;
        key[i / 8] = 1 << (i % 8);
        key
    }

    /// The one key bit that moves a KTANTAN selector in a round.
    fn selected(round: u8, of: fn(Subkey) -> u8) -> usize {
        let found: Vec<usize> = (0..80)
            .filter(|i| of(ktantan_subkey(&with_key_bit(*i), round)) == 1)
            .collect();
        assert_eq!(found.len(), 1);
        found[0]
    }

    #[test]
    fn published_vectors() {
        for (variant, key, plaintext, ciphertext) in crate::vectors::PUBLISHED {
            assert_eq!(encrypt(variant, &key, plaintext), ciphertext);
            assert_eq!(decrypt(variant, &key, ciphertext), plaintext);
        }
    }

    #[test]
    fn counter_values() {
        let expected = [0xfe, 0xfc, 0xf8, 0xf1, 0xe3, 0xc6, 0x8d, 0x1a, 0x35, 0x6a];
        for (round, t) in expected.into_iter().enumerate() {
            assert_eq!(number(counter(round as u8)), t);
        }
    }

    /// There are 254 rounds: T is all ones after round 253, and in no round.
    #[test]
    fn counter_returns_after_254_rounds() {
        assert_eq!(number(tick(counter(253))), 0xff);
        assert!((0..254).all(|round| number(counter(round)) != 0xff));
    }

    /// Table 3, with the digit that its first cell has lost.
    #[test]
    fn irregular_updates() {
        let table = "1111111000 1101010101 1110110011 0010100100 0100011000 1111000010 \
                     0001010000 0111110011 1111010100 0101010011 0000110011 1011111011 \
                     1010010101 1010011100 1101100010 1110110111 1001011011 0101110010 \
                     0100110100 0111000100 1111010000 1110101100 0001011001 0000001101 \
                     1100000001 0010";
        let digits: Vec<u8> = table.bytes().filter(|b| *b != b' ').collect();
        let ir: Vec<u8> = (0..254).map(|round| b'0' + counter(round)[7]).collect();
        assert_eq!(ir, digits);
    }

    #[test]
    fn katan_key_bit_80() {
        for i in 0..80 {
            let expected = matches!(i, 0 | 19 | 30 | 67) as u8;
            assert_eq!(katan_sequence(&with_key_bit(i))[80], expected);
        }
    }

    #[test]
    fn ktantan_key_bits() {
        let ka = [63, 31, 31, 15, 14, 60, 40, 49];
        let kb = [31, 63, 63, 47, 14, 76, 40, 17];
        for round in 0..8 {
            assert_eq!(selected(round, |k| k.ka), ka[round as usize]);
            assert_eq!(selected(round, |k| k.kb), kb[round as usize]);
        }
    }

    /// Document 01's rule for the KTANTAN selectors, in every round.
    #[test]
    fn ktantan_rule() {
        for round in 0..254 {
            let t = number(counter(round)) as usize;
            let (u, low, v) = (t / 16, t / 4 % 4, t % 4);
            let ka = if low == 0 { u } else { 16 * (1 + v) + u };
            let kb = if low == 1 { 64 + u } else { 16 * (3 - v) + u };
            assert_eq!(selected(round, |k| k.ka), ka);
            assert_eq!(selected(round, |k| k.kb), kb);
        }
    }

    /// Section 5: of the key bits that ka takes, one is used twice, 15 four times and the other 64
    /// three times, and with kb each key bit is used at least 5 times.
    #[test]
    fn ktantan_uses() {
        let mut ka = [0; 80];
        let mut both = [0; 80];
        for round in 0..254 {
            ka[selected(round, |k| k.ka)] += 1;
            both[selected(round, |k| k.ka)] += 1;
            both[selected(round, |k| k.kb)] += 1;
        }
        let uses = |n| ka.iter().filter(|c| **c == n).count();
        assert_eq!((uses(2), uses(3), uses(4)), (1, 64, 15));
        assert!(both.iter().all(|c| *c >= 5));
    }

    #[test]
    fn zero_key_and_zero_block() {
        for variant in Variant::ALL {
            for position in 0..=254 {
                assert_eq!(registers_at(variant, &ZERO, 0, position, 0), 0);
            }
        }
    }

    #[test]
    fn first_positions() {
        for (variant, key, position, registers) in crate::vectors::first_positions() {
            assert_eq!(registers_at(variant, &key, 0, position, 0), registers);
        }
    }

    /// Document 01's script: the all-ones key at KATAN32, five rounds in one move.
    #[test]
    fn script_example() {
        assert_eq!(registers_at(Katan32, &ONES, 0, 5, 0), 0x00f8001e);
    }

    #[test]
    fn decryption_inverts_encryption() {
        let mut random = Random::new(1);
        for variant in Variant::ALL {
            for _ in 0..50 {
                let key = random.key();
                let block = random.bits(variant.width());
                assert_eq!(decrypt(variant, &key, encrypt(variant, &key, block)), block);
                assert_eq!(encrypt(variant, &key, decrypt(variant, &key, block)), block);
            }
        }
    }

    /// Moves from p to q and on to r are one move from p to r.
    #[test]
    fn moves_compose() {
        let mut random = Random::new(2);
        for variant in Variant::ALL {
            for _ in 0..50 {
                let key = random.key();
                let block = random.bits(variant.width());
                let [p, q, r] = [0; 3].map(|_| random.below(255) as u8);
                let at_q = registers_at(variant, &key, p, q, block);
                assert_eq!(
                    registers_at(variant, &key, q, r, at_q),
                    registers_at(variant, &key, p, r, block)
                );
            }
        }
    }

    /// A trace has the registers of every position, and from each of them all others are found.
    #[test]
    fn traces() {
        let mut random = Random::new(4);
        for variant in Variant::ALL {
            let key = random.key();
            let block = random.bits(variant.width());
            let trace = trace(variant, &key, block);
            assert_eq!(trace.len(), 255);
            let from = random.below(255) as u8;
            for to in 0..=254 {
                for from in [0, from, 254] {
                    let registers = registers_at(variant, &key, from, to, trace[from as usize]);
                    assert_eq!(registers, trace[to as usize]);
                }
            }
        }
    }

    /// The clock runs back whatever IR and the subkey bits are.
    #[test]
    fn clocks_invert() {
        let mut random = Random::new(3);
        for variant in Variant::ALL {
            for _ in 0..50 {
                let registers = load(variant, random.bits(variant.width()));
                let ir = random.bits(1) as u8;
                let k = Subkey {
                    ka: random.bits(1) as u8,
                    kb: random.bits(1) as u8,
                };
                let new = clock(variant, ir, k, &registers);
                assert_eq!(clock_back(variant, ir, k, &new), registers);
            }
        }
    }
}
