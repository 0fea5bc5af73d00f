//! Request (ix) of document 02: rounds run on a block and a key of which some bits cannot be read. Each bit
//! is known as 0, known as 1, or unknown, and document 01's formulas are worked on such bits. Nothing is
//! remembered of where an unknown came from: two that are always equal do not cancel.

use crate::cipher::{counter, tick, Variant, ROUNDS};
use Bit::*;

/// What is known of a bit.
#[derive(Clone, Copy, Debug, PartialEq, Eq)]
pub enum Bit {
    Zero,
    One,
    Unknown,
}

impl Bit {
    /// A bit that is known, 0 or 1.
    pub fn known(bit: u8) -> Bit {
        match bit {
            0 => Zero,
            _ => One,
        }
    }

    /// Xor with an unknown is unknown.
    pub fn xor(self, other: Bit) -> Bit {
        match (self, other) {
            (Unknown, _) | (_, Unknown) => Unknown,
            (Zero, Zero) | (One, One) => Zero,
            (Zero, One) | (One, Zero) => One,
        }
    }

    /// 0 times anything is 0, and any other product with an unknown is unknown.
    pub fn times(self, other: Bit) -> Bit {
        match (self, other) {
            (Zero, _) | (_, Zero) => Zero,
            (Unknown, _) | (_, Unknown) => Unknown,
            (One, One) => One,
        }
    }

    /// What a sheet says of a bit, from whether it is among the bits known as 1 and among those known as
    /// 0; nothing where it is among both.
    fn from_parts(one: bool, zero: bool) -> Option<Bit> {
        match (one, zero) {
            (true, true) => None,
            (true, false) => Some(One),
            (false, true) => Some(Zero),
            (false, false) => Some(Unknown),
        }
    }

    /// What is known if both are said of one bit; nothing where they contradict each other.
    fn join(self, other: Bit) -> Option<Bit> {
        match (self, other) {
            (bit, Unknown) | (Unknown, bit) => Some(bit),
            (Zero, Zero) => Some(Zero),
            (One, One) => Some(One),
            (Zero, One) | (One, Zero) => None,
        }
    }
}

/// The xor of several bits.
fn sum(bits: &[Bit]) -> Bit {
    bits.iter().fold(Zero, |sum, bit| sum.xor(*bit))
}

/// What is known of a block and of a key; index i is bit i.
#[derive(Clone, Debug, PartialEq, Eq)]
pub struct Sheet {
    pub block: Vec<Bit>,
    pub key: Vec<Bit>,
}

impl Sheet {
    /// A sheet from the bits known as 1 and those known as 0, of the block and of the key. Nothing where
    /// some bit is known as both.
    pub fn from_parts(
        variant: Variant,
        (ones, zeros): (u64, u64),
        (key_ones, key_zeros): (&[u8; 10], &[u8; 10]),
    ) -> Option<Sheet> {
        assert!(variant.is_block(ones) && variant.is_block(zeros));
        let of = |number: u64, i: u32| number >> i & 1 == 1;
        let of_key = |bytes: &[u8; 10], i: usize| bytes[i / 8] >> (i % 8) & 1 == 1;
        let block = (0..variant.width()).map(|i| Bit::from_parts(of(ones, i), of(zeros, i)));
        let key = (0..80).map(|i| Bit::from_parts(of_key(key_ones, i), of_key(key_zeros, i)));
        Some(Sheet {
            block: block.collect::<Option<_>>()?,
            key: key.collect::<Option<_>>()?,
        })
    }

    /// What either sheet knows. Nothing where they contradict each other.
    pub fn join(&self, other: &Sheet) -> Option<Sheet> {
        Some(Sheet {
            block: join(&self.block, &other.block)?,
            key: join(&self.key, &other.key)?,
        })
    }
}

fn join(bits: &[Bit], others: &[Bit]) -> Option<Vec<Bit>> {
    bits.iter().zip(others).map(|(a, b)| a.join(*b)).collect()
}

/// The places of a bit, as the bits of a number.
fn places(bits: &[Bit], bit: Bit) -> u64 {
    let found = bits.iter().enumerate().filter(|(_, found)| **found == bit);
    found.fold(0, |number, (i, _)| number | 1 << i)
}

/// Registers or a block as a sheet gives them: the bits known as 1, and those known as 0.
pub fn numbers(bits: &[Bit]) -> (u64, u64) {
    (places(bits, One), places(bits, Zero))
}

/// A key as a sheet gives it, in the same two parts.
pub fn key_bytes(key: &[Bit]) -> ([u8; 10], [u8; 10]) {
    let bytes = |bit| std::array::from_fn(|j| places(&key[8 * j..8 * j + 8], bit) as u8);
    (bytes(One), bytes(Zero))
}

/// KATAN: k(i) is key bit i for i below 80, then k(i-80) xor k(i-61) xor k(i-50) xor k(i-13).
fn katan_sequence(key: &[Bit]) -> Vec<Bit> {
    let mut k = key.to_vec();
    for i in 80..2 * ROUNDS as usize {
        k.push(sum(&[k[i - 80], k[i - 61], k[i - 50], k[i - 13]]));
    }
    k
}

/// KTANTAN: the numbers of the key bits that T picks for ka and kb.
fn picked(t: [u8; 8]) -> (usize, usize) {
    let [t0, t1, t2, t3, t4, t5, t6, t7] = t.map(usize::from);
    let u = 8 * t7 + 4 * t6 + 2 * t5 + t4;
    let v = 2 * t1 + t0;
    let ka = match (t3, t2) {
        (0, 0) => u,
        _ => 16 * (1 + v) + u,
    };
    let kb = match (t3, t2) {
        (0, 1) => 64 + u,
        _ => 16 * (3 - v) + u,
    };
    (ka, kb)
}

/// The bits that a round shares among its clocks.
#[derive(Clone, Copy)]
struct Shared {
    ir: Bit,
    ka: Bit,
    kb: Bit,
}

/// One clock: fa and fb from the old registers; both shift left, fb enters L1 and fa enters L2. IR is
/// known, so that where it is 0 the product is too.
fn clock(variant: Variant, shared: Shared, l1: &[Bit], l2: &[Bit]) -> (Vec<Bit>, Vec<Bit>) {
    let (x, y) = (variant.x(), variant.y());
    let fa = sum(&[
        l1[x[1]],
        l1[x[2]],
        l1[x[3]].times(l1[x[4]]),
        l1[x[5]].times(shared.ir),
        shared.ka,
    ]);
    let fb = sum(&[
        l2[y[1]],
        l2[y[2]],
        l2[y[3]].times(l2[y[4]]),
        l2[y[5]].times(l2[y[6]]),
        shared.kb,
    ]);
    (shifted(l1, fb), shifted(l2, fa))
}

/// A register shifted left: bit i moves to i + 1, the highest falls off, and `entering` is bit 0.
fn shifted(register: &[Bit], entering: Bit) -> Vec<Bit> {
    let kept = &register[..register.len() - 1];
    [&[entering], kept].concat()
}

/// The registers at a position, where the sheet's block stands in them at position 0. Block bit 0 is L2 bit
/// 0; L1 bit 0 follows L2's highest bit.
pub fn run(variant: Variant, sheet: &Sheet, position: u8) -> Vec<Bit> {
    assert!(position <= ROUNDS);
    let (_, length2) = variant.register_lengths();
    let (mut l1, mut l2) = (
        sheet.block[length2..].to_vec(),
        sheet.block[..length2].to_vec(),
    );
    let k = katan_sequence(&sheet.key);
    let mut t = counter(0);
    for round in 0..position as usize {
        let (ka, kb) = if variant.is_katan() {
            (k[2 * round], k[2 * round + 1])
        } else {
            let (a, b) = picked(t);
            (sheet.key[a], sheet.key[b])
        };
        let ir = Bit::known(t[7]);
        for _ in 0..variant.clocks_a_round() {
            (l1, l2) = clock(variant, Shared { ir, ka, kb }, &l1, &l2);
        }
        t = tick(t);
    }
    [l2, l1].concat()
}

#[cfg(test)]
mod tests {
    use super::*;
    use crate::cipher::{encrypt, registers_at, trace};
    use crate::random::Random;
    use Variant::*;

    /// A number of so many bits, all of them known.
    fn known(width: u32, number: u64) -> Vec<Bit> {
        (0..width)
            .map(|i| Bit::known((number >> i & 1) as u8))
            .collect()
    }

    fn known_key(key: &[u8; 10]) -> Vec<Bit> {
        let bytes = key.iter();
        bytes.flat_map(|byte| known(8, *byte as u64)).collect()
    }

    fn all_known(variant: Variant, key: &[u8; 10], block: u64) -> Sheet {
        Sheet {
            block: known(variant.width(), block),
            key: known_key(key),
        }
    }

    /// Bit i of block and key, the block's first.
    fn bit_mut(sheet: &mut Sheet, i: usize) -> &mut Bit {
        let width = sheet.block.len();
        match i < width {
            true => &mut sheet.block[i],
            false => &mut sheet.key[i - width],
        }
    }

    /// The bits of a sheet that are unknown, numbered so.
    fn unknown(sheet: &Sheet) -> Vec<usize> {
        let bits = sheet.block.iter().chain(&sheet.key).enumerate();
        let unknown = bits.filter(|(_, bit)| **bit == Unknown);
        unknown.map(|(i, _)| i).collect()
    }

    /// The key and the block of a sheet that knows all.
    fn plain(sheet: &Sheet) -> ([u8; 10], u64) {
        assert_eq!(unknown(sheet), []);
        (key_bytes(&sheet.key).0, numbers(&sheet.block).0)
    }

    /// Every sheet that says 0 or 1 where this one has an unknown.
    fn fillings(sheet: &Sheet) -> Vec<Sheet> {
        let mut filled = vec![sheet.clone()];
        for i in unknown(sheet) {
            filled = filled
                .into_iter()
                .flat_map(|sheet| {
                    [Zero, One].map(|bit| {
                        let mut sheet = sheet.clone();
                        *bit_mut(&mut sheet, i) = bit;
                        sheet
                    })
                })
                .collect();
        }
        filled
    }

    /// A sheet on which at most so many bits are unknown.
    fn random_sheet(random: &mut Random, variant: Variant, unknown: usize) -> Sheet {
        let mut sheet = all_known(variant, &random.key(), random.bits(variant.width()));
        for _ in 0..unknown {
            let i = random.below(variant.width() as u64 + 80) as usize;
            *bit_mut(&mut sheet, i) = Unknown;
        }
        sheet
    }

    /// Whether the second knows whatever the first knows.
    fn within(less: &[Bit], more: &[Bit]) -> bool {
        less.len() == more.len() && less.iter().zip(more).all(|(a, b)| *a == Unknown || a == b)
    }

    #[test]
    fn truth_tables() {
        // Two bits, their xor, their product, and what they join into.
        let table = [
            (Zero, Zero, Zero, Zero, Some(Zero)),
            (Zero, One, One, Zero, None),
            (Zero, Unknown, Unknown, Zero, Some(Zero)),
            (One, Zero, One, Zero, None),
            (One, One, Zero, One, Some(One)),
            (One, Unknown, Unknown, Unknown, Some(One)),
            (Unknown, Zero, Unknown, Zero, Some(Zero)),
            (Unknown, One, Unknown, Unknown, Some(One)),
            (Unknown, Unknown, Unknown, Unknown, Some(Unknown)),
        ];
        for (a, b, xor, times, join) in table {
            let found = (a.xor(b), a.times(b), a.join(b));
            assert_eq!(found, (xor, times, join), "{a:?}, {b:?}");
        }
        assert_eq!([0, 1].map(Bit::known), [Zero, One]);
    }

    /// Bits as two numbers, and back.
    #[test]
    fn parts() {
        let bits = [One, Zero, Unknown, Unknown, One, Zero, Zero, Unknown];
        assert_eq!(numbers(&bits), (0b0001_0001, 0b0110_0010));
        let mut key = vec![Unknown; 80];
        (key[0], key[15], key[79]) = (One, One, Zero);
        let (ones, zeros) = key_bytes(&key);
        assert_eq!(ones, [1, 0x80, 0, 0, 0, 0, 0, 0, 0, 0]);
        assert_eq!(zeros, [0, 0, 0, 0, 0, 0, 0, 0, 0, 0x80]);
        let mut random = Random::new(7);
        for variant in Variant::ALL {
            let sheet = random_sheet(&mut random, variant, 50);
            let keys = key_bytes(&sheet.key);
            let read = Sheet::from_parts(variant, numbers(&sheet.block), (&keys.0, &keys.1));
            assert_eq!(read, Some(sheet));
            let none = [0; 10];
            let mut one = none;
            one[9] = 0x80;
            let read = |block, keys| Sheet::from_parts(variant, block, keys);
            assert!(read((6, 8), (&one, &none)).is_some());
            assert_eq!(read((6, 4), (&one, &none)), None);
            assert_eq!(read((6, 8), (&one, &[0x80; 10])), None);
        }
    }

    /// Document 01's all-ones key and zero block at KATAN32, with block bit 22, which is L1[3], unknown.
    /// Bit i of L1 is block bit 19 + i. The columns are the position, the bits known as 1, and the unknown
    /// ones; without the smudge positions 1 to 5 are 00080001, 00180003, 00380007, 0078000f, 00f8001e.
    ///
    /// Round 0: L1[3] is x5, and IR is 1: fa is unknown. L2 is all 0, so fb is kb, 1.
    /// Round 1: the unknowns are L1[4] and L2[0], where nothing is taken from: fa and fb are the key's 1.
    /// Round 2: L1[5] is x4, times L1[8], which is 0: fa is 1, and so is fb, as L2[1] is no y.
    /// Round 3: L1[6] and L2[2] are not taken: 1 and 1.
    /// Round 4: L1[7] is x2: fa is unknown. L2[3] is y6, times L2[8], which is 0: fb is 1.
    #[test]
    fn first_positions_by_hand() {
        let mut sheet = all_known(Katan32, &[0xff; 10], 0);
        sheet.block[22] = Unknown;
        let rows = [
            (0, 0x00000000, 0x00400000),
            (1, 0x00080000, 0x00800001),
            (2, 0x00180001, 0x01000002),
            (3, 0x00380003, 0x02000004),
            (4, 0x00780007, 0x04000008),
            (5, 0x00f8000e, 0x08000011),
        ];
        for (position, ones, unknown) in rows {
            let found = numbers(&run(Katan32, &sheet, position));
            let zeros = 0xffffffff & !(ones | unknown);
            assert_eq!(found, (ones, zeros), "position {position}");
        }
    }

    /// Key bit 5 is kb of round 2 and enters L1 there; at round 6 it is at place 3, which is x5. IR of round 6
    /// is 1: fa is unknown. Key bit 7 is kb of round 3 and at x5 in round 7, whose IR is 0: fa is known, and
    /// what every filling gives.
    #[test]
    fn where_ir_is_0() {
        assert_eq!([6, 7].map(|round| counter(round)[7]), [1, 0]);
        for (key_bit, position, fa) in [(5, 7, Unknown), (7, 8, One)] {
            let mut sheet = all_known(Katan32, &[0xff; 10], 0);
            sheet.key[key_bit] = Unknown;
            // What has entered L1 is at bit 19 of the block, and moves up with each round.
            let entered = run(Katan32, &sheet, key_bit as u8 / 2 + 1);
            assert_eq!(entered[19], Unknown);
            let before = run(Katan32, &sheet, position - 1);
            assert_eq!(before[19 + 3], Unknown);
            assert_eq!(run(Katan32, &sheet, position)[0], fa, "key bit {key_bit}");
        }
        let key = [0xff; 10];
        assert_eq!(registers_at(Katan32, &key, 0, 8, 0) & 1, 1);
    }

    /// Key and block of zeros at KATAN32, but block bit 21, which is L1[2], is an unknown u. In round 1 it is
    /// at x5, with IR 1: fa is u. In round 5 it is at x2: fa is u again. Eight rounds after either, in rounds
    /// 9 and 13, that bit is at y2 of L2: fb is u. In round 17 the first of these is at x2 of L1 and the
    /// second at x5, with IR 1: fa is u xor u, which is 0 whatever u is, but unknown by the rule.
    #[test]
    fn equal_unknowns_do_not_cancel() {
        let mut sheet = all_known(Katan32, &[0; 10], 0);
        sheet.block[21] = Unknown;
        for (position, bit) in [(2, 0), (6, 0), (10, 19), (14, 19)] {
            assert_eq!(run(Katan32, &sheet, position)[bit], Unknown);
            let at = |block| registers_at(Katan32, &[0; 10], 0, position, block) >> bit & 1;
            assert_eq!([0, 1 << 21].map(at), [0, 1], "position {position}");
        }
        let at = |block| registers_at(Katan32, &[0; 10], 0, 18, block) & 1;
        assert_eq!([0, 1 << 21].map(at), [0, 0]);
        assert_eq!(run(Katan32, &sheet, 18)[0], Unknown);
    }

    /// k(i) is made from the earlier k. k(132) is k(52) xor k(71) xor k(82) xor k(119), and key bit 69 is once in
    /// k(82) and once in k(119): k(132) is unknown, though both fillings give the same. It is ka of round 66.
    #[test]
    fn key_bits_from_earlier_ones() {
        let mut sheet = all_known(Katan32, &[0; 10], 0);
        sheet.key[69] = Unknown;
        let k = katan_sequence(&sheet.key);
        assert_eq!(k.len(), 508);
        let unknown: Vec<usize> = (0..=132).filter(|i| k[*i] == Unknown).collect();
        assert_eq!(unknown, [69, 82, 95, 108, 119, 121, 130, 132]);
        assert_eq!(run(Katan32, &sheet, 67)[0], Unknown);
        sheet.key[69] = One;
        let k = katan_sequence(&sheet.key);
        assert_eq!([k[82], k[119], k[132]], [One, One, Zero]);
        let (key, _) = plain(&sheet);
        let at = |key| registers_at(Katan32, &key, 0, 67, 0) & 1;
        assert_eq!([[0; 10], key].map(at), [0, 0]);
    }

    /// A sheet that knows all gives the registers, at every position.
    #[test]
    fn all_bits_known() {
        let mut random = Random::new(8);
        for variant in Variant::ALL {
            for _ in 0..4 {
                let (key, block) = (random.key(), random.bits(variant.width()));
                let sheet = all_known(variant, &key, block);
                for (position, registers) in trace(variant, &key, block).into_iter().enumerate() {
                    let found = run(variant, &sheet, position as u8);
                    assert_eq!(found, known(variant.width(), registers), "{variant:?}");
                }
                let found = run(variant, &sheet, ROUNDS);
                assert_eq!(found, known(variant.width(), encrypt(variant, &key, block)));
            }
        }
    }

    /// From nothing known nothing becomes known.
    #[test]
    fn nothing_known() {
        for variant in Variant::ALL {
            let nothing = vec![Unknown; variant.width() as usize];
            let sheet = Sheet {
                block: nothing.clone(),
                key: vec![Unknown; 80],
            };
            for position in 0..=ROUNDS {
                assert_eq!(run(variant, &sheet, position), nothing);
            }
        }
    }

    /// Few bits unknown: every filling, run through the plain cipher, gives each bit that is known. Some
    /// bits are unknown although all fillings agree.
    #[test]
    fn every_filling() {
        let mut random = Random::new(9);
        for variant in Variant::ALL {
            let mut kept = 0;
            let mut agreed = 0;
            for unknown in [0, 1, 1, 1, 2, 2, 3, 4, 5, 6] {
                let sheet = random_sheet(&mut random, variant, unknown);
                let traces: Vec<Vec<u64>> = fillings(&sheet)
                    .iter()
                    .map(plain)
                    .map(|(key, block)| trace(variant, &key, block))
                    .collect();
                for position in (0..60).chain([100, 200, 253, 254]) {
                    for (i, bit) in run(variant, &sheet, position).into_iter().enumerate() {
                        let mut bits = traces
                            .iter()
                            .map(|trace| Bit::known((trace[position as usize] >> i & 1) as u8));
                        match bit {
                            Unknown => {
                                let first = bits.next();
                                agreed += bits.all(|other| Some(other) == first) as u32;
                            }
                            known => {
                                kept += (unknown > 0) as u32;
                                assert!(bits.all(|other| other == known), "{variant:?}, {sheet:?}");
                            }
                        }
                    }
                }
            }
            assert!(kept > 0 && agreed > 0, "{variant:?}: {kept}, {agreed}");
        }
    }

    /// KTANTAN32 takes key bit 32 in no round before 218, and so late that some bits of the ciphertext stand
    /// without it.
    #[test]
    fn a_late_key_bit() {
        let rounds: Vec<u8> = (0..ROUNDS)
            .filter(|round| {
                let (a, b) = picked(counter(*round));
                a == 32 || b == 32
            })
            .collect();
        assert_eq!(rounds[0], 218);
        let mut sheet = all_known(Ktantan32, &[0xff; 10], 0);
        sheet.key[32] = Unknown;
        let found = run(Ktantan32, &sheet, ROUNDS);
        assert_ne!(found, vec![Unknown; 32]);
        assert!(within(&found, &known(32, 0x22ea3988)));
    }

    /// A sheet that knows more keeps what is known of the result. A run of a joined sheet knows what the runs
    /// of both know.
    #[test]
    fn knowing_more() {
        let mut random = Random::new(10);
        for variant in Variant::ALL {
            let mut gained = 0;
            for _ in 0..150 {
                let [all, few] = [80, 6].map(|most| random.below(most) as usize);
                let unknown = [all, few][random.below(2) as usize];
                let less = random_sheet(&mut random, variant, unknown);
                let mut more = less.clone();
                for i in self::unknown(&less) {
                    if random.below(2) == 0 {
                        *bit_mut(&mut more, i) = [Zero, One][random.below(2) as usize];
                    }
                }
                assert_eq!(less.join(&more), Some(more.clone()));
                let position = random.below(60) as u8;
                let [before, after] = [&less, &more].map(|s| run(variant, s, position));
                assert!(within(&before, &after), "{variant:?}, {less:?}, {more:?}");
                gained += (before != after) as u32;
            }
            assert!(gained > 0);
        }
    }

    /// Two sheets that know different parts of one block and key join into what either knows, both ways
    /// round; a sheet joins with itself, and with one that knows nothing, to itself; sheets that differ in
    /// one known bit do not join.
    #[test]
    fn joins() {
        let mut random = Random::new(11);
        for variant in Variant::ALL {
            for _ in 0..100 {
                let whole = random_sheet(&mut random, variant, 20);
                let bits = variant.width() as usize + 80;
                let [mut a, mut b] = [whole.clone(), whole.clone()];
                let mut either = whole.clone();
                for i in 0..bits {
                    let (not_a, not_b) = (random.below(2) == 0, random.below(2) == 0);
                    if not_a {
                        *bit_mut(&mut a, i) = Unknown;
                    }
                    if not_b {
                        *bit_mut(&mut b, i) = Unknown;
                    }
                    if not_a && not_b {
                        *bit_mut(&mut either, i) = Unknown;
                    }
                }
                assert_eq!(a.join(&b), Some(either.clone()));
                assert_eq!(b.join(&a), Some(either.clone()));
                assert_eq!(a.join(&a), Some(a.clone()));
                let nothing = Sheet {
                    block: vec![Unknown; variant.width() as usize],
                    key: vec![Unknown; 80],
                };
                assert_eq!(a.join(&nothing), Some(a.clone()));
                assert_eq!(nothing.join(&a), Some(a.clone()));
                let position = random.below(40) as u8;
                let runs = [&a, &b, &either].map(|sheet| run(variant, sheet, position));
                assert!(within(&runs[0], &runs[2]) && within(&runs[1], &runs[2]));

                let i = random.below(bits as u64) as usize;
                *bit_mut(&mut a, i) = Zero;
                *bit_mut(&mut b, i) = One;
                assert_eq!(a.join(&b), None);
                assert_eq!(b.join(&a), None);
            }
        }
    }
}
