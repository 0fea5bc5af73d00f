//! Blocks and keys with smudged bits: runs and joins against the independent model, against every filling
//! of few unknown bits on the driver's own bench, and their checks.

mod common;

use common::{generator, length, one_of, start, variant, width};
use katan_bench::{
    encrypt, join, raw, record, smudged, Bench, KnownBits, KnownKey, Refusal, Sheet,
};
use katan_model::smudged::Bit;
use katan_model::{calls, driver as model, Random, Variant};

/// The words of registers or a block, and the bytes of a key, as they are given back.
const WORDS: usize = 2;
const KEY_BYTES: usize = 20;

/// The last position.
const LAST: u64 = 254;

/// A sheet in its four parts, which may have any lengths.
#[derive(Clone, Debug, PartialEq, Eq)]
struct Parts {
    ones: u64,
    zeros: u64,
    key_ones: Vec<u8>,
    key_zeros: Vec<u8>,
}

impl Parts {
    fn ours(&self) -> raw::Parts<'_> {
        raw::Parts {
            ones: self.ones,
            zeros: self.zeros,
            key_ones: &self.key_ones,
            key_zeros: &self.key_zeros,
        }
    }

    fn theirs(&self) -> calls::Parts<'_> {
        calls::Parts {
            ones: self.ones,
            zeros: self.zeros,
            key_ones: &self.key_ones,
            key_zeros: &self.key_zeros,
        }
    }

    /// The same for the safe calls, with all lengths right.
    fn sheet(&self) -> Sheet {
        Sheet {
            block: KnownBits {
                ones: self.ones,
                zeros: self.zeros,
            },
            key: KnownKey {
                ones: self.key_ones[..].try_into().unwrap(),
                zeros: self.key_zeros[..].try_into().unwrap(),
            },
        }
    }

    /// Says of bit i whether it is known as 1, and whether as 0. Bits are numbered through the block, which
    /// has n of them, and then the key.
    fn put(&mut self, n: usize, i: usize, one: bool, zero: bool) {
        if i < n {
            self.ones = self.ones & !(1 << i) | u64::from(one) << i;
            self.zeros = self.zeros & !(1 << i) | u64::from(zero) << i;
        } else {
            let (j, b) = ((i - n) / 8, (i - n) % 8);
            self.key_ones[j] = self.key_ones[j] & !(1 << b) | u8::from(one) << b;
            self.key_zeros[j] = self.key_zeros[j] & !(1 << b) | u8::from(zero) << b;
        }
    }

    /// Whether bit i is known as 1, and whether as 0.
    fn get(&self, n: usize, i: usize) -> (bool, bool) {
        let of = |number: u64| number >> i & 1 == 1;
        let of_key = |bytes: &[u8]| bytes[(i - n) / 8] >> ((i - n) % 8) & 1 == 1;
        match i < n {
            true => (of(self.ones), of(self.zeros)),
            false => (of_key(&self.key_ones), of_key(&self.key_zeros)),
        }
    }
}

fn n(variant: u8) -> usize {
    width(variant) as usize
}

/// The bits of a block of the variant.
fn all(variant: u8) -> u64 {
    u64::MAX >> (64 - width(variant))
}

/// The bits of block and key.
fn bits(variant: u8) -> usize {
    n(variant) + 80
}

/// A sheet that knows nothing.
fn nothing() -> Parts {
    Parts {
        ones: 0,
        zeros: 0,
        key_ones: vec![0; 10],
        key_zeros: vec![0; 10],
    }
}

/// A sheet that knows all of a block and a key.
fn known(variant: u8, key: &[u8; 10], block: u64) -> Parts {
    Parts {
        ones: block,
        zeros: !block & all(variant),
        key_ones: key.to_vec(),
        key_zeros: key.map(|byte| !byte).to_vec(),
    }
}

fn random_known(random: &mut Random, variant: u8) -> Parts {
    let key = random.key();
    known(variant, &key, random.bits(width(variant)))
}

/// The sheet without the bits that are forgotten: of the block's and of the key's, each with a chance of so
/// many in 16.
fn forget(random: &mut Random, variant: u8, sheet: &Parts, chances: [u64; 2]) -> Parts {
    let mut less = sheet.clone();
    for i in 0..bits(variant) {
        if random.below(16) < chances[usize::from(i >= n(variant))] {
            less.put(n(variant), i, false, false);
        }
    }
    less
}

/// The sheet with up to so many bits forgotten.
fn forget_few(random: &mut Random, variant: u8, sheet: &Parts, count: u64) -> Parts {
    let mut less = sheet.clone();
    for _ in 0..count {
        let i = random.below(bits(variant) as u64) as usize;
        less.put(n(variant), i, false, false);
    }
    less
}

/// Some of a sheet: from nothing of it to all of it, often all but a few bits.
fn some_of(random: &mut Random, variant: u8, sheet: &Parts) -> Parts {
    match random.below(4) {
        0 => {
            let chances = [random.below(17), random.below(17)];
            forget(random, variant, sheet, chances)
        }
        1 => {
            let chances = one_of(random, &[[0, 1], [1, 0], [0, 8], [8, 0], [0, 16], [16, 0]]);
            forget(random, variant, sheet, chances)
        }
        _ => {
            let count = random.below(7);
            forget_few(random, variant, sheet, count)
        }
    }
}

/// A sheet that a run is not refused for.
fn sound_sheet(random: &mut Random, variant: u8) -> Parts {
    let whole = random_known(random, variant);
    some_of(random, variant, &whole)
}

/// A position, most often one of the first, where bits are known.
fn sound_position(random: &mut Random) -> u64 {
    match random.below(8) {
        0 => one_of(random, &[0, 1, 2, 253, LAST]),
        1 | 2 => random.below(LAST + 1),
        _ => random.below(50),
    }
}

#[derive(Clone, Debug)]
struct Run {
    variant: u8,
    sheet: Parts,
    position: u64,
    out_length: usize,
}

#[derive(Clone, Debug)]
struct Join {
    variant: u8,
    sheets: [Parts; 2],
    out_length: usize,
    key_out_length: usize,
}

/// A run with an output of the right length.
fn sound_run(variant: u8, sheet: &Parts, position: u64) -> Run {
    Run {
        variant,
        sheet: sheet.clone(),
        position,
        out_length: WORDS,
    }
}

/// A join with outputs of the right lengths.
fn sound_join(variant: u8, sheets: [&Parts; 2]) -> Join {
    Join {
        variant,
        sheets: sheets.map(Parts::clone),
        out_length: WORDS,
        key_out_length: KEY_BYTES,
    }
}

/// Makes the call, compares it with the model's, and gives its status and what it wrote. The output is lent
/// out of the middle of other words, and all of them are compared.
fn compared(random: &mut Random, call: &Run) -> (u8, Vec<u64>) {
    let lent: Vec<u64> = (0..2 + call.out_length + 2)
        .map(|_| random.next_u64())
        .collect();
    let out = 2..2 + call.out_length;
    let (mut ours, mut theirs) = (lent.clone(), lent.clone());
    let Run {
        variant,
        ref sheet,
        position,
        ..
    } = *call;
    let before = sheet.clone();
    let got = raw::smudged(variant, sheet.ours(), position, &mut ours[out.clone()]);
    let expected = model::smudged(variant, sheet.theirs(), position, &mut theirs[out.clone()]);
    assert_eq!(got, expected, "{call:x?}");
    assert_eq!(ours, theirs, "{call:x?}: two words stand before the output");
    assert!(got == 0 || ours == lent, "{call:x?}: refused, but written");
    assert_eq!(*sheet, before, "the sheet is only read");
    (got, ours[out].to_vec())
}

/// The same of a join.
fn compared_join(random: &mut Random, call: &Join) -> (u8, Vec<u64>, Vec<u8>) {
    let lent: Vec<u64> = (0..2 + call.out_length + 2)
        .map(|_| random.next_u64())
        .collect();
    let lent_key = random.bytes(3 + call.key_out_length + 3);
    let (out, key_out) = (2..2 + call.out_length, 3..3 + call.key_out_length);
    let (mut ours, mut theirs) = (lent.clone(), lent.clone());
    let (mut our_key, mut their_key) = (lent_key.clone(), lent_key.clone());
    let before = call.sheets.clone();
    let [sheet, other] = &call.sheets;
    let got = raw::join(
        call.variant,
        sheet.ours(),
        other.ours(),
        &mut ours[out.clone()],
        &mut our_key[key_out.clone()],
    );
    let expected = model::join(
        call.variant,
        sheet.theirs(),
        other.theirs(),
        &mut theirs[out.clone()],
        &mut their_key[key_out.clone()],
    );
    assert_eq!(got, expected, "{call:x?}");
    assert_eq!(ours, theirs, "{call:x?}: two words stand before the output");
    assert_eq!(our_key, their_key, "{call:x?}: three bytes stand before");
    let kept = ours == lent && our_key == lent_key;
    assert!(got == 0 || kept, "{call:x?}: refused, but written");
    assert_eq!(call.sheets, before, "the sheets are only read");
    (got, ours[out].to_vec(), our_key[key_out].to_vec())
}

/// A run that is not refused: the registers' bits known as 1, and those known as 0. None is both, and none is
/// at n or above.
fn registers(random: &mut Random, variant: u8, sheet: &Parts, position: u64) -> KnownBits {
    let call = sound_run(variant, sheet, position);
    let (status, out) = compared(random, &call);
    assert_eq!(status, 0, "{call:x?}");
    let [ones, zeros] = out[..].try_into().unwrap();
    let within = (ones | zeros) & !all(variant) == 0;
    assert!(ones & zeros == 0 && within, "{call:x?}: {out:x?}");
    KnownBits { ones, zeros }
}

/// A join that is not refused.
fn joined(random: &mut Random, variant: u8, sheets: [&Parts; 2]) -> Parts {
    let call = sound_join(variant, sheets);
    let (status, out, key_out) = compared_join(random, &call);
    assert_eq!(status, 0, "{call:x?}");
    Parts {
        ones: out[0],
        zeros: out[1],
        key_ones: key_out[..10].to_vec(),
        key_zeros: key_out[10..].to_vec(),
    }
}

/// Whether the second knows whatever the first knows.
fn within(less: KnownBits, more: KnownBits) -> bool {
    less.ones & !more.ones == 0 && less.zeros & !more.zeros == 0
}

/// Worked out by hand from document 01. KATAN32, a key of ones and a block of zeros, but block bit 22, which
/// is L1[3], is unknown. Without it positions 1 to 5 are 00080001, 00180003, 00380007, 0078000f, 00f8001e.
/// The rows are the position, the bits known as 1, and the unknown ones. In round 0 the unknown bit is x5, with
/// IR 1, and in round 4 it is x2: fa is unknown. In round 2 it is x4, and x3 is 0; in round 4 what entered
/// L2 in round 0 is y6, and y5 is 0: these products are 0.
#[test]
fn first_positions_by_hand() {
    let mut random = generator("first_positions_by_hand");
    let mut sheet = known(1, &[0xff; 10], 0);
    sheet.put(32, 22, false, false);
    let rows: [(u64, u64, u64); 6] = [
        (0, 0x00000000, 0x00400000),
        (1, 0x00080000, 0x00800001),
        (2, 0x00180001, 0x01000002),
        (3, 0x00380003, 0x02000004),
        (4, 0x00780007, 0x04000008),
        (5, 0x00f8000e, 0x08000011),
    ];
    for (position, ones, unknown) in rows {
        let zeros = 0xffffffff & !(ones | unknown);
        let found = registers(&mut random, 1, &sheet, position);
        assert_eq!(found, KnownBits { ones, zeros }, "position {position}");
    }
}

/// KATAN32 again. Key bits 5 and 7 are kb of rounds 2 and 3, and x5 of rounds 6 and 7, with IR 1 and 0: fa of
/// round 7 is known.
#[test]
fn where_ir_is_0() {
    let mut random = generator("where_ir_is_0");
    for (key_bit, position, fa) in [(5, 7, None), (7, 8, Some(true))] {
        let mut sheet = known(1, &[0xff; 10], 0);
        sheet.put(32, 32 + key_bit, false, false);
        let before = registers(&mut random, 1, &sheet, position - 1);
        assert_eq!(before.bit(19 + 3), None);
        let found = registers(&mut random, 1, &sheet, position);
        assert_eq!(found.bit(0), fa, "key bit {key_bit}");
    }
}

/// KATAN32 with a key and a block of zeros, but one bit u is unknown. With block bit 21 x2 and x5 of round 17
/// are both u, and IR is 1. With key bit 69 ka of round 66, which is k(52) xor k(71) xor k(82) xor k(119), has
/// u in k(82) and in k(119). So fa is u xor u, which is 0 in either filling, but unknown by the rule.
#[test]
fn equal_unknowns_do_not_cancel() {
    let mut random = generator("equal_unknowns_do_not_cancel");
    for (bit, position) in [(21, 18), (32 + 69, 67)] {
        let mut sheet = known(1, &[0; 10], 0);
        for one in [false, true] {
            sheet.put(32, bit, one, !one);
            let found = registers(&mut random, 1, &sheet, position);
            assert_eq!(found.bit(0), Some(false));
        }
        sheet.put(32, bit, false, false);
        let found = registers(&mut random, 1, &sheet, position);
        assert_eq!(found.bit(0), None, "bit {bit}");
    }
}

/// Sheets that know all, all but a bit, all but a few, half of block and key, the block or the key alone, and
/// nothing, at every position.
#[test]
fn every_position() {
    let mut random = generator("every_position");
    for variant in 1..=6 {
        let whole = random_known(&mut random, variant);
        let mut sheets = vec![whole.clone(), nothing()];
        for count in [1, 1, 2, 5] {
            sheets.push(forget_few(&mut random, variant, &whole, count));
        }
        for chances in [[8, 8], [0, 1], [0, 16], [16, 0]] {
            sheets.push(forget(&mut random, variant, &whole, chances));
        }
        for sheet in &sheets {
            for position in 0..=LAST {
                registers(&mut random, variant, sheet, position);
            }
        }
    }
}

/// Each bit unknown alone, at first positions and at late ones, where KTANTAN's last key bits have just been
/// taken: a place or a key bit taken for another shows. Each bit known alone, as 0 and as 1.
#[test]
fn bits_that_tell() {
    let mut random = generator("bits_that_tell");
    for variant in 1..=6 {
        for i in 0..bits(variant) {
            let mut less = random_known(&mut random, variant);
            less.put(n(variant), i, false, false);
            let late = [60, 120, 180, 220].map(|position| position + random.below(30));
            for position in [0, 1, 2, 4, 7, 11, 16, 22, 30, 40].into_iter().chain(late) {
                registers(&mut random, variant, &less, position);
            }
            for one in [false, true] {
                let mut alone = nothing();
                alone.put(n(variant), i, one, !one);
                for position in [0, 1, 2, 3] {
                    registers(&mut random, variant, &alone, position);
                }
            }
        }
    }
}

/// KTANTAN32 takes key bit 32 in no round before 218. With a key of ones and a block of zeros all is known up
/// to there, and some of the ciphertext, 22ea3988, to the end.
#[test]
fn a_late_key_bit() {
    let mut random = generator("a_late_key_bit");
    let whole = known(4, &[0xff; 10], 0);
    let mut less = whole.clone();
    less.put(32, 32 + 32, false, false);
    for position in 200..=LAST {
        let [found, all] = [&less, &whole].map(|sheet| registers(&mut random, 4, sheet, position));
        assert_eq!(found == all, position <= 218, "position {position}");
        assert!(found.ones | found.zeros != 0 && within(found, all));
        assert!(position < LAST || all.ones == 0x22ea3988);
    }
}

/// A sheet that knows all gives the registers of a lane of the driver's own bench, stepped round by round,
/// and at the last position the block of `encrypt`.
#[test]
fn beside_a_bench() {
    let mut random = generator("beside_a_bench");
    for variant in 1..=6 {
        for _ in 0..2 {
            let key = random.key();
            let block = random.bits(width(variant));
            let sheet = known(variant, &key, block);
            let mut bench = Bench::open(variant).unwrap();
            bench.arrive(&record::load(1, 0, 0, &key, block)).unwrap();
            for position in 0..=LAST {
                if position > 0 {
                    let step = record::forward(position as u32 + 1, 1, 1);
                    bench.arrive(&step).unwrap();
                }
                let ones = bench.read(0).unwrap().registers;
                let zeros = !ones & all(variant);
                let found = registers(&mut random, variant, &sheet, position);
                assert_eq!(found, KnownBits { ones, zeros }, "position {position}");
            }
            let found = registers(&mut random, variant, &sheet, LAST);
            assert_eq!(Ok(found.ones), encrypt(variant, &key, block));
        }
    }
}

/// Every key and block that a sheet may be of.
fn fillings(variant: u8, sheet: &Parts) -> Vec<([u8; 10], u64)> {
    let n = n(variant);
    let mut filled = vec![sheet.clone()];
    for i in 0..bits(variant) {
        if sheet.get(n, i) == (false, false) {
            for mut zero in std::mem::take(&mut filled) {
                let mut one = zero.clone();
                zero.put(n, i, false, true);
                one.put(n, i, true, false);
                filled.extend([zero, one]);
            }
        }
    }
    filled
        .into_iter()
        .map(|sheet| (sheet.key_ones.try_into().unwrap(), sheet.ones))
        .collect()
}

/// Up to six unknown bits, and so up to 64 fillings: each on a lane of the driver's own bench, which is
/// stepped to the positions. Whatever a run shows as known is so on every lane. At the last position the
/// lanes are also those of `encrypt`.
#[test]
fn every_filling() {
    let mut random = generator("every_filling");
    let (mut shown, mut agreed) = (0, 0);
    for variant in 1..=6 {
        for round in 0..40 {
            let whole = random_known(&mut random, variant);
            let sheet = forget_few(&mut random, variant, &whole, round % 7);
            let fillings = fillings(variant, &sheet);
            let mut bench = Bench::open(variant).unwrap();
            let mut number = 0;
            for (lane, (key, block)) in fillings.iter().enumerate() {
                number += 1;
                let load = record::load(number, lane as u8, 0, key, *block);
                bench.arrive(&load).unwrap();
            }
            let mut positions: Vec<u64> = (0..20).map(|_| random.below(60)).collect();
            positions.extend([0, 1, random.below(255), LAST]);
            positions.sort();
            let mut at = 0;
            for position in positions {
                if position > at {
                    number += 1;
                    let step = record::forward(number, u64::MAX, (position - at) as u8);
                    bench.arrive(&step).unwrap();
                    at = position;
                }
                let found = registers(&mut random, variant, &sheet, position);
                let screen = bench.screen(u64::MAX).unwrap();
                let lanes: Vec<u64> = screen.lanes().map(|(_, registers)| registers).collect();
                assert_eq!(lanes.len(), fillings.len());
                for (registers, (key, block)) in lanes.iter().zip(&fillings) {
                    assert!(
                        found.ones & !registers == 0 && found.zeros & registers == 0,
                        "variant {variant}, {sheet:x?}, position {position}: {found:x?}, but with \
                         key {key:02x?} and block {block:x} {registers:x}"
                    );
                    if position == LAST {
                        assert_eq!(encrypt(variant, key, *block), Ok(*registers));
                    }
                }
                let alike = lanes.iter().fold(all(variant), |alike, registers| {
                    alike & !(registers ^ lanes[0])
                });
                let some = found.ones | found.zeros;
                shown += u32::from(lanes.len() > 1 && some != 0);
                agreed += u32::from(some != alike);
            }
        }
    }
    println!("every_filling: {shown} with known bits, {agreed} with more that all fillings share");
    assert!(shown > 100 && agreed > 100, "{shown}, {agreed}");
}

/// A sheet that knows more loses and alters nothing that is known of the registers.
#[test]
fn knowing_more() {
    let (mut random, calls) = start("knowing_more", 3_000);
    let mut gained = 0;
    for _ in 0..calls {
        let variant = 1 + random.below(6) as u8;
        let more = sound_sheet(&mut random, variant);
        let less = some_of(&mut random, variant, &more);
        let position = sound_position(&mut random);
        let [before, after] =
            [&less, &more].map(|sheet| registers(&mut random, variant, sheet, position));
        assert!(
            within(before, after),
            "variant {variant}, position {position}: {less:x?} gives {before:x?}, {more:x?} gives \
             {after:x?}"
        );
        gained += u32::from(before != after);
    }
    assert!(calls < 1_000 || gained > 100, "{gained}");
}

/// What is known of each bit, as the safe calls and the model say it.
#[test]
fn safe_calls() {
    let mut random = generator("safe_calls");
    let bit = |known: Option<bool>| match known {
        None => Bit::Unknown,
        Some(false) => Bit::Zero,
        Some(true) => Bit::One,
    };
    for number in 1..=6 {
        let variant = Variant::from_number(number).unwrap();
        for _ in 0..50 {
            let whole = random_known(&mut random, number);
            let sheets = [0; 2].map(|_| some_of(&mut random, number, &whole));
            let theirs = [0, 1].map(|i| {
                let sheet = &sheets[i];
                let part = |bytes: &[u8]| -> [u8; 10] { bytes.try_into().unwrap() };
                let keys = (&part(&sheet.key_ones), &part(&sheet.key_zeros));
                let block = (sheet.ones, sheet.zeros);
                katan_model::smudged::Sheet::from_parts(variant, block, keys).unwrap()
            });
            let [first, second] = sheets.each_ref().map(Parts::sheet);
            let same = |ours: &Sheet, theirs: &katan_model::smudged::Sheet| {
                let block = (0..width(number)).map(|i| bit(ours.block.bit(i)));
                let key = (0..80).map(|i| bit(ours.key.bit(i)));
                assert!(block.eq(theirs.block.iter().copied()));
                assert!(key.eq(theirs.key.iter().copied()));
                assert_eq!([64, 1000].map(|i| ours.block.bit(i)), [None; 2]);
                assert_eq!([80, 1000].map(|i| ours.key.bit(i)), [None; 2]);
            };
            same(&first, &theirs[0]);
            let joined = join(number, &first, &second).unwrap();
            same(&joined, &theirs[0].join(&theirs[1]).unwrap());
            let position = sound_position(&mut random);
            let found = smudged(number, &joined, position).unwrap();
            let expected = katan_model::smudged::run(
                variant,
                &theirs[0].join(&theirs[1]).unwrap(),
                position as u8,
            );
            let found = (0..width(number)).map(|i| bit(found.bit(i)));
            assert!(found.eq(expected));
        }
    }
    let sheet = nothing().sheet();
    let both = |ones, zeros| Sheet {
        block: KnownBits { ones, zeros },
        ..sheet
    };
    let refused = |variant, sheet: Sheet, position| smudged(variant, &sheet, position).err();
    assert_eq!(refused(7, sheet, 0), Some(Refusal::BadVariant));
    assert_eq!(refused(1, sheet, 255), Some(Refusal::BadPosition));
    assert_eq!(refused(1, both(0, 1 << 32), 0), Some(Refusal::BadBlock));
    assert_eq!(refused(1, both(4, 4), 0), Some(Refusal::Contradiction));
    assert_eq!(both(4, 4).block.bit(2), None);
    let refused = |variant, other: Sheet| join(variant, &both(4, 8), &other).err();
    assert_eq!(refused(0, sheet), Some(Refusal::BadVariant));
    assert_eq!(refused(4, both(1 << 32, 0)), Some(Refusal::BadBlock));
    assert_eq!(refused(4, both(8, 0)), Some(Refusal::Contradiction));
    assert_eq!(refused(4, both(16, 8)), None);
}

/// Digits of either kind, and what are none.
#[test]
fn digits() {
    let key = "0123456789abcdef????";
    let sheet = Sheet::from_digits("?5a?", key).unwrap();
    let block = KnownBits {
        ones: 0x05a0,
        zeros: 0x0a50,
    };
    assert_eq!(sheet.block, block);
    let ones = [0, 0, 0xef, 0xcd, 0xab, 0x89, 0x67, 0x45, 0x23, 0x01];
    let zeros = [0, 0, 0x10, 0x32, 0x54, 0x76, 0x98, 0xba, 0xdc, 0xfe];
    assert_eq!(sheet.key, KnownKey { ones, zeros });
    let zeros = |digits: &str| KnownBits::from_digits(digits).map(|block| block.zeros);
    assert_eq!(zeros("0000000000000000"), Some(u64::MAX));
    assert_eq!(zeros(""), Some(0));
    for other in ["00000000000000000", "g", " 0", "-1", "0x0", "é"] {
        assert_eq!(zeros(other), None, "{other}");
    }
    for other in [&key[1..], &format!("{key}0"), "0123456789abcdef???-"] {
        assert_eq!(KnownKey::from_digits(other), None, "{other}");
        assert_eq!(Sheet::from_digits("0", other), None, "{other}");
    }
    assert_eq!(Sheet::from_digits("+", key), None);
}

/// Two sheets that know parts of one block and key: joined they know what either does, both ways round. A
/// sheet joins with itself, with one that knows less and with one that knows nothing to itself. A run of
/// the joined sheet keeps what the runs of both know.
#[test]
fn joins_of_one_block() {
    let (mut random, calls) = start("joins_of_one_block", 3_000);
    let mut gained = 0;
    for _ in 0..calls {
        let variant = 1 + random.below(6) as u8;
        let whole = random_known(&mut random, variant);
        let [a, b] = [0; 2].map(|_| some_of(&mut random, variant, &whole));
        let mut either = nothing();
        for i in 0..bits(variant) {
            let ((one, zero), (other_one, other_zero)) =
                (a.get(n(variant), i), b.get(n(variant), i));
            either.put(n(variant), i, one || other_one, zero || other_zero);
        }
        let random = &mut random;
        assert_eq!(joined(random, variant, [&a, &b]), either);
        assert_eq!(joined(random, variant, [&b, &a]), either);
        assert_eq!(joined(random, variant, [&a, &a]), a);
        assert_eq!(joined(random, variant, [&a, &nothing()]), a);
        assert_eq!(joined(random, variant, [&b, &either]), either);

        let position = sound_position(random);
        let [first, second, both] =
            [&a, &b, &either].map(|sheet| registers(random, variant, sheet, position));
        let kept = within(first, both) && within(second, both);
        assert!(
            kept,
            "variant {variant}, {a:x?}, {b:x?}, position {position}"
        );
        gained += u32::from(both != first && both != second);
    }
    assert!(calls < 1_000 || gained > 100, "{gained}");
}

/// Every number that a byte can have for a variant.
#[test]
fn every_variant_number() {
    let mut random = generator("every_variant_number");
    for variant in 0..=255 {
        let expected = if (1..=6).contains(&variant) { 0 } else { 1 };
        let whole = random_known(&mut random, variant);
        let sheets = [0; 2].map(|_| some_of(&mut random, variant, &whole));
        let call = sound_run(variant, &sheets[0], random.below(255));
        assert_eq!(compared(&mut random, &call).0, expected, "{call:x?}");
        let call = sound_join(variant, [&sheets[0], &sheets[1]]);
        assert_eq!(compared_join(&mut random, &call).0, expected, "{call:x?}");
    }
}

/// A contradiction at each single bit of block and key: on the sheet of a run; on either sheet of a join, and
/// between the two, either way round. The same sheets without it are not refused.
#[test]
fn contradictions() {
    let mut random = generator("contradictions");
    let nothing_said = (false, false);
    for variant in 1..=6 {
        for i in 0..bits(variant) {
            let whole = random_known(&mut random, variant);
            let sheets = [0; 2].map(|_| some_of(&mut random, variant, &whole));
            let position = random.below(255);
            let both = (true, true);
            let (one, zero) = ((true, false), (false, true));
            // What the sheets say of the bit, and the status of a run of the first and of a join.
            let cases = [
                ([nothing_said, nothing_said], 0, 0),
                ([one, one], 0, 0),
                ([zero, zero], 0, 0),
                ([zero, nothing_said], 0, 0),
                ([both, nothing_said], 16, 16),
                ([nothing_said, both], 0, 16),
                ([one, zero], 0, 16),
                ([zero, one], 0, 16),
                ([both, one], 16, 16),
                ([both, both], 16, 16),
            ];
            for (said, of_run, of_join) in cases {
                let [mut first, mut second] = sheets.clone();
                first.put(n(variant), i, said[0].0, said[0].1);
                second.put(n(variant), i, said[1].0, said[1].1);
                let call = sound_join(variant, [&first, &second]);
                let status = compared_join(&mut random, &call).0;
                assert_eq!(status, of_join, "bit {i}: {call:x?}");
                let call = sound_run(variant, &first, position);
                let status = compared(&mut random, &call).0;
                assert_eq!(status, of_run, "bit {i}: {call:x?}");
            }
        }
    }
}

/// Each bit at n and above, in each block number, and in two of them, where it would be a contradiction too.
#[test]
fn bits_beyond_the_block() {
    let mut random = generator("bits_beyond_the_block");
    for variant in [1, 2, 4, 5] {
        for i in width(variant)..64 {
            let whole = random_known(&mut random, variant);
            for choice in 1..16 {
                let set = |j: u32| (choice >> j & 1) << i;
                let [mut first, mut second] = [0; 2].map(|_| some_of(&mut random, variant, &whole));
                first.ones |= set(0);
                first.zeros |= set(1);
                second.ones |= set(2);
                second.zeros |= set(3);
                let call = sound_join(variant, [&first, &second]);
                assert_eq!(compared_join(&mut random, &call).0, 7, "{call:x?}");
                let call = sound_run(variant, &first, random.below(255));
                let expected = if choice & 3 == 0 { 0 } else { 7 };
                assert_eq!(compared(&mut random, &call).0, expected, "{call:x?}");
            }
        }
    }
}

/// Positions over 254, also those that are not when some of their bits are cut off.
const OTHER_POSITIONS: [u64; 16] = [
    255,
    256,
    257,
    256 + 254,
    510,
    511,
    1 << 15,
    1 << 16,
    (1 << 31) + 100,
    1 << 32,
    (1 << 32) + 5,
    (1 << 32) + 254,
    1 << 63,
    (1 << 63) + 254,
    u64::MAX - 1,
    u64::MAX,
];

/// Ways to put one fault into a call.
type Ways<Call> = Vec<Box<dyn Fn(&mut Call)>>;

/// Numbers for a variant that is none.
const OTHER_VARIANTS: [u8; 6] = [0, 7, 8, 127, 128, 255];

/// A fault of a run; the variant is the right one.
fn ways_of_run(variant: u8, fault: u8) -> Ways<Run> {
    let mut ways: Ways<Run> = Vec::new();
    match fault {
        1 => {
            for other in OTHER_VARIANTS {
                ways.push(Box::new(move |call| call.variant = other));
            }
        }
        2 => {
            // The bytes of the key's two parts, and the words of the output.
            let lengths = [
                (0, 10, 2),
                (9, 10, 2),
                (11, 10, 2),
                (20, 10, 2),
                (10, 0, 2),
                (10, 9, 2),
                (10, 11, 2),
                (10, 20, 2),
                (9, 11, 2),
                (11, 9, 2),
                (0, 20, 2),
                (20, 0, 2),
                (9, 9, 2),
                (10, 10, 0),
                (10, 10, 1),
                (10, 10, 3),
                (10, 10, 20),
                (9, 11, 1),
            ];
            for (ones, zeros, out) in lengths {
                ways.push(Box::new(move |call| {
                    call.sheet.key_ones.resize(ones, 0);
                    call.sheet.key_zeros.resize(zeros, 0);
                    call.out_length = out;
                }));
            }
        }
        6 => {
            for other in OTHER_POSITIONS {
                ways.push(Box::new(move |call| call.position = other));
            }
        }
        7 => {
            for i in [n(variant), n(variant) + 7, 63] {
                ways.push(Box::new(move |call| call.sheet.ones |= 1 << i));
                ways.push(Box::new(move |call| call.sheet.zeros |= 1 << i));
                ways.push(Box::new(move |call| {
                    call.sheet.ones |= 1 << i;
                    call.sheet.zeros |= 1 << i;
                }));
            }
        }
        16 => {
            let n = n(variant);
            for i in [0, n / 2, n - 1, n, n + 40, n + 79] {
                ways.push(Box::new(move |call| call.sheet.put(n, i, true, true)));
            }
            ways.push(Box::new(move |call| {
                call.sheet.put(n, 3, true, true);
                call.sheet.put(n, n + 9, true, true);
            }));
        }
        _ => unreachable!(),
    }
    ways
}

/// A fault of a join.
fn ways_of_join(variant: u8, fault: u8) -> Ways<Join> {
    let mut ways: Ways<Join> = Vec::new();
    match fault {
        1 => {
            for other in OTHER_VARIANTS {
                ways.push(Box::new(move |call| call.variant = other));
            }
        }
        2 => {
            for which in 0..2 {
                for other in [0, 9, 11, 20] {
                    ways.push(Box::new(move |call| {
                        call.sheets[which].key_ones.resize(other, 0);
                    }));
                    ways.push(Box::new(move |call| {
                        call.sheets[which].key_zeros.resize(other, 0);
                    }));
                    // The two parts of a key, and the same part of both, have 20 bytes together.
                    ways.push(Box::new(move |call| {
                        call.sheets[which].key_ones.resize(other, 0);
                        call.sheets[which].key_zeros.resize(20 - other, 0);
                    }));
                    ways.push(Box::new(move |call| {
                        call.sheets[which].key_zeros.resize(other, 0);
                        call.sheets[1 - which].key_zeros.resize(20 - other, 0);
                    }));
                }
            }
            for other in [0, 1, 3, 20] {
                ways.push(Box::new(move |call| call.out_length = other));
            }
            for other in [0, 2, 10, 19, 21, 40] {
                ways.push(Box::new(move |call| call.key_out_length = other));
            }
        }
        7 => {
            for (which, i) in [(0, n(variant)), (1, n(variant)), (0, 63), (1, 63)] {
                ways.push(Box::new(move |call| call.sheets[which].ones |= 1 << i));
                ways.push(Box::new(move |call| call.sheets[which].zeros |= 1 << i));
                // Here the bit is a contradiction too, within a sheet or between the two.
                ways.push(Box::new(move |call| {
                    call.sheets[which].ones |= 1 << i;
                    call.sheets[which].zeros |= 1 << i;
                }));
                ways.push(Box::new(move |call| {
                    call.sheets[which].ones |= 1 << i;
                    call.sheets[1 - which].zeros |= 1 << i;
                }));
            }
        }
        16 => {
            let n = n(variant);
            for i in [0, n - 1, n, n + 79] {
                for which in 0..2 {
                    ways.push(Box::new(move |call| {
                        call.sheets[which].put(n, i, true, true);
                    }));
                    ways.push(Box::new(move |call| {
                        call.sheets[which].put(n, i, true, false);
                        call.sheets[1 - which].put(n, i, false, true);
                    }));
                }
            }
        }
        _ => unreachable!(),
    }
    ways
}

/// Every way to put each of the faults into a call, in this order.
fn with_faults<Call: Clone>(
    call: &Call,
    faults: &[u8],
    ways: impl Fn(u8) -> Ways<Call>,
) -> Vec<Call> {
    let mut made = vec![call.clone()];
    for fault in faults {
        let ways = ways(*fault);
        made = made
            .iter()
            .flat_map(|call| {
                ways.iter().map(|way| {
                    let mut call = call.clone();
                    way(&mut call);
                    call
                })
            })
            .collect();
    }
    made
}

/// Each of the faults 1, 2, 6, 7 and 16 of a run alone and each two of them at once, in every way listed.
/// No block is too large where n is 64.
#[test]
fn pairs_of_faults_of_a_run() {
    let mut random = generator("pairs_of_faults_of_a_run");
    // The faults that a call has, and the status that it gets. A length is put in last, so that the other
    // faults find their bytes.
    let expected: [(&[u8], u8); 16] = [
        (&[], 0),
        (&[1], 1),
        (&[2], 2),
        (&[6], 6),
        (&[7], 7),
        (&[16], 16),
        (&[1, 2], 1),
        (&[1, 6], 1),
        (&[1, 7], 1),
        (&[1, 16], 1),
        (&[6, 2], 2),
        (&[7, 2], 2),
        (&[16, 2], 2),
        (&[6, 7], 6),
        (&[6, 16], 6),
        (&[7, 16], 7),
    ];
    for variant in 1..=6 {
        for (faults, status) in expected {
            if faults.contains(&7) && width(variant) == 64 {
                continue;
            }
            let sheet = sound_sheet(&mut random, variant);
            let call = sound_run(variant, &sheet, random.below(255));
            for call in with_faults(&call, faults, |fault| ways_of_run(variant, fault)) {
                let got = compared(&mut random, &call).0;
                assert_eq!(got, status, "{call:x?} has {faults:?}");
            }
        }
    }
}

/// The same of a join, with the faults 1, 2, 7 and 16.
#[test]
fn pairs_of_faults_of_a_join() {
    let mut random = generator("pairs_of_faults_of_a_join");
    let expected: [(&[u8], u8); 11] = [
        (&[], 0),
        (&[1], 1),
        (&[2], 2),
        (&[7], 7),
        (&[16], 16),
        (&[1, 2], 1),
        (&[1, 7], 1),
        (&[1, 16], 1),
        (&[7, 2], 2),
        (&[16, 2], 2),
        (&[7, 16], 7),
    ];
    for variant in 1..=6 {
        for (faults, status) in expected {
            if faults.contains(&7) && width(variant) == 64 {
                continue;
            }
            let whole = random_known(&mut random, variant);
            let sheets = [0; 2].map(|_| some_of(&mut random, variant, &whole));
            let call = sound_join(variant, [&sheets[0], &sheets[1]]);
            for call in with_faults(&call, faults, |fault| ways_of_join(variant, fault)) {
                let got = compared_join(&mut random, &call).0;
                assert_eq!(got, status, "{call:x?} has {faults:?}");
            }
        }
    }
}

/// A sheet, most of them sound; `variant` may be none.
fn any_sheet(random: &mut Random, variant: u8, whole: &Parts) -> Parts {
    let mut sheet = some_of(random, variant, whole);
    if random.below(16) == 0 {
        let i = random.below(bits(variant) as u64) as usize;
        sheet.put(n(variant), i, true, true);
    }
    match random.below(32) {
        0 => sheet.ones = random.next_u64(),
        1 => sheet.zeros = random.next_u64(),
        2 => sheet.ones |= 1 << random.below(64),
        3 => sheet.zeros |= 1 << random.below(64),
        _ => {}
    }
    if random.below(4) == 0 {
        let lengths = [length(random, 10), length(random, 10)];
        sheet.key_ones.resize(lengths[0], 0);
        sheet.key_zeros.resize(lengths[1], 0);
    }
    sheet
}

/// Random runs, most of them sound.
#[test]
fn random_runs() {
    let (mut random, calls) = start("random_runs", 20_000);
    let mut seen = [0; 17];
    for _ in 0..calls {
        let variant = match random.below(32) {
            0 => random.bits(8) as u8,
            _ => variant(&mut random),
        };
        let whole = random_known(&mut random, variant);
        let call = Run {
            variant,
            sheet: any_sheet(&mut random, variant, &whole),
            position: match random.below(16) {
                0 => one_of(&mut random, &OTHER_POSITIONS),
                1 => one_of(&mut random, &[1 << 8, 1 << 16, 1 << 32]) + random.below(255),
                _ => sound_position(&mut random),
            },
            out_length: match random.below(4) {
                0 => length(&mut random, WORDS),
                _ => WORDS,
            },
        };
        seen[compared(&mut random, &call).0 as usize] += 1;
    }
    println!("random_runs: statuses 0 to 16: {seen:?}");
    let met = [0, 1, 2, 6, 7, 16].iter().all(|status| seen[*status] > 0);
    assert!(calls < 4_000 || met, "{seen:?}");
}

/// Random joins, most of them sound, of sheets of one block, or of two that differ in a few bits.
#[test]
fn random_joins() {
    let (mut random, calls) = start("random_joins", 20_000);
    let mut seen = [0; 17];
    for _ in 0..calls {
        let variant = variant(&mut random);
        let whole = random_known(&mut random, variant);
        let mut other = whole.clone();
        for _ in 0..one_of(&mut random, &[0, 0, 0, 1, 2]) {
            let i = random.below(bits(variant) as u64) as usize;
            let (one, zero) = other.get(n(variant), i);
            other.put(n(variant), i, zero, one);
        }
        let call = Join {
            variant,
            sheets: [whole, other].map(|sheet| any_sheet(&mut random, variant, &sheet)),
            out_length: match random.below(4) {
                0 => length(&mut random, WORDS),
                _ => WORDS,
            },
            key_out_length: match random.below(4) {
                0 => length(&mut random, KEY_BYTES),
                _ => KEY_BYTES,
            },
        };
        seen[compared_join(&mut random, &call).0 as usize] += 1;
    }
    println!("random_joins: statuses 0 to 16: {seen:?}");
    let met = [0, 1, 2, 7, 16].iter().all(|status| seen[*status] > 0);
    assert!(calls < 4_000 || met, "{seen:?}");
}
