//! The KATAN stepping bench for a driver in Rust: safe calls of the proved library.
//!
//! Variants are 1 KATAN32, 2 KATAN48, 3 KATAN64, 4 KTANTAN32, 5 KTANTAN48, 6 KTANTAN64. A key is 10
//! bytes, key bit 8j + b being bit b of byte j; a block is a number below 2^n.
//!
//! ```
//! use katan_bench::{decrypt, encrypt, Refusal};
//!
//! let key = [0xff; 10];
//! let ciphertext = encrypt(1, &key, 0)?;
//! assert_eq!(ciphertext, 0x7e1ff945);
//! assert_eq!(decrypt(1, &key, ciphertext)?, 0);
//! assert_eq!(encrypt(7, &key, 0), Err(Refusal::BadVariant));
//! # Ok::<(), Refusal>(())
//! ```

use std::fmt;

pub mod raw;

/// The version of the calls that this crate was written for: it rises with every new call, and with
/// every change of a call's parameters, its numbers or a layout.
pub const VERSION: u32 = 8;

/// The version of the calls that the archive was built with.
///
/// ```
/// assert_eq!(katan_bench::version(), katan_bench::VERSION);
/// ```
pub fn version() -> u32 {
    raw::version()
}

/// Why a call was turned away, each with its number. No call gives 13, which is for a line of a script.
#[derive(Clone, Copy, Debug, PartialEq, Eq)]
#[repr(u8)]
pub enum Refusal {
    /// The variant is not 1 to 6, or a loaded lane of the bench is damaged.
    BadVariant = 1,
    /// A record is not 40 bytes, a key not 10, or something else has the wrong length.
    BadLength = 2,
    /// The kind is not 1 to 4.
    BadKind = 3,
    /// An unused field or a zero byte is not zero.
    FieldNotZero = 4,
    /// The lane is over 63.
    BadLane = 5,
    /// A position is over 254, or a move count is 0 or over 254.
    BadPosition = 6,
    /// A block, the start of a keystream, or either number of a smudged block is 2^n or more.
    BadBlock = 7,
    /// The mask of a move or clear, or of a screen, is 0.
    EmptyMask = 8,
    /// The number is neither last + 1 nor a nonzero last.
    OutOfTurn = 9,
    /// The number is last but the bytes differ.
    OtherBytes = 10,
    /// The lane read is empty.
    EmptyLane = 11,
    /// The clock rate is 0 or over 2,940,000,000.
    BadRate = 12,
    /// The start of a keystream plus the number of its blocks exceeds 2^n, or the data is over 4,096
    /// bytes.
    BeyondEnd = 14,
    /// The clock number is over 23.
    BadClock = 15,
    /// A bit is known both as 0 and as 1, on one sheet or between two that are joined.
    Contradiction = 16,
}

impl Refusal {
    /// The refusal of a number that a call can give.
    ///
    /// ```
    /// use katan_bench::Refusal;
    /// assert_eq!(Refusal::from_number(9), Some(Refusal::OutOfTurn));
    /// assert_eq!(Refusal::from_number(0), None);
    /// assert_eq!(Refusal::from_number(13), None);
    /// ```
    pub fn from_number(number: u8) -> Option<Refusal> {
        use Refusal::*;
        let refusal = match number {
            1 => BadVariant,
            2 => BadLength,
            3 => BadKind,
            4 => FieldNotZero,
            5 => BadLane,
            6 => BadPosition,
            7 => BadBlock,
            8 => EmptyMask,
            9 => OutOfTurn,
            10 => OtherBytes,
            11 => EmptyLane,
            12 => BadRate,
            14 => BeyondEnd,
            15 => BadClock,
            16 => Contradiction,
            _ => return None,
        };
        Some(refusal)
    }

    /// Its number.
    ///
    /// ```
    /// assert_eq!(katan_bench::Refusal::EmptyLane.number(), 11);
    /// ```
    pub fn number(self) -> u8 {
        self as u8
    }
}

impl fmt::Display for Refusal {
    fn fmt(&self, f: &mut fmt::Formatter) -> fmt::Result {
        write!(f, "refused {}", self.number())
    }
}

impl std::error::Error for Refusal {}

fn checked<A>(status: u8, answer: A) -> Result<A, Refusal> {
    match status {
        0 => Ok(answer),
        number => Err(Refusal::from_number(number).expect("a status is 0 or a refusal's number")),
    }
}

/// Encrypts one block.
pub fn encrypt(variant: u8, key: &[u8], block: u64) -> Result<u64, Refusal> {
    let mut out = [0];
    let status = raw::encrypt(variant, key, block, &mut out);
    checked(status, out[0])
}

/// Decrypts one block.
pub fn decrypt(variant: u8, key: &[u8], block: u64) -> Result<u64, Refusal> {
    let mut out = [0];
    let status = raw::decrypt(variant, key, block, &mut out);
    checked(status, out[0])
}

/// Encrypts 1 to 64 blocks together, block i with the key in bytes 10i to 10i + 9.
///
/// ```
/// let keys = [[0xff; 10], [0; 10]].concat();
/// let mut out = [0; 2];
/// katan_bench::encrypt_many(1, &keys, &[0, 0xffffffff], &mut out)?;
/// assert_eq!(out, [0x7e1ff945, 0x432e61da]);
/// # Ok::<(), katan_bench::Refusal>(())
/// ```
pub fn encrypt_many(
    variant: u8,
    keys: &[u8],
    blocks: &[u64],
    out: &mut [u64],
) -> Result<(), Refusal> {
    checked(raw::encrypt_many(variant, keys, blocks, out), ())
}

/// Decrypts 1 to 64 blocks together.
pub fn decrypt_many(
    variant: u8,
    keys: &[u8],
    blocks: &[u64],
    out: &mut [u64],
) -> Result<(), Refusal> {
    checked(raw::decrypt_many(variant, keys, blocks, out), ())
}

/// The most bytes that one call of [`keystream`] takes.
pub const LONGEST_DATA: usize = 4096;

/// The data combined, by xor, with the keystream of counter mode: block i of the stream is the
/// encryption of the number `start` + i, in n/8 bytes, low byte first. The last block may be short: its
/// first bytes are taken. A second pass restores the data, which has at most [`LONGEST_DATA`] bytes.
/// Two messages under one key must not share a block of the stream.
///
/// The checks are 1, 2, 14, 7, in this order.
///
/// ```
/// use katan_bench::{keystream, Refusal};
///
/// let key = [0xff; 10];
/// let message = b"Channel 7 at noon";
/// let sent = keystream(1, &key, 1000, message)?;
/// assert_ne!(sent, message);
/// assert_eq!(keystream(1, &key, 1000, &sent)?, message);
///
/// // Zeros show the stream: block 0 encrypts to 7e1ff945.
/// assert_eq!(keystream(1, &key, 0, &[0; 4])?, [0x45, 0xf9, 0x1f, 0x7e]);
/// // Five bytes take two blocks, and from the last number there is only one.
/// assert_eq!(keystream(1, &key, 0xffffffff, &[0; 5]), Err(Refusal::BeyondEnd));
/// # Ok::<(), Refusal>(())
/// ```
pub fn keystream(variant: u8, key: &[u8], start: u64, data: &[u8]) -> Result<Vec<u8>, Refusal> {
    let mut out = vec![0; data.len()];
    let status = raw::keystream(variant, key, start, data, &mut out);
    checked(status, out)
}

/// The last clock that [`origin`] answers. Clock numbers count the clocks from 0, through the rounds:
/// they are not positions.
pub const LAST_CLOCK: u64 = 23;

/// The two bits that enter the registers at a clock, and what it took to follow them back.
#[derive(Clone, Copy, Debug, PartialEq, Eq)]
pub struct Origin {
    /// The bit that enters L2, 0 or 1.
    pub fa: u8,
    /// The bit that enters L1, 0 or 1.
    pub fb: u8,
    /// The block bits looked up, for fa and fb added. Nothing is remembered on the way: a block bit that
    /// is met again counts again.
    pub looked_up: u64,
}

/// The bits that enter at a clock, found by following each of them back to the block, which is in the
/// registers at position 0. fa is made from five places of L1 and fb from six of L2. Each holds a bit of
/// the block, or one that entered at an earlier clock and is followed in its turn. All of them are
/// followed, x5, the fifth of L1, also where IR, the bit of the round that it is multiplied with, is 0.
///
/// Clock 0 is the first of round 0. A round has 1 clock where n is 32, 2 where n is 48, 3 where n is 64,
/// so clocks 0 to [`LAST_CLOCK`] are 24, 12 or 8 rounds.
///
/// The checks are 1, 2, 15, 7, in this order.
///
/// ```
/// use katan_bench::{origin, Origin, Refusal, LAST_CLOCK};
///
/// // A key of ones and a block of zeros. KATAN32 has one clock a round: the registers at positions 1 to
/// // 5 show what entered at clocks 0 to 4. L2 is the low 19 bits.
/// let key = [0xff; 10];
/// let registers = [0x00080001, 0x00180003, 0x00380007, 0x0078000f, 0x00f8001e];
/// for (clock, registers) in (0..).zip(registers) {
///     let entered = origin(1, &key, 0, clock)?;
///     assert_eq!(u32::from(entered.fa), registers & 1);
///     assert_eq!(u32::from(entered.fb), registers >> 19 & 1);
/// }
///
/// // Why does a 0 enter L2 at clock 4? Up to clock 3 all places hold zeros of the block, five in L1 and
/// // six in L2, and what enters is the key's ones.
/// assert_eq!(origin(1, &key, 0, 3)?, Origin { fa: 1, fb: 1, looked_up: 11 });
/// // At clock 4 place 3 of L1, which is x5, holds fb of clock 0: a 1, made from six bits. IR is 1, so it
/// // cancels the key's 1. Place 3 of L2 holds fa of clock 0, made from five.
/// assert_eq!(origin(1, &key, 0, 4)?, Origin { fa: 0, fb: 1, looked_up: 4 + 6 + 5 + 5 });
///
/// // The chains grow: a handout with every bit of clock 23 would be long.
/// assert_eq!(origin(1, &key, 0, LAST_CLOCK)?.looked_up, 957);
/// assert_eq!(origin(1, &key, 0, 24), Err(Refusal::BadClock));
/// // 33 bits are no block of KATAN32, but the clock is looked at first.
/// assert_eq!(origin(1, &key, 1 << 32, 23), Err(Refusal::BadBlock));
/// assert_eq!(origin(1, &key, 1 << 32, 24), Err(Refusal::BadClock));
/// # Ok::<(), Refusal>(())
/// ```
pub fn origin(variant: u8, key: &[u8], block: u64, clock: u64) -> Result<Origin, Refusal> {
    let mut out = [0; 3];
    let status = raw::origin(variant, key, block, clock, &mut out);
    let [fa, fb, looked_up] = out;
    let origin = Origin {
        fa: fa as u8,
        fb: fb as u8,
        looked_up,
    };
    checked(status, origin)
}

/// What is known of a block or of registers. A bit that is set in neither number is unknown.
///
/// ```
/// use katan_bench::KnownBits;
///
/// // The lowest digit is smudged; the one above it is 6, which is 0110.
/// let block = KnownBits::from_digits("0000006?").unwrap();
/// assert_eq!(block, KnownBits { ones: 0x60, zeros: 0xffffff90 });
/// let bits = [7, 6, 5, 4, 3].map(|i| block.bit(i));
/// assert_eq!(bits, [Some(false), Some(true), Some(true), Some(false), None]);
/// ```
#[derive(Clone, Copy, Debug, PartialEq, Eq)]
pub struct KnownBits {
    /// The bits known as 1.
    pub ones: u64,
    /// The bits known as 0.
    pub zeros: u64,
}

impl KnownBits {
    /// A block from its hexadecimal digits, the most significant first, n/4 of them, with `?` for each
    /// that nobody can read; of fewer digits the bits above are unknown. `None` if there are more than 16,
    /// or if one is no digit.
    pub fn from_digits(digits: &str) -> Option<KnownBits> {
        if digits.len() > 16 {
            return None;
        }
        let (ones, zeros) = known_digits(digits)?;
        Some(KnownBits {
            ones: ones as u64,
            zeros: zeros as u64,
        })
    }

    /// What is known of a bit of any number: `None` if it is unknown, or set in both numbers.
    pub fn bit(&self, i: u32) -> Option<bool> {
        let of = |number: u64| number.checked_shr(i).is_some_and(|rest| rest & 1 == 1);
        known_bit(of(self.ones), of(self.zeros))
    }
}

/// What is known of a key.
#[derive(Clone, Copy, Debug, PartialEq, Eq)]
pub struct KnownKey {
    /// The key bits known as 1: key bit 8j + b is bit b of byte j.
    pub ones: [u8; 10],
    /// The key bits known as 0.
    pub zeros: [u8; 10],
}

impl KnownKey {
    /// A key from its 20 hexadecimal digits, the most significant first, which has key bits 79 to 76, with
    /// `?` for each that nobody can read. `None` if there are more or fewer, or if one is no digit.
    ///
    /// ```
    /// use katan_bench::KnownKey;
    ///
    /// let key = KnownKey::from_digits("?000000000000000000c").unwrap();
    /// assert_eq!([0, 3, 75, 79].map(|i| key.bit(i)), [Some(false), Some(true), Some(false), None]);
    /// ```
    pub fn from_digits(digits: &str) -> Option<KnownKey> {
        if digits.len() != 20 {
            return None;
        }
        let bytes = |number: u128| std::array::from_fn(|j| (number >> (8 * j)) as u8);
        let (ones, zeros) = known_digits(digits)?;
        Some(KnownKey {
            ones: bytes(ones),
            zeros: bytes(zeros),
        })
    }

    /// What is known of a key bit of any number: `None` if it is unknown, or set in both parts.
    pub fn bit(&self, i: usize) -> Option<bool> {
        let of = |part: &[u8; 10]| part.get(i / 8).is_some_and(|byte| byte >> (i % 8) & 1 == 1);
        known_bit(of(&self.ones), of(&self.zeros))
    }
}

fn known_bit(one: bool, zero: bool) -> Option<bool> {
    (one != zero).then_some(one)
}

/// The bits known as 1 and those known as 0, of up to 32 digits.
fn known_digits(digits: &str) -> Option<(u128, u128)> {
    digits.chars().try_fold((0, 0), |(ones, zeros), digit| {
        let (one, zero) = match digit {
            '?' => (0, 0),
            _ => digit.to_digit(16).map(|value| (value, 15 - value))?,
        };
        Some((ones << 4 | u128::from(one), zeros << 4 | u128::from(zero)))
    })
}

/// What can be read of a block and its key.
#[derive(Clone, Copy, Debug, PartialEq, Eq)]
pub struct Sheet {
    pub block: KnownBits,
    pub key: KnownKey,
}

impl Sheet {
    /// A sheet from the digits of [`KnownBits::from_digits`] and [`KnownKey::from_digits`].
    pub fn from_digits(block: &str, key: &str) -> Option<Sheet> {
        Some(Sheet {
            block: KnownBits::from_digits(block)?,
            key: KnownKey::from_digits(key)?,
        })
    }

    fn parts(&self) -> raw::Parts<'_> {
        raw::Parts {
            ones: self.block.ones,
            zeros: self.block.zeros,
            key_ones: &self.key.ones,
            key_zeros: &self.key.zeros,
        }
    }
}

/// Runs rounds on a sheet, from position 0, where its block stands in the registers, to a position: what is
/// known of the registers there.
///
/// Xor with an unknown bit is unknown. 0 times anything is 0, and any other product with an unknown bit is
/// unknown. So each bit that is known is the one that the cipher gives however the unknown bits are filled
/// in. An unknown bit is not traced to where it came from: two that are always equal do not cancel. A sheet
/// that knows more loses and alters no known bit, and one that knows all gives all of the registers.
///
/// The checks are 1, 6, 7, 16, in this order.
///
/// ```
/// use katan_bench::{smudged, KnownBits, Refusal, Sheet};
///
/// // A key of ones and a block of zeros, of which the third digit cannot be read. L1 is the high 13 bits.
/// let sheet = Sheet::from_digits("00?00000", "ffffffffffffffffffff").unwrap();
/// // In the first round x5, which is bit 22, is among the smudged bits, and IR is 1: fa, which enters at
/// // bit 0, is unknown. What enters at bit 19 is made from L2, where all is known. The digit has moved up.
/// let first = smudged(1, &sheet, 1)?;
/// assert_eq!(first, KnownBits { ones: 0x00080000, zeros: 0xfe17fffe });
/// assert_eq!([0, 19, 20, 24, 25].map(|i| first.bit(i)), [None, Some(true), Some(false), None, Some(false)]);
///
/// // After 40 rounds nothing is left. Without the smudge there is the ciphertext.
/// assert_eq!(smudged(1, &sheet, 40)?, KnownBits { ones: 0, zeros: 0 });
/// let clear = Sheet::from_digits("00000000", "ffffffffffffffffffff").unwrap();
/// assert_eq!(smudged(1, &clear, 254)?, KnownBits { ones: 0x7e1ff945, zeros: !0x7e1ff945 & 0xffffffff });
///
/// assert_eq!(smudged(1, &sheet, 255), Err(Refusal::BadPosition));
/// let both = Sheet { block: KnownBits { ones: 3, zeros: 1 }, ..sheet };
/// assert_eq!(smudged(1, &both, 254), Err(Refusal::Contradiction));
/// # Ok::<(), Refusal>(())
/// ```
pub fn smudged(variant: u8, sheet: &Sheet, position: u64) -> Result<KnownBits, Refusal> {
    let mut out = [0; 2];
    let status = raw::smudged(variant, sheet.parts(), position, &mut out);
    let [ones, zeros] = out;
    checked(status, KnownBits { ones, zeros })
}

/// Joins two sheets of one block and key: a bit is known where either knows it. The order does not matter.
///
/// The checks are 1, 7, 16, in this order.
///
/// ```
/// use katan_bench::{join, Refusal, Sheet};
///
/// // Two students copied one block, and each sheet has a smudge.
/// let first = Sheet::from_digits("0123456?", "ffff????ffffffffffff").unwrap();
/// let second = Sheet::from_digits("?1234567", "ffffffffffffffffff??").unwrap();
/// let joined = join(1, &first, &second)?;
/// assert_eq!(Some(joined), Sheet::from_digits("01234567", "ffffffffffffffffffff"));
///
/// // The third sheet has another last digit of the key. On the second sheet that digit is smudged.
/// let third = Sheet::from_digits("0123456?", "fffffffffffffffffff0").unwrap();
/// assert_eq!(join(1, &first, &third), Err(Refusal::Contradiction));
/// assert!(join(1, &second, &third).is_ok());
/// # Ok::<(), Refusal>(())
/// ```
pub fn join(variant: u8, sheet: &Sheet, other: &Sheet) -> Result<Sheet, Refusal> {
    let (mut out, mut key_out) = ([0; 2], [0; 20]);
    let status = raw::join(
        variant,
        sheet.parts(),
        other.parts(),
        &mut out,
        &mut key_out,
    );
    let [ones, zeros] = out;
    let part = |from: usize| std::array::from_fn(|j| key_out[from + j]);
    let joined = Sheet {
        block: KnownBits { ones, zeros },
        key: KnownKey {
            ones: part(0),
            zeros: part(10),
        },
    };
    checked(status, joined)
}

/// The cycles that blocks take: 255 for each, one for loading and its 254 rounds.
///
/// ```
/// assert_eq!(katan_bench::cycles(2), 510);
/// ```
pub fn cycles(blocks: u32) -> u64 {
    raw::cycles(blocks)
}

/// The bit rate at a clock rate, in bits a second: a block in every 255 cycles.
///
/// ```
/// use katan_bench::{bit_rate, Refusal};
/// assert_eq!(bit_rate(1, 100_000), Ok(12_549));
/// assert_eq!(bit_rate(1, 0), Err(Refusal::BadRate));
/// ```
pub fn bit_rate(variant: u8, hertz: u64) -> Result<u64, Refusal> {
    let mut out = [0];
    let status = raw::bit_rate(variant, hertz, &mut out);
    checked(status, out[0])
}

/// The answer to a record that counted, or that was an exact repeat of the last one that did.
#[derive(Clone, Copy, Debug, PartialEq, Eq)]
pub enum Reply {
    Done { number: u32, total: u32 },
    Again { number: u32, total: u32 },
}

impl Reply {
    fn from_words([again, number, total]: [u32; 3]) -> Reply {
        match again {
            0 => Reply::Done { number, total },
            _ => Reply::Again { number, total },
        }
    }
}

/// The answer to a read.
#[derive(Clone, Copy, Debug, PartialEq, Eq)]
pub struct Reading {
    pub position: u8,
    pub registers: u64,
}

/// A lane as a preview shows it.
#[derive(Clone, Copy, Debug, PartialEq, Eq)]
pub enum Lane {
    Empty,
    /// Its position and registers. On a bench that gets [`Refusal::BadVariant`] they may be too large.
    Loaded(Reading),
    /// Its state is neither: only so on a bench that gets [`Refusal::BadVariant`].
    OtherState,
}

impl Lane {
    fn from_bytes(bytes: &[u8]) -> Lane {
        match bytes[0] {
            0 => Lane::Empty,
            1 => Lane::Loaded(Reading {
                position: bytes[1],
                registers: u64::from_le_bytes(bytes[12..].try_into().unwrap()),
            }),
            _ => Lane::OtherState,
        }
    }
}

/// What a record would do: its reply, and the lanes as it would leave them. For a record that is refused
/// or a repeat they are the bench's own.
#[derive(Clone, Debug, PartialEq, Eq)]
pub struct Preview {
    pub reply: Result<Reply, Refusal>,
    pub lanes: [Lane; raw::LANES],
}

/// The registers of all lanes that a mask names, as [`Bench::screen`] reads them: those that are loaded
/// are shown.
#[derive(Clone, Debug, PartialEq, Eq)]
pub struct Screen {
    shown: u64,
    registers: [u64; raw::LANES],
}

impl Screen {
    /// The mask of the lanes shown: bit i is set where lane i is named and loaded.
    pub fn shown(&self) -> u64 {
        self.shown
    }

    /// The registers of a lane of any number, if it is shown.
    pub fn registers(&self, lane: u64) -> Option<u64> {
        let is_shown = lane < raw::LANES as u64 && self.shown >> lane & 1 == 1;
        is_shown.then(|| self.registers[lane as usize])
    }

    /// Each lane shown, with its registers, by rising lane number.
    pub fn lanes(&self) -> impl Iterator<Item = (u64, u64)> + '_ {
        (0..)
            .zip(self.registers)
            .filter(move |(lane, _)| self.shown >> lane & 1 == 1)
    }
}

/// A bench of 64 lanes with its link.
///
/// ```
/// use katan_bench::{record, Bench, Reading, Refusal, Reply};
///
/// let mut bench = Bench::open(1)?;
/// bench.arrive(&record::load(1, 0, 0, &[0xff; 10], 0))?;
/// let step = record::forward(2, 1, 5);
/// assert_eq!(bench.arrive(&step), Ok(Reply::Done { number: 2, total: 5 }));
/// // The answer was lost, and the step is sent once more: the lane does not move again.
/// assert_eq!(bench.arrive(&step), Ok(Reply::Again { number: 2, total: 5 }));
/// assert_eq!(bench.read(0), Ok(Reading { position: 5, registers: 0x00f8001e }));
/// assert_eq!(bench.read(1), Err(Refusal::EmptyLane));
/// # Ok::<(), Refusal>(())
/// ```
#[derive(Clone, Debug, PartialEq, Eq)]
pub struct Bench {
    bench: [u8; raw::BENCH_LENGTH],
    link: [u8; raw::LINK_LENGTH],
}

impl Bench {
    /// A fresh bench with a fresh link.
    pub fn open(variant: u8) -> Result<Bench, Refusal> {
        let mut fresh = Bench {
            bench: [0; raw::BENCH_LENGTH],
            link: [0; raw::LINK_LENGTH],
        };
        let status = raw::open(variant, &mut fresh.bench, &mut fresh.link);
        checked(status, fresh)
    }

    /// A bench and link that were stored. Whatever the bench's bytes hold, each call checks them. A
    /// link is taken at its word: hand in one that an earlier call left.
    pub fn from_bytes(bench: [u8; raw::BENCH_LENGTH], link: [u8; raw::LINK_LENGTH]) -> Bench {
        Bench { bench, link }
    }

    /// The bytes to store, of the bench and of its link.
    pub fn bytes(&self) -> (&[u8; raw::BENCH_LENGTH], &[u8; raw::LINK_LENGTH]) {
        (&self.bench, &self.link)
    }

    /// A record of any bytes and length arrives. Only one that is `Done` alters bench and link.
    ///
    /// The turn is looked at before the form. So a resend of the last record that counted, garbled but for
    /// its length and number, is refused as `OtherBytes`, and a refusal for its form says that a record is in
    /// its turn:
    ///
    /// ```
    /// use katan_bench::{record, Bench, Refusal, Reply};
    ///
    /// let mut bench = Bench::open(1)?;
    /// let step = record::forward(1, 1, 5);
    /// let mut garbled = step;
    /// garbled[0] = 9;
    ///
    /// // Number 1 has not counted yet: the record is in its turn, and its form is wrong.
    /// assert_eq!(bench.arrive(&garbled), Err(Refusal::BadKind));
    /// assert_eq!(bench.arrive(&step), Ok(Reply::Done { number: 1, total: 0 }));
    ///
    /// // Now it has, with other bytes.
    /// assert_eq!(bench.arrive(&garbled), Err(Refusal::OtherBytes));
    /// assert_eq!(bench.arrive(&step), Ok(Reply::Again { number: 1, total: 0 }));
    ///
    /// // On a fresh link number 0 is out of turn, whatever the kind.
    /// assert_eq!(Bench::open(1)?.arrive(&[0; 40]), Err(Refusal::OutOfTurn));
    /// # Ok::<(), Refusal>(())
    /// ```
    pub fn arrive(&mut self, sent: &[u8]) -> Result<Reply, Refusal> {
        let mut answer = [0; 3];
        let status = raw::arrive(&mut self.bench, &mut self.link, sent, &mut answer);
        checked(status, Reply::from_words(answer))
    }

    /// What a record of any bytes and length would do, without doing it: reply and lanes are those that
    /// a copy gets.
    ///
    /// ```
    /// use katan_bench::{record, Bench, Lane, Reading, Refusal, Reply};
    ///
    /// let mut bench = Bench::open(1)?;
    /// bench.arrive(&record::load(1, 0, 0, &[0xff; 10], 0))?;
    ///
    /// // The class sees what the step would do.
    /// let step = record::forward(2, 1, 5);
    /// let shown = bench.preview(&step);
    /// let moved = Reading { position: 5, registers: 0x00f8001e };
    /// assert_eq!(shown.reply, Ok(Reply::Done { number: 2, total: 5 }));
    /// assert_eq!(shown.lanes[0], Lane::Loaded(moved));
    /// assert_eq!(shown.lanes[1], Lane::Empty);
    ///
    /// // The lane itself has not moved.
    /// let start = Reading { position: 0, registers: 0 };
    /// assert_eq!(bench.read(0), Ok(start));
    ///
    /// // A garbled step would be refused, and leave the lanes as they are.
    /// let mut garbled = step;
    /// garbled[0] = 9;
    /// let refused = bench.preview(&garbled);
    /// assert_eq!(refused.reply, Err(Refusal::BadKind));
    /// assert_eq!(refused.lanes[0], Lane::Loaded(start));
    ///
    /// // The class commits: the reply and the lane are those shown.
    /// assert_eq!(bench.arrive(&step), shown.reply);
    /// assert_eq!(bench.read(0), Ok(moved));
    /// # Ok::<(), Refusal>(())
    /// ```
    pub fn preview(&self, sent: &[u8]) -> Preview {
        let (mut answer, mut room) = ([0; 3], [0; raw::BENCH_LENGTH]);
        let status = raw::preview(&self.bench, &self.link, sent, &mut answer, &mut room);
        let lane = |i| Lane::from_bytes(&room[1 + raw::LANE_LENGTH * i..][..raw::LANE_LENGTH]);
        Preview {
            reply: checked(status, Reply::from_words(answer)),
            lanes: std::array::from_fn(lane),
        }
    }

    /// The position and registers of a lane of any number.
    pub fn read(&self, lane: u64) -> Result<Reading, Refusal> {
        let mut answer = [0; 2];
        let status = raw::read(&self.bench, lane, &mut answer);
        let [position, registers] = answer;
        let reading = Reading {
            position: position as u8,
            registers,
        };
        checked(status, reading)
    }

    /// All lanes that a mask names, in one call: bit i names lane i. The registers, and the named lanes that
    /// are left out as empty, are those of single reads; positions are not given.
    ///
    /// ```
    /// use katan_bench::{record, Bench, Refusal};
    ///
    /// let mut bench = Bench::open(1)?;
    /// bench.arrive(&record::load(1, 0, 0, &[0xff; 10], 0))?;
    /// bench.arrive(&record::load(2, 2, 0, &[0; 10], 0))?;
    /// bench.arrive(&record::load(3, 63, 0, &[0xff; 10], 0))?;
    /// bench.arrive(&record::forward(4, 0b101, 5))?;
    ///
    /// // Lanes 0 to 2 on the screen: lane 1 is empty, and lane 63 is not named.
    /// let screen = bench.screen(0b111)?;
    /// assert_eq!(screen.shown(), 0b101);
    /// for (lane, registers) in screen.lanes() {
    ///     assert_eq!(bench.read(lane)?.registers, registers);
    /// }
    /// // Under a key of zeros, a block of zeros stays: lane 2 is shown all the same.
    /// assert_eq!(screen.lanes().collect::<Vec<_>>(), [(0, 0x00f8001e), (2, 0)]);
    /// assert_eq!(screen.registers(2), Some(0));
    /// assert_eq!([1, 63, 64].map(|lane| screen.registers(lane)), [None; 3]);
    ///
    /// // A screen may be empty, but its mask names some lane.
    /// assert_eq!(bench.screen(0b010)?.lanes().count(), 0);
    /// assert_eq!(bench.screen(0), Err(Refusal::EmptyMask));
    /// # Ok::<(), Refusal>(())
    /// ```
    pub fn screen(&self, mask: u64) -> Result<Screen, Refusal> {
        let (mut registers, mut shown) = ([0; raw::LANES], [0]);
        let status = raw::screen(&self.bench, mask, &mut registers, &mut shown);
        let [shown] = shown;
        checked(status, Screen { shown, registers })
    }
}

/// One call of a stored run.
#[derive(Clone, Debug, PartialEq, Eq)]
pub enum Call {
    /// A record of any bytes and length arrives.
    Arrive(Vec<u8>),
    /// A lane of any number is read.
    Read(u32),
}

impl Call {
    /// Its bytes in a list of calls: kind, a number, and an arrival's record.
    fn bytes(&self) -> Vec<u8> {
        let (kind, number, sent): (u8, u32, &[u8]) = match self {
            Call::Arrive(sent) => (1, sent.len() as u32, sent),
            Call::Read(lane) => (2, *lane, &[]),
        };
        [&[kind], &number.to_le_bytes()[..], sent].concat()
    }
}

/// The answer to one call of a stored run.
#[derive(Clone, Copy, Debug, PartialEq, Eq)]
pub enum Answer {
    Reply(Reply),
    Reading(Reading),
    Refused(Refusal),
}

impl Answer {
    fn from_bytes(bytes: &[u8]) -> Answer {
        let number = u32::from_le_bytes(bytes[1..5].try_into().unwrap());
        let long = u64::from_le_bytes(bytes[5..].try_into().unwrap());
        let total = long as u32;
        match bytes[0] {
            1 => Answer::Reply(Reply::Done { number, total }),
            2 => Answer::Reply(Reply::Again { number, total }),
            3 => Answer::Reading(Reading {
                position: number as u8,
                registers: long,
            }),
            _ => Answer::Refused(
                Refusal::from_number(number as u8).expect("an answer is one of four kinds"),
            ),
        }
    }
}

/// A whole list of calls, from a fresh bench and link: the answer to each, and the bench's bytes as the
/// list left it.
///
/// ```
/// use katan_bench::{record, replay, Answer, Call, Reading, Refusal};
///
/// let calls = [
///     Call::Arrive(record::load(1, 0, 0, &[0xff; 10], 0).to_vec()),
///     Call::Arrive(record::forward(2, 1, 5).to_vec()),
///     Call::Read(0),
///     Call::Read(300),
/// ];
/// let (answers, _bench) = replay(1, &calls)?;
/// assert_eq!(answers[2], Answer::Reading(Reading { position: 5, registers: 0x00f8001e }));
/// assert_eq!(answers[3], Answer::Refused(Refusal::BadLane));
/// # Ok::<(), Refusal>(())
/// ```
pub fn replay(
    variant: u8,
    calls: &[Call],
) -> Result<(Vec<Answer>, [u8; raw::BENCH_LENGTH]), Refusal> {
    let list: Vec<u8> = calls.iter().flat_map(Call::bytes).collect();
    let mut bench = [0; raw::BENCH_LENGTH];
    let mut answers = vec![0; raw::ANSWER_LENGTH * calls.len()];
    let status = raw::replay(variant, &list, &mut bench, &mut answers);
    let answers = || {
        answers
            .chunks(raw::ANSWER_LENGTH)
            .map(Answer::from_bytes)
            .collect()
    };
    checked(status, ())?;
    Ok((answers(), bench))
}

/// The 40 bytes of each kind of record.
pub mod record {
    /// The bytes of a record.
    pub const LENGTH: usize = 40;

    fn fields(kind: u8, lane: u8, count: u8, number: u32) -> [u8; LENGTH] {
        let mut bytes = [0; LENGTH];
        bytes[..3].copy_from_slice(&[kind, lane, count]);
        bytes[4..8].copy_from_slice(&number.to_le_bytes());
        bytes
    }

    fn masked(kind: u8, number: u32, mask: u64, count: u8) -> [u8; LENGTH] {
        let mut bytes = fields(kind, 0, count, number);
        bytes[8..16].copy_from_slice(&mask.to_le_bytes());
        bytes
    }

    /// Loads a block at a position into a lane.
    pub fn load(number: u32, lane: u8, position: u8, key: &[u8; 10], block: u64) -> [u8; LENGTH] {
        let mut bytes = fields(1, lane, position, number);
        bytes[16..26].copy_from_slice(key);
        bytes[26..34].copy_from_slice(&block.to_le_bytes());
        bytes
    }

    /// Steps the lanes of a mask forward by rounds.
    pub fn forward(number: u32, mask: u64, count: u8) -> [u8; LENGTH] {
        masked(2, number, mask, count)
    }

    /// Steps them back.
    pub fn back(number: u32, mask: u64, count: u8) -> [u8; LENGTH] {
        masked(3, number, mask, count)
    }

    /// Empties them.
    pub fn clear(number: u32, mask: u64) -> [u8; LENGTH] {
        masked(4, number, mask, 0)
    }
}

#[cfg(test)]
mod tests {
    use super::Refusal;

    #[test]
    fn each_number_is_of_its_refusal() {
        for number in 0..=u8::MAX {
            let found = Refusal::from_number(number).map(Refusal::number);
            let given = matches!(number, 1..=12 | 14..=16);
            assert_eq!(found, given.then_some(number));
        }
    }
}
