//! A sheet with smudged digits: what of the registers still stands after some rounds, and what a second
//! sheet of the same block helps.
//!
//!     cargo run --release --example smudged_sheet -- [variant block key [block key]]
//!
//! Block and key are hexadecimal, with `?` for a digit that nobody can read. Without arguments it is KATAN32
//! with a key of ones and a block of zeros, each with a smudged digit; on the second sheet other digits are
//! smudged. Of the registers each bit is shown, the highest first, with `?` for an unknown one; before them
//! the same in hexadecimal, with `?` for a digit of which some bit is unknown.

use katan_bench::{join, smudged, KnownBits, KnownKey, Refusal, Sheet};

const NAMES: [&str; 6] = [
    "KATAN32",
    "KATAN48",
    "KATAN64",
    "KTANTAN32",
    "KTANTAN48",
    "KTANTAN64",
];

/// The positions that are shown: 0 has the block, 254 the ciphertext.
const POSITIONS: [u64; 12] = [0, 1, 2, 3, 4, 5, 10, 15, 20, 25, 30, 254];

/// What is shown without arguments.
const USUAL: [&str; 5] = [
    "1",
    "00?00000",
    "fffffffffffff?ffffff",
    "?0000000",
    "ffffffffffffffffff??",
];

/// Bits from the highest on, as one character for each digit, and as one for each bit.
fn written(bits: impl DoubleEndedIterator<Item = Option<bool>>) -> (String, String) {
    let bits: Vec<Option<bool>> = bits.rev().collect();
    let digit = |four: &[Option<bool>]| {
        let value = four
            .iter()
            .try_fold(0, |value, bit| bit.map(|bit| 2 * value + u32::from(bit)));
        value.map_or('?', |value| char::from_digit(value, 16).unwrap())
    };
    let four = |four: &[Option<bool>]| -> String {
        let shown = |bit: &Option<bool>| bit.map_or('?', |bit| if bit { '1' } else { '0' });
        four.iter().map(shown).collect()
    };
    (
        bits.chunks(4).map(digit).collect(),
        bits.chunks(4).map(four).collect::<Vec<_>>().join(" "),
    )
}

fn registers(n: u32, known: &KnownBits) -> (String, String) {
    written((0..n).map(|i| known.bit(i)))
}

fn key(known: &KnownKey) -> String {
    written((0..80).map(|i| known.bit(i))).0
}

/// The lines about one sheet.
fn table(variant: u8, sheet: &Sheet) -> Result<Vec<String>, Refusal> {
    let n = [32, 48, 64][(variant as usize).saturating_sub(1) % 3];
    let mut lines = Vec::new();
    for position in POSITIONS {
        let known = smudged(variant, sheet, position)?;
        let (digits, bits) = registers(n, &known);
        let count = (known.ones | known.zeros).count_ones();
        lines.push(format!("{position:>8} {count:>6}  {digits}  {bits}"));
    }
    let (block, _) = registers(n, &sheet.block);
    let heading = [
        format!(
            "{}, block {block}, key {}",
            NAMES[variant as usize - 1],
            key(&sheet.key)
        ),
        format!("position  known  registers, {n} bits"),
    ];
    Ok([heading.to_vec(), lines].concat())
}

/// The lines about a sheet, and about what it makes joined with another, if there is one.
fn report(variant: u8, sheet: &Sheet, other: Option<&Sheet>) -> Result<Vec<String>, Refusal> {
    let mut lines = table(variant, sheet)?;
    if let Some(other) = other {
        let joined = join(variant, sheet, other)?;
        lines.push(String::new());
        lines.push("Joined with the second sheet:".to_string());
        lines.extend(table(variant, &joined)?);
    }
    Ok(lines)
}

/// The lines that are printed for these arguments.
fn printed(arguments: &[&str]) -> Result<Vec<String>, Box<dyn std::error::Error>> {
    let given = match arguments.is_empty() {
        true => &USUAL[..],
        false => arguments,
    };
    let (variant, sheet, other) = match given {
        [variant, block, key] => (variant, (block, key), None),
        [variant, block, key, second, second_key] => {
            (variant, (block, key), Some((second, second_key)))
        }
        _ => return Err("variant, block and key, and perhaps a second block and key".into()),
    };
    let read = |(block, key): (&&str, &&str)| {
        Sheet::from_digits(block, key)
            .ok_or_else(|| format!("no hexadecimal digits of a block and a key: {block} {key}"))
    };
    let other = other.map(read).transpose()?;
    Ok(report(variant.parse()?, &read(sheet)?, other.as_ref())?)
}

fn main() -> Result<(), Box<dyn std::error::Error>> {
    let arguments: Vec<String> = std::env::args().skip(1).collect();
    let arguments: Vec<&str> = arguments.iter().map(String::as_str).collect();
    println!("{}", printed(&arguments)?.join("\n"));
    Ok(())
}

#[cfg(test)]
mod tests {
    use super::*;
    use katan_bench::encrypt;
    use katan_model::vectors::PUBLISHED;
    use katan_model::Variant;

    const ONES: &str = "ffffffffffffffffffff";

    /// Worked out by hand from document 01. The third digit is block bits 20 to 23, and these are L1[1] to
    /// L1[4]: bit i of L1 is block bit 19 + i. Each round moves them up by one. IR is 1 in rounds 0 to 4.
    ///
    /// fb, which enters at bit 19, is the key's 1 throughout: no unknown bit gets further than to L2[3] in these
    /// rounds, which is y6, and y5 is 0. fa, which enters at bit 0, is unknown: in rounds 0 to 2 x5, L1[3],
    /// is one of the four, in rounds 3 and 4 x2, L1[7]. x4, L1[5], is one from round 1 on; in rounds 1 to 3
    /// x3, L1[8], is 0.
    const FIRST: &str = "\
KATAN32, block 00?00000, key ffffffffffffffffffff
position  known  registers, 32 bits
       0     28  00?00000  0000 0000 ???? 0000 0000 0000 0000 0000
       1     27  0??8000?  0000 000? ???0 1000 0000 0000 0000 000?
       2     26  0??8000?  0000 00?? ??01 1000 0000 0000 0000 00??
       3     25  0??8000?  0000 0??? ?011 1000 0000 0000 0000 0???
       4     24  0?78000?  0000 ???? 0111 1000 0000 0000 0000 ????
       5     23  ??f800??  000? ???0 1111 1000 0000 0000 000? ????";

    #[test]
    fn a_smudged_digit_of_the_block() {
        let sheet = Sheet::from_digits("00?00000", ONES).unwrap();
        let lines = table(1, &sheet).unwrap();
        assert_eq!(lines[..8], FIRST.lines().collect::<Vec<_>>());
        let nothing = "     254      0  ????????  ???? ???? ???? ???? ???? ???? ???? ????";
        assert_eq!(lines.last().unwrap(), nothing);
    }

    /// The digit has key bits 24 to 27, which KATAN takes in rounds 12 and 13: up to position 12 nothing is
    /// lost. The ciphertext of the joined sheets is a published one.
    #[test]
    fn a_smudged_digit_of_the_key() {
        let sheet = Sheet::from_digits("00000000", "fffffffffffff?ffffff").unwrap();
        for position in 0..20 {
            let known = smudged(1, &sheet, position).unwrap();
            let all = (known.ones | known.zeros) == 0xffffffff;
            assert_eq!(all, position <= 12, "position {position}");
        }
        let other = Sheet::from_digits("????????", "?fffffffffffffffffff").unwrap();
        let lines = report(1, &sheet, Some(&other)).unwrap();
        assert_eq!(lines[15], "Joined with the second sheet:");
        assert_eq!(
            lines[16],
            "KATAN32, block 00000000, key ffffffffffffffffffff"
        );
        let ciphertext = "     254     32  7e1ff945  0111 1110 0001 1111 1111 1001 0100 0101";
        assert_eq!(lines.last().unwrap(), ciphertext);
    }

    /// Both sheets without arguments. Up to position 10 the first is as with its key readable: its digit has
    /// key bits 24 to 27. At 15, the next one shown, the fa of round 12 is at bit 2, and would be known as 1 but
    /// for key bit 24. Joined, they are the block and the key of a published vector.
    #[test]
    fn without_arguments() {
        let lines = printed(&[]).unwrap();
        assert_eq!(lines.len(), 30);
        assert_eq!(
            lines[0],
            "KATAN32, block 00?00000, key fffffffffffff?ffffff"
        );
        let readable = table(1, &Sheet::from_digits(USUAL[1], ONES).unwrap()).unwrap();
        assert_eq!(lines[1..9], readable[1..9]);
        let known = "      15     11  f???????  1111 11?? ???? ?000 0??? ???? ???? ?1??";
        let lost = "      15     10  f???????  1111 11?? ???? ?000 0??? ???? ???? ????";
        assert_eq!([&readable[9], &lines[9]], [known, lost]);
        assert_eq!(
            lines[16],
            "KATAN32, block 00000000, key ffffffffffffffffffff"
        );
        let ciphertext = "     254     32  7e1ff945  0111 1110 0001 1111 1111 1001 0100 0101";
        assert_eq!(lines.last().unwrap(), ciphertext);
        assert_eq!(encrypt(1, &[0xff; 10], 0), Ok(0x7e1ff945));
        assert!(PUBLISHED.contains(&(Variant::Katan32, [0xff; 10], 0, 0x7e1ff945)));
    }

    /// Of KTANTAN32's key bit 32 alone, which is not taken before round 218, two bits of the ciphertext stand:
    /// both ciphertexts that it may be of have 0 there.
    #[test]
    fn a_key_bit_that_is_taken_late() {
        let mut sheet = Sheet::from_digits("00000000", ONES).unwrap();
        sheet.key.ones[4] = 0xfe;
        let lines = table(4, &sheet).unwrap();
        let two = "     254      2  ????????  ???? ???? ???? ???0 0??? ???? ???? ????";
        assert_eq!(lines.last().unwrap(), two);
        for byte in [0xfe, 0xff] {
            let mut key = [0xff; 10];
            key[4] = byte;
            let ciphertext = encrypt(4, &key, 0).unwrap();
            assert_eq!(ciphertext >> 15 & 3, 0, "{ciphertext:x}");
        }
    }

    /// Each variant with a block of its width.
    #[test]
    fn all_variants() {
        for variant in 1..=6 {
            let digits = [8, 12, 16][(variant as usize - 1) % 3];
            let block = "?".to_string() + &"0".repeat(digits - 1);
            let sheet = Sheet::from_digits(&block, ONES).unwrap();
            let lines = report(variant, &sheet, Some(&sheet)).unwrap();
            assert!(lines[0].contains(&format!(", block {block}, key {ONES}")));
            assert_eq!(lines[..14], lines[16..]);
        }
    }

    #[test]
    fn refused() {
        let sheet = Sheet::from_digits("00?00000", ONES).unwrap();
        assert_eq!(table(0, &sheet), Err(Refusal::BadVariant));
        assert_eq!(table(7, &sheet), Err(Refusal::BadVariant));
        let wide = Sheet::from_digits("00?000000", ONES).unwrap();
        assert_eq!(table(1, &wide), Err(Refusal::BadBlock));
        let other = Sheet::from_digits("0000000f", ONES).unwrap();
        let clash = report(1, &sheet, Some(&other));
        assert_eq!(clash, Err(Refusal::Contradiction));
    }
}
