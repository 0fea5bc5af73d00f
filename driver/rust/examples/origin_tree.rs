//! A tree for the blackboard: the two bits that enter the registers at a clock, and under each of them the
//! bits that it was made from, down to the block.
//!
//!     cargo run --release --example origin_tree -- [clock [variant [key [block]]]]
//!
//! Key and block are hexadecimal. Without arguments it is clock 4 of KATAN32, with a key of ones and a
//! block of zeros. The bits that enter are asked of the driver; where they stand, IR and the key bits are
//! worked out here, and that all of it fits together is checked at every bit.

use katan_bench::{origin, Origin, Refusal};

/// A row of document 01's table: the length of L2, x1 to x5, y1 to y6, and the clocks a round.
type Row = (u64, [u64; 5], [u64; 6], u64);

const ROWS: [Row; 3] = [
    (19, [12, 7, 8, 5, 3], [18, 7, 12, 10, 8, 3], 1),
    (29, [18, 12, 15, 7, 6], [28, 19, 21, 13, 15, 6], 2),
    (39, [24, 15, 20, 11, 9], [38, 25, 33, 21, 14, 9], 3),
];

/// T in a round; IR is its highest bit.
fn counter(round: u64) -> u8 {
    (0..=round).fold(0xff, |t, _| {
        t << 1 | (t >> 7 ^ t >> 6 ^ t >> 4 ^ t >> 2) & 1
    })
}

/// The numbers of the key bits that ka and kb are. No clock up to 23 is in a round after 23, so those of
/// KATAN are bits of the key itself.
fn key_bits(variant: u8, round: u64) -> (usize, usize) {
    if variant <= 3 {
        return (2 * round as usize, 2 * round as usize + 1);
    }
    let t = usize::from(counter(round));
    let (u, v) = (t / 16, t % 4);
    let ka = if t & 12 == 0 { u } else { 16 * (1 + v) + u };
    let kb = if t & 12 == 4 {
        64 + u
    } else {
        16 * (3 - v) + u
    };
    (ka, kb)
}

struct Tree<'a> {
    variant: u8,
    key: &'a [u8],
    block: u64,
    row: Row,
    lines: Vec<String>,
}

impl Tree<'_> {
    /// What enters at a clock, and IR, ka and kb of its round.
    fn clock(&self, clock: u64) -> (Origin, [u8; 3]) {
        let entering = origin(self.variant, self.key, self.block, clock)
            .expect("a clock is answered where a later one is");
        let (.., clocks) = self.row;
        let round = clock / clocks;
        let (a, b) = key_bits(self.variant, round);
        let key_bit = |i: usize| self.key[i / 8] >> (i % 8) & 1;
        (entering, [counter(round) >> 7, key_bit(a), key_bit(b)])
    }

    fn line(&mut self, depth: usize, text: String) {
        self.lines.push("  ".repeat(depth) + &text);
    }

    /// Puts down fa of a clock, and under it the five bits of L1 that it is made from: those that entered
    /// at an earlier clock are fb of that clock.
    fn fa(&mut self, clock: u64, depth: usize, at: &str) -> u8 {
        let (Origin { fa, .. }, [ir, ka, _]) = self.clock(clock);
        let text = format!("{at}fa of clock {clock} = {fa} (IR {ir}, ka {ka})");
        self.line(depth, text);
        let (l2, places, ..) = self.row;
        let mut x = [0; 5];
        for (j, place) in places.into_iter().enumerate() {
            let at = format!("x{} L1[{place}] = ", j + 1);
            x[j] = match place < clock {
                true => self.fb(clock - 1 - place, depth + 1, &at),
                false => self.block_bit(l2 + place - clock, depth + 1, &at),
            };
        }
        let [x1, x2, x3, x4, x5] = x;
        assert_eq!(fa, x1 ^ x2 ^ (x3 & x4) ^ (x5 & ir) ^ ka, "clock {clock}");
        fa
    }

    /// Puts down fb of a clock, and under it the six bits of L2 that it is made from.
    fn fb(&mut self, clock: u64, depth: usize, at: &str) -> u8 {
        let (Origin { fb, .. }, [_, _, kb]) = self.clock(clock);
        self.line(depth, format!("{at}fb of clock {clock} = {fb} (kb {kb})"));
        let (.., places, _) = self.row;
        let mut y = [0; 6];
        for (j, place) in places.into_iter().enumerate() {
            let at = format!("y{} L2[{place}] = ", j + 1);
            y[j] = match place < clock {
                true => self.fa(clock - 1 - place, depth + 1, &at),
                false => self.block_bit(place - clock, depth + 1, &at),
            };
        }
        let [y1, y2, y3, y4, y5, y6] = y;
        assert_eq!(fb, y1 ^ y2 ^ (y3 & y4) ^ (y5 & y6) ^ kb, "clock {clock}");
        fb
    }

    fn block_bit(&mut self, number: u64, depth: usize, at: &str) -> u8 {
        let bit = (self.block >> number & 1) as u8;
        self.line(depth, format!("{at}block bit {number} = {bit}"));
        bit
    }
}

/// The lines of the tree.
fn tree(variant: u8, key: &[u8], block: u64, clock: u64) -> Result<Vec<String>, Refusal> {
    let Origin { looked_up, .. } = origin(variant, key, block, clock)?;
    let mut tree = Tree {
        variant,
        key,
        block,
        row: ROWS[(variant as usize - 1) % 3],
        lines: Vec::new(),
    };
    tree.fa(clock, 0, "");
    tree.fb(clock, 0, "");
    let leaves = tree.lines.iter().filter(|line| line.contains("block bit"));
    assert_eq!(leaves.count() as u64, looked_up);
    tree.line(0, format!("{looked_up} block bits looked up"));
    Ok(tree.lines)
}

fn main() -> Result<(), Box<dyn std::error::Error>> {
    let arguments: Vec<String> = std::env::args().skip(1).collect();
    let argument = |i: usize, usual| arguments.get(i).map_or(usual, String::as_str);
    let clock = argument(0, "4").parse()?;
    let variant = argument(1, "1").parse()?;
    let key = u128::from_str_radix(argument(2, "ffffffffffffffffffff"), 16)?;
    let block = u64::from_str_radix(argument(3, "0"), 16)?;
    // A key of more than 80 bits is handed on as one, to be refused.
    let key_length = if key >> 80 == 0 { 10 } else { 16 };
    let lines = tree(variant, &key.to_le_bytes()[..key_length], block, clock)?;
    println!("{}", lines.join("\n"));
    Ok(())
}

#[cfg(test)]
mod tests {
    use super::*;

    const ONES: [u8; 10] = [0xff; 10];

    /// Worked out by hand from document 01. Block bit 0 is L2 bit 0, and L1 bit 0 is block bit 19. Up to
    /// clock 4 each bit has moved by 4 places: place 12 of L1 holds bit 8, which is block bit 27. Place 3
    /// of L1 holds what entered at clock 0, and that is fb, from L2; place 3 of L2 holds fa, from L1. At
    /// clock 0 nothing has moved. Positions 1 and 5 are 00080001 and 00f8001e: fa and fb of clock 0 are 1
    /// and 1, of clock 4 they are 0 and 1.
    const CLOCK_4: &str = "\
fa of clock 4 = 0 (IR 1, ka 1)
  x1 L1[12] = block bit 27 = 0
  x2 L1[7] = block bit 22 = 0
  x3 L1[8] = block bit 23 = 0
  x4 L1[5] = block bit 20 = 0
  x5 L1[3] = fb of clock 0 = 1 (kb 1)
    y1 L2[18] = block bit 18 = 0
    y2 L2[7] = block bit 7 = 0
    y3 L2[12] = block bit 12 = 0
    y4 L2[10] = block bit 10 = 0
    y5 L2[8] = block bit 8 = 0
    y6 L2[3] = block bit 3 = 0
fb of clock 4 = 1 (kb 1)
  y1 L2[18] = block bit 14 = 0
  y2 L2[7] = block bit 3 = 0
  y3 L2[12] = block bit 8 = 0
  y4 L2[10] = block bit 6 = 0
  y5 L2[8] = block bit 4 = 0
  y6 L2[3] = fa of clock 0 = 1 (IR 1, ka 1)
    x1 L1[12] = block bit 31 = 0
    x2 L1[7] = block bit 26 = 0
    x3 L1[8] = block bit 27 = 0
    x4 L1[5] = block bit 24 = 0
    x5 L1[3] = block bit 22 = 0
20 block bits looked up";

    #[test]
    fn clock_4_of_katan32() {
        let lines = tree(1, &ONES, 0, 4).unwrap();
        assert_eq!(lines, CLOCK_4.lines().collect::<Vec<_>>());
    }

    /// Trees check themselves: keys and blocks are the digits of pi and e, at clocks of every kind.
    #[test]
    fn trees_of_all_variants() {
        let keys = [0x243f_6a88_85a3_08d3_1319_u128, 0x8a2e_0370_7344_a409_3822];
        let blocks = [0xb7e1_5162_8aed_2a6a, 0xbf71_5880_9cf4_f3c7_u64];
        for variant in 1..=6 {
            let width = [32, 48, 64][(variant as usize - 1) % 3];
            for (key, block) in keys.into_iter().zip(blocks) {
                for clock in 0..24 {
                    let key = &key.to_le_bytes()[..10];
                    tree(variant, key, block >> (64 - width), clock).unwrap();
                }
            }
        }
    }

    /// Document 01's digits of IR, with the paper's from round 20 on, and its key bits of KTANTAN.
    #[test]
    fn rounds_of_document_01() {
        let ir: String = (0..24)
            .map(|r| char::from(b'0' + (counter(r) >> 7)))
            .collect();
        assert_eq!(ir, "111111100011010101011110");
        let bits = [
            (63, 31),
            (31, 63),
            (31, 63),
            (15, 47),
            (14, 14),
            (60, 76),
            (40, 40),
            (49, 17),
        ];
        for (round, bits) in (0..).zip(bits) {
            assert_eq!(key_bits(4, round), bits, "round {round}");
        }
    }

    #[test]
    fn refused() {
        assert_eq!(tree(0, &ONES, 0, 4), Err(Refusal::BadVariant));
        assert_eq!(tree(1, &ONES, 1 << 32, 4), Err(Refusal::BadBlock));
        assert_eq!(tree(1, &ONES, 1 << 32, 24), Err(Refusal::BadClock));
    }
}
