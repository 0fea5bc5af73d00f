//! Request (vii) of document 02: the bits that enter the registers at a clock, followed back to the
//! block. Clock 0 is the first of round 0, before which the registers hold the block.

use crate::cipher::{counter, load, subkeys, Registers, Subkey, Variant};

/// fa and fb of a clock, and how many block bits were looked up for the two.
#[derive(Clone, Copy, Debug, PartialEq, Eq)]
pub struct Origin {
    pub fa: u8,
    pub fb: u8,
    pub looked_up: u64,
}

/// One bit, and how many block bits were looked up for it.
#[derive(Clone, Copy)]
struct Followed {
    bit: u8,
    looked_up: u64,
}

/// What the chains are followed through: the block as it was loaded, and the subkeys of all rounds.
struct Chains {
    variant: Variant,
    block: Registers,
    subkeys: Vec<Subkey>,
}

impl Chains {
    /// The round that a clock belongs to: all clocks of a round share IR, ka and kb.
    fn round(&self, clock: usize) -> usize {
        clock / self.variant.clocks_a_round() as usize
    }

    /// The bit that enters L2 at a clock, from five places of L1. The fifth is followed whatever IR is.
    fn fa(&self, clock: usize) -> Followed {
        let round = self.round(clock);
        let ir = counter(round as u8)[7];
        let ka = self.subkeys[round].ka;
        let x = self.variant.x();
        let l1 = [1, 2, 3, 4, 5].map(|j| self.bit_of_l1(clock, x[j]));
        let [x1, x2, x3, x4, x5] = l1.map(|followed| followed.bit);
        Followed {
            bit: x1 ^ x2 ^ (x3 & x4) ^ (x5 & ir) ^ ka,
            looked_up: l1.iter().map(|followed| followed.looked_up).sum(),
        }
    }

    /// The bit that enters L1 at a clock, from six places of L2.
    fn fb(&self, clock: usize) -> Followed {
        let kb = self.subkeys[self.round(clock)].kb;
        let y = self.variant.y();
        let l2 = [1, 2, 3, 4, 5, 6].map(|j| self.bit_of_l2(clock, y[j]));
        let [y1, y2, y3, y4, y5, y6] = l2.map(|followed| followed.bit);
        Followed {
            bit: y1 ^ y2 ^ (y3 & y4) ^ (y5 & y6) ^ kb,
            looked_up: l2.iter().map(|followed| followed.looked_up).sum(),
        }
    }

    /// The bit that a clock finds at a place of L1. The clocks before it have each shifted the register
    /// by one place: where the place is lower than their number, the bit entered in one of them;
    /// otherwise it was loaded that many places lower.
    fn bit_of_l1(&self, clock: usize, place: usize) -> Followed {
        if place < clock {
            self.fb(clock - 1 - place)
        } else {
            of_the_block(&self.block.l1, place - clock)
        }
    }

    /// The bit that a clock finds at a place of L2.
    fn bit_of_l2(&self, clock: usize, place: usize) -> Followed {
        if place < clock {
            self.fa(clock - 1 - place)
        } else {
            of_the_block(&self.block.l2, place - clock)
        }
    }
}

/// A bit of a register as it was loaded.
fn of_the_block(register: &[u8], i: usize) -> Followed {
    Followed {
        bit: register[i],
        looked_up: 1,
    }
}

/// Both bits of a clock: what was followed for one place is followed again for the next.
pub fn origin(variant: Variant, key: &[u8; 10], block: u64, clock: usize) -> Origin {
    assert!(variant.is_block(block));
    let chains = Chains {
        variant,
        block: load(variant, block),
        subkeys: subkeys(variant, key),
    };
    let (fa, fb) = (chains.fa(clock), chains.fb(clock));
    Origin {
        fa: fa.bit,
        fb: fb.bit,
        looked_up: fa.looked_up + fb.looked_up,
    }
}

#[cfg(test)]
mod tests {
    use super::*;
    use crate::cipher::clock;
    use crate::random::Random;
    use crate::vectors::first_positions;
    use Variant::*;

    const ONES: [u8; 10] = [0xff; 10];

    /// How many clocks are asked for: 0 to 23.
    const CLOCKS: usize = 24;

    /// Counts for a KATAN variant, which its KTANTAN variant shares.
    fn counts(katan: Variant, ktantan: Variant, expected: &[(usize, u64)]) {
        let mut random = Random::new(5);
        for variant in [katan, ktantan] {
            for (clock, looked_up) in expected {
                let key = random.key();
                let block = random.bits(variant.width());
                let found = origin(variant, &key, block, *clock);
                assert_eq!(found.looked_up, *looked_up, "{variant:?}, clock {clock}");
            }
        }
    }

    /// While all places hold block bits, five and six are looked up. A bit that entered takes six of them
    /// in L1 and five in L2, if it was made from block bits alone. In clock 4 of KATAN32 both registers
    /// have such a bit at place 3: 9 + 6 + 5. In clock 6 L1 has one at place 5 too: 8 + 2 * 6 + 5; clock 7
    /// takes as many, in a round whose IR is 0. In clock 8 both have one at place 7 too, and at place 3
    /// the bits of clock 4, which took ten each: 2 + 2 * 6 + 10 for fa, 4 + 5 + 10 for fb.
    #[test]
    fn counts_of_clocks() {
        let katan32 = [
            (0, 11),
            (1, 11),
            (2, 11),
            (3, 11),
            (4, 20),
            (5, 20),
            (6, 25),
            (7, 25),
            (8, 43),
            (23, 957),
        ];
        counts(Katan32, Ktantan32, &katan32);
        assert_eq!(counter(7)[7], 0);
        let katan48 = [(0, 11), (6, 11), (7, 20), (8, 25), (23, 147)];
        counts(Katan48, Ktantan48, &katan48);
        let katan64 = [(0, 11), (9, 11), (10, 20), (11, 20), (12, 25), (23, 61)];
        counts(Katan64, Ktantan64, &katan64);
    }

    /// The same counts from a table, which is filled from clock 0 on and so remembers.
    #[test]
    fn counts_from_a_table() {
        for variant in Variant::ALL {
            let (x, y) = (variant.x(), variant.y());
            let (mut of_fa, mut of_fb): (Vec<u64>, Vec<u64>) = (vec![], vec![]);
            for clock in 0..CLOCKS {
                let count = |places: &[usize], entered: &[u64]| -> u64 {
                    let earlier = |place: &usize| clock.checked_sub(1 + place);
                    let counts = places.iter().map(|i| earlier(i).map_or(1, |t| entered[t]));
                    counts.sum()
                };
                let (fa, fb) = (count(&x[1..], &of_fb), count(&y[1..], &of_fa));
                of_fa.push(fa);
                of_fb.push(fb);
                let found = origin(variant, &ONES, 0, clock);
                assert_eq!(found.looked_up, fa + fb, "{variant:?}, clock {clock}");
            }
        }
    }

    /// The registers from the loaded block, clock by clock: bit 0 of L2 is fa, bit 0 of L1 fb.
    #[test]
    fn plain_clocks() {
        let mut random = Random::new(6);
        for variant in Variant::ALL {
            for _ in 0..20 {
                let key = random.key();
                let block = random.bits(variant.width());
                let subkeys = subkeys(variant, &key);
                let mut registers = load(variant, block);
                for number in 0..CLOCKS {
                    let round = number / variant.clocks_a_round() as usize;
                    let ir = counter(round as u8)[7];
                    registers = clock(variant, ir, subkeys[round], &registers);
                    let found = origin(variant, &key, block, number);
                    let entered = (registers.l2[0], registers.l1[0]);
                    let context = format!("{variant:?}, {key:02x?}, {block:x}, clock {number}");
                    assert_eq!((found.fa, found.fb), entered, "{context}");
                }
            }
        }
    }

    /// Document 01's all-ones key and zero block at KATAN32, positions 1 to 5: 00080001, 00180003,
    /// 00380007, 0078000f, 00f8001e. L2 ends in 1, 1, 1, 1, 0 and L1, from bit 19 on, always in 1. In
    /// clock 4 the bit at x5 is fb of clock 0, and as IR is 1 it cancels ka.
    #[test]
    fn key_of_ones() {
        let expected = [(1, 1, 11), (1, 1, 11), (1, 1, 11), (1, 1, 11), (0, 1, 20)];
        for (clock, (fa, fb, looked_up)) in expected.into_iter().enumerate() {
            let expected = Origin { fa, fb, looked_up };
            assert_eq!(origin(Katan32, &ONES, 0, clock), expected, "clock {clock}");
        }
    }

    /// All of document 01's cases on the first positions. After a round its clocks' bits stand in the
    /// lowest places of both registers, that of its last clock in place 0.
    #[test]
    fn first_positions_of_document_01() {
        for (variant, key, position, registers) in first_positions() {
            let clocks = variant.clocks_a_round() as usize;
            let after = load(variant, registers);
            for i in 0..clocks {
                let found = origin(variant, &key, 0, (position as usize - 1) * clocks + i);
                let entered = (after.l2[clocks - 1 - i], after.l1[clocks - 1 - i]);
                let context = format!("{variant:?}, {key:02x?}, position {position}, clock {i}");
                assert_eq!((found.fa, found.fb), entered, "{context}");
            }
        }
    }
}
