//! Script input for the bench program: every command, sound and faulty, and lines that break the form
//! in every place. The input is bytes, not text.

use crate::cipher::{Variant, ROUNDS};
use crate::random::Random;
use crate::script::{Script, LONGEST_LINE};

struct Scripts {
    random: Random,
    /// Runs along, so that numbers in turn and lanes that are loaded can be found.
    script: Script,
    input: Vec<u8>,
}

impl Scripts {
    fn line(&mut self, line: impl AsRef<[u8]>) {
        self.script.line(line.as_ref());
        self.input.extend_from_slice(line.as_ref());
        self.input.push(b'\n');
    }

    fn one_of<T: Copy>(&mut self, choices: &[T]) -> T {
        choices[self.random.below(choices.len() as u64) as usize]
    }

    fn variant(&self) -> Variant {
        self.script
            .bench()
            .map_or(Variant::Katan32, |bench| bench.variant())
    }

    fn hex(&mut self, digits: usize) -> String {
        (0..digits)
            .map(|_| char::from_digit(self.random.bits(4) as u32, 16).unwrap())
            .collect()
    }

    /// The next number mostly, else the last, a near one, or any.
    fn number(&mut self) -> u64 {
        let last = self.script.bench().map_or(0, |bench| bench.last()) as u64;
        match self.random.below(10) {
            0 => last,
            1 => last + 2,
            2 => self.random.bits(33),
            _ => last + 1,
        }
    }

    /// One of a few mostly, so that a lane read is often loaded.
    fn lane(&mut self) -> u64 {
        match self.random.below(12) {
            0 => self.random.below(258),
            _ => 60 + self.random.below(5),
        }
    }

    fn mask(&mut self) -> String {
        match self.random.below(5) {
            0 => format!("{:016x}", 1u64 << self.random.below(64)),
            1 => "ffffffffffffffff".to_string(),
            2 => "0000000000000000".to_string(),
            _ => self.hex(16),
        }
    }

    fn count(&mut self) -> u64 {
        let any = self.random.below(258);
        let edges = [0, 1, 2, ROUNDS as u64, 255, 256];
        match self.random.below(3) {
            0 => self.one_of(&edges),
            1 => any,
            _ => 1 + any % 20,
        }
    }

    fn command(&mut self) -> String {
        let number = self.number();
        match self.random.below(16) {
            0 if self.random.below(8) == 0 => format!("(bench {})", self.random.below(9)),
            0..=4 => format!("(read {})", self.lane()),
            5..=9 => {
                let digits = self.variant().width() as usize / 4;
                let lane = self.lane();
                let position = self.count();
                let (key, block) = (self.hex(20), self.hex(digits));
                format!("({number} (load {lane} {position} (key {key}) (block {block})))")
            }
            10..=12 => format!(
                "({number} (forward (lanes {}) {}))",
                self.mask(),
                self.count()
            ),
            13 | 14 => format!("({number} (back (lanes {}) {}))", self.mask(), self.count()),
            _ => format!("({number} (clear (lanes {})))", self.mask()),
        }
    }

    /// A command with one byte changed, put in, doubled or left out.
    fn spoilt(&mut self) -> Vec<u8> {
        let mut line = self.command().into_bytes();
        let at = self.random.below(line.len() as u64) as usize;
        let bytes = *b" ()0123456789abcdefABCDEFghlrx\t\r\0\x80\xff";
        let byte = self.one_of(&bytes);
        match self.random.below(6) {
            0 => line[at] = byte,
            1 => line.insert(at, byte),
            2 => line.insert(at, line[at]),
            3 => {
                line.remove(at);
            }
            4 => line.truncate(at),
            _ => line[at] = line[at].to_ascii_uppercase(),
        }
        line.retain(|byte| *byte != b'\n');
        line
    }

    /// Lines of every length about the longest, and of lengths about powers of two.
    fn long_lines(&mut self) {
        let lengths = [
            118, 119, 120, 121, 122, 127, 128, 129, 255, 256, 257, 4095, 4096, 4097, 9000,
        ];
        for length in lengths {
            let mut line = b"(read 0)".to_vec();
            line.resize(length, b' ');
            self.line(&line);
            let zeros = "0".repeat(length - "(read )".len());
            self.line(format!("(read {zeros})"));
        }
        assert!(LONGEST_LINE == 120);
    }

    fn every_variant(&mut self) {
        for number in 1..=6 {
            self.line(format!("(bench {number})"));
            self.line("(read 0)");
            for digits in [0, 1, 7, 8, 9, 11, 12, 13, 15, 16, 17] {
                let (key, block) = (self.hex(20), self.hex(digits));
                self.line(format!("(1 (load 5 127 (key {key}) (block {block})))"));
            }
            self.line("(2 (forward (lanes 0000000000000020) 127))");
            self.line("(read 5)");
            self.line("(3 (back (lanes ffffffffffffffff) 254))");
            self.line("(read 5)");
            self.line("(3 (back (lanes ffffffffffffffff) 254))");
            self.line("(bench 7)");
            self.line("(read 5)");
        }
    }

    /// Lines with a fault of form, as a resend, out of turn and in turn.
    fn garbled_lines(&mut self) {
        for variant in Variant::ALL {
            self.line(format!("(bench {})", variant.number()));
            let block = "5".repeat(variant.width() as usize / 4);
            let load = |number, lane, position| {
                let key = "0123456789abcdef0123";
                format!("({number} (load {lane} {position} (key {key}) (block {block})))")
            };
            self.line(load(1, 5, 9));
            self.line("(2 (forward (lanes 0000000000000020) 127))");
            for number in [2, 0, 1, 4, u32::MAX, 3] {
                self.line(load(number, 64, 9));
                self.line(load(number, 5, 255));
                self.line(format!("({number} (forward (lanes 0000000000000020) 0))"));
                self.line(format!("({number} (back (lanes 0000000000000000) 1))"));
                self.line(format!("({number} (clear (lanes 0000000000000000)))"));
            }
            self.line("(read 5)");
            self.line("(2 (forward (lanes 0000000000000020) 127))");
        }
    }

    fn random_lines(&mut self, lines: usize) {
        for _ in 0..lines {
            if self.random.below(3) == 0 {
                let line = self.spoilt();
                self.line(line);
            } else {
                let line = self.command();
                self.line(&line);
                if self.random.below(8) == 0 {
                    self.line(&line);
                }
            }
        }
    }
}

/// The whole input. Its last line lacks its line feed.
pub fn input() -> Vec<u8> {
    let mut scripts = Scripts {
        random: Random::new(0x736372697074),
        script: Script::new(),
        input: Vec::new(),
    };
    for line in [
        "",
        "(read 0)",
        "(1 (clear (lanes 0000000000000001)))",
        "(bench 0)",
        "(bench 7)",
        "(bench 255)",
        "(bench 256)",
        "(read 0)",
    ] {
        scripts.line(line);
    }
    for line in include_str!("../../examples/first-lesson.txt").lines() {
        scripts.line(line);
    }
    scripts.long_lines();
    scripts.every_variant();
    scripts.garbled_lines();
    for number in 1..=6 {
        scripts.line(format!("(bench {number})"));
        scripts.random_lines(500);
    }
    scripts.line("");
    scripts.input.extend_from_slice(b"(read 63)");
    scripts.input
}
