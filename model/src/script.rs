//! The script program: document 01's "Script" and check 13. A line is first read as nested lists of
//! words, then held to the shapes of the six commands.

use crate::bench::{back, clear, forward, load, Bench, Reading, Reply};
use crate::cipher::Variant;

/// The longest line, without its line feed.
pub const LONGEST_LINE: usize = 120;

#[derive(Clone, Debug, PartialEq, Eq)]
enum Item {
    Word(String),
    List(Vec<Item>),
}

use Item::{List, Word};

/// An item at the front of the text, and what follows it. Items of a list are parted by one space.
fn item(text: &str) -> Option<(Item, &str)> {
    let Some(mut rest) = text.strip_prefix('(') else {
        let end = text.find([' ', '(', ')']).unwrap_or(text.len());
        return (end > 0).then(|| (Word(text[..end].to_string()), &text[end..]));
    };
    let mut items = Vec::new();
    loop {
        let (next, after) = item(rest)?;
        items.push(next);
        if let Some(after) = after.strip_prefix(')') {
            return Some((List(items), after));
        }
        rest = after.strip_prefix(' ')?;
    }
}

/// The one list that a line is.
fn list(line: &[u8]) -> Option<Vec<Item>> {
    if line.len() > LONGEST_LINE || !line.is_ascii() {
        return None;
    }
    match item(std::str::from_utf8(line).ok()?)? {
        (List(items), "") => Some(items),
        _ => None,
    }
}

fn decimal(item: &Item, largest: u64) -> Option<u64> {
    let Word(word) = item else { return None };
    let only_digits = word.bytes().all(|byte| byte.is_ascii_digit());
    if !only_digits || word.len() > 10 || (word.len() > 1 && word.starts_with('0')) {
        return None;
    }
    word.parse().ok().filter(|value| *value <= largest)
}

fn byte(item: &Item) -> Option<u8> {
    decimal(item, 255).map(|value| value as u8)
}

/// A list of a name and so many hexadecimal digits: the value of each, the most significant first.
fn digits(item: &Item, name: &str, count: usize) -> Option<Vec<u8>> {
    let List(items) = item else { return None };
    let [Word(first), Word(word)] = &items[..] else {
        return None;
    };
    if first != name || word.len() != count {
        return None;
    }
    word.bytes()
        .map(|byte| match byte {
            b'0'..=b'9' => Some(byte - b'0'),
            b'a'..=b'f' => Some(byte - b'a' + 10),
            _ => None,
        })
        .collect()
}

fn number(digits: Vec<u8>) -> u64 {
    digits
        .iter()
        .fold(0, |value, digit| value << 4 | *digit as u64)
}

fn key(item: &Item) -> Option<[u8; 10]> {
    let digits = digits(item, "key", 20)?;
    Some(std::array::from_fn(|j| {
        let high = digits[18 - 2 * j];
        let low = digits[19 - 2 * j];
        high << 4 | low
    }))
}

#[derive(Clone, Debug, PartialEq, Eq)]
pub enum Command {
    Bench(u8),
    Read(u8),
    Record(Vec<u8>),
}

fn record(number_item: &Item, rest: &Item, variant: Variant) -> Option<Vec<u8>> {
    let number_of_record = decimal(number_item, u32::MAX as u64)? as u32;
    let List(items) = rest else { return None };
    let (Word(name), fields) = items.split_first()? else {
        return None;
    };
    let mask = |item: &Item| digits(item, "lanes", 16).map(number);
    match (name.as_str(), fields) {
        ("load", [lane, position, key_item, block]) => Some(load(
            number_of_record,
            byte(lane)?,
            byte(position)?,
            &key(key_item)?,
            number(digits(block, "block", variant.width() as usize / 4)?),
        )),
        ("forward", [lanes, count]) => Some(forward(number_of_record, mask(lanes)?, byte(count)?)),
        ("back", [lanes, count]) => Some(back(number_of_record, mask(lanes)?, byte(count)?)),
        ("clear", [lanes]) => Some(clear(number_of_record, mask(lanes)?)),
        _ => None,
    }
}

/// What a line says while a bench of this variant is open, or none.
pub fn command(line: &[u8], open: Option<Variant>) -> Option<Command> {
    let items = list(line)?;
    match (&items[..], open) {
        ([Word(name), variant], _) if name == "bench" => byte(variant).map(Command::Bench),
        ([Word(name), lane], Some(_)) if name == "read" => byte(lane).map(Command::Read),
        ([number, rest], Some(variant)) => record(number, rest, variant).map(Command::Record),
        _ => None,
    }
}

/// The program: the bench that is open, if one is.
#[derive(Default)]
pub struct Script {
    bench: Option<Bench>,
}

impl Script {
    pub fn new() -> Script {
        Script::default()
    }

    pub fn bench(&self) -> Option<&Bench> {
        self.bench.as_ref()
    }

    /// The line printed for a line, both without their line feeds.
    pub fn line(&mut self, line: &[u8]) -> String {
        let open = self.bench.as_ref().map(Bench::variant);
        let answer = match (command(line, open), &mut self.bench) {
            (None, _) => Err(13),
            (Some(Command::Bench(variant)), _) => Bench::new(variant).map(|bench| {
                self.bench = Some(bench);
                format!("(bench {variant})")
            }),
            (Some(Command::Read(lane)), Some(bench)) => match bench.read(lane as u64) {
                Reading::At {
                    position,
                    registers,
                } => {
                    let width = bench.variant().width() as usize / 4;
                    Ok(format!("(at {lane} {position} {registers:0width$x})"))
                }
                Reading::Refused(check) => Err(check),
            },
            (Some(Command::Record(bytes)), Some(bench)) => match bench.arrive(&bytes) {
                Reply::Done { number, total } => Ok(format!("(done {number} {total})")),
                Reply::Again { number, total } => Ok(format!("(again {number} {total})")),
                Reply::Refused(check) => Err(check),
            },
            (Some(_), None) => unreachable!("only a bench line is read while none is open"),
        };
        answer.unwrap_or_else(|check| format!("(refused {check})"))
    }

    /// What a whole input prints. A line feed ends a line; the last line may lack one.
    pub fn output(input: &[u8]) -> String {
        let mut script = Script::new();
        let mut lines: Vec<&[u8]> = input.split(|byte| *byte == b'\n').collect();
        if lines.last().is_some_and(|line| line.is_empty()) {
            lines.pop();
        }
        lines.iter().map(|line| script.line(line) + "\n").collect()
    }
}

#[cfg(test)]
mod tests {
    use super::*;

    const SAMPLE: &str = "(bench 1)
(1 (load 0 0 (key ffffffffffffffffffff) (block 00000000)))
(2 (forward (lanes 0000000000000001) 5))
(2 (forward (lanes 0000000000000001) 5))
(read 0)
";

    const PRINTED: &str = "(bench 1)
(done 1 0)
(done 2 5)
(again 2 5)
(at 0 5 00f8001e)
";

    #[test]
    fn document_sample() {
        assert_eq!(Script::output(SAMPLE.as_bytes()), PRINTED);
        assert_eq!(Script::output(SAMPLE.trim_end().as_bytes()), PRINTED);
    }

    fn printed(open: u8, line: &str) -> String {
        let mut script = Script::new();
        script.line(format!("(bench {open})").as_bytes());
        script.line(line.as_bytes())
    }

    #[test]
    fn lines_that_break_the_form() {
        for line in [
            "",
            " (read 0)",
            "(read 0) ",
            "(read  0)",
            "(read 00)",
            "(read 01)",
            "(read 256)",
            "(read)",
            "(read 0",
            "read 0",
            "(read 0))",
            "((read 0))",
            "(read (0))",
            "(Read 0)",
            "(read -1)",
            "(read +1)",
            "(read 0)\r",
            "(bench 256)",
            "(1 (clear (lanes 000000000000001)))",
            "(1 (clear (lanes 00000000000000001)))",
            "(1 (clear (lanes 000000000000000A)))",
            "(1 (clear (lanes 0000000000000001) 1))",
            "(1 (forward (lanes 0000000000000001)))",
            "(1 (forward (lanes 0000000000000001) 256))",
            "(01 (forward (lanes 0000000000000001) 1))",
            "(4294967296 (forward (lanes 0000000000000001) 1))",
            "(1 (load 0 0 (key ffffffffffffffffffff) (block 000000000000)))",
            "(1 (load 0 0 (key fffffffffffffffffff) (block 00000000)))",
            "(1 (load 0 0 (block 00000000) (key ffffffffffffffffffff)))",
        ] {
            assert_eq!(printed(1, line), "(refused 13)", "{line}");
        }
    }

    #[test]
    fn lines_in_form() {
        assert_eq!(printed(1, "(bench 7)"), "(refused 1)");
        assert_eq!(printed(1, "(read 64)"), "(refused 5)");
        assert_eq!(printed(1, "(read 0)"), "(refused 11)");
        assert_eq!(printed(7, "(read 0)"), "(refused 13)");
        let load = "(1 (load 255 255 (key ffffffffffffffffffff) (block ffffffffffffffff)))";
        assert_eq!(printed(3, load), "(refused 5)");
        let late = load.replacen('1', "4294967295", 1);
        assert_eq!(printed(3, &late), "(refused 9)");
        assert_eq!(
            printed(3, "(1 (forward (lanes 0000000000000000) 0))"),
            "(refused 6)"
        );
        assert_eq!(
            printed(3, "(4294967295 (clear (lanes 8000000000000000)))"),
            "(refused 9)"
        );
    }

    /// A refused bench line keeps the bench that is open.
    #[test]
    fn refused_bench() {
        let input = SAMPLE.replace(
            "(read 0)",
            "(bench 0)\n(bench 7)\n(bench 255)\n(bench x)\n(read 0)",
        );
        let output = PRINTED.replace(
            "(at",
            "(refused 1)\n(refused 1)\n(refused 1)\n(refused 13)\n(at",
        );
        assert_eq!(Script::output(input.as_bytes()), output);
    }

    #[test]
    fn line_feeds() {
        assert_eq!(Script::output(b""), "");
        assert_eq!(Script::output(b"\n"), "(refused 13)\n");
        assert_eq!(Script::output(b"(bench 1)"), "(bench 1)\n");
        assert_eq!(
            Script::output(b"(bench 1)\n\n"),
            "(bench 1)\n(refused 13)\n"
        );
    }

    #[test]
    fn key_digits() {
        let Some(Command::Record(bytes)) = command(
            b"(1 (load 0 0 (key 0123456789abcdef8040) (block 12345678)))",
            Variant::from_number(1),
        ) else {
            panic!("not read")
        };
        assert_eq!(
            bytes[16..26],
            [0x40, 0x80, 0xef, 0xcd, 0xab, 0x89, 0x67, 0x45, 0x23, 0x01]
        );
        assert_eq!(bytes[26..34], [0x78, 0x56, 0x34, 0x12, 0, 0, 0, 0]);
    }
}
