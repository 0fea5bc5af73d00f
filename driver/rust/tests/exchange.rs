//! Two records that name no common lane, put in turn in either order with their numbers exchanged: all
//! lanes end alike and each record gets the same total. The driver beside the independent model.

mod common;

use common::{call_answer, generator, list, model_answer, record, start, width};
use katan_bench::raw::{self, BENCH_LENGTH, LINK_LENGTH};
use katan_bench::{replay, Answer, Call, Refusal, Reply};
use katan_model::exchange::{in_turn, pair, pairs_of_kinds, Met};
use katan_model::{bench as records, driver as model, Random};

const ALL: u64 = u64::MAX;

/// The driver's bench and the model's, with the calls that both got and the answers that both gave.
#[derive(Clone)]
struct Run {
    variant: u8,
    ours: katan_bench::Bench,
    theirs: katan_model::Bench,
    calls: Vec<Call>,
    answers: Vec<Answer>,
}

impl Run {
    fn open(variant: u8) -> Run {
        Run {
            variant,
            ours: katan_bench::Bench::open(variant).unwrap(),
            theirs: katan_model::Bench::new(variant).unwrap(),
            calls: Vec::new(),
            answers: Vec::new(),
        }
    }

    fn last(&self) -> u32 {
        self.theirs.last()
    }

    fn bench_bytes(&self) -> [u8; BENCH_LENGTH] {
        *self.ours.bytes().0
    }

    fn link_bytes(&self) -> [u8; LINK_LENGTH] {
        *self.ours.bytes().1
    }

    fn call(&mut self, call: Call) -> Answer {
        let got = call_answer(&mut self.ours, &call);
        let expected = model_answer(&mut self.theirs, &call);
        self.calls.push(call);
        self.answers.push(got);
        assert_eq!(got, expected, "{self}");
        got
    }

    fn arrive(&mut self, sent: &[u8]) -> Answer {
        self.call(Call::Arrive(sent.to_vec()))
    }

    /// The total of a record that counts.
    fn total(&mut self, sent: &[u8]) -> u32 {
        let next = self.last() + 1;
        match self.arrive(sent) {
            Answer::Reply(Reply::Done { number, total }) if number == next => total,
            answer => panic!("{answer:?} to the record numbered {next}: {self}"),
        }
    }

    /// The readings of all lanes.
    fn lanes(&mut self) -> Vec<Answer> {
        let lanes = 0..records::LANES as u32;
        lanes.map(|lane| self.call(Call::Read(lane))).collect()
    }

    /// Loads into no lane, all, few, or about half.
    fn load_some(&mut self, random: &mut Random) {
        let mask = random.lanes();
        for lane in (0..64).filter(|lane| mask >> lane & 1 == 1) {
            let load = load(random, self.variant, lane);
            self.total(&records::numbered(&load, self.last() + 1));
        }
    }

    /// The same calls as one replay: the answers are the same, and so are the lanes. Gives the bench's
    /// bytes.
    fn replayed(&self) -> [u8; BENCH_LENGTH] {
        let (answers, left) = replay(self.variant, &self.calls).unwrap();
        assert!(answers == self.answers, "the replay of {self}: {answers:?}");
        let bench = katan_bench::Bench::from_bytes(left, [0; LINK_LENGTH]);
        for lane in 0..records::LANES as u64 {
            let (replayed, here) = (bench.read(lane), self.ours.read(lane));
            assert_eq!(replayed, here, "lane {lane} in the replay of {self}");
        }
        left
    }
}

impl std::fmt::Display for Run {
    fn fmt(&self, f: &mut std::fmt::Formatter) -> std::fmt::Result {
        writeln!(f, "variant {}", self.variant)?;
        for (call, answer) in self.calls.iter().zip(&self.answers) {
            writeln!(f, "{call:02x?}: {answer:x?}")?;
        }
        Ok(())
    }
}

/// A sound load into a lane, numbered 0.
fn load(random: &mut Random, variant: u8, lane: u8) -> Vec<u8> {
    let (position, key) = (random.position(), random.key());
    records::load(0, lane, position, &key, random.bits(width(variant)))
}

/// The link that a counted record leaves.
fn link_of(counted: &[u8], total: u32) -> Vec<u8> {
    [&counted[4..8], &total.to_le_bytes(), counted].concat()
}

/// Every variant with every two kinds.
fn cases() -> Vec<(u8, [u8; 2])> {
    let kinds = pairs_of_kinds();
    (1..=6)
        .flat_map(|variant| kinds.iter().map(move |kinds| (variant, *kinds)))
        .collect()
}

/// Records of all kinds from last + 1 on, all lanes moved both ways among them, with reads between.
fn later_calls(random: &mut Random, variant: u8, last: u32) -> Vec<Call> {
    let lane = random.below(64) as u8;
    let sent = [
        records::forward(0, ALL, random.count()),
        records::back(0, ALL, random.count()),
        records::clear(0, random.next_u64() & random.next_u64() | 1),
        load(random, variant, lane),
        records::back(0, ALL, random.count()),
        records::forward(0, ALL, random.count()),
    ];
    let mut calls = Vec::new();
    for (record, number) in sent.iter().zip(last + 1..) {
        calls.push(Call::Arrive(records::numbered(record, number)));
        calls.extend([(); 4].map(|_| Call::Read(random.below(64) as u32)));
    }
    calls
}

/// Pairs after lists of calls of any kind.
#[test]
fn either_order() {
    let (mut random, calls) = start("either_order", 200_000);
    let (mut made, mut pairs, mut again) = (0, 0, 0);
    let mut seen = [0; 12];
    let mut met = Met::default();
    for (variant, kinds) in cases().into_iter().cycle() {
        if made >= calls {
            break;
        }
        let mut before = Run::open(variant);
        for call in list(&mut random, variant) {
            match before.call(call) {
                Answer::Refused(refusal) => seen[refusal.number() as usize] += 1,
                Answer::Reply(Reply::Again { .. }) => again += 1,
                _ => seen[0] += 1,
            }
        }
        before.load_some(&mut random);
        let last = before.last();
        let [s, t] = &pair(&mut random, &before.theirs, kinds);

        let (mut one, mut two) = (before.clone(), before.clone());
        let [s_first, t_second] = &in_turn(last, [s, t]);
        let [t_first, s_second] = &in_turn(last, [t, s]);
        let (s_total, t_total) = (one.total(s_first), one.total(t_second));
        assert_eq!(two.total(t_first), t_total, "{one}{two}");
        assert_eq!(two.total(s_second), s_total, "{one}{two}");
        assert_eq!(one.lanes(), two.lanes(), "{one}{two}");
        assert!(one.bench_bytes() == two.bench_bytes(), "{one}{two}");
        assert_eq!(one.link_bytes()[..], link_of(t_second, t_total), "{one}");
        assert_eq!(two.link_bytes()[..], link_of(s_second, s_total), "{two}");

        // What was sent second in one order is a repeat in that order alone.
        let number = last + 2;
        let repeat = |total| Answer::Reply(Reply::Again { number, total });
        let other = Answer::Refused(Refusal::OtherBytes);
        assert_eq!(one.arrive(t_second), repeat(t_total), "{one}");
        assert_eq!(one.arrive(s_second), other, "{one}");
        assert_eq!(two.arrive(s_second), repeat(s_total), "{two}");
        assert_eq!(two.arrive(t_second), other, "{two}");
        assert!(
            one.replayed() == two.replayed(),
            "the replays of {one}{two}"
        );

        for call in later_calls(&mut random, variant, last + 2) {
            assert_eq!(one.call(call.clone()), two.call(call), "{one}{two}");
        }
        assert_eq!(one.lanes(), two.lanes(), "{one}{two}");
        assert!(one.ours == two.ours, "{one}{two}");

        met.add(&before.theirs, [s, t], [s_total, t_total]);
        made += (one.calls.len() + two.calls.len() - before.calls.len()) as u64;
        pairs += 1;
    }
    println!("either_order: {made} calls, {pairs} pairs: {met:?}");
    println!("either_order: {again} repeats before, statuses 0 to 11: {seen:?}");
    if calls >= 100_000 {
        assert!(pairs >= cases().len());
        met.assert_all();
        let all = seen[0] > 0 && seen[2..].iter().all(|count| *count > 0);
        assert!(all && again > 0, "{seen:?}, {again} repeats");
    }
}

/// The statuses and answers of two records put in turn, and the bench and link that they leave.
struct Left {
    answers: [(u8, [u32; 3]); 2],
    bench: Vec<u8>,
    link: Vec<u8>,
}

/// The driver and the model on bench and link, which a refused record leaves as they are.
fn put_in_turn(bench: &[u8], link: &[u8], records: &[Vec<u8>; 2]) -> Left {
    let mut ours = (bench.to_vec(), link.to_vec());
    let answers = records.each_ref().map(|sent| {
        let before = ours.clone();
        let mut theirs = ours.clone();
        let (mut first, mut second) = ([7; 3], [7; 3]);
        let got = raw::arrive(&mut ours.0, &mut ours.1, sent, &mut first);
        let expected = model::arrive(&mut theirs.0, &mut theirs.1, sent, &mut second);
        assert_eq!(
            (got, first),
            (expected, second),
            "{sent:02x?} on {before:02x?}"
        );
        assert!(ours == theirs, "{sent:02x?} on {before:02x?}");
        assert!(got == 0 || ours == before, "{sent:02x?} on {before:02x?}");
        (got, first)
    });
    let (bench, link) = ours;
    Left {
        answers,
        bench,
        link,
    }
}

/// Links made by hand, up to the last number of all: both records count where two numbers are left to
/// give, and one that gets none is refused by 9.
#[test]
fn numbers_left() {
    let mut random = generator("numbers_left");
    let mut ended_otherwise = 0;
    let lasts = [0, 254, 255, 65_534].into_iter();
    for last in lasts.chain(u32::MAX - 3..=u32::MAX) {
        let left = u32::MAX - last;
        for (variant, kinds) in cases() {
            let mut run = Run::open(variant);
            run.load_some(&mut random);
            let (bench, total) = (run.bench_bytes(), random.bits(32) as u32);
            let link = link_of(&record(&mut random, variant, last), total);
            let [s, t] = &pair(&mut random, &run.theirs, kinds);
            let (s_then_t, t_then_s) = (in_turn(last, [s, t]), in_turn(last, [t, s]));
            let one = put_in_turn(&bench, &link, &s_then_t);
            let two = put_in_turn(&bench, &link, &t_then_s);
            let context = || format!("last {last}, {s:02x?} and {t:02x?} on {bench:02x?}");
            for order in [&one, &two] {
                for (i, (status, answer)) in (1..).zip(order.answers) {
                    let expected = if i <= left {
                        (0, [0, last + i, answer[2]])
                    } else {
                        (9, [7; 3])
                    };
                    assert_eq!((status, answer), expected, "{}", context());
                }
            }
            if left >= 2 {
                let [(_, [.., s_total]), (_, [.., t_total])] = one.answers;
                let [(_, [.., t_first]), (_, [.., s_second])] = two.answers;
                assert_eq!((s_total, t_total), (s_second, t_first), "{}", context());
                assert!(one.bench == two.bench, "{}", context());
                let links = (
                    link_of(&s_then_t[1], t_total),
                    link_of(&t_then_s[1], s_total),
                );
                assert_eq!((one.link, two.link), links, "{}", context());
            }
            ended_otherwise += (one.bench != two.bench) as u32;
        }
    }
    // Where only the first record counts, it matters which one that is.
    assert!(ended_otherwise > 0);
}
