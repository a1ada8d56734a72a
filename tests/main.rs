//! Compares the library with an implementation written from the papers alone: named tests first, then cases from fixed seeds. The last line
//! is 'N passed, M failed'. With --long the run has ten times as many cases, from further seeds.

mod abi;
mod certificates;
mod changes;
mod compare;
mod cycles;
mod dumped;
mod dumps;
mod graphs;
mod lent;
mod named;
mod random;
mod recordings;
mod reference;
mod searching;
mod shortest;
mod solvable;
mod solving;
mod tallying;
mod texts;
mod trimming;

use compare::Bench;
use graphs::Tables;
use random::Random;
use std::collections::BTreeMap;
use std::fmt::Display;
use std::sync::atomic::{AtomicU64, Ordering};
use texts::{Case, Table};

const FUNCTIONS: [&str; 8] = ["read_blocks", "read_loops", "check", "walk", "solve", "tally", "vcd", "shortest"];
const CHECK: usize = 2;
const WALK: usize = 3;
const SOLVE: usize = 4;
const TALLY: usize = 5;
const VCD: usize = 6;
const SHORTEST: usize = 7;
const NUMBERS: [u32; 34] = [
    0, 101, 102, 103, 104, 105, 106, 108, 201, 202, 203, 204, 205, 206, 207, 208, 209, 301, 302, 303, 311, 312, 313, 314, 401, 402, 403, 421, 431, 432,
    433, 451, 452, 453,
];
/// The readers' replies that depend on line ends: number and more. Each is wanted from both readers, with and without a header row.
const LINE_ENDS: [(&str, u32, u64); 4] = [("CR LF", 0, 0), ("LF", 0, 1), ("text", 0, 2), ("108", 108, 0)];
/// What is tried on solved tables where it can be.
const TRIED: [&str; 4] = [
    "all runs and rounds searched",
    "a run that costs the bound walked",
    "another certificate accepted",
    "another certificate accepted with a greater bound",
];
const SEARCHED: usize = 0;
const WALKED: usize = 1;
const OTHER: usize = 2;
const GREATER: usize = 3;
/// The most states of a search, and the longest run that is walked.
const MOST_STATES: u64 = 3000;
const LONGEST_RUN: usize = 4096;
const PARTS: u64 = 64;
const ROUNDS: usize = 800;
const OFTEN: u64 = 100;

/// What came out so far: counts of replies by function and number, and the failures.
#[derive(Default)]
pub struct Score {
    passed: u64,
    failed: u64,
    replies: BTreeMap<(u32, usize), u64>,
    /// The readers' replies by number, more, reader and header row.
    reads: BTreeMap<(u32, u64, usize, bool), u64>,
    /// The checked tables of each kind of `cycles::KINDS`.
    graphs: [u64; cycles::KINDS.len()],
    /// The solved tables of each kind of `solvable::KINDS`, and those that were tried in each way of `TRIED`.
    solved: [u64; solvable::KINDS.len()],
    tried: [u64; TRIED.len()],
    /// The recordings of each kind of `recordings::KINDS`, and what was tried with the limits that they show, by `recordings::TRIED`.
    recorded: [u64; recordings::KINDS.len()],
    put_in: [u64; recordings::TRIED.len()],
    /// The recordings as VCD of each kind of `dumped::KINDS`, what was tried with them, by `dumped::TRIED`, and those that were refused for each of
    /// `changes::REASONS`.
    dumps: [u64; dumped::KINDS.len()],
    read_back: [u64; dumped::TRIED.len()],
    reasons: [u64; changes::REASONS.len()],
    /// The trimmed tables of each kind of `trimming::KINDS`, and what was tried with them, by `trimming::TRIED`.
    trimmed: [u64; trimming::KINDS.len()],
    compared: [u64; trimming::TRIED.len()],
    /// The second certificates by their kind in `shortest::KINDS`, those that just miss by `shortest::MISSED`, for first and second successors, and what
    /// was tried with the accepted ones, by `shortest::TRIED`.
    lowered: BTreeMap<usize, u64>,
    missed: [u64; 2 * shortest::MISSED.len()],
    bounded: [u64; shortest::TRIED.len()],
    failures: Vec<String>,
}

impl Score {
    fn count(&mut self, function: usize, outcome: Result<abi::Reply, String>, input: impl FnOnce() -> String) {
        match outcome {
            Ok(reply) => {
                self.passed += 1;
                *self.replies.entry((reply.number, function)).or_default() += 1;
            }
            Err(what) => self.fail(format!("{}: {what}\n{}", FUNCTIONS[function], input())),
        }
    }

    pub fn test(&mut self, name: &str, outcome: Result<(), String>) {
        match outcome {
            Ok(()) => self.passed += 1,
            Err(what) => self.fail(format!("{name}: {what}")),
        }
    }

    /// A test that the cases reach something often enough.
    fn often(&mut self, what: &str, count: u64) {
        self.test(what, if count >= OFTEN { Ok(()) } else { Err(format!("came up {count} times only")) });
    }

    fn fail(&mut self, what: String) {
        self.failed += 1;
        self.failures.push(what);
        // the shortest ones say most
        if self.failures.len() > 40 {
            self.failures.sort_by_key(|what| what.len());
            self.failures.truncate(20);
        }
    }

    fn add(&mut self, other: Score) {
        self.passed += other.passed;
        self.failed += other.failed;
        for (key, count) in other.replies {
            *self.replies.entry(key).or_default() += count;
        }
        for (key, count) in other.reads {
            *self.reads.entry(key).or_default() += count;
        }
        for (key, count) in other.lowered {
            *self.lowered.entry(key).or_default() += count;
        }
        let sums = self.graphs.iter_mut().chain(&mut self.solved).chain(&mut self.tried).chain(&mut self.recorded).chain(&mut self.put_in);
        let sums = sums.chain(&mut self.dumps).chain(&mut self.read_back).chain(&mut self.reasons);
        let sums = sums.chain(&mut self.trimmed).chain(&mut self.compared).chain(&mut self.missed).chain(&mut self.bounded);
        let counts = other.graphs.into_iter().chain(other.solved).chain(other.tried).chain(other.recorded).chain(other.put_in);
        let counts = counts.chain(other.dumps).chain(other.read_back).chain(other.reasons).chain(other.trimmed).chain(other.compared);
        let counts = counts.chain(other.missed).chain(other.bounded);
        for (sum, count) in sums.zip(counts) {
            *sum += count;
        }
        self.failures.extend(other.failures);
    }

    /// Counts the kinds that these tables are of, with the number of their reply.
    fn count_graph(&mut self, tables: &Tables, number: u32) {
        if (201..208).contains(&number) {
            return;
        }
        let graph = cycles::Graph::new(tables);
        for (count, (reply, _, is)) in self.graphs.iter_mut().zip(cycles::KINDS) {
            *count += u64::from(reply == number && is(&graph));
        }
    }
}

fn show_text(text: &[u8]) -> String {
    text.iter().flat_map(|byte| std::ascii::escape_default(*byte)).map(char::from).collect()
}

fn show_case(case: &Case) -> String {
    format!("  {:?}, header row {}, lengths {:?}, text \"{}\"", case.table, case.header_row, case.lengths, show_text(&case.text))
}

fn show_tables(tables: &Tables) -> String {
    let Tables { blocks, loops } = tables;
    format!(
        "  cost {:?}\n  loop {:?}\n  first {:?}\n  second {:?}\n  figure {:?}\n  parent {:?}\n  header {:?}\n  limit {:?}\n  multiplier {:?}",
        blocks.cost, blocks.inner, blocks.first, blocks.second, blocks.figure, loops.parent, loops.header, loops.limit, loops.multiplier
    )
}

/// A shorter text that the two sides still disagree on, found in at most 2,000 trials.
fn shorter(text: &[u8], mut differs: impl FnMut(&[u8]) -> bool) -> Vec<u8> {
    let mut best = text.to_vec();
    let mut part = best.len() / 2;
    let mut trials = 0;
    while part > 0 {
        let mut at = 0;
        while at + part <= best.len() && trials < 2000 {
            trials += 1;
            let mut tried = best.clone();
            tried.drain(at..at + part);
            if differs(&tried) {
                best = tried;
            } else {
                at += part;
            }
        }
        part /= 2;
    }
    best
}

fn read(bench: &mut Bench, score: &mut Score, case: &Case) {
    let mut outcome = bench.read(case);
    let mut shown = String::new();
    if outcome.is_err() {
        let mut best = case.clone();
        if score.failed < 5 {
            best.text = shorter(&case.text, |text| bench.read(&Case { text: text.to_vec(), ..case.clone() }).is_err());
        }
        shown = show_case(&best);
        outcome = bench.read(&best).and(outcome);
    }
    let function = usize::from(case.table == Table::Loops);
    if let Ok(reply) = &outcome {
        *score.reads.entry((reply.number, reply.more, function, case.header_row)).or_default() += 1;
    }
    score.count(function, outcome, || shown);
}

/// Whether the solver's certificate holds what request 3 promises, as far as that can be tried on these tables without it. `given` is the bound
/// of the certificate that they had, if it was accepted.
fn promised(score: &mut Score, made: &Tables, bound: i64, given: Option<i64>) -> Result<(), String> {
    if let Some(given) = given {
        score.tried[OTHER] += 1;
        score.tried[GREATER] += u64::from(given > bound);
        if given < bound {
            return Err(format!("the bound is {bound}, and an accepted certificate gives {given}"));
        }
    }
    if !searching::smallest(made) {
        return Err("a figure breaks an inequality or could be smaller".to_string());
    }
    if searching::states(made, &made.loops.limit) > MOST_STATES {
        return Ok(());
    }
    score.tried[SEARCHED] += 1;
    let most = searching::most_of_a_run(made);
    if most != Some(bound) {
        return Err(format!("the bound is {bound}, and the greatest cost of a finished counted run is {most:?}"));
    }
    for l in 1..made.loops.parent.len() {
        let (multiplier, most) = (made.loops.multiplier[l], searching::most_of_a_round(made, l));
        if i128::from(multiplier) != most.unwrap_or(0).into() {
            return Err(format!("the multiplier of loop {l} is {multiplier}, and the greatest cost of a round is {most:?}"));
        }
    }
    Ok(())
}

/// The cases of one seed: the library with what it is lent, what came out, and a generator for each kind of case.
struct Part {
    bench: Bench,
    score: Score,
    random: Random,
    solving: Random,
    recording: Random,
    dumping: Random,
    trimming: Random,
    lowering: Random,
}

impl Part {
    fn new(seed: u64) -> Part {
        let random = |kind: u64| Random::new(seed + (kind << 32));
        Part {
            bench: Bench::new(!seed),
            score: Score::default(),
            random: random(0),
            solving: random(1),
            recording: random(2),
            dumping: random(3),
            trimming: random(4),
            lowering: random(5),
        }
    }

    fn texts(&mut self) {
        for table in [Table::Blocks, Table::Loops] {
            let case = texts::case(&mut self.random, table);
            read(&mut self.bench, &mut self.score, &case);
            let case = texts::noise(&mut self.random, table);
            read(&mut self.bench, &mut self.score, &case);
        }
    }

    /// Solves tables. What the solver made is accepted with the same bound, is made again from itself and from any other values, and some run
    /// costs the bound; and it is trimmed. Gives back the bound.
    fn solve(&mut self, tables: &Tables, given: Option<i64>) -> Option<i64> {
        let Part { bench, score, solving: random, .. } = self;
        let outcome = bench.solve(tables);
        let Some((reply, made)) = outcome.clone().ok().filter(|(reply, _)| reply.number == 0) else {
            score.count(SOLVE, outcome.map(|(reply, _)| reply), || show_tables(tables));
            return None;
        };
        let solved = solvable::Solved::new(&made);
        for (count, (_, is)) in score.solved.iter_mut().zip(solvable::KINDS) {
            *count += u64::from(is(&solved));
        }
        let outcome = promised(score, &made, reply.value, given).map(|()| reply);
        score.count(SOLVE, outcome, || show_tables(&made));
        let same = |again: abi::Reply| if again == reply { Ok(again) } else { Err(format!("{again:?}, where the solver said {reply:?}")) };
        score.count(CHECK, bench.check(&made).and_then(same), || show_tables(&made));
        let mut other = made.clone();
        solvable::scramble(random, &mut other);
        for tables in [&made, &other] {
            let again = bench.solve(tables).and_then(|(again, after)| if after == made { same(again) } else { Err("other columns".to_string()) });
            score.count(SOLVE, again, || show_tables(tables));
        }
        if let Some(run) = solving::costly_run(&made.blocks, &made.loops, LONGEST_RUN) {
            score.tried[WALKED] += 1;
            let walked = bench.walk(&made, &run).and_then(|walked| match (walked.number, walked.value) {
                (0, cost) if cost == reply.value => Ok(walked),
                _ => Err(format!("{walked:?}, where the bound is {}", reply.value)),
            });
            score.count(WALK, walked, || format!("{}\n  walk {run:?}", show_tables(&made)));
        }
        trimming::any(bench, score, &mut self.trimming, (&made, reply), true);
        Some(reply.value)
    }

    /// A walk over tables of which the checker said `number`, and a recording, each also tallied; no accepted walk costs more than the bound.
    fn walk(&mut self, tables: &Tables, number: u32, bound: Option<i64>) {
        let Part { bench, score, .. } = self;
        let list = graphs::walk(&mut self.random, tables);
        let outcome = bench.walk(tables, &list).and_then(|reply| match bound {
            Some(bound) if reply.number == 0 && reply.value > bound => Err(format!("cost {} over the bound {bound}", reply.value)),
            _ => Ok(reply),
        });
        if outcome.as_ref().is_ok_and(|reply| reply.number == 0) {
            dumped::walk(bench, score, &mut self.dumping, tables, &list);
        }
        score.count(WALK, outcome, || format!("{}\n  walk {list:?}", show_tables(tables)));
        let recorded = graphs::recording(&mut self.recording, tables);
        for list in [list, recorded] {
            recordings::tally(bench, score, &mut self.recording, tables, &list, number);
        }
    }

    /// Random tables: checked, trimmed, solved and walked, and with second certificates.
    fn tables(&mut self) {
        let tables = graphs::tables(&mut self.random);
        let checked = self.bench.check(&tables);
        let bound = checked.as_ref().ok().filter(|reply| reply.number == 0).map(|reply| reply.value);
        if let Ok(reply) = &checked {
            self.score.count_graph(&tables, reply.number);
            trimming::any(&mut self.bench, &mut self.score, &mut self.trimming, (&tables, *reply), false);
        }
        let number = checked.as_ref().map_or(0, |reply| reply.number);
        self.score.count(CHECK, checked, || show_tables(&tables));
        // the solver's bound is no greater
        let bound = self.solve(&tables, bound).or(bound);
        // most walks on tables that are good for walks
        let walks = if (201..208).contains(&number) { 1 } else { 4 };
        for _ in 0..walks {
            self.walk(&tables, number, bound);
        }
        dumped::any(&mut self.bench, &mut self.score, &mut self.dumping, &tables);
        shortest::any(&mut self.bench, &mut self.score, &mut self.lowering, &tables);
    }

    /// Tables that are made to be solved, also with second certificates.
    fn solvable(&mut self, round: usize) {
        let small = solvable::small(&mut self.solving);
        let bound = self.solve(&small, None);
        shortest::small(&mut self.bench, &mut self.score, &mut self.lowering, &small, bound);
        if round % 20 == 0 {
            let heavy = solvable::heavy(&mut self.solving);
            self.solve(&heavy, None);
            shortest::any(&mut self.bench, &mut self.score, &mut self.lowering, &heavy);
        }
        if round % 400 == 0 {
            let large = graphs::large(&mut self.solving);
            self.solve(&large, None);
            shortest::any(&mut self.bench, &mut self.score, &mut self.lowering, &large);
        }
    }
}

fn part(seed: u64, rounds: usize) -> Score {
    let mut part = Part::new(seed);
    for round in 0..rounds {
        part.texts();
        part.tables();
        part.solvable(round);
    }
    part.score
}

/// The cases of so many seeds, on all processors.
fn cases(parts: u64) -> Vec<Score> {
    let next = AtomicU64::new(0);
    let threads = std::thread::available_parallelism().map_or(1, usize::from);
    std::thread::scope(|scope| {
        let work = || {
            let mut score = Score::default();
            loop {
                let seed = next.fetch_add(1, Ordering::Relaxed);
                if seed >= parts {
                    return score;
                }
                score.add(part(seed + 1, ROUNDS));
            }
        };
        let handles: Vec<_> = (0..threads).map(|_| scope.spawn(work)).collect();
        handles.into_iter().map(|handle| handle.join().unwrap()).collect()
    })
}

/// Prints how often the cases reached each reply and each kind of table, and tests that this is often enough.
fn report(score: &mut Score) {
    let cells = |counts: &[u64]| counts.iter().map(|count| format!(" {count:>12}")).collect::<String>();
    println!("reply {}", FUNCTIONS.map(|name| format!(" {name:>12}")).concat());
    for number in NUMBERS {
        let counts: Vec<u64> = (0..FUNCTIONS.len()).map(|function| score.replies.get(&(number, function)).copied().unwrap_or(0)).collect();
        println!("{number:>5} {}", cells(&counts));
        score.often(&format!("reply {number}"), counts.iter().sum());
        // the solver gives these
        if matches!(number, 0 | 201..=207 | 209 | 401..=403) {
            score.often(&format!("reply {number} of solve"), counts[SOLVE]);
        }
        // and the tally these
        if matches!(number, 0 | 201..=207 | 301..=303 | 311 | 312 | 314 | 421) {
            score.often(&format!("reply {number} of tally"), counts[TALLY]);
        }
        // and the reader of recordings as VCD these
        if matches!(number, 0 | 101 | 201..=207 | 431..=433) {
            score.often(&format!("reply {number} of vcd"), counts[VCD]);
        }
        // and the checker of second certificates these
        if matches!(number, 0 | 201..=207 | 209 | 451..=453) {
            score.often(&format!("reply {number} of shortest"), counts[SHORTEST]);
        }
    }
    println!("the readers by line end, each without and with a header row");
    for (name, number, more) in LINE_ENDS {
        let kinds = [(0, false), (0, true), (1, false), (1, true)];
        let counts = kinds.map(|(function, header_row)| score.reads.get(&(number, more, function, header_row)).copied().unwrap_or(0));
        println!("{name:>5} {}", cells(&counts));
        for ((function, header_row), count) in kinds.into_iter().zip(counts) {
            score.often(&format!("{}, header row {header_row}, {name}", FUNCTIONS[function]), count);
        }
    }
    println!("the checked tables by what their graphs have");
    for ((number, name, _), count) in cycles::KINDS.into_iter().zip(score.graphs) {
        println!("{number:>5}  {count:>12} {name}");
        score.often(&format!("reply {number} {name}"), count);
    }
    report_kinds(score);
}

/// The same for what was solved, recorded and trimmed, and what was tried with it.
fn report_kinds(score: &mut Score) {
    println!("the solved tables by what they have, and by what was tried");
    let names = solvable::KINDS.into_iter().map(|(name, _)| name).chain(TRIED);
    let counts = score.solved.into_iter().chain(score.tried);
    report_rows(score, "solved", names.zip(counts));
    println!("the recordings by what they have, and by what was tried with their limits");
    let names = recordings::KINDS.into_iter().map(|(name, _)| name).chain(recordings::TRIED);
    let counts = score.recorded.into_iter().chain(score.put_in);
    report_rows(score, "recordings", names.zip(counts));
    println!("the recordings as VCD by what they have, by what was tried, and by why they are refused");
    let names = dumped::KINDS.into_iter().map(|(name, _)| name).chain(dumped::TRIED).chain(changes::REASONS.into_iter().map(|(_, name)| name));
    let counts = score.dumps.into_iter().chain(score.read_back).chain(score.reasons);
    report_rows(score, "recordings as VCD", names.zip(counts));
    println!("the trimmed tables by what is lower in them, and by what was tried");
    let names = trimming::KINDS.into_iter().map(|(name, _)| name).chain(trimming::TRIED);
    let counts = score.trimmed.into_iter().chain(score.compared);
    report_rows(score, "trimmed tables", names.zip(counts));
    report_lowered(score);
}

/// The same for second certificates.
fn report_lowered(score: &mut Score) {
    println!("the second certificates by their replies and what they have");
    let names = shortest::KINDS.into_iter().map(|(number, name, _)| format!("{number} {name}"));
    let counts: Vec<u64> = (0..shortest::KINDS.len()).map(|kind| score.lowered.get(&kind).copied().unwrap_or(0)).collect();
    report_rows(score, "second certificates", names.zip(counts));
    println!("those with a value changed by one that breaks an inequality, and what was tried with accepted ones");
    let both = |name| ["first", "second"].map(|which| format!("{name}, {which} successor"));
    let names = shortest::MISSED.into_iter().flat_map(|(name, _, _)| both(name)).chain(shortest::TRIED.map(String::from));
    let counts = score.missed.into_iter().chain(score.bounded);
    report_rows(score, "second certificates", names.zip(counts));
}

fn report_rows(score: &mut Score, of: &str, rows: impl Iterator<Item = (impl Display, u64)>) {
    for (name, count) in rows {
        println!("       {count:>12} {name}");
        score.often(&format!("{of}: {name}"), count);
    }
}

fn main() {
    let mut long = false;
    for word in std::env::args().skip(1) {
        if word == "--long" {
            long = true;
        } else {
            eprintln!("usage: run [--long]");
            std::process::exit(2);
        }
    }
    let parts = if long { 10 * PARTS } else { PARTS };
    let mut score = Score::default();
    named::all(&mut score);
    println!("named tests: {} passed, {} failed", score.passed, score.failed);
    for result in cases(parts) {
        score.add(result);
    }
    report(&mut score);
    score.failures.sort_by_key(|what| what.len());
    for what in score.failures.iter().take(10) {
        println!("FAILED {what}");
    }
    println!("{} passed, {} failed", score.passed, score.failed);
    std::process::exit(i32::from(score.failed > 0));
}
