//! Compares rolkeyda_mps with a writer that was written from the papers alone: the reply, the text, the bytes behind it, and the whole buffer where
//! the tables are refused. Then three solvers read texts of rolkeyda_mps: the program as they read it is the one that is wanted, and its optimum is
//! the bound of rolkeyda_solve. The argument is a folder for the solvers' files. The last line is 'N passed, M failed'.

#[allow(dead_code)]
mod abi;
#[allow(dead_code)]
mod changes;
mod clients;
#[allow(dead_code)]
mod compare;
#[allow(dead_code)]
mod graphs;
mod lent;
mod random;
#[allow(dead_code)]
mod reference;
#[path = "../bench/routine.rs"]
#[allow(dead_code)]
mod routine;
#[allow(dead_code)]
mod solvable;
#[allow(dead_code)]
mod solving;
#[allow(dead_code)]
mod tallying;
#[allow(dead_code)]
mod texts;
mod writing;

use abi::Reply;
use clients::{Client, Solution, CLIENTS};
use compare::Bench;
use graphs::Tables;
use random::Random;
use reference::{Blocks, Loops, Refusal, MISSING};
use routine::Routine;
use std::collections::BTreeMap;
use std::path::Path;
use writing::{Program, Row};

/// The replies of rolkeyda_mps, each of which is wanted so often.
const NUMBERS: [u32; 10] = [0, 201, 202, 203, 204, 205, 206, 207, 209, 411];
const OFTEN: u64 = 50;
/// The failures that are printed.
const SHOWN: u64 = 10;
/// Rounds of random tables.
const ROUNDS: usize = 20_000;

/// What is wanted of the tables that are written.
const WRITTEN: [(&str, fn(&Written) -> bool); 17] = [
    ("a doubled edge", |w| w.any_pair(|d, e| d.from == e.from && d.to == e.to)),
    ("an edge from a header to itself", |w| w.any_edge(|e, _| e.from == e.to)),
    ("an edge to a lower block", |w| w.any_edge(|e, _| e.to < e.from)),
    ("a second successor alone", |w| w.any_edge(|e, _| e.number % 2 == 1 && w.tables.blocks.first[e.from] == MISSING)),
    ("a target of cost 0", |w| w.any_edge(|_, numbers| numbers[0].0 != Row::Cost)),
    ("a target of cost 1,000,000", |w| w.any_edge(|_, numbers| numbers[0].1 == -1_000_000)),
    ("an edge into a loop of limit 1", |w| w.any_edge(|e, numbers| w.heads(e.to) && w.loop_number(numbers).is_none())),
    ("an edge into a loop of limit 65,535", |w| w.any_edge(|_, numbers| w.loop_number(numbers) == Some(-65_534))),
    ("a back edge", |w| w.any_edge(|_, numbers| w.loop_number(numbers) == Some(1))),
    ("a loop without a back edge", |w| w.any_loop(|l| !w.any_edge(|_, numbers| numbers.contains(&(Row::Loop(l), 1))))),
    ("a loop that no edge leads to", |w| w.any_loop(|l| !w.any_edge(|e, _| e.to == usize::from(w.tables.loops.header[l])))),
    ("an edge out of a loop into another", |w| w.any_edge(|e, _| w.heads(e.to) && !w.shares(e.from, e.to) && !w.shares(e.to, e.from))),
    ("the exit as a header", |w| w.heads(w.tables.blocks.cost.len() - 1)),
    ("a block without an edge", |w| (0..w.tables.blocks.cost.len() - 1).any(|u| !w.any_edge(|e, _| e.from == u))),
    ("500 blocks and more", |w| w.tables.blocks.cost.len() >= 500),
    ("64 loops", |w| w.tables.loops.parent.len() == 64),
    ("no edge", |w| w.program.columns.is_empty()),
];

/// Tables and their program.
struct Written<'a> {
    tables: &'a Tables,
    program: &'a Program,
}

impl Written<'_> {
    fn any_edge(&self, is: impl Fn(writing::Edge, &writing::Numbers) -> bool) -> bool {
        self.program.columns.iter().any(|(edge, numbers)| is(*edge, numbers))
    }

    /// The columns that follow each other.
    fn any_pair(&self, is: impl Fn(writing::Edge, writing::Edge) -> bool) -> bool {
        self.program.columns.windows(2).any(|pair| is(pair[0].0, pair[1].0))
    }

    fn any_loop(&self, is: impl Fn(usize) -> bool) -> bool {
        (1..self.tables.loops.parent.len()).any(is)
    }

    /// Whether a block is the header of a loop from 1 up.
    fn heads(&self, u: usize) -> bool {
        self.any_loop(|l| usize::from(self.tables.loops.header[l]) == u)
    }

    /// Whether block `v` is inside the innermost loop around block `u`.
    fn shares(&self, u: usize, v: usize) -> bool {
        let l = self.tables.blocks.inner[u];
        let mut around = self.tables.blocks.inner[v];
        while around > l {
            around = self.tables.loops.parent[usize::from(around)];
        }
        around == l
    }

    fn loop_number(&self, numbers: &writing::Numbers) -> Option<i64> {
        numbers.iter().find(|(row, _)| matches!(row, Row::Loop(_))).map(|(_, number)| *number)
    }
}

/// What came out so far.
#[derive(Default)]
struct Tally {
    passed: u64,
    failed: u64,
    replies: BTreeMap<u32, u64>,
    written: [u64; WRITTEN.len()],
}

impl Tally {
    fn test(&mut self, name: &str, outcome: Result<(), String>) {
        match outcome {
            Ok(()) => self.passed += 1,
            Err(why) => {
                self.failed += 1;
                if self.failed <= SHOWN {
                    println!("FAILED {name}: {why}");
                }
            }
        }
    }

    fn same<T: PartialEq + std::fmt::Debug>(&mut self, name: &str, wanted: T, given: T) {
        let outcome = if wanted == given { Ok(()) } else { Err(format!("{given:?}, where {wanted:?} is due")) };
        self.test(name, outcome);
    }

    fn often(&mut self, name: &str, count: u64) {
        println!("{count:>7} {name}");
        self.test(name, if count >= OFTEN { Ok(()) } else { Err(format!("came up {count} times only")) });
    }
}

// ---- the comparison

/// One call: the buffer has `length` bytes.
fn call(bench: &mut Bench, tally: &mut Tally, name: &str, tables: &Tables, length: usize, wanted: Result<&[u8], Refusal>) {
    let outcome = bench.mps(tables, length, wanted).map_err(|why| format!("{why}, a buffer of {length} bytes\n  {tables:?}"));
    if let Ok(reply) = &outcome {
        *tally.replies.entry(reply.number).or_default() += 1;
    }
    tally.test(name, outcome.map(|_| ()));
}

/// The greatest length of a text for n blocks and m loops. All but the columns: 91 bytes of sections, cost row and right side, 10 for each block and 8
/// for each loop from 1 up. An edge has at most four lines, each with 24 bytes in front of its number and a line end: -1000000, 1, -1 and -65534. The
/// exit has no edge, any other block at most two.
fn most(n: usize, m: usize) -> usize {
    91 + 10 * n + 8 * (m - 1) + 2 * (n - 1) * (4 * 25 + 8 + 1 + 2 + 6)
}

/// Tables in buffers of exactly the length, one byte less, no byte, and some other lengths.
fn compare(bench: &mut Bench, tally: &mut Tally, random: &mut Random, name: &str, tables: &Tables) {
    let any = random.pick(&[0, 1, 27, 512, 4096, 100_000]);
    let program = match writing::program(tables) {
        Ok(program) => program,
        Err(refusal) => {
            let length = random.below(any + 1);
            return call(bench, tally, name, tables, length, Err(refusal));
        }
    };
    let written = Written { tables, program: &program };
    for (count, (_, is)) in tally.written.iter_mut().zip(WRITTEN) {
        *count += u64::from(is(&written));
    }
    let text = writing::text(&program);
    let longest = most(tables.blocks.cost.len(), tables.loops.parent.len());
    tally.test(name, if text.len() <= longest { Ok(()) } else { Err(format!("{} bytes, where {longest} are the most", text.len())) });
    let one_short = text.len() - 1;
    for length in [text.len(), one_short, text.len() + random.below(any + 1), random.below(text.len())] {
        call(bench, tally, name, tables, length, writing::fitted(&text, length));
    }
    call(bench, tally, name, tables, 0, writing::fitted(&text, 0));
}

fn random_tables(bench: &mut Bench, tally: &mut Tally) {
    let mut random = Random::new(1);
    for round in 0..ROUNDS {
        let tables = graphs::tables(&mut random);
        compare(bench, tally, &mut random, "random tables", &tables);
        let small = solvable::small(&mut random);
        compare(bench, tally, &mut random, "small tables", &small);
        if round % 50 == 0 {
            let heavy = solvable::heavy(&mut random);
            compare(bench, tally, &mut random, "tables with large figures", &heavy);
        }
        if round % 100 == 0 {
            let large = graphs::large(&mut random);
            compare(bench, tally, &mut random, "large tables", &large);
        }
    }
}

/// The tables of an example, without header rows.
fn example(blocks: &str, loops: &str) -> Tables {
    Tables {
        blocks: reference::read_blocks(blocks.as_bytes(), false, 1024).expect("a good block table").0,
        loops: reference::read_loops(loops.as_bytes(), false, 64).expect("a good loop table").0,
    }
}

/// Routine A of document 01.
fn routine_a() -> Tables {
    example("0,2,0,1,,28\r\n1,3,1,2,3,1\r\n2,5,1,1,,-4\r\n3,1,0,,,0\r\n", "0,0,0,1,0\r\n1,0,1,4,8\r\n")
}

/// The text of routine A, by hand.
const A_TEXT: &str = "\
NAME
ROWS
 N  COST
 E  B0000
 E  B0001
 E  B0002
 E  B0003
 L  L01
COLUMNS
    E0000     COST      -3
    E0000     B0000     1
    E0000     B0001     -1
    E0000     L01       -3
    E0002     COST      -5
    E0002     B0001     1
    E0002     B0002     -1
    E0003     COST      -1
    E0003     B0001     1
    E0003     B0003     -1
    E0004     COST      -3
    E0004     B0001     -1
    E0004     B0002     1
    E0004     L01       1
RHS
    RHS       B0000     1
    RHS       B0003     -1
ENDATA
";

/// The tables with the longest text: every block but the exit has two edges, and each enters a loop from outside, at a header that costs 1,000,000.
/// The headers of 63 loops side by side are the last blocks, each leads to the next, and the exit is the last. All other blocks lead to the first.
fn longest() -> Tables {
    const N: usize = 1024;
    const M: usize = 64;
    let header = |l: usize| (N - M + l) as u16;
    let inner = |u: usize| (u + M).saturating_sub(N);
    let next = |u: usize| if u == N - 1 { MISSING } else { header(inner(u) + 1) };
    let next: Vec<u16> = (0..N).map(next).collect();
    Tables {
        blocks: Blocks {
            cost: vec![1_000_000; N],
            inner: (0..N).map(|u| inner(u) as u16).collect(),
            first: next.clone(),
            second: next,
            figure: vec![0; N],
        },
        loops: Loops {
            parent: vec![0; M],
            header: (0..M).map(|l| if l == 0 { 0 } else { header(l) }).collect(),
            limit: (0..M).map(|l| if l == 0 { 1 } else { 65_535 }).collect(),
            multiplier: vec![0; M],
        },
    }
}

/// ROLKEYDA_MPS_MOST of the header file.
fn stated() -> Option<usize> {
    let line = include_str!("../include/rolkeyda.h").lines().find_map(|line| line.strip_prefix("#define ROLKEYDA_MPS_MOST "));
    line.and_then(|number| number.strip_suffix('u')).and_then(|number| number.parse().ok())
}

fn named(bench: &mut Bench, tally: &mut Tally) {
    let mut random = Random::new(2);
    let a = routine_a();
    tally.same("the text of routine A", A_TEXT.to_string(), writing::text(&writing::program(&a).unwrap()));
    compare(bench, tally, &mut random, "routine A", &a);
    let longest = longest();
    let length = writing::text(&writing::program(&longest).unwrap()).len();
    tally.same("the longest text, and ROLKEYDA_MPS_MOST", (Some(length), most(1024, 64)), (stated(), length));
    compare(bench, tally, &mut random, "the longest text", &longest);
    // no inequality of 208 is asked
    let mut a = routine_a();
    a.blocks.figure[0] = 27;
    compare(bench, tally, &mut random, "a figure that is too small", &a);
    // tables that are refused by a number below 411 are refused by it in any buffer
    a.loops.limit[1] = 0;
    for length in [0, A_TEXT.len() - 1, A_TEXT.len()] {
        call(bench, tally, "a limit of 0", &a, length, Err(Refusal { number: 202, place: 1 }));
    }
}

// ---- the solvers

/// What came of a routine; how many of each are read by every solver.
#[derive(Clone, Copy, PartialEq)]
enum Kind {
    FewLoops,
    ManyLoops,
    Unreachable,
    HighLimits,
    NoPath,
}
const KINDS: [(Kind, &str, usize); 5] = [
    (Kind::FewLoops, "solved, with one loop from 1 up or none", 100),
    (Kind::ManyLoops, "solved, with more loops", 200),
    (Kind::Unreachable, "solved, with unreachable blocks", 100),
    (Kind::HighLimits, "solved, with limits that are for exact arithmetic only", 50),
    (Kind::NoPath, "401 at 0, and the program has no solution", 50),
];
/// The most blocks of a random routine: exact arithmetic takes long for large ones. The bounds that glpsol writes with all their digits. The most visits
/// of a header in a run where doubles are exact enough: with some 10^9 lp_solve gives up.
const MOST_BLOCKS: usize = 150;
const MOST_BOUND: i64 = 1_000_000_000_000_000;
const MOST_VISITS: u64 = 1_000_000;

fn columns(tables: &Tables) -> abi::Columns<'_> {
    let Tables { blocks, loops } = tables;
    abi::Columns {
        cost: &blocks.cost,
        inner: &blocks.inner,
        first: &blocks.first,
        second: &blocks.second,
        figure: &blocks.figure,
        parent: &loops.parent,
        header: &loops.header,
        limit: &loops.limit,
        multiplier: &loops.multiplier,
    }
}

fn solve(tables: &Tables) -> Reply {
    let Tables { blocks, loops } = &mut tables.clone();
    abi::solve(
        &blocks.cost, &blocks.inner, &blocks.first, &blocks.second, &mut blocks.figure,
        &loops.parent, &loops.header, &loops.limit, &mut loops.multiplier,
    )
}

/// The text that the library writes.
fn written(tables: &Tables) -> Vec<u8> {
    let mut text = vec![0; most(1024, 64)];
    let reply = abi::mps(columns(tables), &mut text);
    assert_eq!(reply.number, 0);
    text.truncate(reply.value as usize);
    text
}

/// Whether a solver's number is the whole number that is due. Those that compute in doubles are held to nine digits, so to all digits up to 10^8.
fn is_close(client: &Client, given: f64, wanted: i64) -> bool {
    let wanted = wanted as f64;
    let most = if client.exact { 0.0 } else { 1e-9 * wanted.abs() + 1e-6 };
    (given - wanted).abs() <= most
}

/// What a solver makes of the text of tables: it reads the program that is due, and the optimum is the bound, less the entry's cost, negated.
fn read_by(client: &Client, folder: &Path, tables: &Tables, text: &[u8], reply: Reply) -> Result<(), String> {
    let (solution, model) = client.run(folder, text)?;
    let program = writing::program(tables).map_err(|refusal| format!("{refusal:?}"))?;
    if model != clients::wanted(&program) {
        return Err(format!("the solver read {model:?}"));
    }
    let wanted = i64::from(tables.blocks.cost[0]) - reply.value;
    match solution {
        Solution::Infeasible if reply.number == 401 => Ok(()),
        Solution::Optimum(given) if reply.number == 0 && is_close(client, given, wanted) => Ok(()),
        _ => Err(format!("{solution:?}, where the library's reply is {reply:?} and the optimum {wanted}")),
    }
}

/// The solvers read the text of tables; those in doubles only if `all` is true.
fn read_by_all(tally: &mut Tally, folder: &Path, name: &str, tables: &Tables, all: bool) {
    let (text, reply) = (written(tables), solve(tables));
    for client in CLIENTS.iter().filter(|client| client.exact || all) {
        let outcome = read_by(client, folder, tables, &text, reply).map_err(|why| format!("{why}\n  {tables:?}"));
        tally.test(&format!("{}, {name}", client.name), outcome);
    }
}

/// How often a run can visit a header, by the limits of the loops around it.
fn visits(loops: &Loops, l: usize) -> u64 {
    let around = if l == 0 { 1 } else { visits(loops, usize::from(loops.parent[l])) };
    around.saturating_mul(u64::from(loops.limit[l]))
}

/// The kind of a routine, or None if it is not for the solvers.
fn kind(tables: &Tables, reply: Reply) -> Option<Kind> {
    let loops = &tables.loops;
    match reply.number {
        _ if graphs::edges(&tables.blocks).is_empty() || tables.blocks.cost.len() > MOST_BLOCKS => None,
        0 if reply.value >= MOST_BOUND => None,
        0 if (0..loops.parent.len()).any(|l| visits(loops, l) > MOST_VISITS) => Some(Kind::HighLimits),
        0 if solvable::reached(&tables.blocks, 0, |_| true).contains(&false) => Some(Kind::Unreachable),
        0 => Some(if loops.parent.len() > 2 { Kind::ManyLoops } else { Kind::FewLoops }),
        401 if reply.place == 0 => Some(Kind::NoPath),
        _ => None,
    }
}

fn random_programs(tally: &mut Tally, folder: &Path) {
    let mut random = Random::new(3);
    let mut counts = [0; KINDS.len()];
    for _ in 0..20_000 {
        let tables = if random.once_in(4) { solvable::small(&mut random) } else { graphs::routine(&mut random) };
        let kind = kind(&tables, solve(&tables));
        let at = KINDS.iter().position(|(other, _, _)| Some(*other) == kind);
        if let Some(at) = at.filter(|at| counts[*at] < KINDS[*at].2) {
            counts[at] += 1;
            read_by_all(tally, folder, KINDS[at].1, &tables, kind != Some(Kind::HighLimits));
        }
    }
    for ((_, name, wanted), got) in KINDS.into_iter().zip(counts) {
        println!("{got:>7} {name}");
        tally.same(name, wanted, got);
    }
}

/// The benchmark's routine with 1,024 blocks and 63 loops.
fn largest() -> Tables {
    let Routine { blocks, loops } = Routine::nested_six();
    Tables {
        blocks: Blocks { cost: blocks.cost, inner: blocks.loops, first: blocks.first, second: blocks.second, figure: blocks.figure },
        loops: Loops { parent: loops.parent, header: loops.header, limit: loops.limit, multiplier: loops.multiplier },
    }
}

fn named_programs(tally: &mut Tally, folder: &Path) {
    read_by_all(tally, folder, "routine A", &routine_a(), true);
    let pid = example(include_str!("../examples/pid-control/blocks.csv"), include_str!("../examples/pid-control/loops.csv"));
    read_by_all(tally, folder, "a compiled function of 36 blocks", &pid, true);
    read_by_all(tally, folder, "1,024 blocks and 63 loops", &largest(), true);
    read_by_all(tally, folder, "the longest text", &longest(), true);
}

/// That the solvers read the text at all: without its end and with a row that it does not name they refuse it, and with another limit the optimum
/// is another.
fn damaged_programs(tally: &mut Tally, folder: &Path) {
    for client in &CLIENTS {
        for (damage, from, to) in [("the end", "ENDATA\n", ""), ("the row of loop 1", " L  L01\n", "")] {
            let outcome = client.run(folder, A_TEXT.replace(from, to).as_bytes());
            let outcome = if outcome.is_err() { Ok(()) } else { Err(format!("read without {damage}: {outcome:?}")) };
            tally.test(client.name, outcome);
        }
        let five = A_TEXT.replace("L01       -3", "L01       -4");
        let outcome = client.run(folder, five.as_bytes()).map(|(solution, _)| solution);
        tally.same(client.name, Ok(Solution::Optimum(-36.0)), outcome);
    }
}

/// How often the comparison reached each reply, and each kind of table that is written.
fn coverage(tally: &mut Tally) {
    println!("{:>7} comparisons", tally.passed);
    for number in NUMBERS {
        let count = tally.replies.get(&number).copied().unwrap_or(0);
        tally.often(&format!("reply {number}"), count);
    }
    for ((name, _), count) in WRITTEN.into_iter().zip(tally.written) {
        tally.often(name, count);
    }
}

fn main() {
    let Some(folder) = std::env::args_os().nth(1) else {
        eprintln!("usage: mps FOLDER");
        std::process::exit(2);
    };
    let folder = Path::new(&folder);
    let mut tally = Tally::default();
    let mut bench = Bench::new(1);
    named(&mut bench, &mut tally);
    random_tables(&mut bench, &mut tally);
    coverage(&mut tally);
    // a text that is wrong already is not for the solvers
    if tally.failed == 0 {
        println!("routines whose texts the solvers read");
        named_programs(&mut tally, folder);
        random_programs(&mut tally, folder);
        damaged_programs(&mut tally, folder);
    }
    println!("{} passed, {} failed", tally.passed, tally.failed);
    std::process::exit(i32::from(tally.failed > 0));
}
