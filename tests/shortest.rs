//! Second certificates: what request 10 promises of the accepted ones, tried on the runs of small routines and on recordings; and what the comparison
//! counts, so that the cases are known to reach it.

use crate::abi::Reply;
use crate::certificates::{self, Edge, End, Value};
use crate::compare::Bench;
use crate::graphs::{self, Tables};
use crate::random::Random;
use crate::reference::{self, Low};
use crate::solvable::reached;
use crate::{searching, show_tables, tallying, Score, MOST_STATES, SHORTEST};

const MOST_MULTIPLIER: u64 = 1 << 40;
const MOST_FIGURE: i64 = 1 << 60;
const MOST_LEAST: u32 = 65_535;
/// The longest runs of a small routine that are listed.
const LONGEST_LISTED: usize = 11;

/// What is tried with accepted certificates, and with such as only one edge refuses.
pub const TRIED: [&str; 20] = [
    "a changed value, and accepted still",
    "any values, and accepted",
    "all finished runs searched",
    "all finished runs searched, and the cheapest costs the number",
    "no finished run keeps the least visits",
    "a run that keeps the least visits",
    "a run that keeps them and costs the number",
    "a run that keeps them and passes a limit",
    "a run that keeps them, passes a limit and costs the number",
    "a run that costs less, where a stay that is left has too few visits",
    "a run that costs less, where only a stay at its end has too few visits",
    "a counted run that keeps the least visits, and the number at most the solver's bound",
    "the same with the number equal to the solver's bound",
    "the number above the solver's bound, where no counted run is known to keep the least visits",
    "the least visits of a recording put in",
    "the least visits of a recording put in, and it costs the number",
    "the same for a counted run, and the number at most the bound of the tables' own certificate",
    "453 by one edge alone, no header, where some run costs less than the number",
    "453 by one edge alone, from inside, where some run costs less than the number",
    "453 by one edge alone, from outside, where some run costs less than the number",
];
const CHANGED: usize = 0;
const ANY: usize = 1;
const SEARCHED: usize = 2;
const ATTAINED: usize = 3;
const NONE: usize = 4;
const KEPT: usize = 5;
const KEPT_EXACT: usize = 6;
const KEPT_PAST: usize = 7;
const KEPT_PAST_EXACT: usize = 8;
const LESS_LEFT: usize = 9;
const LESS_LAST: usize = 10;
const ORDERED: usize = 11;
const ORDERED_EQUAL: usize = 12;
const ABOVE: usize = 13;
const RECORDED: usize = 14;
const RECORDED_EXACT: usize = 15;
const RECORDED_ORDERED: usize = 16;
/// The first of three, by what the edge ends at.
const NEEDED: usize = 17;

/// The values that are changed by one, and the ends of the edges that then break their inequality. Each is wanted for first and for second successors.
pub const MISSED: [(&str, Value, fn(End) -> bool); 9] = [
    ("the figure of the source, no header", Value::Source, |end| end == End::Plain),
    ("the figure of the target, no header", Value::Target, |end| end == End::Plain),
    ("the figure of the source, from inside", Value::Source, |end| matches!(end, End::Back(_))),
    ("the figure of the target, from inside", Value::Target, |end| matches!(end, End::Back(_))),
    ("the multiplier, from inside", Value::Multiplier, |end| matches!(end, End::Back(_))),
    ("the figure of the source, from outside", Value::Source, |end| matches!(end, End::Entry(_))),
    ("the figure of the target, from outside", Value::Target, |end| matches!(end, End::Entry(_))),
    ("the multiplier, from outside", Value::Multiplier, |end| matches!(end, End::Entry(_))),
    ("the least, from outside", Value::Least, |end| matches!(end, End::Entry(_))),
];

/// The kinds of certificates that are wanted, each with its reply.
pub const KINDS: [(u32, &str, fn(&Second) -> bool); 66] = [
    (0, "where 208 is not kept", |s| s.checked == 208),
    (0, "where the tables are accepted too", |s| s.checked == 0),
    (0, "with a number below 0", |s| s.reply.value < 0),
    (0, "with a number over 2^56", |s| s.reply.value > 1 << 56),
    (0, "with a multiplier of 0, from inside", |s| s.from_inside(|l| s.low.multiplier[l] == 0)),
    (0, "with a multiplier of 2^40, from inside", |s| s.from_inside(|l| s.low.multiplier[l] == MOST_MULTIPLIER)),
    (0, "with a multiplier of 2^40 and least 65,535, from outside", |s| {
        s.from_outside(|l| s.low.multiplier[l] == MOST_MULTIPLIER && s.low.least[l] == MOST_LEAST)
    }),
    (0, "with least 0 and a multiplier, from outside", |s| s.from_outside(|l| s.low.least[l] == 0 && s.low.multiplier[l] > 0)),
    (0, "with least 1 and a multiplier, from outside", |s| s.from_outside(|l| s.low.least[l] == 1 && s.low.multiplier[l] > 0)),
    (0, "with least 65,535 and a multiplier, from outside", |s| s.from_outside(|l| s.low.least[l] == MOST_LEAST && s.low.multiplier[l] > 0)),
    (0, "with a least over the limit", |s| s.from_outside(|l| s.low.least[l] > s.tables.loops.limit[l])),
    (0, "with a figure of 2^60", |s| s.low.figure.contains(&MOST_FIGURE)),
    (0, "with a figure of -2^60", |s| s.low.figure.contains(&-MOST_FIGURE)),
    (0, "with an equality, no header", |s| s.any_edge(|edge, slack| slack == 0 && edge.end == End::Plain)),
    (0, "with an equality, from inside", |s| s.any_edge(|edge, slack| slack == 0 && matches!(edge.end, End::Back(_)))),
    (0, "with an equality, from outside", |s| s.any_edge(|edge, slack| slack == 0 && matches!(edge.end, End::Entry(_)))),
    (0, "with edges, none of them an equality", |s| !s.edges.is_empty() && !s.any_edge(|_, slack| slack == 0)),
    (0, "with a return from an inner loop", |s| s.any_edge(|edge, _| matches!(edge.end, End::Back(l) if s.inner(edge.from) != l))),
    (0, "with a header that names itself", |s| s.any_edge(|edge, _| edge.from == edge.to)),
    (0, "with both successors the same", |s| s.any_edge(|edge, _| edge.second && s.tables.blocks.first[edge.from] == edge.to as u16)),
    (0, "with unreachable edges", |s| s.any_edge(|edge, _| !s.reached[edge.from])),
    (0, "with no run to the exit", |s| !s.reached[s.n() - 1]),
    (0, "with the exit inside a loop", |s| s.inner(s.n() - 1) != 0),
    (0, "with the exit as a header", |s| s.from_outside(|l| usize::from(s.tables.loops.header[l]) == s.n() - 1)),
    (0, "with 500 blocks and more", |s| s.n() >= 500),
    (0, "with 64 loops", |s| s.m() == 64),
    (0, "with 16 loops around a block", |s| s.deepest == 16),
    (201, "by figures, one place short", |s| s.short([1, 0, 0])),
    (201, "by figures, one place more", |s| s.long([1, 0, 0])),
    (201, "by multipliers, one place short", |s| s.short([0, 1, 0])),
    (201, "by multipliers, one place more", |s| s.long([0, 1, 0])),
    (201, "by leasts, one place short", |s| s.short([0, 0, 1])),
    (201, "by leasts, one place more", |s| s.long([0, 0, 1])),
    (201, "by multipliers and leasts, both one place short", |s| s.short([0, 1, 1])),
    (201, "by multipliers and leasts, both one place more", |s| s.long([0, 1, 1])),
    (201, "by an empty column", |s| s.sized && s.lengths().contains(&0)),
    (201, "by the tables' columns alone", |s| !s.sized && s.long([0, 0, 0])),
    (201, "by a new column, where the tables break 202 to 207", |s| (202..208).contains(&s.checked)),
    (201, "by a new column, where the tables break 209", |s| s.checked == 209),
    (202, "by the tables' multiplier alone, the new ones in range", |s| s.tables.loops.multiplier[s.place()] > MOST_MULTIPLIER && !s.breaks_451()),
    (202, "where 451 and 452 are broken", |s| s.breaks_451() && s.breaks_452()),
    (203, "by the tables' figure alone, the new ones in range", |s| s.tables.blocks.figure[s.place()].abs() > MOST_FIGURE && !s.breaks_452()),
    (203, "where 451 and 452 are broken", |s| s.breaks_451() && s.breaks_452()),
    (204, "where 451 and 452 are broken", |s| s.breaks_451() && s.breaks_452()),
    (205, "where 451 or 452 is broken", |s| s.breaks_451() || s.breaks_452()),
    (206, "where 451 and 452 are broken", |s| s.breaks_451() && s.breaks_452()),
    (207, "where 451 and 452 are broken", |s| s.breaks_451() && s.breaks_452()),
    (209, "where 451 and 452 are broken", |s| s.breaks_451() && s.breaks_452()),
    (209, "where 453 alone is broken", |s| !s.breaks_451() && !s.breaks_452() && s.breaks_453()),
    (209, "where no other rule is broken", |s| !s.breaks_451() && !s.breaks_452() && !s.breaks_453()),
    (451, "at loop 0 by its least", |s| s.place() == 0 && s.low.multiplier[0] == 0),
    (451, "at loop 0 by its multiplier", |s| s.place() == 0 && s.low.least[0] == 1),
    (451, "at another loop by a least of 65,536", |s| s.place() > 0 && !s.wide(s.place()) && s.low.least[s.place()] == MOST_LEAST + 1),
    (451, "at another loop by a multiplier of 2^40 + 1", |s| s.place() > 0 && !s.many(s.place()) && s.low.multiplier[s.place()] == MOST_MULTIPLIER + 1),
    (451, "at another loop by both", |s| s.place() > 0 && s.many(s.place()) && s.wide(s.place())),
    (451, "by a least before a multiplier", |s| !s.wide(s.place()) && (s.place() + 1..s.m()).any(|l| s.wide(l))),
    (451, "by a multiplier before a least", |s| !s.many(s.place()) && (s.place() + 1..s.m()).any(|l| s.many(l))),
    (451, "where 452 is broken too", |s| s.breaks_452()),
    (451, "where 453 is broken too", |s| s.breaks_453()),
    (452, "by a figure of 2^60 + 1", |s| s.low.figure[s.place()] == MOST_FIGURE + 1),
    (452, "by a figure of -2^60 - 1", |s| s.low.figure[s.place()] == -MOST_FIGURE - 1),
    (452, "at several blocks", |s| s.low.figure[s.place() + 1..].iter().any(|figure| outside(*figure))),
    (452, "where 453 is broken at a lower block", |s| s.any_edge(|edge, slack| slack < 0 && edge.from < s.place())),
    (453, "at unreachable blocks alone", |s| !s.any_edge(|edge, slack| slack < 0 && s.reached[edge.from])),
    (453, "at several blocks", |s| s.any_edge(|edge, slack| slack < 0 && edge.from != s.place())),
    (453, "where the tables are accepted", |s| s.checked == 0),
];

fn outside(figure: i64) -> bool {
    !(-MOST_FIGURE..=MOST_FIGURE).contains(&figure)
}

/// Tables with a second certificate, the number of the checker's reply to the tables, and the reply to both.
pub struct Second<'a> {
    tables: &'a Tables,
    low: &'a Low,
    checked: u32,
    reply: Reply,
    /// Whether the tables keep 201.
    sized: bool,
    /// Where the tables keep 201 to 207 and no column has a wrong length: the edges with their slacks, the blocks that block 0 leads to, and the most
    /// loops around a block.
    edges: Vec<(Edge, i128)>,
    reached: Vec<bool>,
    deepest: usize,
}

impl<'a> Second<'a> {
    fn new(tables: &'a Tables, low: &'a Low, reply: Reply) -> Second<'a> {
        let checked = reference::check(&tables.blocks, &tables.loops).map_or_else(|refusal| refusal.number, |_| 0);
        let mut second = Second { tables, low, checked, reply, sized: checked != 201, edges: Vec::new(), reached: Vec::new(), deepest: 0 };
        let Ok(around) = reference::shape(&tables.blocks, &tables.loops) else {
            return second;
        };
        if reply.number != 201 {
            let edges = certificates::edges(tables, &around);
            second.edges = edges.into_iter().map(|edge| (edge, edge.slack(tables, low))).collect();
            second.reached = reached(&tables.blocks, 0, |_| true);
            second.deepest = around.iter().map(|loops| loops.len()).max().unwrap_or(0);
        }
        second
    }

    fn n(&self) -> usize {
        self.tables.blocks.cost.len()
    }

    fn m(&self) -> usize {
        self.tables.loops.parent.len()
    }

    fn place(&self) -> usize {
        self.reply.place as usize
    }

    fn inner(&self, u: usize) -> usize {
        usize::from(self.tables.blocks.inner[u])
    }

    fn lengths(&self) -> [usize; 3] {
        [self.low.figure.len(), self.low.multiplier.len(), self.low.least.len()]
    }

    /// Whether the new columns are so much shorter than they should be.
    fn short(&self, by: [usize; 3]) -> bool {
        let [figures, multipliers, leasts] = self.lengths();
        [figures + by[0], multipliers + by[1], leasts + by[2]] == [self.n(), self.m(), self.m()]
    }

    fn long(&self, by: [usize; 3]) -> bool {
        self.lengths() == [self.n() + by[0], self.m() + by[1], self.m() + by[2]]
    }

    fn any_edge(&self, is: impl Fn(&Edge, i128) -> bool) -> bool {
        self.edges.iter().any(|(edge, slack)| is(edge, *slack))
    }

    /// Whether an edge returns to the header of a loop of which `is` holds.
    fn from_inside(&self, is: impl Fn(usize) -> bool) -> bool {
        self.any_edge(|edge, _| matches!(edge.end, End::Back(l) if is(l)))
    }

    /// Whether an edge enters a loop of which `is` holds.
    fn from_outside(&self, is: impl Fn(usize) -> bool) -> bool {
        self.any_edge(|edge, _| matches!(edge.end, End::Entry(l) if is(l)))
    }

    /// Whether the least of loop `l` is out of range.
    fn many(&self, l: usize) -> bool {
        if l == 0 { self.low.least[0] != 1 } else { self.low.least[l] > MOST_LEAST }
    }

    /// Whether the multiplier of loop `l` is out of range.
    fn wide(&self, l: usize) -> bool {
        self.low.multiplier[l] > if l == 0 { 0 } else { MOST_MULTIPLIER }
    }

    fn breaks_451(&self) -> bool {
        (0..self.m()).any(|l| self.many(l) || self.wide(l))
    }

    fn breaks_452(&self) -> bool {
        self.low.figure.iter().any(|figure| outside(*figure))
    }

    fn breaks_453(&self) -> bool {
        self.any_edge(|_, slack| slack < 0)
    }
}

/// A finished run: its cost, whether it keeps the limits, and for each loop the fewest visits to its header in a stay that is left, and the visits in
/// the stay that lasts to the end.
struct Run {
    list: Vec<u16>,
    cost: i64,
    counted: bool,
    left: Vec<Option<usize>>,
    last: Vec<Option<usize>>,
}

impl Run {
    fn new(tables: &Tables, around: &[Vec<usize>], list: Vec<u16>) -> Run {
        let cost = list.iter().map(|v| i64::from(tables.blocks.cost[usize::from(*v)])).sum();
        let counted = reference::walk(&tables.blocks, &tables.loops, &list).is_ok();
        let mut run = Run { list, cost, counted, left: Vec::new(), last: Vec::new() };
        for l in 0..tables.loops.parent.len() {
            let mut visits = tallying::visits(&tables.loops, around, l, &run.list);
            run.last.push(if around[around.len() - 1].contains(&l) { visits.pop() } else { None });
            run.left.push(visits.into_iter().min());
        }
        run
    }

    /// Whether no stay that is left, and whether no stay at the end, has fewer visits than these.
    fn keeps(&self, least: &[u32]) -> (bool, bool) {
        let kept = |visits: &[Option<usize>]| visits.iter().zip(least).all(|(visits, least)| visits.is_none_or(|visits| visits >= *least as usize));
        (kept(&self.left), kept(&self.last))
    }

    /// The greatest least visits that the run keeps; `other` for a loop that it does not enter.
    fn leasts(&self, other: u32) -> Vec<u32> {
        let fewest = |(left, last): (&Option<usize>, &Option<usize>)| left.iter().chain(last).min().map_or(other, |visits| *visits as u32);
        self.left.iter().zip(&self.last).map(fewest).collect()
    }
}

fn show(tables: &Tables, low: &Low) -> String {
    format!("{}\n  low figure {:?}\n  low multiplier {:?}\n  least {:?}", show_tables(tables), low.figure, low.multiplier, low.least)
}

/// Compares the replies to a certificate and counts the kinds that it is of. `promised` is tried on the reply.
fn reply(bench: &mut Bench, score: &mut Score, tables: &Tables, low: &Low, promised: impl FnOnce(&mut Score, Reply) -> Result<(), String>) {
    let outcome = bench.shortest(tables, low).and_then(|reply| promised(score, reply).map(|()| reply));
    if let Ok(reply) = outcome {
        let second = Second::new(tables, low, reply);
        for (kind, _) in KINDS.iter().enumerate().filter(|(_, (number, _, is))| reply.number == *number && is(&second)) {
            *score.lowered.entry(kind).or_default() += 1;
        }
    }
    score.count(SHORTEST, outcome, || show(tables, low));
}

/// Changes a value of an accepted certificate by one, so that an edge which kept its inequality breaks it.
fn miss(bench: &mut Bench, score: &mut Score, random: &mut Random, (tables, low): (&Tables, &Low), edges: &[Edge]) {
    let (row, second) = (random.below(MISSED.len()), random.once_in(2));
    let (_, value, is) = MISSED[row];
    let tighter = |edge: &Edge| certificates::tighter(low, edge, value).filter(|other| edge.slack(tables, other) < 0).map(|other| (*edge, other));
    let missed: Vec<(Edge, Low)> = edges.iter().filter(|edge| edge.second == second && is(edge.end)).filter_map(tighter).collect();
    if missed.is_empty() {
        return;
    }
    let (edge, other) = &missed[random.below(missed.len())];
    reply(bench, score, tables, other, |score, reply| {
        score.missed[2 * row + usize::from(second)] += u64::from(reply.number == 453);
        match reply.number {
            // a value at an end of its range
            451 | 452 => Ok(()),
            453 if reply.place as usize <= edge.from => Ok(()),
            _ => Err(format!("{reply:?}, where the edge from {} to {} breaks its inequality", edge.from, edge.to)),
        }
    });
}

/// What request 10 promises of an accepted number: no finished run with at least the least visits in every stay costs less. It is tried on these runs.
fn bounded(score: &mut Score, runs: &[Run], least: &[u32], number: i64) -> Result<(), String> {
    for run in runs {
        let (left, last) = run.keeps(least);
        if left && last && run.cost < number {
            return Err(format!("the number is {number}, and the run {:?} costs {}", run.list, run.cost));
        }
        let (kept, exact) = (left && last, run.cost == number);
        score.bounded[KEPT] += u64::from(kept);
        score.bounded[KEPT_EXACT] += u64::from(kept && exact);
        score.bounded[KEPT_PAST] += u64::from(kept && !run.counted);
        score.bounded[KEPT_PAST_EXACT] += u64::from(kept && !run.counted && exact);
        score.bounded[LESS_LEFT] += u64::from(!left && run.cost < number);
        score.bounded[LESS_LAST] += u64::from(left && !last && run.cost < number);
    }
    Ok(())
}

/// The same of all finished runs, where they can be searched.
fn searched(score: &mut Score, tables: &Tables, least: &[u32], number: i64) -> Result<(), String> {
    if searching::states(tables, least) > MOST_STATES {
        return Ok(());
    }
    let cheapest = searching::least_of_a_run(tables, least);
    score.bounded[SEARCHED] += 1;
    score.bounded[ATTAINED] += u64::from(cheapest == Some(number));
    score.bounded[NONE] += u64::from(cheapest.is_none());
    match cheapest {
        Some(cost) if cost < number => Err(format!("the number is {number}, and some run costs {cost}")),
        _ => Ok(()),
    }
}

/// Where both certificates are accepted and some finished counted run keeps the least visits, the number is at most the bound.
fn ordered(score: &mut Score, runs: &[Run], least: &[u32], number: i64, bound: i64) -> Result<(), String> {
    let Some(run) = runs.iter().find(|run| run.counted && run.keeps(least) == (true, true)) else {
        score.bounded[ABOVE] += u64::from(number > bound);
        return Ok(());
    };
    score.bounded[ORDERED] += 1;
    score.bounded[ORDERED_EQUAL] += u64::from(number == bound);
    if number > bound {
        return Err(format!("the number is {number}, the bound {bound}, and the counted run {:?} keeps the least visits", run.list));
    }
    Ok(())
}

/// A certificate that is made to keep every inequality is accepted, unless a figure is past its range.
fn made_well(reply: Reply) -> Result<(), String> {
    if matches!(reply.number, 0 | 452) { Ok(()) } else { Err(format!("{reply:?}, where every inequality is kept")) }
}

/// A small routine, its finished runs up to some length, and the solver's bound.
struct Small<'a> {
    tables: &'a Tables,
    around: Vec<Vec<usize>>,
    edges: Vec<Edge>,
    runs: Vec<Run>,
    bound: Option<i64>,
}

impl Small<'_> {
    /// A certificate that keeps the inequalities of these edges.
    fn made(&self, random: &mut Random, edges: &[Edge]) -> Low {
        let least = certificates::leasts(random, self.tables);
        certificates::made(random, self.tables, &self.around, edges, least)
    }

    /// What request 10 promises of an accepted certificate.
    fn promised(&self, score: &mut Score, least: &[u32], number: i64) -> Result<(), String> {
        bounded(score, &self.runs, least, number)?;
        searched(score, self.tables, least, number)?;
        self.bound.map_or(Ok(()), |bound| ordered(score, &self.runs, least, number, bound))
    }

    /// Whether some finished run that keeps the least visits costs less than the number of this certificate, as far as that can be searched.
    fn is_too_high(&self, low: &Low) -> bool {
        let number = i64::from(self.tables.blocks.cost[0]) + low.figure[0] - low.figure[low.figure.len() - 1];
        let few_states = searching::states(self.tables, &low.least) <= MOST_STATES;
        few_states && searching::least_of_a_run(self.tables, &low.least).is_some_and(|cost| cost < number)
    }

    /// A certificate that keeps the inequalities of all edges but one. Where it breaks that one, this edge alone refuses it.
    fn but_one(&self, bench: &mut Bench, score: &mut Score, random: &mut Random) {
        let kind = random.below(3);
        let alike: Vec<usize> = (0..self.edges.len()).filter(|i| self.edges[*i].end.kind() == kind).collect();
        if alike.is_empty() {
            return;
        }
        let mut others = self.edges.clone();
        let edge = others.remove(random.pick(&alike));
        let low = self.made(random, &others);
        let broken = edge.slack(self.tables, &low) < 0;
        reply(bench, score, self.tables, &low, |score, reply| match (reply.number, reply.place as usize) {
            (0, _) if !broken => self.promised(score, &low.least, reply.value),
            (452, _) => Ok(()),
            (453, place) if broken && place == edge.from => {
                score.bounded[NEEDED + kind] += u64::from(self.is_too_high(&low));
                Ok(())
            }
            _ => Err(format!("{reply:?}, where the edge from {} to {} is the only one that can break its inequality", edge.from, edge.to)),
        });
    }
}

/// Certificates of a small routine: two that are made to be accepted, the second one with a value changed, one of any values, and two that no edge
/// refuses but one. `bound` is the solver's.
pub fn small(bench: &mut Bench, score: &mut Score, random: &mut Random, tables: &Tables, bound: Option<i64>) {
    let Ok(around) = reference::declared(&tables.blocks, &tables.loops) else {
        return;
    };
    let mut lists = Vec::new();
    graphs::finished(tables, &mut vec![0], LONGEST_LISTED - 1, &mut lists);
    let runs = lists.into_iter().map(|list| Run::new(tables, &around, list)).collect();
    let edges = certificates::edges(tables, &around);
    let small = Small { tables, around, edges, runs, bound };
    let (one, two) = (small.made(random, &small.edges), small.made(random, &small.edges));
    let mut changed = two.clone();
    certificates::damage(random, &mut changed);
    for (tried, low) in [(None, one), (None, two), (Some(CHANGED), changed), (Some(ANY), certificates::any(random, tables))] {
        reply(bench, score, tables, &low, |score, reply| match (tried, reply.number) {
            (_, 0) => {
                tried.into_iter().for_each(|tried| score.bounded[tried] += 1);
                small.promised(score, &low.least, reply.value)
            }
            (None, _) => made_well(reply),
            _ => Ok(()),
        });
    }
    (0..2).for_each(|_| small.but_one(bench, score, random));
}

/// A certificate for the least visits that a recording shows: the recording costs no less than its number, whatever the limits are.
fn recorded(bench: &mut Bench, score: &mut Score, random: &mut Random, tables: &Tables, around: &[Vec<usize>], edges: &[Edge]) {
    let list = graphs::recording(random, tables);
    if tallying::tally(&tables.blocks, &tables.loops, &list, [tables.loops.parent.len(); 2]).is_err() {
        return;
    }
    let run = Run::new(tables, around, list);
    let least = run.leasts(random.below(3) as u32);
    let low = certificates::made(random, tables, around, edges, least);
    let bound = reference::check(&tables.blocks, &tables.loops).ok().filter(|_| run.counted);
    reply(bench, score, tables, &low, |score, reply| {
        if reply.number != 0 {
            return made_well(reply);
        }
        score.bounded[RECORDED] += 1;
        score.bounded[RECORDED_EXACT] += u64::from(run.cost == reply.value);
        score.bounded[RECORDED_ORDERED] += u64::from(bound.is_some());
        if reply.value <= run.cost && bound.is_none_or(|bound| reply.value <= bound) {
            return Ok(());
        }
        Err(format!("the number is {}, the bound {bound:?}, and the run {:?} costs {}", reply.value, run.list, run.cost))
    });
}

/// Certificates of any tables: one that is made to be accepted and one for a recording, some that just miss, and damaged ones.
pub fn any(bench: &mut Bench, score: &mut Score, random: &mut Random, tables: &Tables) {
    let mut low = certificates::plain(tables);
    if let Ok(around) = reference::declared(&tables.blocks, &tables.loops) {
        let least = certificates::leasts(random, tables);
        let edges = certificates::edges(tables, &around);
        low = certificates::made(random, tables, &around, &edges, least);
        reply(bench, score, tables, &low, |_, reply| made_well(reply));
        (0..3).for_each(|_| miss(bench, score, random, (tables, &low), &edges));
        recorded(bench, score, random, tables, &around, &edges);
    } else {
        reply(bench, score, tables, &low, |_, _| Ok(()));
    }
    for changes in 1..4 {
        let mut other = low.clone();
        (0..changes).for_each(|_| certificates::damage(random, &mut other));
        if random.once_in(4) {
            certificates::reshape(random, &mut other);
        }
        reply(bench, score, tables, &other, |_, _| Ok(()));
    }
}
