//! Second certificates for request 10. Some keep every inequality: their multipliers are from the cheapest rounds and their figures from the cheapest
//! paths to the exit. Some just break one, and others have any values, damaged ones, or columns of other lengths.

use crate::graphs::{other, Tables};
use crate::random::Random;
use crate::reference::{self, Low};

const MOST_MULTIPLIER: i128 = 1 << 40;
const MOST_FIGURE: i128 = 1 << 60;
const MOST_LEAST: u32 = 65_535;
/// Above every weight of a path.
const NO_PATH: i128 = 1 << 100;

/// What an edge ends at: no header, the header of a loop that its source is inside, or of one that its source is outside.
#[derive(Clone, Copy, PartialEq, Eq)]
pub enum End {
    Plain,
    Back(usize),
    Entry(usize),
}

impl End {
    /// 0, 1 or 2, in the order above.
    pub fn kind(self) -> usize {
        match self {
            End::Plain => 0,
            End::Back(_) => 1,
            End::Entry(_) => 2,
        }
    }
}

/// An edge to the first or to the second successor of its source.
#[derive(Clone, Copy)]
pub struct Edge {
    pub from: usize,
    pub to: usize,
    pub second: bool,
    pub end: End,
}

impl Edge {
    /// What the figures may fall by from its source to its end.
    fn weight(&self, tables: &Tables, low: &Low) -> i128 {
        let cost = i128::from(tables.blocks.cost[self.to]);
        match self.end {
            End::Plain => cost,
            End::Back(l) => cost - i128::from(low.multiplier[l]),
            End::Entry(l) => cost + i128::from(low.multiplier[l]) * (i128::from(low.least[l]) - 1),
        }
    }

    /// What is left of the weight; below 0 the edge breaks its inequality.
    pub fn slack(&self, tables: &Tables, low: &Low) -> i128 {
        self.weight(tables, low) - i128::from(low.figure[self.from]) + i128::from(low.figure[self.to])
    }
}

/// The edges of tables that keep 201 to 207, by source; `around` has for each block the loops around it.
pub fn edges(tables: &Tables, around: &[Vec<usize>]) -> Vec<Edge> {
    let Tables { blocks, loops } = tables;
    let end = |from: usize, to: usize| match usize::from(blocks.inner[to]) {
        l if usize::from(loops.header[l]) != to => End::Plain,
        l if around[from].contains(&l) => End::Back(l),
        l => End::Entry(l),
    };
    let named = |from: usize| [(from, blocks.first[from], false), (from, blocks.second[from], true)];
    let present = (0..around.len()).flat_map(named).filter(|(_, to, _)| *to != reference::MISSING);
    present.map(|(from, to, second)| (from, usize::from(to), second)).map(|(from, to, second)| Edge { from, to, second, end: end(from, to) }).collect()
}

/// A certificate that keeps every inequality, whatever the tables are: no multipliers, and equal figures.
pub fn plain(tables: &Tables) -> Low {
    let (n, m) = (tables.blocks.cost.len(), tables.loops.parent.len());
    Low { figure: vec![0; n], multiplier: vec![0; m], least: vec![1; m] }
}

/// A certificate of any small values.
pub fn any(random: &mut Random, tables: &Tables) -> Low {
    let mut low = plain(tables);
    let highest = random.pick(&[2, 5, 20]);
    low.figure.iter_mut().for_each(|figure| *figure = random.below(highest) as i64 - 1);
    low.multiplier.iter_mut().skip(1).for_each(|multiplier| *multiplier = random.below(4) as u64);
    low.least.iter_mut().skip(1).for_each(|least| *least = random.below(4) as u32);
    low
}

/// Least visits for each loop, most often few.
pub fn leasts(random: &mut Random, tables: &Tables) -> Vec<u32> {
    let habit = random.below(8);
    let least = |(l, limit): (usize, &u32)| match habit {
        _ if l == 0 => 1,
        0 => 1,
        1 => 0,
        2 | 3 => *limit,
        4 => random.pick(&[0, 1, 2, MOST_LEAST - 1, MOST_LEAST]),
        _ => random.below(4) as u32,
    };
    tables.loops.limit.iter().enumerate().map(least).collect()
}

/// Lowers the sum at the source of each edge to the one by that edge, until nothing changes. No cycle may have a weight below 0.
fn relax(edges: &[(usize, usize, i128)], sums: &mut [i128]) {
    let mut lowers = |(u, v, weight): &(usize, usize, i128)| {
        let old = sums[*u];
        sums[*u] = old.min(sums[*v] + weight);
        sums[*u] < old
    };
    while edges.iter().rev().filter(|edge| lowers(edge)).count() > 0 {}
}

/// A certificate that is being made for tables that keep 201 to 207 and 209, and for some of their edges.
struct Maker<'a> {
    tables: &'a Tables,
    around: &'a [Vec<usize>],
    edges: &'a [Edge],
    low: Low,
}

impl Maker<'_> {
    /// The least weight of a round of loop `l` by the multipliers of its inner loops, its own still 0; None if there is no round.
    fn round(&self, l: usize) -> Option<i128> {
        let (header, end) = (usize::from(self.tables.loops.header[l]), self.around.len());
        let inside = |u: usize| self.around[u].contains(&l);
        let weighted = |edge: &Edge| (edge.from, if edge.to == header { end } else { edge.to }, edge.weight(self.tables, &self.low));
        let own: Vec<_> = self.edges.iter().filter(|edge| inside(edge.from) && inside(edge.to)).map(weighted).collect();
        let mut sums = vec![NO_PATH; end + 1];
        sums[end] = 0;
        relax(&own, &mut sums);
        Some(sums[header]).filter(|sum| *sum < NO_PATH / 2)
    }

    /// Chooses a multiplier for loop `l`, whose inner loops have theirs. The least weight of a round is the greatest that can be kept.
    fn choose(&mut self, random: &mut Random, l: usize) {
        let mut round = self.round(l);
        if round.is_some_and(|round| round < 0) {
            // entering an inner loop of least 0 takes its multiplier off; no multiplier can be kept here unless those are 0
            let is_inner = |k: &usize| self.around[usize::from(self.tables.loops.header[*k])].contains(&l);
            (l + 1..self.low.multiplier.len()).filter(is_inner).for_each(|k| self.low.multiplier[k] = 0);
            round = self.round(l);
        }
        let most = round.unwrap_or(MOST_MULTIPLIER).min(MOST_MULTIPLIER) as u64;
        self.low.multiplier[l] = match random.below(8) {
            0 => 0,
            1 => random.below(most as usize + 1) as u64,
            2 => most.saturating_sub(1),
            _ => most,
        };
    }

    /// The greatest figures up to `ceiling` that keep every inequality, where the exit's is 0.
    fn figures(&self, ceiling: i128) -> Vec<i128> {
        let n = self.around.len();
        let weighted: Vec<_> = self.edges.iter().map(|edge| (edge.from, edge.to, edge.weight(self.tables, &self.low))).collect();
        let mut sums = vec![ceiling; n];
        sums[n - 1] = 0;
        relax(&weighted, &mut sums);
        sums
    }
}

/// What all figures are moved by: most often nothing, else to an end of their range or one past it.
fn shift(random: &mut Random, figures: &[i128]) -> i128 {
    let (low, high) = (*figures.iter().min().unwrap(), *figures.iter().max().unwrap());
    match random.below(32) {
        0 => MOST_FIGURE - high,
        1 => -MOST_FIGURE - low,
        2 => MOST_FIGURE - high + 1,
        3 => -MOST_FIGURE - low - 1,
        4..=7 => random.below(2000) as i128 - 1000,
        _ => 0,
    }
}

/// A certificate with these least visits that keeps the inequalities of these edges. Now and then a figure is one past its range.
pub fn made(random: &mut Random, tables: &Tables, around: &[Vec<usize>], edges: &[Edge], least: Vec<u32>) -> Low {
    let mut maker = Maker { tables, around, edges, low: Low { least, ..plain(tables) } };
    (1..tables.loops.parent.len()).rev().for_each(|l| maker.choose(random, l));
    let ceiling = random.pick(&[MOST_FIGURE, MOST_FIGURE, MOST_FIGURE, MOST_FIGURE, 1000, 0, -1]);
    let figures = maker.figures(ceiling);
    let shift = shift(random, &figures);
    Low { figure: figures.into_iter().map(|figure| (figure + shift) as i64).collect(), ..maker.low }
}

/// The value that is changed.
#[derive(Clone, Copy, PartialEq, Eq)]
pub enum Value {
    Source,
    Target,
    Multiplier,
    Least,
}

/// Changes this value by one, so that the slack of the edge gets less; None where no such change is left.
pub fn tighter(low: &Low, edge: &Edge, value: Value) -> Option<Low> {
    let mut low = low.clone();
    match (value, edge.end) {
        (Value::Source, _) => low.figure[edge.from] += 1,
        (Value::Target, _) => low.figure[edge.to] -= 1,
        (Value::Multiplier, End::Back(l)) => low.multiplier[l] += 1,
        (Value::Multiplier, End::Entry(l)) if low.least[l] == 0 => low.multiplier[l] += 1,
        (Value::Multiplier, End::Entry(l)) if low.least[l] > 1 => low.multiplier[l] = low.multiplier[l].checked_sub(1)?,
        (Value::Least, End::Entry(l)) => low.least[l] = low.least[l].checked_sub(1)?,
        _ => return None,
    }
    Some(low)
}

/// Changes one value of a certificate, most often near its range.
pub fn damage(random: &mut Random, low: &mut Low) {
    let (n, m) = (low.figure.len(), low.multiplier.len().min(low.least.len()));
    if n == 0 || m == 0 {
        return;
    }
    let (u, l) = (random.below(n), random.below(m));
    let signed = [0, MOST_FIGURE, -MOST_FIGURE, i128::from(i64::MIN), i128::from(i64::MAX)];
    match random.below(6) {
        0 | 1 => low.figure[u] = other(random, low.figure[u].into(), &signed, i64::MIN.into(), i64::MAX.into()) as i64,
        2 => low.multiplier[l] = other(random, low.multiplier[l].into(), &[0, MOST_MULTIPLIER, 1 << 63, 1 << 64], 0, u64::MAX.into()) as u64,
        3 => low.least[l] = other(random, low.least[l].into(), &[0, 1, MOST_LEAST.into(), 1 << 31], 0, u32::MAX.into()) as u32,
        4 => (low.multiplier[l], low.least[random.below(m)]) = (MOST_MULTIPLIER as u64 + 1, MOST_LEAST + 1),
        _ if random.once_in(2) => low.least[0] = random.pick(&[0, 2, 65_536, u32::MAX]),
        _ => low.multiplier[0] = random.pick(&[1, 1 << 40, u64::MAX]),
    }
}

/// Gives one column of a certificate another length, most often one more or less.
pub fn reshape(random: &mut Random, low: &mut Low) {
    let mut length = |old: usize| random.pick(&[0, 1, old.saturating_sub(1), old.saturating_sub(1), old + 1, old + 1, 2 * old, 64, 1024]);
    let (figures, multipliers, leasts) = (length(low.figure.len()), length(low.multiplier.len()), length(low.least.len()));
    match random.below(4) {
        0 => low.figure.resize(figures, 0),
        1 => low.multiplier.resize(multipliers, 0),
        2 => low.least.resize(leasts, 1),
        _ => (low.multiplier, low.least) = (vec![0; leasts], vec![1; leasts]),
    }
}
