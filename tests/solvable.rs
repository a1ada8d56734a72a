//! Pairs of tables for the solver of request 3: any small routine, so that runs and rounds can be searched; and routines whose multipliers
//! and figures are near 2^40 and 2^60, or over. The comparison counts what the solved ones have.

use crate::graphs::{edges, Tables};
use crate::random::Random;
use crate::reference::{Blocks, Loops, MISSING};

const MOST_MULTIPLIER: u64 = 1 << 40;
const MOST_FIGURE: i128 = 1 << 60;
const MOST_COST: u64 = 1_000_000;
const MOST_LIMIT: u64 = 65_535;

/// What is wanted of the tables that the solver made.
pub const KINDS: [(&str, fn(&Solved) -> bool); 12] = [
    ("a loop without a round", |s| s.any_loop(|l| !s.has_round(l))),
    ("a loop with a round that costs nothing", |s| s.any_loop(|l| s.multiplier(l) == 0 && s.has_round(l))),
    ("rounds through an inner loop", |s| s.any_loop(|l| s.multiplier(l) > 0 && s.multiplier(usize::from(s.tables.loops.parent[l])) > 0)),
    ("a round of an unreachable loop", |s| s.any_loop(|l| s.multiplier(l) > 0 && !s.reached[usize::from(s.tables.loops.header[l])])),
    ("a multiplier of 2^40", |s| s.tables.loops.multiplier.contains(&MOST_MULTIPLIER)),
    ("a figure of 2^60", |s| s.tables.blocks.figure.contains(&(1 << 60))),
    ("a figure below 0", |s| s.tables.blocks.figure.iter().any(|figure| *figure < 0)),
    ("the exit inside a loop", |s| s.tables.blocks.inner[s.reached.len() - 1] != 0),
    ("the exit as a header", |s| s.any_loop(|l| usize::from(s.tables.loops.header[l]) == s.reached.len() - 1)),
    ("500 blocks and more", |s| s.reached.len() >= 500),
    ("64 loops", |s| s.tables.loops.parent.len() == 64),
    ("16 loops around a header", |s| s.any_loop(|l| s.depth(l) == 16)),
];

/// Solved tables, and the blocks that block 0 leads to.
pub struct Solved<'a> {
    tables: &'a Tables,
    reached: Vec<bool>,
}

impl Solved<'_> {
    pub fn new(tables: &Tables) -> Solved<'_> {
        let reached = reached(&tables.blocks, 0, |_| true);
        Solved { tables, reached }
    }

    fn any_loop(&self, is: impl Fn(usize) -> bool) -> bool {
        (1..self.tables.loops.parent.len()).any(is)
    }

    fn multiplier(&self, l: usize) -> u64 {
        self.tables.loops.multiplier[l]
    }

    /// The number of loops around the header of `l`.
    fn depth(&self, l: usize) -> usize {
        if l == 0 { 1 } else { 1 + self.depth(usize::from(self.tables.loops.parent[l])) }
    }

    /// Whether the header of `l` leads back to itself by blocks of the loop.
    fn has_round(&self, l: usize) -> bool {
        let Tables { blocks, loops } = self.tables;
        let inside = |u: usize| {
            let mut at = usize::from(blocks.inner[u]);
            while at > l {
                at = usize::from(loops.parent[at]);
            }
            at == l
        };
        let header = usize::from(loops.header[l]);
        let from = reached(blocks, header, inside);
        edges(blocks).iter().any(|(u, v)| *v == header && from[*u] && inside(*u))
    }
}

/// The blocks of which `wanted` holds that `start` leads to, by such blocks.
pub fn reached(blocks: &Blocks, start: usize, wanted: impl Fn(usize) -> bool) -> Vec<bool> {
    let mut reached = vec![false; blocks.cost.len()];
    let mut waiting = vec![start];
    while let Some(u) = waiting.pop() {
        if wanted(u) && !std::mem::replace(&mut reached[u], true) {
            waiting.extend([blocks.first[u], blocks.second[u]].into_iter().filter(|v| *v != MISSING).map(usize::from));
        }
    }
    reached
}

/// Tables that grow. Loop 0 is there from the start.
struct Growing {
    tables: Tables,
}

impl Growing {
    fn new() -> Growing {
        let loops = Loops { parent: vec![0], header: vec![0], limit: vec![1], multiplier: vec![0] };
        Growing { tables: Tables { blocks: Blocks::default(), loops } }
    }

    fn block(&mut self, cost: u64, inner: usize) -> usize {
        let blocks = &mut self.tables.blocks;
        blocks.cost.push(cost as u32);
        blocks.inner.push(inner as u16);
        blocks.first.push(MISSING);
        blocks.second.push(MISSING);
        blocks.figure.push(0);
        blocks.cost.len() - 1
    }

    /// A new loop in `parent`, with its header.
    fn new_loop(&mut self, parent: usize, limit: u64, cost: u64) -> (usize, usize) {
        let l = self.tables.loops.parent.len();
        let header = self.block(cost, l);
        self.tables.loops.parent.push(parent as u16);
        self.tables.loops.header.push(header as u16);
        self.tables.loops.limit.push(limit as u32);
        self.tables.loops.multiplier.push(0);
        (l, header)
    }

    /// An edge, if `u` has a place for one.
    fn edge(&mut self, u: usize, v: usize) {
        let blocks = &mut self.tables.blocks;
        if blocks.first[u] == MISSING {
            blocks.first[u] = v as u16;
        } else if blocks.second[u] == MISSING {
            blocks.second[u] = v as u16;
        }
    }

    /// The loops around `u`, the innermost first.
    fn around(&self, u: usize) -> Vec<usize> {
        let mut around = vec![usize::from(self.tables.blocks.inner[u])];
        while let Some(l) = around.last().copied().filter(|l| *l != 0) {
            around.push(usize::from(self.tables.loops.parent[l]));
        }
        around
    }
}

/// Up to 8 blocks with any edges that rules 206 and 207 allow: most of them lead to a block of a higher rank or back to a header.
pub fn small(random: &mut Random) -> Tables {
    let mut g = Growing::new();
    let n = random.range(2, 8);
    let costs = random.pick(&[1, 2, 10, 10]);
    g.block(random.below(costs) as u64, 0);
    let most = random.range(1, 3) as u64;
    for _ in 0..random.below(n.min(5)) {
        if g.tables.blocks.cost.len() < n {
            let parent = random.below(g.tables.loops.parent.len());
            g.new_loop(parent, random.range(1, most as usize) as u64, random.below(costs) as u64);
        }
    }
    while g.tables.blocks.cost.len() < n {
        let inner = random.below(g.tables.loops.parent.len());
        g.block(random.below(costs) as u64, inner);
    }
    // a rank above that of the headers around, so that loops can be entered and their blocks be reached
    let mut rank = vec![0; n];
    for u in 1..n {
        let headers = g.around(u).into_iter().map(|l| usize::from(g.tables.loops.header[l])).filter(|header| *header != u);
        rank[u] = headers.map(|header| rank[header]).max().unwrap_or(0) + random.range(1, 3);
    }
    // the exit: in loop 0 most often, else any block
    let exit = if random.once_in(3) { n - 1 } else { (1..n).rev().find(|u| g.tables.blocks.inner[*u] == 0).unwrap_or(n - 1) };
    rank[exit] = 1000;
    let odd = random.pick(&[4, 40, 400]);
    for u in (0..n).filter(|u| *u != exit) {
        let from = g.around(u);
        let headers: Vec<usize> = from.iter().map(|l| usize::from(g.tables.loops.header[*l])).collect();
        let allowed = |v: usize| v != 0 && g.around(v).iter().all(|l| from.contains(l) || usize::from(g.tables.loops.header[*l]) == v);
        let legal: Vec<usize> = (1..n).filter(|v| allowed(*v)).collect();
        let usual: Vec<usize> = legal.iter().copied().filter(|v| rank[*v] > rank[u] || headers.contains(v)).collect();
        let count = if random.once_in(4 * odd) { 0 } else { random.pick(&[1, 2, 2]) };
        for _ in 0..count {
            let choices = if random.once_in(odd) { &legal } else { &usual };
            if !choices.is_empty() {
                let v = random.pick(choices);
                g.edge(u, v);
            }
        }
    }
    let mut order: Vec<usize> = (1..n).filter(|u| *u != exit).collect();
    random.shuffle(&mut order);
    order.insert(0, 0);
    order.push(exit);
    let mut tables = renumbered(random, &g.tables, &order);
    scramble(random, &mut tables);
    tables
}

/// Adds a loop after the block `open` whose round costs `round` and whose header, which costs nothing, is the last block on the way out: to
/// enter it costs round x (limit - 1). A loop in a loop makes the round so long. Gives back the header.
fn unit(random: &mut Random, g: &mut Growing, open: usize, round: u64, limit: u64) -> usize {
    // round = middle + (middle + inner x inner_limit) x again + rest, the costs of two headers and of a block
    let inner_limit = random.range(20, MOST_LIMIT as usize) as u64;
    let least = round / MOST_COST / inner_limit + 1;
    let again = if random.once_in(2) { least } else { random.range(least as usize, MOST_LIMIT as usize - 1) as u64 };
    let inner = round / again / inner_limit;
    let middle = (round - again * inner * inner_limit) / (again + 1);
    let rest = round - again * inner * inner_limit - middle * (again + 1);
    let (outer_loop, outer_header) = g.new_loop(0, limit, 0);
    let (middle_loop, middle_header) = g.new_loop(outer_loop, again + 1, middle);
    let (_, inner_header) = g.new_loop(middle_loop, inner_limit, inner);
    let last = g.block(rest, outer_loop);
    g.edge(open, outer_header);
    g.edge(outer_header, middle_header);
    g.edge(middle_header, inner_header);
    g.edge(inner_header, inner_header);
    g.edge(inner_header, middle_header);
    g.edge(middle_header, last);
    g.edge(last, outer_header);
    outer_header
}

/// Loops one after another, each with a round near 2^40, so that the figure of block 0 is near 2^60; now and then a round is longer.
pub fn heavy(random: &mut Random) -> Tables {
    let mut g = Growing::new();
    let mut open = g.block(random.below(3) as u64, 0);
    let mut left = MOST_FIGURE + random.pick(&[-1_000_000, -2, -1, 0, 0, 1, 2, 1_000_000, -(1 << 56), 1 << 56]);
    let over = if random.once_in(3) { random.below(16) } else { 64 };
    while left > 0 && g.tables.loops.parent.len() + 3 <= 64 {
        let number = g.tables.loops.parent.len() / 3;
        let mut round = MOST_MULTIPLIER - if random.once_in(2) { 0 } else { random.below(1000) as u64 };
        let mut again = (left / i128::from(round)).min(i128::from(MOST_LIMIT) - 1) as u64;
        if again == 0 {
            again = random.range(1, 1000) as u64;
            round = left as u64 / again;
        }
        if round == 0 {
            break;
        }
        left -= i128::from(round) * i128::from(again);
        if number == over {
            round = MOST_MULTIPLIER + random.pick(&[0, 1, 1, 2, 1000, 1 << 20]);
        }
        open = unit(random, &mut g, open, round, again + 1);
    }
    let cost = left.clamp(0, i128::from(MOST_COST)) as u64;
    let exit = g.block(cost, 0);
    g.edge(open, exit);
    let n = exit + 1;
    // now and then a block without a path to the exit, one that names itself, or no way into the first loops
    match random.below(12) {
        0 => {
            let u = random.range(1, n - 2);
            g.tables.blocks.first[u] = MISSING;
            g.tables.blocks.second[u] = MISSING;
        }
        1 => {
            let u = random.range(1, n - 2);
            g.tables.blocks.second[u] = u as u16;
        }
        2 | 3 => {
            let outer: Vec<u16> = (1..g.tables.loops.parent.len()).step_by(3).map(|l| g.tables.loops.header[l]).collect();
            g.tables.blocks.first[0] = if random.once_in(4) { exit as u16 } else { random.pick(&outer) };
        }
        _ => {}
    }
    let mut order: Vec<usize> = (1..n - 1).collect();
    if random.once_in(2) {
        random.shuffle(&mut order);
    }
    order.insert(0, 0);
    order.push(exit);
    let mut tables = renumbered(random, &g.tables, &order);
    scramble(random, &mut tables);
    tables
}

/// The blocks in this order, and the loops in some order in which each stands after its parent.
fn renumbered(random: &mut Random, tables: &Tables, order: &[usize]) -> Tables {
    let (n, m) = (order.len(), tables.loops.parent.len());
    let mut place = vec![0; n];
    for (new, old) in order.iter().enumerate() {
        place[*old] = new;
    }
    let mut loop_order = vec![0];
    while loop_order.len() < m {
        let ready = |l: &usize| !loop_order.contains(l) && loop_order.contains(&usize::from(tables.loops.parent[*l]));
        let ready: Vec<usize> = (1..m).filter(ready).collect();
        loop_order.push(random.pick(&ready));
    }
    let mut loop_place = vec![0; m];
    for (new, old) in loop_order.iter().enumerate() {
        loop_place[*old] = new;
    }
    let (blocks, loops) = (&tables.blocks, &tables.loops);
    let named = |v: u16| if v == MISSING { MISSING } else { place[usize::from(v)] as u16 };
    Tables {
        blocks: Blocks {
            cost: order.iter().map(|u| blocks.cost[*u]).collect(),
            inner: order.iter().map(|u| loop_place[usize::from(blocks.inner[*u])] as u16).collect(),
            first: order.iter().map(|u| named(blocks.first[*u])).collect(),
            second: order.iter().map(|u| named(blocks.second[*u])).collect(),
            figure: order.iter().map(|u| blocks.figure[*u]).collect(),
        },
        loops: Loops {
            parent: loop_order.iter().map(|l| loop_place[usize::from(loops.parent[*l])] as u16).collect(),
            header: loop_order.iter().map(|l| place[usize::from(loops.header[*l])] as u16).collect(),
            limit: loop_order.iter().map(|l| loops.limit[*l]).collect(),
            multiplier: loop_order.iter().map(|l| loops.multiplier[*l]).collect(),
        },
    }
}

/// Puts any figures and multipliers that keep 202 and 203 in place of those that are there.
pub fn scramble(random: &mut Random, tables: &mut Tables) {
    for figure in &mut tables.blocks.figure {
        let any = (random.next() >> 4) as i64 - (1 << 59);
        *figure = random.pick(&[0, 1, -1, 1 << 60, -(1 << 60), any]);
    }
    for multiplier in tables.loops.multiplier.iter_mut().skip(1) {
        let any = random.next() >> 24;
        *multiplier = random.pick(&[0, 1, MOST_MULTIPLIER, any]);
    }
}
