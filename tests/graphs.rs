//! Pairs of tables made from structured routines with nested loops, with figures from a longest-path computation; cycles that no loop
//! declares; damage to them; and walks.

use crate::random::Random;
use crate::reference::{Blocks, Loops, MISSING};

/// A pair of tables.
#[derive(Clone, Debug, Default, PartialEq, Eq)]
pub struct Tables {
    pub blocks: Blocks,
    pub loops: Loops,
}

/// A routine under construction. Loop 0 is there from the start; block 0 is the entry.
struct Builder<'a> {
    random: &'a mut Random,
    successors: Vec<Vec<usize>>,
    inner: Vec<usize>,
    parent: Vec<usize>,
    header: Vec<usize>,
    most_blocks: usize,
    most_loops: usize,
    returns: Vec<usize>,
    /// Whether closed walks that no loop declares are wanted.
    cycles: bool,
    /// The blocks of cost 0 and the loops of limit 1 on such walks: every inequality can be kept there.
    free_blocks: Vec<usize>,
    free_loops: Vec<usize>,
}

impl Builder<'_> {
    fn block(&mut self, inner: usize) -> usize {
        self.successors.push(Vec::new());
        self.inner.push(inner);
        self.successors.len() - 1
    }

    /// A new loop in `parent` with its header.
    fn new_loop(&mut self, parent: usize) -> (usize, usize) {
        self.parent.push(parent);
        let l = self.parent.len() - 1;
        let header = self.block(l);
        self.header.push(header);
        (l, header)
    }

    fn edge(&mut self, from: usize, to: usize) {
        self.successors[from].push(to);
    }

    /// The loops around loop `l`, itself first.
    fn around(&self, mut l: usize) -> Vec<usize> {
        let mut around = vec![l];
        while l != 0 {
            l = self.parent[l];
            around.push(l);
        }
        around
    }

    /// Whether rule 207 lets an edge run from `u` to `v`.
    fn legal(&self, u: usize, v: usize) -> bool {
        let from = self.around(self.inner[u]);
        v != 0 && self.around(self.inner[v]).iter().all(|l| from.contains(l) || self.header[*l] == v)
    }

    fn room(&self, blocks: usize) -> bool {
        self.successors.len() + blocks < self.most_blocks
    }

    /// Statements in loop `inner`, from the block `open` that has no successor yet; gives back the block that is open at the end.
    fn sequence(&mut self, inner: usize, mut open: usize, steps: usize, deep: usize) -> usize {
        for _ in 0..steps {
            if !self.room(5) {
                break;
            }
            if self.cycles && self.random.once_in(3) {
                open = self.undeclared(inner, open, deep);
                continue;
            }
            open = match self.random.below(10) {
                0 | 1 => {
                    let next = self.block(inner);
                    self.edge(open, next);
                    if self.random.once_in(6) {
                        self.edge(open, next);
                    }
                    next
                }
                2 | 3 => self.branch(inner, open, deep),
                4..=7 if deep < 15 && self.parent.len() < self.most_loops => self.cycle(inner, open, deep),
                8 => self.jump(inner, open),
                9 => {
                    // the routine may end here
                    let next = self.block(inner);
                    self.edge(open, next);
                    self.returns.push(open);
                    next
                }
                _ => open,
            };
        }
        open
    }

    fn branch(&mut self, inner: usize, open: usize, deep: usize) -> usize {
        let one = self.block(inner);
        self.edge(open, one);
        let steps = self.random.below(3);
        let one = self.sequence(inner, one, steps, deep);
        let join = if self.random.once_in(2) {
            let two = self.block(inner);
            self.edge(open, two);
            let steps = self.random.below(3);
            let two = self.sequence(inner, two, steps, deep);
            let join = self.block(inner);
            self.edge(two, join);
            join
        } else {
            let join = self.block(inner);
            self.edge(open, join);
            join
        };
        self.edge(one, join);
        join
    }

    fn cycle(&mut self, inner: usize, open: usize, deep: usize) -> usize {
        let (l, header) = self.new_loop(inner);
        self.edge(open, header);
        let steps = self.random.below(4);
        let last = match self.random.below(4) {
            0 => header,
            1 => {
                let body = self.block(l);
                self.edge(header, body);
                let last = self.sequence(l, body, steps, deep + 1);
                self.edge(last, header);
                let after = self.block(inner);
                self.edge(header, after);
                return after;
            }
            _ => self.sequence(l, header, steps, deep + 1),
        };
        self.edge(last, header);
        let after = self.block(inner);
        self.edge(last, after);
        after
    }

    /// Statements in a cycle that no loop declares, or now and then the same with the loop declared. It is entered and left as usual, or there
    /// is a way past it, and it may be that nothing leads to it or that it is never left.
    fn undeclared(&mut self, inner: usize, open: usize, deep: usize) -> usize {
        let (blocks, loops) = (self.successors.len(), self.parent.len());
        let declared = loops < self.most_loops && deep < 15 && self.random.once_in(4);
        let (l, first) = if declared { self.new_loop(inner) } else { (inner, self.block(inner)) };
        let steps = self.random.below(4);
        let last = self.sequence(l, first, steps, deep + usize::from(declared));
        self.edge(last, first);
        self.free(blocks, loops);
        let after = self.block(inner);
        let passed = self.random.below(3);
        if passed < 2 {
            self.edge(open, first);
        }
        if passed > 0 {
            self.edge(open, after);
        }
        match self.random.below(4) {
            0 if passed > 0 => {}
            1 if passed > 0 => self.edge(last, first),
            _ => self.edge(last, after),
        }
        after
    }

    /// All blocks and loops from these on are to cost nothing.
    fn free(&mut self, blocks: usize, loops: usize) {
        self.free_blocks.extend(blocks..self.successors.len());
        self.free_loops.extend(loops..self.parent.len());
    }

    /// A second way out of `open`: to the header of a loop around it, or to some block that an edge may reach.
    fn jump(&mut self, inner: usize, open: usize) -> usize {
        let next = self.block(inner);
        self.edge(open, next);
        let around = self.around(inner);
        let l = self.random.pick(&around);
        if l != 0 {
            let header = self.header[l];
            self.edge(open, header);
        }
        next
    }

    /// Loops one in another, `levels` deep.
    fn nest(&mut self, inner: usize, open: usize, levels: usize) -> usize {
        let (l, header) = self.new_loop(inner);
        self.edge(open, header);
        let last = if levels > 1 { self.nest(l, header, levels - 1) } else { header };
        self.edge(last, header);
        let after = self.block(inner);
        self.edge(last, after);
        after
    }

    /// Takes a block with one way out of the way, so that edges leave and enter loops at once.
    fn shorten(&mut self) {
        let b = self.random.below(self.successors.len());
        if b == 0 || self.header.contains(&b) || self.successors[b].len() != 1 || self.successors[b][0] == b {
            return;
        }
        let to = self.successors[b][0];
        for u in 0..self.successors.len() {
            for slot in 0..self.successors[u].len() {
                if self.successors[u][slot] == b && self.legal(u, to) {
                    self.successors[u][slot] = to;
                }
            }
        }
    }
}

/// What a routine is to look like.
#[derive(Clone, Copy)]
pub struct Plan {
    pub blocks: usize,
    pub exact: bool,
    pub loops: usize,
    pub nest: usize,
}

fn plan(random: &mut Random) -> Plan {
    let free = |blocks, loops| Plan { blocks, exact: false, loops, nest: 0 };
    match random.below(200) {
        0 => Plan { blocks: 1024 + random.below(2), exact: true, loops: 64, nest: 0 },
        1 => Plan { blocks: random.range(200, 1024), exact: true, loops: random.range(2, 64), nest: 0 },
        2..=5 => Plan { blocks: 200, exact: false, loops: 64 + random.below(2), nest: 0 },
        6..=17 => Plan { blocks: 60, exact: false, loops: 20, nest: random.range(12, 17) },
        18..=20 => Plan { blocks: 2, exact: true, loops: 1, nest: 0 },
        21..=60 => free(random.range(20, 60), 12),
        _ => free(random.range(4, 20), 6),
    }
}

/// A routine with its costs and limits, its figures and multipliers made so that many are accepted.
pub fn routine(random: &mut Random) -> Tables {
    let plan = plan(random);
    let cycles = random.once_in(8);
    planned(random, plan, cycles)
}

/// A large routine without cycles that no loop declares, unless odd edges close some.
pub fn large(random: &mut Random) -> Tables {
    let plan = Plan { blocks: random.range(500, 1024), exact: true, loops: random.range(2, 64), nest: random.pick(&[0, 0, 15]) };
    planned(random, plan, false)
}

fn planned(random: &mut Random, plan: Plan, cycles: bool) -> Tables {
    let mut b = Builder {
        random,
        successors: vec![Vec::new()],
        inner: vec![0],
        parent: vec![0],
        header: vec![0],
        most_blocks: plan.blocks,
        most_loops: plan.loops,
        returns: Vec::new(),
        cycles,
        free_blocks: Vec::new(),
        free_loops: Vec::new(),
    };
    let mut open = 0;
    if plan.nest > 0 {
        open = b.nest(0, open, plan.nest);
    }
    if plan.loops >= 64 {
        while b.parent.len() < plan.loops {
            let deep = b.random.below(3);
            open = if deep > 0 && b.parent.len() + deep <= plan.loops { b.nest(0, open, deep) } else { b.cycle(0, open, 15) };
        }
    }
    let steps = b.random.range(1, 8);
    open = b.sequence(0, open, steps, plan.nest);
    if plan.exact {
        let row = b.successors.len();
        while b.successors.len() + 1 < plan.blocks {
            let next = b.block(0);
            b.edge(open, next);
            open = next;
        }
        // the whole row in one cycle
        if b.cycles && open >= row {
            b.edge(open, row);
            let loops = b.parent.len();
            b.free(row, loops);
        }
    }
    finish(b, open)
}

/// The exit, some odd edges, numbers in another order, then costs, limits, multipliers and figures.
fn finish(mut b: Builder, open: usize) -> Tables {
    let count = b.successors.len();
    let inside = b.random.below(count);
    let exit = if inside != 0 && b.successors[inside].len() < 2 && b.random.once_in(6) {
        // the exit lies where `inside` is, now and then as the header of a loop
        let around = b.inner[inside];
        let exit = if b.random.once_in(3) { b.new_loop(around).1 } else { b.block(around) };
        b.edge(inside, exit);
        exit
    } else {
        let exit = b.block(0);
        b.edge(open, exit);
        exit
    };
    for u in std::mem::take(&mut b.returns) {
        if b.successors[u].len() < 2 && b.legal(u, exit) {
            b.edge(u, exit);
        }
    }
    while b.random.once_in(3) {
        b.shorten();
    }
    let n = b.successors.len();
    // odd edges, some of which close cycles of no loop
    let odd = if b.random.once_in(4) { 3 } else { 0 };
    for _ in 0..odd {
        let (u, v) = (b.random.below(n), b.random.below(n));
        if u != exit && b.successors[u].len() < 2 && b.legal(u, v) && (u < v || b.random.once_in(4)) {
            b.edge(u, v);
        }
    }
    let m = b.parent.len();
    let mixed = b.random.once_in(2);
    // places of blocks: the entry first, the exit last
    let mut order: Vec<usize> = (1..n).filter(|u| *u != exit).collect();
    if mixed {
        b.random.shuffle(&mut order);
    }
    let mut place = vec![0; n];
    for (i, u) in order.iter().enumerate() {
        place[*u] = i + 1;
    }
    place[exit] = n - 1;
    // places of loops: a parent before its children
    let mut loop_place = vec![0; m];
    let mut waiting: Vec<usize> = (1..m).collect();
    let mut done = vec![0];
    while !waiting.is_empty() {
        let ready: Vec<usize> = waiting.iter().copied().filter(|l| done.contains(&b.parent[*l])).collect();
        let l = if mixed { b.random.pick(&ready) } else { ready[0] };
        loop_place[l] = done.len();
        done.push(l);
        waiting.retain(|other| *other != l);
    }
    let mut tables = Tables::default();
    let blocks = &mut tables.blocks;
    blocks.cost = vec![0; n];
    blocks.inner = vec![0; n];
    blocks.first = vec![MISSING; n];
    blocks.second = vec![MISSING; n];
    blocks.figure = vec![0; n];
    let costs = b.random.below(6);
    for u in 0..n {
        let at = place[u];
        blocks.cost[at] = match costs {
            _ if b.free_blocks.contains(&u) => 0,
            0 => 0,
            1 => b.random.below(1_000_001) as u32,
            2 => 1_000_000 - b.random.below(2) as u32,
            _ => b.random.below(10) as u32,
        };
        blocks.inner[at] = loop_place[b.inner[u]] as u16;
        let named: Vec<u16> = b.successors[u].iter().map(|v| place[*v] as u16).collect();
        let swap = b.random.once_in(2);
        let (one, two) = (named.first().copied().unwrap_or(MISSING), named.get(1).copied().unwrap_or(MISSING));
        (blocks.first[at], blocks.second[at]) = if swap { (two, one) } else { (one, two) };
    }
    let loops = &mut tables.loops;
    loops.parent = vec![0; m];
    loops.header = vec![0; m];
    loops.limit = vec![1; m];
    loops.multiplier = vec![0; m];
    let limits = b.random.below(8);
    for l in 1..m {
        let at = loop_place[l];
        loops.parent[at] = loop_place[b.parent[l]] as u16;
        loops.header[at] = place[b.header[l]] as u16;
        loops.limit[at] = match limits {
            _ if b.free_loops.contains(&l) => 1,
            0 => b.random.range(1, 65_535) as u32,
            1 => b.random.pick(&[1, 2, 65_534, 65_535]),
            2 => 1,
            _ => b.random.range(1, 5) as u32,
        };
    }
    solve(b.random, &mut tables);
    tables
}

/// All edges, by source; a doubled one is there twice.
pub fn edges(blocks: &Blocks) -> Vec<(usize, usize)> {
    let mut edges = Vec::new();
    for u in 0..blocks.cost.len() {
        for v in [blocks.first[u], blocks.second[u]] {
            if v != MISSING {
                edges.push((u, usize::from(v)));
            }
        }
    }
    edges
}

/// Multipliers from the innermost loops outwards, each the longest round of its loop; then figures as longest ways on from a block. A cycle
/// that gains stops after some sweeps, and an edge of it will break its inequality.
fn solve(random: &mut Random, tables: &mut Tables) {
    let Tables { blocks, loops } = tables;
    let (n, m) = (blocks.cost.len(), loops.parent.len());
    let edges = edges(blocks);
    let inside = |blocks: &Blocks, loops: &Loops, u: usize, l: usize| {
        let mut at = usize::from(blocks.inner[u]);
        while at > l {
            at = usize::from(loops.parent[at]);
        }
        at == l
    };
    let weight = |blocks: &Blocks, loops: &Loops, u: usize, v: usize| -> i128 {
        let cost = i128::from(blocks.cost[v]);
        let l = usize::from(blocks.inner[v]);
        if usize::from(loops.header[l]) != v {
            return cost;
        }
        let multiplier = i128::from(loops.multiplier[l]);
        if inside(blocks, loops, u, l) {
            cost - multiplier
        } else {
            cost + multiplier * (i128::from(loops.limit[l]) - 1)
        }
    };
    const NONE: i128 = i128::MIN;
    for l in (1..m).rev() {
        let header = usize::from(loops.header[l]);
        let own: Vec<(usize, usize, i128)> = edges
            .iter()
            .filter(|(u, v)| inside(blocks, loops, *u, l) && inside(blocks, loops, *v, l))
            .map(|(u, v)| (*u, *v, if *v == header { i128::from(blocks.cost[*v]) } else { weight(blocks, loops, *u, *v) }))
            .collect();
        let mut way = vec![NONE; n];
        way[header] = 0;
        let mut round = 0;
        for _ in 0..n {
            let mut moved = false;
            for (u, v, w) in &own {
                if way[*u] == NONE {
                    continue;
                }
                if *v == header {
                    round = round.max(way[*u] + w);
                } else if way[*u] + w > way[*v] {
                    way[*v] = way[*u] + w;
                    moved = true;
                }
            }
            if !moved {
                break;
            }
        }
        let slack = if random.once_in(4) { random.below(10) as i128 } else { 0 };
        loops.multiplier[l] = (round + slack).min((1 << 40) + i128::from(random.once_in(8))) as u64;
    }
    let mut figure = vec![0i128; n];
    let weights: Vec<(usize, usize, i128)> = edges.iter().map(|(u, v)| (*u, *v, weight(blocks, loops, *u, *v))).collect();
    for _ in 0..n + 1 {
        let mut moved = false;
        for (u, v, w) in weights.iter().rev() {
            if figure[*v] + w > figure[*u] {
                figure[*u] = figure[*v] + w;
                moved = true;
            }
        }
        if !moved {
            break;
        }
    }
    // all figures may be moved together; the edges of the range are wanted
    let (low, high) = (*figure.iter().min().unwrap(), *figure.iter().max().unwrap());
    let shift = match random.below(8) {
        0 => (1 << 60) - high,
        1 => -(1 << 60) - low,
        2 => (1 << 60) - high + 1,
        3 => -(1 << 60) - low - 1,
        4 => 0,
        _ => random.below(2000) as i128 - 1000,
    };
    let shift = if shift.abs() > 1 << 58 && !random.once_in(4) { 0 } else { shift };
    for (to, from) in blocks.figure.iter_mut().zip(&figure) {
        *to = (from + shift).clamp(i128::from(i64::MIN), i128::from(i64::MAX)) as i64;
    }
    if random.once_in(6) {
        for u in 0..n {
            blocks.figure[u] = blocks.figure[u].wrapping_add(random.below(3) as i64);
        }
    }
}

/// Some other value: one away, at an edge of a rule, or anywhere in the type.
pub fn other(random: &mut Random, old: i128, edges: &[i128], low: i128, high: i128) -> i128 {
    let value = match random.below(5) {
        0 => old + 1,
        1 => old - 1,
        2 | 3 => random.pick(edges) + random.pick(&[-1, 0, 0, 1]),
        _ => low + i128::from(random.next()) * (high - low + 1) / (1 << 64),
    };
    value.clamp(low, high)
}

fn small(random: &mut Random, old: u16, n: usize, m: usize) -> u16 {
    if random.once_in(2) {
        return random.below(n.max(m) + 1) as u16;
    }
    other(random, i128::from(old), &[0, n as i128 - 1, n as i128, m as i128, 1024, 65_535], 0, 65_535) as u16
}

/// Changes one value of a table.
pub fn damage(random: &mut Random, tables: &mut Tables) {
    let Tables { blocks, loops } = tables;
    let (n, m) = (blocks.cost.len(), loops.parent.len());
    if n == 0 || m == 0 {
        return;
    }
    let u = if random.once_in(4) { n - 1 } else { random.below(n) };
    let l = random.below(m);
    match random.below(14) {
        0 => blocks.cost[u] = other(random, i128::from(blocks.cost[u]), &[0, 1_000_000, 1 << 31, 1 << 32], 0, (1 << 32) - 1) as u32,
        1 => blocks.inner[u] = random.below(m + 1) as u16,
        2 => blocks.inner[u] = small(random, blocks.inner[u], m, m),
        3 => blocks.first[u] = small(random, blocks.first[u], n, n),
        4 => blocks.second[u] = small(random, blocks.second[u], n, n),
        5 => blocks.second[u] = random.below(n) as u16,
        6 | 7 => {
            let edges = [0, 1 << 60, -(1 << 60), i128::from(i64::MIN), i128::from(i64::MAX)];
            let old = i128::from(blocks.figure[u]);
            blocks.figure[u] = other(random, old, &edges, i128::from(i64::MIN), i128::from(i64::MAX)) as i64;
        }
        8 => loops.parent[l] = small(random, loops.parent[l], l, m),
        9 => loops.header[l] = small(random, loops.header[l], n, n),
        10 => loops.header[l] = random.below(n) as u16,
        11 => loops.limit[l] = other(random, i128::from(loops.limit[l]), &[0, 1, 65_535, 65_536, 1 << 32], 0, (1 << 32) - 1) as u32,
        12 => loops.limit[l] = loops.limit[l].wrapping_add(random.pick(&[1, 2, u32::MAX])),
        _ => {
            let old = i128::from(loops.multiplier[l]);
            loops.multiplier[l] = other(random, old, &[0, 1 << 40, 1 << 63, 1 << 64], 0, (1 << 64) - 1) as u64;
        }
    }
}

/// Changes the length of one column or of all.
pub fn reshape(random: &mut Random, tables: &mut Tables) {
    let Tables { blocks, loops } = tables;
    let (n, m) = (blocks.cost.len(), loops.parent.len());
    let near = |random: &mut Random, length: usize| random.pick(&[0, 1, length.saturating_sub(1), length + 1, length / 2, 2 * length, 1024, 1025, 2000]);
    match random.below(12) {
        0 => blocks.cost.resize(near(random, n), 0),
        1 => blocks.inner.resize(near(random, n), 0),
        2 => blocks.first.resize(near(random, n), MISSING),
        3 => blocks.second.resize(near(random, n), MISSING),
        4 => blocks.figure.resize(near(random, n), 0),
        5 => loops.parent.resize(near(random, m), 0),
        6 => loops.header.resize(near(random, m), 0),
        7 => loops.limit.resize(near(random, m), 1),
        8 => loops.multiplier.resize(near(random, m), 0),
        9 => {
            let n = random.pick(&[0, 1, 2, 1024, 1025, n + 1]);
            blocks.cost.resize(n, 0);
            blocks.inner.resize(n, 0);
            blocks.first.resize(n, MISSING);
            blocks.second.resize(n, MISSING);
            blocks.figure.resize(n, 0);
        }
        10 => {
            let m = random.pick(&[0, 1, 64, 65, m + 1]);
            loops.parent.resize(m, 0);
            loops.header.resize(m, 0);
            loops.limit.resize(m, 1);
            loops.multiplier.resize(m, 0);
        }
        _ => *tables = Tables { blocks: Blocks::default(), ..tables.clone() },
    }
}

/// Small tables of any values, most of them near the rules.
pub fn noise(random: &mut Random) -> Tables {
    let (n, m) = (random.range(2, 5), random.range(1, 3));
    let mut tables = Tables::default();
    let wild = random.pick(&[4, 40, 400]);
    for u in 0..n {
        let successor = |random: &mut Random| if random.once_in(3) || u == n - 1 { MISSING } else { random.range(1, n - 1) as u16 };
        tables.blocks.cost.push(random.below(4) as u32);
        tables.blocks.inner.push(if u < m { u as u16 } else { random.below(m) as u16 });
        let (first, second) = (successor(random), successor(random));
        tables.blocks.first.push(first);
        tables.blocks.second.push(second);
        tables.blocks.figure.push((n - u) as i64 * 4 + random.below(8) as i64 - 4);
    }
    for l in 0..m {
        tables.loops.parent.push(random.below(l.max(1)) as u16);
        tables.loops.header.push(l as u16);
        tables.loops.limit.push(if l == 0 { 1 } else { random.range(1, 3) as u32 });
        tables.loops.multiplier.push(if l == 0 { 0 } else { random.below(9) as u64 });
    }
    while random.once_in(2) {
        if random.once_in(wild) {
            damage(random, &mut tables);
        }
    }
    tables
}

/// A pair of tables: good, damaged, of another shape, or noise.
pub fn tables(random: &mut Random) -> Tables {
    let kind = random.below(20);
    if kind == 0 {
        return noise(random);
    }
    let mut tables = routine(random);
    if kind >= 9 {
        for _ in 0..random.pick(&[1, 1, 1, 1, 2, 3]) {
            damage(random, &mut tables);
        }
    }
    if kind == 8 {
        reshape(random, &mut tables);
    }
    tables
}

/// A walk: a run of the graph by a plan, then perhaps one change.
pub fn walk(random: &mut Random, tables: &Tables) -> Vec<u16> {
    let Tables { blocks, loops } = tables;
    if random.once_in(40) {
        return Vec::new();
    }
    let list = run(random, blocks, loops);
    changed(random, blocks.first.len(), list)
}

/// Perhaps one change in a walk of a routine with `n` blocks.
fn changed(random: &mut Random, n: usize, mut list: Vec<u16>) -> Vec<u16> {
    let any = |random: &mut Random| {
        let inside = random.below(n + 1);
        random.pick(&[0, 1, n.wrapping_sub(1), n, n + 1, 1023, 1024, 65_534, 65_535, inside, inside, inside]) as u16
    };
    match random.below(12) {
        0 => list.truncate(random.below(list.len() + 1)),
        1 => {
            for _ in 0..random.range(1, 3) {
                let block = any(random);
                list.push(block);
            }
        }
        2 | 3 => {
            let at = random.below(list.len());
            list[at] = any(random);
        }
        4 => {
            let at = random.below(list.len() + 1);
            let block = any(random);
            list.insert(at, block);
        }
        5 => {
            let at = random.below(list.len());
            list.remove(at);
        }
        6 if random.once_in(3) => list[0] = any(random),
        7 if random.once_in(3) => list = vec![any(random)],
        _ => {}
    }
    list
}

/// A recording: a run that takes no heed of limits, then perhaps one change.
pub fn recording(random: &mut Random, tables: &Tables) -> Vec<u16> {
    let list = wander(random, &tables.blocks);
    if random.once_in(3) { changed(random, tables.blocks.first.len(), list) } else { list }
}

/// A run from block 0 by any edges, not to the exit if it can be helped, and after some blocks by the shortest way there.
fn wander(random: &mut Random, blocks: &Blocks) -> Vec<u16> {
    let n = blocks.first.len();
    let mut list = vec![0u16];
    if n == 0 || blocks.second.len() < n {
        return list;
    }
    let far = distances(blocks);
    let turn = if random.once_in(40) { 3000 } else { random.pick(&[0, 5, 20, 100, 300]) };
    let stays = random.once_in(2);
    loop {
        let u = usize::from(list[list.len() - 1]);
        let mut ends: Vec<usize> = [blocks.first[u], blocks.second[u]].into_iter().map(usize::from).filter(|v| *v < n && far[*v] < n).collect();
        ends.sort_by_key(|v| far[*v]);
        if ends.is_empty() || list.len() > turn + n {
            return list;
        }
        let near = list.len() >= turn || (ends.len() == 2 && ends[0] != n - 1 && random.once_in(if stays { 4 } else { 2 }));
        list.push(ends[if near { 0 } else { ends.len() - 1 }] as u16);
    }
}

/// A run from block 0 that follows edges, by one of some habits: toward the exit, round and round, up to the limits, or past them.
fn run(random: &mut Random, blocks: &Blocks, loops: &Loops) -> Vec<u16> {
    let n = blocks.first.len();
    let m = loops.parent.len();
    let habit = random.below(6);
    let longest = if random.once_in(50) { 5000 } else { 300 };
    let mut list = vec![0u16];
    // the tables may be of any shape here: what cannot be followed ends the run
    if n == 0 || m == 0 || [blocks.inner.len(), blocks.second.len()].iter().any(|length| *length < n) {
        return list;
    }
    let around = |u: usize| {
        let mut around = Vec::new();
        let mut l = usize::from(blocks.inner[u]);
        while l < m && around.len() < 64 {
            around.push(l);
            if l == 0 {
                break;
            }
            l = usize::from(loops.parent[l]);
        }
        around
    };
    let far = distances(blocks);
    let mut visits = vec![0u32; m];
    while list.len() < longest {
        let u = usize::from(list[list.len() - 1]);
        let named: Vec<usize> = [blocks.first[u], blocks.second[u]].iter().map(|v| usize::from(*v)).filter(|v| *v < n).collect();
        if named.is_empty() {
            break;
        }
        let from = around(u);
        // the header that `v` is, and the count it would have
        let count = |v: usize| {
            let l = usize::from(blocks.inner[v]);
            if l < m && l < loops.header.len() && usize::from(loops.header[l]) == v {
                Some((l, if from.contains(&l) { visits[l] + 1 } else { 1 }))
            } else {
                None
            }
        };
        let within = |v: usize| count(v).map_or(true, |(l, count)| loops.limit.get(l).map_or(true, |limit| count <= *limit));
        let allowed: Vec<usize> = named.iter().copied().filter(|v| within(*v)).collect();
        let choices = if habit == 5 || allowed.is_empty() { &named } else { &allowed };
        let mut v = random.pick(choices);
        match habit {
            // the shortest way out
            0 => v = *choices.iter().min_by_key(|v| far[**v]).unwrap(),
            // most often
            1 if !random.once_in(3) => v = *choices.iter().min_by_key(|v| far[**v]).unwrap(),
            // stay as long as the limits let it
            2 | 3 | 5 => {
                if let Some(header) = choices.iter().find(|v| count(**v).is_some_and(|(l, _)| from.contains(&l))) {
                    v = *header;
                }
            }
            _ => {}
        }
        let passed = !within(v);
        if let Some((l, count)) = count(v) {
            visits[l] = count;
        }
        list.push(v as u16);
        if passed {
            break;
        }
    }
    list
}

/// All runs of at most `left` further blocks from the last block of `run` to the exit, whatever the limits are.
pub fn finished(tables: &Tables, run: &mut Vec<u16>, left: usize, found: &mut Vec<Vec<u16>>) {
    let u = usize::from(run[run.len() - 1]);
    if u == tables.blocks.cost.len() - 1 {
        found.push(run.clone());
    }
    let mut ends: Vec<u16> = [tables.blocks.first[u], tables.blocks.second[u]].into_iter().filter(|v| *v != MISSING).collect();
    ends.dedup();
    for v in ends.into_iter().filter(|_| left > 0) {
        run.push(v);
        finished(tables, run, left - 1, found);
        run.pop();
    }
}

/// How far each block is from the last one.
fn distances(blocks: &Blocks) -> Vec<usize> {
    let n = blocks.first.len();
    let mut far = vec![usize::MAX; n];
    far[n - 1] = 0;
    for _ in 0..n {
        let mut moved = false;
        for u in (0..n).rev() {
            for v in [blocks.first[u], blocks.second[u]] {
                let v = usize::from(v);
                if v < n && far[v] != usize::MAX && far[v] + 1 < far[u] {
                    far[u] = far[v] + 1;
                    moved = true;
                }
            }
        }
        if !moved {
            break;
        }
    }
    far
}
