// The table check, the check of a second certificate, the solver, the walk and the tally in plain Rust, with nothing proved: safe code with slices, loop sets as words, one pass per
// rule, one for 208 and the counts of 209 together.
use crate::routine::{Blocks, Loops, Low, Routine, MISSING};

type Refusal = (u32, usize);

fn sizes_fit(b: &Blocks, l: &Loops) -> bool {
    let (n, m) = (b.cost.len(), l.parent.len());
    (2..=1024).contains(&n)
        && (1..=64).contains(&m)
        && [b.loops.len(), b.first.len(), b.second.len(), b.figure.len()].iter().all(|&k| k == n)
        && [l.header.len(), l.limit.len(), l.multiplier.len()].iter().all(|&k| k == m)
}

fn loop_fits(t: &Routine, l: usize) -> bool {
    let (p, h, limit, multiplier) = (t.loops.parent[l] as usize, t.loops.header[l] as usize, t.loops.limit[l], t.loops.multiplier[l]);
    if l == 0 {
        return p == 0 && h == 0 && limit == 1 && multiplier == 0;
    }
    p < l && h < t.blocks.cost.len() && (1..=65535).contains(&limit) && multiplier <= 1 << 40
}

fn block_fits(t: &Routine, u: usize) -> bool {
    let (b, n) = (&t.blocks, t.blocks.cost.len());
    let names = |v: u16| v == MISSING || (v as usize) < n;
    b.cost[u] <= 1_000_000
        && (b.loops[u] as usize) < t.loops.parent.len()
        && names(b.first[u])
        && names(b.second[u])
        && (-(1i64 << 60)..=1 << 60).contains(&b.figure[u])
}

// Whether some edge out of block u ends at a block of which p holds.
fn some_edge(b: &Blocks, u: usize, p: impl Fn(usize) -> bool) -> bool {
    let present = |v: u16| v != MISSING && p(v as usize);
    present(b.first[u]) || present(b.second[u])
}

// A rule over its places: the lowest that breaks it decides.
fn lowest(number: u32, places: usize, broken: impl Fn(usize) -> bool) -> Result<(), Refusal> {
    (0..places).find(|&p| broken(p)).map_or(Ok(()), |p| Err((number, p)))
}

// 201 to 207: the loops around each loop, or the first refusal.
fn structure(t: &Routine) -> Result<[u64; 64], Refusal> {
    let (b, l) = (&t.blocks, &t.loops);
    if !sizes_fit(b, l) {
        return Err((201, 0));
    }
    let (n, m) = (b.cost.len(), l.parent.len());
    lowest(202, m, |k| !loop_fits(t, k))?;
    lowest(203, n, |u| !block_fits(t, u))?;
    lowest(204, m, |k| b.loops[l.header[k] as usize] as usize != k)?;
    let mut around = [0u64; 64];
    for k in 0..m {
        around[k] = around[l.parent[k] as usize] | 1 << k;
    }
    lowest(205, m, |k| around[k].count_ones() > 16)?;
    lowest(206, n, |u| some_edge(b, u, |v| v == 0 || u == n - 1))?;
    lowest(207, n, |u| {
        some_edge(b, u, |v| {
            let entered = around[b.loops[v] as usize] & !around[b.loops[u] as usize];
            entered != 0 && (entered.count_ones() != 1 || l.header[b.loops[v] as usize] as usize != v)
        })
    })?;
    Ok(around)
}

// What the inequalities are about: the tables' own figures, multipliers and limits, or those of a second certificate.
struct Numbers<'a> {
    figure: &'a [i64],
    multiplier: &'a [u64],
    visits: &'a [u32],
}

impl<'a> Numbers<'a> {
    fn own(t: &'a Routine) -> Numbers<'a> {
        Numbers { figure: &t.blocks.figure, multiplier: &t.loops.multiplier, visits: &t.loops.limit }
    }

    fn second(c: &'a Low) -> Numbers<'a> {
        Numbers { figure: &c.figure, multiplier: &c.multiplier, visits: &c.least }
    }
}

// Whether the edge from u to v keeps its inequality, and whether it returns to a header from inside the header's loop.
fn edge<const LOW: bool>(t: &Routine, c: &Numbers, around: &[u64; 64], u: usize, v: usize) -> (bool, bool) {
    let (b, l) = (&t.blocks, t.blocks.loops[v] as usize);
    let d = c.figure[u] - c.figure[v];
    let (cost, multiplier) = (i64::from(b.cost[v]), c.multiplier[l] as i64);
    let holds = |x: i64, y: i64| if LOW { x >= y } else { x <= y };
    if t.loops.header[l] as usize != v {
        (holds(cost, d), false)
    } else if around[b.loops[u] as usize] >> l & 1 == 1 {
        (holds(cost, d + multiplier), true)
    } else {
        (holds(cost + multiplier * (i64::from(c.visits[l]) - 1), d), false)
    }
}

// The edges that do not return: where each block's two end, MISSING for one that is left out, and how many end at each block.
struct Onward {
    ends: [[u16; 2]; 1024],
    incoming: [u16; 1024],
}

// The lowest block of which an edge breaks its inequality (208 or 453); on the way it collects what 209 needs, which comes first.
fn inequalities<const LOW: bool>(t: &Routine, c: &Numbers, around: &[u64; 64], onward: &mut Onward) -> Option<usize> {
    let b = &t.blocks;
    let mut broken = None;
    for u in 0..b.cost.len() {
        for (v, end) in [b.first[u], b.second[u]].into_iter().zip(&mut onward.ends[u]) {
            if v == MISSING {
                continue;
            }
            let (holds, returns) = edge::<LOW>(t, c, around, u, v as usize);
            if !holds && broken.is_none() {
                broken = Some(u);
            }
            if !returns {
                onward.incoming[v as usize] += 1;
                *end = v;
            }
        }
    }
    broken
}

// 209: a block is taken when all edges to it come from blocks taken before. One that is never taken lies on a closed walk or behind one. The
// blocks in the order in which they are taken, unless one is left.
fn order(n: usize, onward: &mut Onward) -> Result<[u16; 1024], Refusal> {
    let Onward { ends, incoming } = onward;
    let mut taken = [0u16; 1024];
    let mut count = 0;
    for u in 0..n {
        if incoming[u] == 0 {
            taken[count] = u as u16;
            count += 1;
        }
    }
    let mut next = 0;
    while next < count {
        for v in ends[taken[next] as usize] {
            if v != MISSING {
                incoming[v as usize] -= 1;
                if incoming[v as usize] == 0 {
                    taken[count] = v;
                    count += 1;
                }
            }
        }
        next += 1;
    }
    if count == n { Ok(taken) } else { Err((209, 0)) }
}

pub fn check(t: &Routine) -> Result<i64, Refusal> {
    let around = structure(t)?;
    let b = &t.blocks;
    let n = b.cost.len();
    let mut onward = Onward { ends: [[MISSING; 2]; 1024], incoming: [0; 1024] };
    let broken = inequalities::<false>(t, &Numbers::own(t), &around, &mut onward);
    order(n, &mut onward)?;
    if let Some(u) = broken {
        return Err((208, u));
    }
    Ok(i64::from(b.cost[0]) + b.figure[0] - b.figure[n - 1])
}

// 451 and 452
fn low_fits(c: &Low) -> Result<(), Refusal> {
    lowest(451, c.least.len(), |l| match l {
        0 => c.multiplier[0] != 0 || c.least[0] != 1,
        _ => c.multiplier[l] > 1 << 40 || c.least[l] > 65535,
    })?;
    lowest(452, c.figure.len(), |u| !(-(1i64 << 60)..=1 << 60).contains(&c.figure[u]))
}

pub fn shortest(t: &Routine, c: &Low) -> Result<i64, Refusal> {
    let (n, m) = (t.blocks.cost.len(), t.loops.parent.len());
    if c.figure.len() != n || c.multiplier.len() != m || c.least.len() != m {
        return Err((201, 0));
    }
    let around = structure(t)?;
    let mut onward = Onward { ends: [[MISSING; 2]; 1024], incoming: [0; 1024] };
    // 209 comes first, but its pass asks for 453 too where the numbers are in range
    let fits = low_fits(c);
    let broken = match fits {
        Ok(()) => inequalities::<true>(t, &Numbers::second(c), &around, &mut onward),
        Err(_) => {
            places(t, &around, &mut onward);
            None
        }
    };
    order(n, &mut onward)?;
    fits?;
    if let Some(u) = broken {
        return Err((453, u));
    }
    Ok(i64::from(t.blocks.cost[0]) + c.figure[0] - c.figure[n - 1])
}

// 201 to 207, then 209: the loops around each loop, or the first refusal.
pub fn structure_and_cycles(t: &Routine) -> Result<[u64; 64], Refusal> {
    let around = structure(t)?;
    let mut onward = Onward { ends: [[MISSING; 2]; 1024], incoming: [0; 1024] };
    places(t, &around, &mut onward);
    order(t.blocks.cost.len(), &mut onward)?;
    Ok(around)
}

// 201 to 207, then 431: no block has an edge to itself.
pub fn structure_and_self_edges(t: &Routine) -> Result<(), Refusal> {
    structure(t)?;
    lowest(431, t.blocks.cost.len(), |u| some_edge(&t.blocks, u, |v| v == u))
}

const NONE: i64 = -1;
const CAP: i64 = 1 << 62;
const LOWEST: i64 = -(1 << 62);

// The values that edges lead to: a place for each block, then one for the returns to each loop's header, then one for a missing successor.
const RETURNS: usize = 1024;
const NOWHERE: usize = RETURNS + 64;

// A pass fills values from the last block to the first; `values[x]` is the weight of x and of the best path on from it. A weight is what a
// forward edge to the block costs, NONE at a header whose multiplier is not made: no way passes there.
struct Solver<'a> {
    t: &'a Routine,
    depth: [usize; 64],
    order: &'a [u16],
    places: [[u16; 2]; 1024],
    weight: [i64; 1024],
    values: [i64; NOWHERE + 1],
    multiplier: [i64; 64],
}

impl Solver<'_> {
    // The best path on from block x.
    fn tail(&self, x: usize) -> i64 {
        let [first, second] = self.places[x];
        self.values[first as usize].max(self.values[second as usize])
    }

    // All loops of depth d at once: the paths stay inside the loop and return to its header at their end; at depth 1 they end at the exit.
    fn tails(&mut self, d: usize) {
        for (l, &h) in self.t.loops.header.iter().enumerate() {
            let cost = if l == 0 { 0 } else { i64::from(self.t.blocks.cost[h as usize]) };
            self.values[RETURNS + l] = if self.depth[l] == d { cost } else { NONE };
        }
        for &x in self.order.iter().rev() {
            let (tail, weight) = (self.tail(x as usize), self.weight[x as usize]);
            self.values[x as usize] = if tail < 0 || weight < 0 { NONE } else { (tail + weight).min(CAP) };
        }
    }

    // The multipliers, 402 for one over 2^40, and the figures of the headers. Depths from the innermost loops outwards; the tails at a header
    // by depth are kept for its figure.
    fn multipliers(&mut self) -> Result<[i64; 64], Refusal> {
        let m = self.t.loops.parent.len();
        let mut kept = [[NONE; 17]; 64];
        for d in (1..=self.depth[..m].iter().copied().max().unwrap_or(0)).rev() {
            self.tails(d);
            for l in 0..m {
                if self.depth[l] < d {
                    continue;
                }
                let header = self.t.loops.header[l] as usize;
                kept[l][d] = self.tail(header);
                if self.depth[l] == d && l > 0 {
                    let round = kept[l][d].max(0);
                    if round > 1 << 40 {
                        return Err((402, 0));
                    }
                    self.multiplier[l] = round;
                    self.weight[header] = i64::from(self.t.blocks.cost[header]) + round * (i64::from(self.t.loops.limit[l]) - 1);
                }
            }
        }
        let mut figure = [LOWEST; 64];
        for l in 0..m {
            let mut around = self.t.loops.parent[l] as usize;
            figure[l] = if kept[l][1] < 0 { LOWEST } else { kept[l][1] };
            while l > 0 && around > 0 {
                let tail = kept[l][self.depth[around]];
                if tail >= 0 {
                    figure[l] = figure[l].max(tail - self.multiplier[around] + figure[around]);
                }
                around = self.t.loops.parent[around] as usize;
            }
        }
        Ok(figure)
    }

    // The figures of all blocks by those of the headers: one more pass. 403 for one outside its limits, and for a block that has none.
    fn figures(&mut self, headers: &[i64; 64]) -> Result<[i64; 1024], Refusal> {
        for (l, &h) in self.t.loops.header.iter().enumerate().skip(1) {
            self.values[RETURNS + l] = i64::from(self.t.blocks.cost[h as usize]) - self.multiplier[l] + headers[l];
        }
        self.values[NOWHERE] = LOWEST;
        let mut figure = [0; 1024];
        for &x in self.order.iter().rev() {
            let way = self.tail(x as usize);
            if !(-(1 << 60)..=1 << 60).contains(&way) {
                return Err((403, 0));
            }
            figure[x as usize] = way;
            self.values[x as usize] = way + self.weight[x as usize];
        }
        Ok(figure)
    }
}

// 401: passes over the blocks until none gets a mark; the lowest without one is refused.
fn all_lead_out(b: &Blocks, order: &[u16]) -> Result<(), Refusal> {
    let n = b.cost.len();
    let mut marked = [false; 1024];
    marked[n - 1] = true;
    let mut grows = true;
    while grows {
        grows = false;
        for &x in order.iter().rev() {
            if !marked[x as usize] && some_edge(b, x as usize, |v| marked[v]) {
                marked[x as usize] = true;
                grows = true;
            }
        }
    }
    lowest(401, n, |u| !marked[u])
}

// Where the value of each edge stands; the forward edges are collected for the order as well.
fn places(t: &Routine, around: &[u64; 64], onward: &mut Onward) -> [[u16; 2]; 1024] {
    let b = &t.blocks;
    let n = b.cost.len();
    let mut places = [[NOWHERE as u16; 2]; 1024];
    for u in 0..n {
        for (i, v) in [b.first[u], b.second[u]].into_iter().enumerate().filter(|&(_, v)| v != MISSING) {
            let l = b.loops[v as usize];
            if t.loops.header[l as usize] == v && around[b.loops[u] as usize] >> l & 1 == 1 {
                places[u][i] = RETURNS as u16 + l;
            } else {
                places[u][i] = v;
                onward.incoming[v as usize] += 1;
                onward.ends[u][i] = v;
            }
        }
    }
    // no edge returns to loop 0's header: that place is the end of a path at the exit
    places[n - 1] = [RETURNS as u16; 2];
    places
}

// Remakes the figures and the multipliers by passes, one for all loops of a depth. 401 is asked where something is refused: with a figure at
// each block there is a path from each.
pub fn solve(t: &mut Routine) -> Result<i64, Refusal> {
    let around = structure(t)?;
    let n = t.blocks.cost.len();
    let mut onward = Onward { ends: [[MISSING; 2]; 1024], incoming: [0; 1024] };
    let places = places(t, &around, &mut onward);
    let order = order(n, &mut onward)?;
    let order = &order[..n];
    let mut weight = [0; 1024];
    for (weight, &cost) in weight.iter_mut().zip(&t.blocks.cost) {
        *weight = i64::from(cost);
    }
    for &h in &t.loops.header[1..] {
        weight[h as usize] = NONE;
    }
    let depth = around.map(|set| set.count_ones() as usize);
    let mut solver = Solver { t, depth, order, places, weight, values: [NONE; NOWHERE + 1], multiplier: [0; 64] };
    let figure = match solver.multipliers().and_then(|headers| solver.figures(&headers)) {
        Ok(figure) => figure,
        Err(refusal) => {
            all_lead_out(&t.blocks, order)?;
            return Err(refusal);
        }
    };
    let multiplier = solver.multiplier;
    t.blocks.figure.copy_from_slice(&figure[..n]);
    for (to, from) in t.loops.multiplier.iter_mut().zip(multiplier) {
        *to = from as u64;
    }
    Ok(i64::from(t.blocks.cost[0]) + t.blocks.figure[0])
}

// The length of a walk and its first block.
fn begins(walk: &[u16], n: usize) -> Result<(), Refusal> {
    if walk.is_empty() || walk.len() > 1 << 20 {
        return Err((301, 0));
    }
    if walk[0] as usize >= n {
        return Err((302, 0));
    }
    if walk[0] != 0 {
        return Err((303, 0));
    }
    Ok(())
}

// Whether a walk that stands at a block may go to v, limits apart; i is where v stands in the walk.
fn follows(b: &Blocks, at: usize, v: u16, i: usize) -> Result<(), Refusal> {
    let n = b.cost.len();
    if v as usize >= n {
        return Err((302, i));
    }
    if at == n - 1 {
        return Err((311, i));
    }
    if b.first[at] != v && b.second[at] != v {
        return Err((312, i));
    }
    Ok(())
}

pub fn walk(t: &Routine, walk: &[u16]) -> Result<(u64, u64), Refusal> {
    let around = structure(t)?;
    let b = &t.blocks;
    let n = b.cost.len();
    begins(walk, n)?;
    let mut counts = [0u32; 64];
    counts[0] = 1;
    let (mut at, mut cost) = (0usize, u64::from(b.cost[0]));
    for (i, &v) in walk.iter().enumerate().skip(1) {
        follows(b, at, v, i)?;
        let to = v as usize;
        let (from, l) = (around[b.loops[at] as usize], b.loops[to] as usize);
        if t.loops.header[l] == v {
            counts[l] = if from >> l & 1 == 1 { counts[l] + 1 } else { 1 };
            if counts[l] > t.loops.limit[l] {
                return Err((313, i));
            }
        }
        let mut left = from & !around[l];
        while left != 0 {
            counts[left.trailing_zeros() as usize] = 0;
            left &= left - 1;
        }
        at = to;
        cost += u64::from(b.cost[to]);
    }
    if at != n - 1 {
        return Err((314, walk.len()));
    }
    Ok((cost, walk.len() as u64 - 1))
}

// For each loop its stays and the most header visits in one, by the walker above with the limits left out.
pub fn tally(t: &Routine, walk: &[u16], stays: &mut [u32], greatest: &mut [u32]) -> Result<(u64, u64), Refusal> {
    let around = structure(t)?;
    let (b, m) = (&t.blocks, t.loops.parent.len());
    if stays.len() != m || greatest.len() != m {
        return Err((421, 0));
    }
    begins(walk, b.cost.len())?;
    let (mut counts, mut entered, mut most) = ([0u32; 64], [0u32; 64], [0u32; 64]);
    (counts[0], entered[0], most[0]) = (1, 1, 1);
    let (mut at, mut cost) = (0usize, u64::from(b.cost[0]));
    for (i, &v) in walk.iter().enumerate().skip(1) {
        follows(b, at, v, i)?;
        let to = v as usize;
        let (from, l) = (around[b.loops[at] as usize], b.loops[to] as usize);
        if t.loops.header[l] == v {
            let inside = from >> l & 1 == 1;
            counts[l] = if inside { counts[l] + 1 } else { 1 };
            entered[l] += u32::from(!inside);
            most[l] = most[l].max(counts[l]);
        }
        let mut left = from & !around[l];
        while left != 0 {
            counts[left.trailing_zeros() as usize] = 0;
            left &= left - 1;
        }
        at = to;
        cost += u64::from(b.cost[to]);
    }
    if at != b.cost.len() - 1 {
        return Err((314, walk.len()));
    }
    stays.copy_from_slice(&entered[..m]);
    greatest.copy_from_slice(&most[..m]);
    Ok((cost, walk.len() as u64 - 1))
}

// The same with less work: no count is cleared where a loop is left, since a visit from outside sets it to 1, and no cost is added up.
pub fn lean_tally(t: &Routine, walk: &[u16], stays: &mut [u32], greatest: &mut [u32]) -> Result<u64, Refusal> {
    let around = structure(t)?;
    let (b, m) = (&t.blocks, t.loops.parent.len());
    if stays.len() != m || greatest.len() != m {
        return Err((421, 0));
    }
    begins(walk, b.cost.len())?;
    let (mut counts, mut entered, mut most) = ([0u32; 64], [0u32; 64], [0u32; 64]);
    (counts[0], entered[0], most[0]) = (1, 1, 1);
    let mut at = 0;
    for (i, &v) in walk.iter().enumerate().skip(1) {
        follows(b, at, v, i)?;
        let l = b.loops[v as usize] as usize;
        if t.loops.header[l] == v {
            if around[b.loops[at] as usize] >> l & 1 == 1 {
                counts[l] += 1;
            } else {
                counts[l] = 1;
                entered[l] += 1;
            }
            most[l] = most[l].max(counts[l]);
        }
        at = v as usize;
    }
    if at != b.cost.len() - 1 {
        return Err((314, walk.len()));
    }
    stays.copy_from_slice(&entered[..m]);
    greatest.copy_from_slice(&most[..m]);
    Ok(walk.len() as u64 - 1)
}
