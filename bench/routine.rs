// Routines with loops three deep and with figures and multipliers that are accepted; the largest has 1,024 blocks and 64 loops. Routines with
// loops of any nesting and without figures, for the solver, and one of headers alone. Walks through these.
use std::fmt::Write;

pub const MISSING: u16 = 65535;
const BODY: usize = 14;

#[derive(Default, Clone, PartialEq)]
pub struct Blocks {
    pub cost: Vec<u32>,
    pub loops: Vec<u16>,
    pub first: Vec<u16>,
    pub second: Vec<u16>,
    pub figure: Vec<i64>,
}

#[derive(Default, Clone, PartialEq)]
pub struct Loops {
    pub parent: Vec<u16>,
    pub header: Vec<u16>,
    pub limit: Vec<u32>,
    pub multiplier: Vec<u64>,
}

#[derive(Default, Clone, PartialEq)]
pub struct Routine {
    pub blocks: Blocks,
    pub loops: Loops,
}

// A second certificate, for the shortest time.
pub struct Low {
    pub figure: Vec<i64>,
    pub multiplier: Vec<u64>,
    pub least: Vec<u32>,
}

impl Blocks {
    pub fn room(n: usize) -> Blocks {
        Blocks { cost: vec![0; n], loops: vec![0; n], first: vec![0; n], second: vec![0; n], figure: vec![0; n] }
    }
}

#[cfg(before)]
impl Loops {
    pub fn room(m: usize) -> Loops {
        Loops { parent: vec![0; m], header: vec![0; m], limit: vec![0; m], multiplier: vec![0; m] }
    }
}

impl Routine {
    fn block(&mut self, inner: u16) -> usize {
        let k = self.blocks.cost.len();
        self.blocks.cost.push(1 + (k as u32 * 7919) % 20011);
        self.blocks.loops.push(inner);
        self.blocks.first.push(MISSING);
        self.blocks.second.push(MISSING);
        self.blocks.figure.push(0);
        k
    }

    // A block after block `last`.
    fn block_after(&mut self, last: usize, inner: u16) -> usize {
        self.join(&[last], inner)
    }

    // A block after each of these.
    fn join(&mut self, ends: &[usize], inner: u16) -> usize {
        let k = self.block(inner);
        for &end in ends {
            self.leads(end, k);
        }
        k
    }

    // A header leads on through its second successor, any other block through its first that is free.
    fn leads(&mut self, from: usize, to: usize) {
        let b = &mut self.blocks;
        if b.first[from] == MISSING { b.first[from] = to as u16 } else { b.second[from] = to as u16 }
    }

    // A loop after block `last`, with a loop for each further limit in the middle of its body. Gives its header, the cost of a stay and
    // what follows the loop follows the header.
    fn nest(&mut self, last: usize, parent: u16, limits: &[u32]) -> (usize, u64) {
        let l = self.loops.parent.len() as u16;
        let header = self.block_after(last, l);
        self.loops.parent.push(parent);
        self.loops.header.push(header as u16);
        self.loops.limit.push(limits[0]);
        self.loops.multiplier.push(0);
        let mut round = u64::from(self.blocks.cost[header]);
        let mut at = header;
        for i in 0..BODY {
            at = self.block_after(at, l);
            round += u64::from(self.blocks.cost[at]);
            if i == BODY / 2 && limits.len() > 1 {
                let (inner, stay) = self.nest(at, l, &limits[1..]);
                at = inner;
                round += stay;
            }
        }
        self.leads(at, header);
        self.loops.multiplier[l as usize] = round;
        (header, u64::from(self.blocks.cost[header]) + round * u64::from(limits[0] - 1))
    }

    // Loop 0 and no block.
    fn empty() -> Routine {
        Routine { blocks: Blocks::default(), loops: Loops { parent: vec![0], header: vec![0], limit: vec![1], multiplier: vec![0] } }
    }

    // n blocks with loops in proportion; no figures yet.
    fn unsolved(n: usize) -> Routine {
        let mut t = Routine::empty();
        let mut last = t.block(0);
        for _ in 0..21 * n / 1024 {
            last = t.nest(last, 0, &[17, 12, 20]).0;
        }
        let tail = t.blocks.cost.len();
        while t.blocks.cost.len() < n {
            last = t.block_after(last, 0);
        }
        // the tail may be walked by single steps or by double ones
        for u in tail..n - 2 {
            t.blocks.second[u] = u as u16 + 2;
        }
        t
    }

    pub fn sized(n: usize) -> Routine {
        let mut t = Routine::unsolved(n);
        t.solve();
        t
    }

    pub fn largest() -> Routine {
        Routine::sized(1024)
    }

    // The same with a cycle that no loop declares: the last two blocks before the exit, which cost nothing.
    pub fn with_cycle(n: usize) -> Routine {
        let mut t = Routine::unsolved(n);
        t.blocks.cost[n - 3] = 0;
        t.blocks.cost[n - 2] = 0;
        t.leads(n - 2, n - 3);
        t.solve();
        t
    }

    // `count` blocks after the blocks `ends`, one branch after another: if-then and if-then-else in turn. Gives the blocks that what follows
    // comes after.
    fn branches(&mut self, mut ends: Vec<usize>, count: usize, inner: u16) -> Vec<usize> {
        let last = self.blocks.cost.len() + count;
        let mut otherwise = false;
        while self.blocks.cost.len() < last {
            let test = self.join(&ends, inner);
            ends = vec![test];
            let arms = (last - self.blocks.cost.len()).min(1 + usize::from(otherwise));
            let then: Vec<usize> = (0..arms).map(|_| self.block_after(test, inner)).collect();
            if arms < 2 { ends.extend(then) } else { ends = then }
            otherwise = !otherwise;
        }
        ends
    }

    // The next loop of a list of depths, with those inside it: half of its own blocks, the inner loops, the other half, and a last block that
    // goes back to the header. It is left from the header, and every second loop from its last block too.
    fn loop_of(&mut self, ends: &[usize], parent: u16, depths: &[usize], own: usize) -> Vec<usize> {
        let k = self.loops.parent.len();
        let l = k as u16;
        let header = self.join(ends, l);
        self.loops.parent.push(parent);
        self.loops.header.push(header as u16);
        self.loops.limit.push(*[8, 6, 10, 4, 5].get(depths[k] - 2).unwrap_or(&2));
        self.loops.multiplier.push(0);
        let half = (own - 2) / 2;
        let mut ends = self.branches(vec![header], half, l);
        while depths.get(self.loops.parent.len()) == Some(&(depths[k] + 1)) {
            ends = self.loop_of(&ends, l, depths, own);
        }
        ends = self.branches(ends, own - 2 - half, l);
        let back = self.join(&ends, l);
        self.leads(back, header);
        if k % 2 == 0 { vec![header, back] } else { vec![header] }
    }

    // 1,024 blocks and, behind loop 0, a loop for each depth (that of loop 0 is 1), each inside the last one before it that is less deep. The
    // loops have equally many blocks of their own. No figures and no multipliers.
    pub fn nested(depths: &[usize]) -> Routine {
        const N: usize = 1024;
        let own = (N - 16) / depths.len();
        let depths = [&[1], depths].concat();
        let mut t = Routine::empty();
        let mut ends = vec![t.block(0)];
        while t.loops.parent.len() < depths.len() {
            ends = t.loop_of(&ends, 0, &depths, own);
        }
        ends = t.branches(ends, N - 1 - t.blocks.cost.len(), 0);
        t.join(&ends, 0);
        t
    }

    // 63 loops, at most 6 deep: three nests of 21.
    pub fn nested_six() -> Routine {
        let half = [3, 4, 5, 6, 6, 5, 6, 4, 5, 6];
        Routine::nested(&[&[2], &half[..], &half[..]].concat().repeat(3))
    }

    // 64 loops, 16 deep: a nest of three and four of fifteen. The limits are such that a walk of 1,048,576 blocks goes through all of them and
    // ends after the last nest.
    pub fn nested_sixteen() -> Routine {
        let nest: Vec<usize> = (2..=16).collect();
        let depths = [&[2, 3, 4], &nest.repeat(4)[..]].concat();
        let mut t = Routine::nested(&depths);
        for (limit, depth) in t.loops.limit[1..].iter_mut().zip(depths) {
            *limit = if depth < 4 { 2 } else { 3 };
        }
        t.loops.limit[64 - nest.len()] = 3;
        t
    }

    // 64 loops and nothing but headers between the entry and the exit. Loop 1 is around 20 nests of three loops, one after another: in a nest each
    // header leads to the next one inwards, the innermost to itself, and then back to the one around it. Two more loops come after loop 1, and
    // their headers name themselves.
    pub fn headers() -> Routine {
        let mut t = Routine::empty();
        t.block(0);
        for l in 1..64u16 {
            t.block(l);
            let (outermost, after) = (l % 3 == 2, l > 61);
            t.loops.parent.push(if l == 1 || after { 0 } else if outermost { 1 } else { l - 1 });
            t.loops.header.push(l);
            t.loops.limit.push(if l == 1 || after { 65535 } else { [3, 5, 2, 4][usize::from(l) % 4] });
            t.loops.multiplier.push(0);
        }
        t.block(0);
        t.leads(0, 1);
        t.leads(1, 2);
        t.leads(1, 62);
        for u in 2..62 {
            t.leads(u, if u % 3 == 1 { u } else { u + 1 });
            t.leads(u, if u % 3 != 2 { u - 1 } else if u == 59 { 1 } else { u + 3 });
        }
        for u in 62..64 {
            t.leads(u, u);
            t.leads(u, u + 1);
        }
        t
    }

    pub fn deepest(&self) -> usize {
        let parent = &self.loops.parent;
        let depth = |l: usize| 1 + std::iter::successors(Some(l), |&k| (k > 0).then(|| parent[k] as usize)).skip(1).count();
        (0..parent.len()).map(depth).max().unwrap()
    }

    pub fn edges(&self) -> usize {
        self.blocks.first.iter().chain(&self.blocks.second).filter(|&&v| v != MISSING).count()
    }

    pub fn inside(&self, u: usize, l: u16) -> bool {
        let mut k = self.blocks.loops[u];
        while k > l {
            k = self.loops.parent[k as usize];
        }
        k == l
    }

    // What the edge from u to v takes: the cost of v, less a round where it returns to a header, and with the further rounds of a stay where it
    // enters a loop.
    fn weight(&self, u: usize, v: u16) -> i64 {
        let l = self.blocks.loops[v as usize] as usize;
        let (cost, round) = (i64::from(self.blocks.cost[v as usize]), self.loops.multiplier[l] as i64);
        match (self.loops.header[l] == v, self.inside(u, l as u16)) {
            (false, _) => cost,
            (true, true) => cost - round,
            (true, false) => cost + round * (i64::from(self.loops.limit[l]) - 1),
        }
    }

    // The figures that begin as these and where each is the better one of its ways to the exit.
    fn figures(&self, mut figure: Vec<i64>, better: impl Fn(i64, i64) -> bool) -> Vec<i64> {
        let b = &self.blocks;
        let mut changed = true;
        while changed {
            changed = false;
            for u in (0..b.cost.len() - 1).rev() {
                for v in [b.first[u], b.second[u]].into_iter().filter(|&v| v != MISSING) {
                    let way = self.weight(u, v) + figure[v as usize];
                    if better(way, figure[u]) {
                        figure[u] = way;
                        changed = true;
                    }
                }
            }
        }
        figure
    }

    // Figures: the dearest way to the exit.
    fn solve(&mut self) {
        self.blocks.figure = self.figures(vec![0; self.blocks.cost.len()], |way, figure| way > figure);
    }

    // A second certificate: the cheapest way to the exit, with as many visits in each stay as the limit allows. One round of a loop costs always
    // the same here.
    pub fn low(&self) -> Low {
        let mut figure = vec![1 << 60; self.blocks.cost.len()];
        *figure.last_mut().unwrap() = 0;
        Low {
            figure: self.figures(figure, |way, figure| way < figure),
            multiplier: self.loops.multiplier.clone(),
            least: self.loops.limit.clone(),
        }
    }

    pub fn blocks_csv(&self) -> String {
        let b = &self.blocks;
        let mut text = String::new();
        let field = |v: u16| if v == MISSING { String::new() } else { v.to_string() };
        for k in 0..b.cost.len() {
            write!(text, "{k},{},{},{},{},{}\r\n", b.cost[k], b.loops[k], field(b.first[k]), field(b.second[k]), b.figure[k]).unwrap();
        }
        text
    }

    pub fn loops_csv(&self) -> String {
        let l = &self.loops;
        let mut text = String::new();
        for k in 0..l.parent.len() {
            write!(text, "{k},{},{},{},{}\r\n", l.parent[k], l.header[k], l.limit[k], l.multiplier[k]).unwrap();
        }
        text
    }

    // The fewest blocks from each block on to the exit.
    fn ahead(&self) -> Vec<usize> {
        let b = &self.blocks;
        let exit = b.cost.len() - 1;
        let mut ahead = vec![usize::MAX / 2; b.cost.len()];
        ahead[exit] = 0;
        let mut changed = true;
        while changed {
            changed = false;
            for u in (0..exit).rev() {
                for v in [b.first[u], b.second[u]].into_iter().filter(|&v| v != MISSING) {
                    let through = ahead[v as usize] + 1;
                    changed |= through < ahead[u];
                    ahead[u] = ahead[u].min(through);
                }
            }
        }
        ahead
    }

    // A finished counted run. Where a block has a second successor and the limits allow the first, `second` decides by the block and the length so far.
    fn run(&self, mut second: impl FnMut(usize, usize) -> bool) -> Vec<u16> {
        let b = &self.blocks;
        let mut visits = vec![0u32; self.loops.parent.len()];
        let mut walk = vec![0u16];
        let mut u = 0;
        while u != b.cost.len() - 1 {
            let l = b.loops[u] as usize;
            let heads = self.loops.header[l] as usize == u;
            let full = heads && l > 0 && visits[l] == self.loops.limit[l];
            let spare = b.second[u] != MISSING && (full || second(u, walk.len()));
            let v = if spare { b.second[u] as usize } else { b.first[u] as usize };
            let to = b.loops[v] as usize;
            if self.loops.header[to] as usize == v {
                visits[to] = if self.inside(u, to as u16) { visits[to] + 1 } else { 1 };
            }
            walk.push(v as u16);
            u = v;
        }
        walk
    }

    // A finished counted run of this length: it goes round wherever the limits and the length allow.
    pub fn walk(&self, length: usize) -> Vec<u16> {
        let exit = self.blocks.cost.len() - 1;
        let ahead = self.ahead();
        let walk = self.run(|u, so_far| {
            let left = length - so_far;
            ahead[self.blocks.first[u] as usize] + 1 > left || (self.blocks.loops[u] == 0 && exit - u > left)
        });
        assert_eq!(walk.len(), length);
        walk
    }

    // A finished counted run by chance, of about this length. Block numbers grow on the way to the exit: where they are ahead of the length, the lower
    // successor is next seven times in eight, else one time in eight.
    pub fn random_walk(&self, length: usize, random: &mut Random) -> Vec<u16> {
        let b = &self.blocks;
        self.run(|u, so_far| {
            let ahead = u * length > so_far * b.cost.len();
            let lower = ahead == (random.below(8) > 0);
            lower == (b.second[u] < b.first[u])
        })
    }
}

// A pseudorandom sequence (xorshift), the same for the same seed.
pub struct Random(u64);

impl Random {
    pub fn new(seed: u64) -> Random {
        Random(seed.wrapping_mul(0x9e37_79b9_7f4a_7c15) | 1)
    }

    pub fn next(&mut self) -> u32 {
        self.0 ^= self.0 << 13;
        self.0 ^= self.0 >> 7;
        self.0 ^= self.0 << 17;
        (self.0 >> 32) as u32
    }

    pub fn below(&mut self, n: u32) -> u32 {
        self.next() % n
    }
}
