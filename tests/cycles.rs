//! What the graph and the inequalities of a pair of tables have that rules 209 and 208 turn on. The comparison counts these kinds, so that the cases
//! are known to reach them.

use crate::graphs::{edges, Tables};

type Edge = (usize, usize);

/// The kinds that are wanted, each with its reply. A closed walk "only by" some edges is not there without them.
pub const KINDS: [(u32, &str, fn(&Graph) -> bool); 16] = [
    (209, "only by edges of a block to itself", |g| !g.undeclared(|(u, v)| u != v)),
    (209, "only by edges that enter a loop", |g| !g.undeclared(|(_, v)| !g.heads(v))),
    (209, "only by edges inside a declared loop", |g| !g.undeclared(|edge| !g.shares_loop(edge))),
    (209, "only by edges of unreachable blocks", |g| !g.undeclared(|(u, _)| g.reached[u])),
    (209, "only by edges of reachable blocks", |g| !g.undeclared(|(u, _)| !g.reached[u])),
    (209, "only by doubled edges", |g| !g.undeclared(|(u, _)| !g.doubled(u))),
    (209, "with every inequality kept", |g| !g.broken(|_| true)),
    (209, "with an inequality broken by an edge that does not return", |g| g.broken(|edge| !g.returns(edge))),
    (209, "with an inequality broken by an edge that returns", |g| g.broken(|edge| g.returns(edge))),
    (209, "with an inequality broken at block 0", |g| g.broken(|(u, _)| u == 0)),
    (209, "with inequalities broken only at unreachable blocks", |g| g.broken(|_| true) && !g.broken(|(u, _)| g.reached[u])),
    (208, "with a declared loop", |g| g.edges.iter().any(|edge| g.returns(*edge))),
    (0, "with a doubled edge that does not return", |g| g.edges.iter().any(|(u, v)| g.doubled(*u) && !g.returns((*u, *v)))),
    (0, "with a header that names itself", |g| g.edges.iter().any(|(u, v)| u == v)),
    (0, "with a return from an inner loop", |g| g.edges.iter().any(|(u, v)| g.returns((*u, *v)) && g.inner(*u) != g.inner(*v))),
    (0, "with a return in unreachable blocks", |g| g.edges.iter().any(|(u, v)| g.returns((*u, *v)) && !g.reached[*u])),
];

/// Whether some closed walk follows these edges, which are sorted by source: those are dropped whose end none of the others leaves.
pub fn closed(mut edges: Vec<Edge>) -> bool {
    loop {
        let sources: Vec<usize> = edges.iter().map(|(u, _)| *u).collect();
        edges.retain(|(_, v)| sources.binary_search(v).is_ok());
        if edges.len() == sources.len() {
            return !edges.is_empty();
        }
    }
}

/// The graph of a pair of tables that keep 201 to 207.
pub struct Graph<'a> {
    tables: &'a Tables,
    edges: Vec<Edge>,
    reached: Vec<bool>,
}

impl Graph<'_> {
    pub fn new(tables: &Tables) -> Graph<'_> {
        let edges = edges(&tables.blocks);
        let mut reached = vec![false; tables.blocks.cost.len()];
        let mut waiting = vec![0];
        while let Some(u) = waiting.pop() {
            if !std::mem::replace(&mut reached[u], true) {
                waiting.extend(edges.iter().filter(|(from, _)| *from == u).map(|(_, v)| *v));
            }
        }
        Graph { tables, edges, reached }
    }

    fn inner(&self, u: usize) -> usize {
        usize::from(self.tables.blocks.inner[u])
    }

    fn inside(&self, u: usize, l: usize) -> bool {
        let mut at = self.inner(u);
        while at > l {
            at = usize::from(self.tables.loops.parent[at]);
        }
        at == l
    }

    fn heads(&self, v: usize) -> bool {
        usize::from(self.tables.loops.header[self.inner(v)]) == v
    }

    fn returns(&self, (u, v): Edge) -> bool {
        self.heads(v) && self.inside(u, self.inner(v))
    }

    /// Whether both ends are inside one loop other than loop 0.
    fn shares_loop(&self, (u, v): Edge) -> bool {
        (1..self.tables.loops.parent.len()).any(|l| self.inside(u, l) && self.inside(v, l))
    }

    fn doubled(&self, u: usize) -> bool {
        self.tables.blocks.first[u] == self.tables.blocks.second[u]
    }

    /// Whether an edge of which `wanted` holds breaks its inequality.
    fn broken(&self, wanted: impl Fn(Edge) -> bool) -> bool {
        let Tables { blocks, loops } = self.tables;
        let needed = |(u, v): Edge| {
            let (l, multiplier) = (self.inner(v), i128::from(loops.multiplier[self.inner(v)]));
            let rounds = if self.returns((u, v)) { -1 } else { i128::from(loops.limit[l]) - 1 };
            i128::from(blocks.cost[v]) + if self.heads(v) { multiplier * rounds } else { 0 }
        };
        let fall = |(u, v): Edge| i128::from(blocks.figure[u]) - i128::from(blocks.figure[v]);
        self.edges.iter().any(|edge| wanted(*edge) && needed(*edge) > fall(*edge))
    }

    /// Whether a closed walk that no loop declares follows edges of which `wanted` holds.
    pub fn undeclared(&self, wanted: impl Fn(Edge) -> bool) -> bool {
        closed(self.edges.iter().copied().filter(|edge| !self.returns(*edge) && wanted(*edge)).collect())
    }
}
