//! Request 3 of document 02, written from the papers alone: rounds and figures are longest paths, found by relaxation until nothing changes.
//! The numbers are 128 bits wide, and the making stops at the first multiplier over 2^40, so that none of them is ever wrong.

use crate::reference::{self, Blocks, Loops, Refusal};

/// What the solver makes: the two columns, and the bound of the tables with them.
#[derive(Clone, Debug, PartialEq, Eq)]
pub struct Certificate {
    pub figure: Vec<i64>,
    pub multiplier: Vec<u64>,
    pub bound: i64,
}

/// An edge with a weight.
type Edge = (usize, usize, i128);

/// The certificate of these tables, or 201 to 207, 209, 401, 402 and 403 in this order.
pub fn solve(blocks: &Blocks, loops: &Loops) -> Result<Certificate, Refusal> {
    let around = reference::declared(blocks, loops)?;
    let mut graph = Graph::new(blocks, loops, around);
    if let Some(u) = graph.stuck() {
        return reference::refuse(401, u);
    }
    if !graph.make_multipliers() {
        return reference::refuse(402, 0);
    }
    // every block has a path to the exit, so every figure is there
    let figure: Vec<i128> = graph.to_exit(|_, _| true).longest.into_iter().map(Option::unwrap).collect();
    if figure.iter().any(|figure| *figure < -(1 << 60) || *figure > 1 << 60) {
        return reference::refuse(403, 0);
    }
    let bound = i128::from(blocks.cost[0]) + figure[0] - figure[figure.len() - 1];
    Ok(Certificate {
        figure: figure.into_iter().map(|figure| i64::try_from(figure).unwrap()).collect(),
        multiplier: graph.multiplier.into_iter().map(|multiplier| u64::try_from(multiplier).unwrap()).collect(),
        bound: i64::try_from(bound).unwrap(),
    })
}

/// The bound of the live part of the tables, the blocks that have a path to the exit; None if block 0 has none. With no such block left out
/// it is the solver's bound. The tables keep 201 to 207 and 209, and no multiplier passes 2^40. (For tests/glpk.rs.)
#[allow(dead_code)]
pub fn live_bound(blocks: &Blocks, loops: &Loops) -> Option<i128> {
    let around = reference::shape(blocks, loops).expect("good tables");
    let mut graph = Graph::new(blocks, loops, around);
    assert!(graph.make_multipliers(), "a multiplier over 2^40");
    graph.to_exit(|_, _| true).longest[0].map(|figure| i128::from(blocks.cost[0]) + figure)
}

/// A finished counted run that costs the bound, by tables that the solver accepts; None if it has more than `most` blocks.
pub fn costly_run(blocks: &Blocks, loops: &Loops, most: usize) -> Option<Vec<u16>> {
    let around = reference::shape(blocks, loops).expect("good tables");
    let mut graph = Graph::new(blocks, loops, around);
    assert!(graph.make_multipliers(), "a multiplier over 2^40");
    // from block 0 a back edge gains nothing: the weight of the edge that entered its loop has the cost of all rounds
    let paths = graph.to_exit(|u, v| !graph.back_edge(u, v));
    let mut run = vec![0];
    graph.follow(&paths, 0, most, &mut run)?;
    Some(run)
}

/// The paths along some edges to an end, where the block `last` stands.
struct Paths {
    edges: Vec<Edge>,
    end: usize,
    last: usize,
    /// For each block the greatest weight of a path to the end; None if there is none.
    longest: Vec<Option<i128>>,
}

impl Paths {
    /// Relaxes all edges until nothing changes. No cycle of them may have a weight over 0.
    fn new(edges: Vec<Edge>, count: usize, end: usize, last: usize) -> Paths {
        let mut longest = vec![None; count];
        longest[end] = Some(0);
        let mut changed = true;
        while changed {
            changed = false;
            for (u, v, weight) in edges.iter().rev() {
                let by_edge = longest[*v].map(|rest: i128| rest + weight);
                // None is below every number
                if by_edge > longest[*u] {
                    longest[*u] = by_edge;
                    changed = true;
                }
            }
        }
        Paths { edges, end, last, longest }
    }
}

/// Tables that keep 201 to 207, and the multipliers as far as they are made.
struct Graph<'a> {
    blocks: &'a Blocks,
    loops: &'a Loops,
    /// For each block the loops around it.
    around: Vec<Vec<usize>>,
    /// For each block the loop that it is the header of.
    heads: Vec<Option<usize>>,
    edges: Vec<(usize, usize)>,
    multiplier: Vec<i128>,
}

impl<'a> Graph<'a> {
    fn new(blocks: &'a Blocks, loops: &'a Loops, around: Vec<Vec<usize>>) -> Graph<'a> {
        let (n, m) = (blocks.cost.len(), loops.parent.len());
        let from = |u: usize| reference::successors(blocks, u).into_iter().map(move |v| (u, v));
        let heads = (0..n).map(|u| (0..m).find(|l| usize::from(loops.header[*l]) == u)).collect();
        Graph { blocks, loops, around, heads, edges: (0..n).flat_map(from).collect(), multiplier: vec![0; m] }
    }

    fn cost(&self, v: usize) -> i128 {
        i128::from(self.blocks.cost[v])
    }

    fn header(&self, l: usize) -> usize {
        usize::from(self.loops.header[l])
    }

    fn inside(&self, u: usize, l: usize) -> bool {
        self.around[u].contains(&l)
    }

    /// Whether the edge from `u` to `v` is a back edge: `v` is the header of a loop that `u` is inside.
    fn back_edge(&self, u: usize, v: usize) -> bool {
        self.heads[v].is_some_and(|l| self.inside(u, l))
    }

    /// What the figure of `u` must exceed that of `v` by.
    fn weight(&self, u: usize, v: usize) -> i128 {
        match self.heads[v] {
            None => self.cost(v),
            Some(l) if self.inside(u, l) => self.cost(v) - self.multiplier[l],
            Some(l) => self.cost(v) + self.multiplier[l] * (i128::from(self.loops.limit[l]) - 1),
        }
    }

    /// The lowest block that has no path to the exit.
    fn stuck(&self) -> Option<usize> {
        let n = self.blocks.cost.len();
        let mut leads = vec![false; n];
        leads[n - 1] = true;
        while let Some((u, _)) = self.edges.iter().find(|(u, v)| leads[*v] && !leads[*u]) {
            leads[*u] = true;
        }
        leads.iter().position(|leads| !leads)
    }

    /// The rounds of loop `l`, to its header once more. An inner loop is entered at most once in a round, and its header is visited as often
    /// as its limit allows: the edge that enters it has the cost of all its rounds, and its back edges are left out.
    fn rounds(&self, l: usize) -> Paths {
        let (header, end) = (self.header(l), self.blocks.cost.len());
        let mut edges = Vec::new();
        for (u, v) in &self.edges {
            if !self.inside(*u, l) || !self.inside(*v, l) {
                continue;
            }
            if *v == header {
                edges.push((*u, end, self.cost(*v)));
            } else if !self.back_edge(*u, *v) {
                edges.push((*u, *v, self.weight(*u, *v)));
            }
        }
        Paths::new(edges, end + 1, end, header)
    }

    /// Makes the multipliers, inner loops first; false as soon as one is over 2^40.
    fn make_multipliers(&mut self) -> bool {
        for l in (1..self.multiplier.len()).rev() {
            self.multiplier[l] = self.rounds(l).longest[self.header(l)].unwrap_or(0);
            if self.multiplier[l] > 1 << 40 {
                return false;
            }
        }
        true
    }

    /// The paths to the exit along wanted edges. Along all edges the greatest weight from a block is its smallest figure, with the exit's at 0; a
    /// block without a path may have any figure.
    fn to_exit(&self, wanted: impl Fn(usize, usize) -> bool) -> Paths {
        let last = self.blocks.cost.len() - 1;
        let edges = self.edges.iter().filter(|(u, v)| wanted(*u, *v)).map(|(u, v)| (*u, *v, self.weight(*u, *v))).collect();
        Paths::new(edges, last + 1, last, last)
    }

    /// Adds a path of the greatest weight from `u` on, without `u`, and at each header as many rounds as the limit allows: then the cost is that
    /// weight. The edges have no cycle. None if the run would have more than `most` blocks.
    fn follow(&self, paths: &Paths, mut u: usize, most: usize, run: &mut Vec<u16>) -> Option<()> {
        while u != paths.end {
            let heaviest = |(from, v, weight): &&Edge| *from == u && paths.longest[*v].map(|rest| rest + weight) == paths.longest[u];
            u = paths.edges.iter().find(heaviest).expect("an edge of the greatest weight").1;
            if u == paths.end {
                run.push(paths.last as u16);
                break;
            }
            run.push(u as u16);
            let Some(l) = self.heads[u].filter(|l| self.multiplier[*l] > 0 && self.loops.limit[*l] > 1) else {
                continue;
            };
            let start = run.len();
            self.follow(&self.rounds(l), u, most, run)?;
            let round = run[start..].to_vec();
            for _ in 2..self.loops.limit[l] {
                if run.len() > most {
                    return None;
                }
                run.extend(&round);
            }
        }
        if run.len() > most { None } else { Some(()) }
    }
}
