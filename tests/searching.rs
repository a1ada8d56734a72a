//! What requests 3 and 10 of document 02 promise, tried out on small routines: the greatest cost of a finished counted run and of a round, and the
//! least cost of a finished run with some visits in every stay, by a search through every state that a run can be in, with the counts of document
//! 01; and that no figure can be smaller.

use crate::graphs::{edges, Tables};
use std::collections::{BTreeSet, HashMap, HashSet};

/// A block and the count of each loop there. What a run can do next depends on nothing else.
type State = (usize, Vec<u32>);

/// A search through the runs of some tables that keep 201 to 207 and 209.
struct Search<'a> {
    tables: &'a Tables,
    edges: Vec<(usize, usize)>,
    /// The loop whose rounds are searched, its own limit not kept, and the runs do not leave it; or loop 0, and a run ends at the exit.
    within: usize,
    /// For the states behind us the greatest cost of what can follow up to the end; None where the end cannot be reached.
    known: HashMap<State, Option<i64>>,
}

impl Search<'_> {
    fn new(tables: &Tables, within: usize) -> Search<'_> {
        Search { tables, edges: edges(&tables.blocks), within, known: HashMap::new() }
    }

    fn inside(&self, u: usize, l: usize) -> bool {
        let mut at = usize::from(self.tables.blocks.inner[u]);
        while at != l && at != 0 {
            at = usize::from(self.tables.loops.parent[at]);
        }
        at == l
    }

    /// The counts after an edge, or None where it passes a limit.
    fn counts(&self, u: usize, v: usize, before: &[u32]) -> Option<Vec<u32>> {
        let mut counts = before.to_vec();
        for l in 0..counts.len() {
            if usize::from(self.tables.loops.header[l]) == v {
                counts[l] = if self.inside(u, l) { counts[l] + 1 } else { 1 };
                if counts[l] > self.tables.loops.limit[l] {
                    return None;
                }
            } else if self.inside(u, l) && !self.inside(v, l) {
                counts[l] = 0;
            }
        }
        Some(counts)
    }

    /// The counts after an edge, whatever the limits are, or None where it leaves a loop with fewer visits than these. A count is not carried past
    /// them, where it makes no difference.
    fn visits(&self, u: usize, v: usize, before: &[u32], least: &[u32]) -> Option<Vec<u32>> {
        let after = |l: usize| match (self.inside(u, l), self.inside(v, l)) {
            (true, false) if before[l] < least[l] => None,
            (_, false) => Some(0),
            (true, true) if usize::from(self.tables.loops.header[l]) != v => Some(before[l]),
            (true, true) => Some((before[l] + 1).min(least[l].max(1))),
            // a loop is entered at its header
            (false, true) => Some(1),
        };
        (0..before.len()).map(after).collect()
    }

    /// Whether the stays that are under way at a block have at least these visits.
    fn finishes(&self, u: usize, counts: &[u32], least: &[u32]) -> bool {
        (0..counts.len()).all(|l| !self.inside(u, l) || counts[l] >= least[l])
    }

    /// The greatest cost of what can follow a state up to the end, without the block there.
    fn most(&mut self, state: State) -> Option<i64> {
        if let Some(most) = self.known.get(&state) {
            return *most;
        }
        let (u, before) = &state;
        let round = self.within != 0;
        let end = if round { usize::from(self.tables.loops.header[self.within]) } else { self.tables.blocks.cost.len() - 1 };
        let mut most = None;
        for i in 0..self.edges.len() {
            let (from, v) = self.edges[i];
            if from != *u || !self.inside(v, self.within) {
                continue;
            }
            let rest = if v == end && round {
                Some(0)
            } else {
                self.counts(*u, v, before).and_then(|after| if v == end { Some(0) } else { self.most((v, after)) })
            };
            most = most.max(rest.map(|rest| rest + i64::from(self.tables.blocks.cost[v])));
        }
        self.known.insert(state, most);
        most
    }
}

/// The greatest cost of a finished counted run, or None if there is none.
pub fn most_of_a_run(tables: &Tables) -> Option<i64> {
    let mut counts = vec![0; tables.loops.parent.len()];
    counts[0] = 1;
    Search::new(tables, 0).most((0, counts)).map(|most| most + i64::from(tables.blocks.cost[0]))
}

/// The greatest cost of a round of loop `l`, which is not loop 0, or None if there is none.
pub fn most_of_a_round(tables: &Tables, l: usize) -> Option<i64> {
    let header = usize::from(tables.loops.header[l]);
    Search::new(tables, l).most((header, vec![0; tables.loops.parent.len()]))
}

/// The least cost of a finished run with at least these visits in every stay, or None if there is none. The states are taken by their costs, the
/// least first (Dijkstra).
pub fn least_of_a_run(tables: &Tables, least: &[u32]) -> Option<i64> {
    let search = Search::new(tables, 0);
    let cost = |u: usize| i64::from(tables.blocks.cost[u]);
    let mut counts = vec![0; least.len()];
    counts[0] = 1;
    let mut waiting: BTreeSet<(i64, State)> = BTreeSet::from([(cost(0), (0, counts))]);
    let mut known = HashSet::new();
    while let Some((sum, state)) = waiting.pop_first() {
        let (u, counts) = &state;
        if *u == tables.blocks.cost.len() - 1 && search.finishes(*u, counts, least) {
            return Some(sum);
        }
        if known.insert(state.clone()) {
            let edges = search.edges.iter().filter(|(from, _)| from == u);
            waiting.extend(edges.filter_map(|(_, v)| search.visits(*u, *v, counts, least).map(|after| (sum + cost(*v), (*v, after)))));
        }
    }
    None
}

/// How many states a search can come to, at most, where the count of each loop goes up to the given one.
pub fn states(tables: &Tables, most: &[u32]) -> u64 {
    let counts = most.iter().map(|most| u64::from(*most) + 1);
    counts.skip(1).fold(tables.blocks.cost.len() as u64, u64::saturating_mul)
}

/// Whether no figure can be smaller with these multipliers and the exit's figure: every inequality is kept, and from every block edges whose
/// inequalities are equalities lead to the exit. Along these any other figures must fall as much.
pub fn smallest(tables: &Tables) -> bool {
    let Tables { blocks, loops } = tables;
    let n = blocks.cost.len();
    let search = Search::new(tables, 0);
    let figure = |u: usize| i128::from(blocks.figure[u]);
    let needed = |u: usize, v: usize| {
        let l = usize::from(blocks.inner[v]);
        let (cost, multiplier) = (i128::from(blocks.cost[v]), i128::from(loops.multiplier[l]));
        if usize::from(loops.header[l]) != v {
            cost
        } else if search.inside(u, l) {
            cost - multiplier
        } else {
            cost + multiplier * (i128::from(loops.limit[l]) - 1)
        }
    };
    if search.edges.iter().any(|(u, v)| figure(*u) - figure(*v) < needed(*u, *v)) {
        return false;
    }
    let equal: Vec<(usize, usize)> = search.edges.iter().copied().filter(|(u, v)| figure(*u) - figure(*v) == needed(*u, *v)).collect();
    let mut forced = vec![false; n];
    let mut waiting = vec![n - 1];
    while let Some(v) = waiting.pop() {
        if !std::mem::replace(&mut forced[v], true) {
            waiting.extend(equal.iter().filter(|(_, to)| *to == v).map(|(u, _)| *u));
        }
    }
    blocks.figure[n - 1] == 0 && forced.iter().all(|forced| *forced)
}
