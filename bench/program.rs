// The path-counting program of a routine (Li and Malik) as text for a linear solver: a variable for each edge, how often a run takes it.
use crate::routine::{Routine, MISSING};
use std::fmt::Write;

// The text in free MPS. A row for each block: the edges out less the edges in are 1 at the entry, -1 at the exit, 0 elsewhere. A row for each
// loop: returns to its header are at most limit - 1 times the entries. Less the cost of the edges' targets is to be least.
pub fn free_mps(t: &Routine) -> String {
    let (b, n) = (&t.blocks, t.blocks.cost.len());
    let mut text = String::from("NAME\nROWS\n N COST\n");
    for u in 0..n {
        writeln!(text, " E B{u:04}").unwrap();
    }
    for l in 1..t.loops.parent.len() {
        writeln!(text, " L L{l:02}").unwrap();
    }
    text += "COLUMNS\n";
    for u in 0..n {
        for (i, v) in [b.first[u], b.second[u]].into_iter().enumerate().filter(|&(_, v)| v != MISSING) {
            let (edge, to, l) = (2 * u + i, v as usize, b.loops[v as usize]);
            let mut number = |row: String, number: i64| {
                if number != 0 {
                    writeln!(text, " E{edge:04} {row} {number}").unwrap();
                }
            };
            number("COST".into(), -i64::from(b.cost[to]));
            if u != to {
                number(format!("B{u:04}"), 1);
                number(format!("B{to:04}"), -1);
            }
            if l > 0 && t.loops.header[l as usize] == v {
                let returns = t.inside(u, l);
                number(format!("L{l:02}"), if returns { 1 } else { 1 - i64::from(t.loops.limit[l as usize]) });
            }
        }
    }
    write!(text, "RHS\n RHS B0000 1\n RHS B{:04} -1\nENDATA\n", n - 1).unwrap();
    text
}

// The optimum in what `glpsol --write` writes: the last field of its line `s`.
pub fn optimum(solution: &str) -> Option<f64> {
    solution.lines().find(|line| line.starts_with("s "))?.split(' ').next_back()?.parse().ok()
}
