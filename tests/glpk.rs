//! Compares the bound of rolkeyda_solve with the optimum of the path-counting linear program (Li and Malik), which glpsol finds in exact
//! arithmetic. The argument is a folder for its files. The last line is 'N passed, M failed'.
//!
//! By the duality of linear programs no certificate has a bound below the optimum, and some run costs the solver's bound, so the two are equal.
//! The program has a solution exactly where block 0 has a path to the exit. Blocks without such a path are 401 for the solver; in the program
//! nothing flows through them, so there its optimum is the bound of the other blocks.

#[allow(dead_code)]
mod abi;
#[allow(dead_code)]
mod graphs;
mod random;
#[allow(dead_code)]
mod reference;
#[allow(dead_code)]
mod solvable;
#[allow(dead_code)]
mod solving;

use abi::Reply;
use graphs::Tables;
use random::Random;
use std::fmt::Write;
use std::path::Path;
use std::process::{Command, Stdio};

/// What came of a routine; how many of each are wanted.
#[derive(Clone, Copy, PartialEq)]
enum Kind {
    FewLoops,
    ManyLoops,
    Unreachable,
    NoPath,
    Stuck,
}
const KINDS: [(Kind, &str, usize); 5] = [
    (Kind::FewLoops, "solved, with one loop from 1 up or none", 200),
    (Kind::ManyLoops, "solved, with more loops", 400),
    (Kind::Unreachable, "solved, with unreachable blocks", 200),
    (Kind::NoPath, "401 at 0, and the program has no solution", 100),
    (Kind::Stuck, "401 at another block, and the program has one", 100),
];
/// The most blocks of a program, and the bounds that glpsol writes with all their digits.
const MOST_BLOCKS: usize = 150;
const MOST_BOUND: i128 = 1_000_000_000_000_000;

/// What glpsol says: no solution, or the optimum and the dual value of each row.
enum Optimum {
    Infeasible,
    Of(i128, Vec<f64>),
}

/// The program as free MPS: a row for each block, outgoing less incoming edges; a row for each loop from 1 up, its back edges less limit − 1
/// for each edge that enters it; a column for each edge, at the cost of its target.
fn program(tables: &Tables) -> String {
    let Tables { blocks, loops } = tables;
    let (n, m) = (blocks.cost.len(), loops.parent.len());
    let inside = |u: usize, l: usize| {
        let mut at = usize::from(blocks.inner[u]);
        while at > l {
            at = usize::from(loops.parent[at]);
        }
        at == l
    };
    let mut text = String::from("NAME paths\nROWS\n N COST\n");
    (0..n).for_each(|u| writeln!(text, " E B{u}").unwrap());
    (1..m).for_each(|l| writeln!(text, " L L{l}").unwrap());
    text += "COLUMNS\n";
    for (e, (u, v)) in graphs::edges(blocks).into_iter().enumerate() {
        let mut entry = |row: String, number: i64| writeln!(text, " E{e} {row} {number}").unwrap();
        entry("COST".to_string(), i64::from(blocks.cost[v]));
        if u != v {
            entry(format!("B{u}"), 1);
            entry(format!("B{v}"), -1);
        }
        let l = usize::from(blocks.inner[v]);
        if l != 0 && usize::from(loops.header[l]) == v {
            entry(format!("L{l}"), if inside(u, l) { 1 } else { 1 - i64::from(loops.limit[l]) });
        }
    }
    writeln!(text, "RHS\n RHS B0 1\n RHS B{} -1\nENDATA", n - 1).unwrap();
    text
}

/// Solves a program. The solution's line `s bas` has its rows and columns, whether it is feasible and optimal, and the optimum; a line `i` has a
/// row, its status, its value and its dual value.
fn glpsol(folder: &Path, program: &str) -> Result<Optimum, String> {
    let (input, output) = (folder.join("program.mps"), folder.join("solution"));
    std::fs::write(&input, program).map_err(|error| error.to_string())?;
    let _ = std::fs::remove_file(&output);
    let status = Command::new("glpsol").args(["--freemps", "--max", "--exact", "--write"]).arg(&output).arg(&input).stdout(Stdio::null()).status();
    if !status.as_ref().is_ok_and(|status| status.success()) {
        return Err(format!("glpsol: {status:?}"));
    }
    let text = std::fs::read_to_string(&output).map_err(|error| error.to_string())?;
    let mut duals = Vec::new();
    let mut optimum = None;
    for line in text.lines() {
        match line.split(' ').collect::<Vec<_>>()[..] {
            ["s", "bas", _, _, "n", _, _] => return Ok(Optimum::Infeasible),
            ["s", "bas", _, _, "f", "f", value] => optimum = value.parse().ok(),
            ["i", _, _, _, dual] => duals.push(dual.parse().map_err(|_| format!("a dual value {dual}"))?),
            _ => {}
        }
    }
    optimum.map(|optimum| Optimum::Of(optimum, duals)).ok_or_else(|| format!("no optimum: {text}"))
}

/// A routine for a program: small, or with loops in loops, most limits small.
fn routine(random: &mut Random) -> Tables {
    loop {
        let mut tables = if random.once_in(4) { solvable::small(random) } else { graphs::routine(random) };
        if random.once_in(8) {
            graphs::damage(random, &mut tables);
        }
        if tables.blocks.cost.len() <= MOST_BLOCKS {
            return tables;
        }
    }
}

fn solve(tables: &Tables) -> (Reply, Tables) {
    let mut made = tables.clone();
    let Tables { blocks, loops } = &mut made;
    let reply = abi::solve(
        &blocks.cost, &blocks.inner, &blocks.first, &blocks.second, &mut blocks.figure,
        &loops.parent, &loops.header, &loops.limit, &mut loops.multiplier,
    );
    (reply, made)
}

fn check(tables: &Tables) -> Reply {
    let Tables { blocks, loops } = tables;
    abi::check(abi::Columns {
        cost: &blocks.cost,
        inner: &blocks.inner,
        first: &blocks.first,
        second: &blocks.second,
        figure: &blocks.figure,
        parent: &loops.parent,
        header: &loops.header,
        limit: &loops.limit,
        multiplier: &loops.multiplier,
    })
}

/// The kind of a routine, or None if it is not for a program: tables that break a rule, numbers that may be too large, or no edges, where
/// glpsol says nothing.
fn kind(tables: &Tables, reply: Reply) -> Option<Kind> {
    match reply.number {
        _ if graphs::edges(&tables.blocks).is_empty() => None,
        0 if i128::from(reply.value) >= MOST_BOUND => None,
        0 if solvable::reached(&tables.blocks, 0, |_| true).contains(&false) => Some(Kind::Unreachable),
        0 => Some(if tables.loops.parent.len() > 2 { Kind::ManyLoops } else { Kind::FewLoops }),
        401 if reply.place == 0 => Some(Kind::NoPath),
        401 if tables.blocks.cost.iter().all(|cost| *cost < 100) && tables.loops.limit.iter().all(|limit| *limit < 10) => Some(Kind::Stuck),
        _ => None,
    }
}

/// Whether the optimum is what the solver's reply says.
fn compare(tables: &Tables, reply: Reply, kind: Kind, optimum: &Optimum) -> Result<(), String> {
    let entry = i128::from(tables.blocks.cost[0]);
    let wanted = match kind {
        Kind::NoPath => None,
        Kind::Stuck => solving::live_bound(&tables.blocks, &tables.loops),
        _ => Some(i128::from(reply.value)),
    };
    match (wanted, optimum) {
        (None, Optimum::Infeasible) => Ok(()),
        (Some(wanted), Optimum::Of(optimum, _)) if wanted == entry + optimum => Ok(()),
        (_, Optimum::Of(optimum, _)) => Err(format!("the optimum is {}, the reply {reply:?}, and {wanted:?} is due", entry + optimum)),
        (_, Optimum::Infeasible) => Err(format!("no solution, the reply is {reply:?}, and {wanted:?} is due")),
    }
}

/// glpsol's dual values as figures and multipliers, if they are whole numbers: rolkeyda_check accepts them with the solver's bound.
fn dual(tables: &Tables, bound: i64, duals: &[f64]) -> Option<Result<(), String>> {
    if duals.iter().any(|value| value.fract() != 0.0 || value.abs() > 1e15) {
        return None;
    }
    let n = tables.blocks.cost.len();
    let mut other = tables.clone();
    other.blocks.figure = duals[..n].iter().map(|value| *value as i64).collect();
    other.loops.multiplier = [0].into_iter().chain(duals[n..].iter().map(|value| *value as u64)).collect();
    let reply = check(&other);
    let wanted = Reply { number: 0, place: 0, value: bound, more: 0 };
    Some(if reply == wanted { Ok(()) } else { Err(format!("{reply:?} for the certificate {duals:?}, and the bound {bound} is due")) })
}

fn main() {
    let Some(folder) = std::env::args_os().nth(1) else {
        eprintln!("usage: glpk FOLDER");
        std::process::exit(2);
    };
    let mut random = Random::new(1);
    let mut counts = [0; KINDS.len()];
    let (mut passed, mut failed, mut certificates) = (0, 0, 0);
    let mut count = |what: &str, tables: &Tables, outcome: Result<(), String>| match outcome {
        Ok(()) => passed += 1,
        Err(why) => {
            failed += 1;
            println!("FAILED {what}: {why}\n  {tables:?}");
        }
    };
    for _ in 0..20_000 {
        let tables = routine(&mut random);
        let (reply, _) = solve(&tables);
        let Some(kind) = kind(&tables, reply) else {
            continue;
        };
        let at = KINDS.iter().position(|(other, _, _)| *other == kind).unwrap();
        if counts[at] >= KINDS[at].2 {
            continue;
        }
        counts[at] += 1;
        match glpsol(Path::new(&folder), &program(&tables)) {
            Ok(optimum) => {
                count("the optimum", &tables, compare(&tables, reply, kind, &optimum));
                if let Optimum::Of(_, duals) = &optimum {
                    if let Some(outcome) = dual(&tables, reply.value, duals).filter(|_| reply.number == 0) {
                        certificates += 1;
                        count("glpsol's certificate", &tables, outcome);
                    }
                }
            }
            Err(why) => count("glpsol", &tables, Err(why)),
        }
    }
    for ((_, name, wanted), got) in KINDS.into_iter().zip(counts) {
        println!("{got:>5} {name}");
        if got < wanted {
            count(name, &Tables::default(), Err(format!("came up {got} times only")));
        }
    }
    println!("{certificates:>5} certificates of glpsol, accepted with the same bound");
    println!("{passed} passed, {failed} failed");
    std::process::exit(i32::from(failed > 0));
}
