//! Solvers that read fixed MPS: glpsol, cbc and lp_solve of the Debian packages glpk-utils, coinor-cbc and lp-solve. Each reads a file, writes the
//! program as it read it, and solves it.

use crate::writing::{Numbers, Program};
use std::path::{Path, PathBuf};
use std::process::Command;

/// What a solver says of a program that it has read.
#[derive(Clone, Copy, Debug, PartialEq)]
pub enum Solution {
    Infeasible,
    Optimum(f64),
}

/// A program as a solver read it: its rows with their types, its columns and its right side. The solvers keep the order of rows and columns.
#[derive(Clone, Debug, Default, PartialEq)]
pub struct Model {
    pub rows: Vec<(String, String)>,
    pub columns: Vec<(String, Vec<(String, f64)>)>,
    pub right: Vec<(String, f64)>,
}

/// A solver: its name, whether it computes exactly, and how it reads and solves the file `program.mps` of a folder; Err where it does not read it.
pub struct Client {
    pub name: &'static str,
    pub exact: bool,
    solve: fn(&Path) -> Result<(Solution, String), String>,
}

pub const CLIENTS: [Client; 3] = [
    Client { name: "glpsol", exact: true, solve: glpsol },
    Client { name: "cbc", exact: false, solve: cbc },
    Client { name: "lp_solve", exact: false, solve: lp_solve },
];

impl Client {
    /// What the solver makes of a text.
    pub fn run(&self, folder: &Path, text: &[u8]) -> Result<(Solution, Model), String> {
        for name in ["solution", "read.mps", "read.mps.gz"] {
            let _ = std::fs::remove_file(folder.join(name));
        }
        std::fs::write(folder.join("program.mps"), text).map_err(|error| error.to_string())?;
        let (solution, read) = (self.solve)(folder)?;
        Ok((solution, model(&read)?))
    }
}

/// Runs a command in a folder and gives back what it printed, and whether its status is 0.
fn printed(folder: &Path, command: &str) -> Result<(String, bool), String> {
    let mut words = command.split(' ');
    let output = Command::new(words.next().unwrap()).args(words).current_dir(folder).output().map_err(|error| error.to_string())?;
    Ok((String::from_utf8_lossy(&output.stdout).into_owned(), output.status.success()))
}

fn contents(path: PathBuf) -> Result<String, String> {
    std::fs::read_to_string(&path).map_err(|error| format!("{}: {error}", path.display()))
}

fn optimum(text: &str) -> Result<Solution, String> {
    text.trim().parse().map(Solution::Optimum).map_err(|_| format!("an optimum {text}"))
}

/// In exact arithmetic. The line `s bas` of the solution has rows, columns, whether it is feasible and optimal, and the optimum with 15 digits. With a
/// free row removed the objective has another name in what glpsol writes, but its log has the name that it read.
fn glpsol(folder: &Path) -> Result<(Solution, String), String> {
    let (log, good) = printed(folder, "glpsol --mps program.mps --exact --write solution --wmps read.mps")?;
    if !good || !log.contains("\nObjective: COST\n") {
        return Err(log);
    }
    let text = contents(folder.join("solution"))?;
    let line = text.lines().find(|line| line.starts_with("s ")).unwrap_or_default();
    let solution = match line.split(' ').collect::<Vec<_>>()[..] {
        ["s", "bas", _, _, "n", _, _] => Solution::Infeasible,
        ["s", "bas", _, _, "f", "f", value] => optimum(value)?,
        _ => return Err(text),
    };
    Ok((solution, contents(folder.join("read.mps"))?))
}

/// In doubles; the optimum has 8 digits behind the point. The status is 0 whatever happens. What cbc writes is always compressed, and without
/// presolving it is the program as read.
fn cbc(folder: &Path) -> Result<(Solution, String), String> {
    let (log, _) = printed(folder, "cbc program.mps presolve off export read.mps presolve on solve solution solution")?;
    if !log.contains(" read with 0 errors\n") {
        return Err(log);
    }
    let text = contents(folder.join("solution"))?;
    let solution = match text.lines().next().unwrap_or_default().split_once(" - objective value ") {
        Some(("Optimal", value)) => optimum(value)?,
        Some(("Infeasible" | "Integer infeasible", _)) => Solution::Infeasible,
        _ => return Err(text),
    };
    Ok((solution, printed(folder, "gzip -dc read.mps.gz")?.0))
}

/// In doubles; the optimum has 8 digits behind the point. The option for fixed MPS is -mps: -fmps is free MPS.
fn lp_solve(folder: &Path) -> Result<(Solution, String), String> {
    let (log, good) = printed(folder, "lp_solve -mps program.mps -S3 -wmps read.mps")?;
    let value = log.lines().find_map(|line| line.strip_prefix("Value of objective function: "));
    let solution = match value {
        Some(value) => optimum(value)?,
        None if log.contains("This problem is infeasible") => Solution::Infeasible,
        None => return Err(format!("status 0: {good}, {log}")),
    };
    Ok((solution, contents(folder.join("read.mps"))?))
}

/// Adds the pairs of a row and a number, one or two on a line.
fn add(numbers: &mut Vec<(String, f64)>, pairs: &[&str]) -> Result<(), String> {
    for pair in pairs.chunks(2) {
        let [row, number] = pair else {
            return Err(format!("{pairs:?}"));
        };
        numbers.push((row.to_string(), number.parse().map_err(|_| format!("a number {number}"))?));
    }
    Ok(())
}

/// What a solver wrote. The names have no blanks, so that words are enough. The objective is named as the solver likes.
fn model(text: &str) -> Result<Model, String> {
    let mut model = Model::default();
    let mut section = "";
    for line in text.lines().filter(|line| !line.starts_with('*')) {
        let words: Vec<&str> = line.split_whitespace().collect();
        if !line.starts_with(' ') {
            section = words.first().copied().unwrap_or_default();
            continue;
        }
        match (section, &words[..]) {
            ("ROWS", [kind, name]) => model.rows.push((kind.to_string(), name.to_string())),
            ("COLUMNS", [name, pairs @ ..]) => {
                if model.columns.last().map(|(last, _)| &last[..]) != Some(*name) {
                    model.columns.push((name.to_string(), Vec::new()));
                }
                add(&mut model.columns.last_mut().unwrap().1, pairs)?;
            }
            ("RHS", [_, pairs @ ..]) => add(&mut model.right, pairs)?,
            _ => return Err(format!("the line {line} in the section {section}")),
        }
    }
    if section != "ENDATA" {
        return Err("what the solver wrote has no end".to_string());
    }
    name_objective(&mut model);
    Ok(model)
}

fn name_objective(model: &mut Model) {
    let Some((_, name)) = model.rows.iter_mut().find(|(kind, _)| kind == "N") else {
        return;
    };
    let old = std::mem::replace(name, "COST".to_string());
    for (row, _) in model.columns.iter_mut().flat_map(|(_, numbers)| numbers).filter(|(row, _)| *row == old) {
        *row = "COST".to_string();
    }
}

/// The program as a solver should read it.
pub fn wanted(program: &Program) -> Model {
    let named = |numbers: &Numbers| numbers.iter().map(|(row, number)| (row.name(), *number as f64)).collect();
    Model {
        rows: program.rows.iter().map(|row| (row.kind().to_string(), row.name())).collect(),
        columns: program.columns.iter().map(|(edge, numbers)| (edge.name(), named(numbers))).collect(),
        right: named(&program.right),
    }
}
