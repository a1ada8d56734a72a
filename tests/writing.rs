//! Request 5 of document 02, written from the papers alone: the path-counting program as rows, columns and numbers, then its text in fixed MPS. Every
//! column asks every row for its number, so nothing here knows which rows an edge has numbers in.

use crate::graphs::Tables;
use crate::reference::{self, Refusal, MISSING};
use std::fmt::Write;

/// A row: the cost, a block, or a loop from 1 up.
#[derive(Clone, Copy, Debug, PartialEq, Eq)]
pub enum Row {
    Cost,
    Block(usize),
    Loop(usize),
}

impl Row {
    pub fn kind(self) -> &'static str {
        match self {
            Row::Cost => "N",
            Row::Block(_) => "E",
            Row::Loop(_) => "L",
        }
    }

    pub fn name(self) -> String {
        match self {
            Row::Cost => "COST".to_string(),
            Row::Block(u) => format!("B{u:04}"),
            Row::Loop(l) => format!("L{l:02}"),
        }
    }
}

/// The numbers other than 0 of a column or of the right side, in row order.
pub type Numbers = Vec<(Row, i64)>;

/// An edge: its number, the block that it leaves and the block that it ends at.
#[derive(Clone, Copy, Debug)]
pub struct Edge {
    pub number: usize,
    pub from: usize,
    pub to: usize,
}

impl Edge {
    pub fn name(self) -> String {
        format!("E{:04}", self.number)
    }
}

#[derive(Clone, Debug)]
pub struct Program {
    pub rows: Vec<Row>,
    pub columns: Vec<(Edge, Numbers)>,
    pub right: Numbers,
}

/// The edges by their numbers.
fn edges(tables: &Tables) -> Vec<Edge> {
    let mut edges = Vec::new();
    for u in 0..tables.blocks.cost.len() {
        for (i, v) in [tables.blocks.first[u], tables.blocks.second[u]].into_iter().enumerate() {
            if v != MISSING {
                edges.push(Edge { number: 2 * u + i, from: u, to: usize::from(v) });
            }
        }
    }
    edges
}

/// The number of an edge's column in a row. `around` has the loops around each block.
fn number(tables: &Tables, around: &[Vec<usize>], edge: Edge, row: Row) -> i64 {
    match row {
        Row::Cost => -i64::from(tables.blocks.cost[edge.to]),
        Row::Block(u) => i64::from(edge.from == u) - i64::from(edge.to == u),
        Row::Loop(l) if usize::from(tables.loops.header[l]) != edge.to => 0,
        Row::Loop(l) if around[edge.from].contains(&l) => 1,
        Row::Loop(l) => 1 - i64::from(tables.loops.limit[l]),
    }
}

fn other_than_0(rows: &[Row], number: impl Fn(Row) -> i64) -> Numbers {
    rows.iter().map(|row| (*row, number(*row))).filter(|(_, number)| *number != 0).collect()
}

/// The program, or 201 to 207 and then 209.
pub fn program(tables: &Tables) -> Result<Program, Refusal> {
    let Tables { blocks, loops } = tables;
    let around = reference::declared(blocks, loops)?;
    let (n, m) = (blocks.cost.len(), loops.parent.len());
    let mut rows = vec![Row::Cost];
    rows.extend((0..n).map(Row::Block));
    rows.extend((1..m).map(Row::Loop));
    let column = |edge| (edge, other_than_0(&rows, |row| number(tables, &around, edge, row)));
    let columns = edges(tables).into_iter().map(column).collect();
    let right = other_than_0(&rows, |row| match row {
        Row::Block(0) => 1,
        Row::Block(u) if u == n - 1 => -1,
        _ => 0,
    });
    Ok(Program { rows, columns, right })
}

/// Names in columns 5 to 12 and 15 to 22, numbers from column 25 on; row types in column 2.
pub fn text(program: &Program) -> String {
    let mut text = String::new();
    let mut line = |line: String| {
        assert!(line.len() <= 36 && !line.ends_with(' '));
        writeln!(text, "{line}").unwrap();
    };
    let numbered = |name: &str, row: Row, number: i64| format!("    {name:<8}  {:<8}  {number}", row.name());
    line("NAME".to_string());
    line("ROWS".to_string());
    program.rows.iter().for_each(|row| line(format!(" {}  {}", row.kind(), row.name())));
    line("COLUMNS".to_string());
    for (edge, numbers) in &program.columns {
        numbers.iter().for_each(|(row, number)| line(numbered(&edge.name(), *row, *number)));
    }
    line("RHS".to_string());
    program.right.iter().for_each(|(row, number)| line(numbered("RHS", *row, *number)));
    line("ENDATA".to_string());
    text
}

/// The text that fits a buffer of this length, or 411.
pub fn fitted(text: &str, length: usize) -> Result<&[u8], Refusal> {
    if text.len() > length { reference::refuse(411, 0) } else { Ok(text.as_bytes()) }
}
