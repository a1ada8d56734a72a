//! The rules of document 01 and requests 1, 2 and 10 of document 02, written from the papers alone and naive on purpose: lists in place of sets, wide
//! numbers in place of care.

/// A refusal: its number and its place.
#[derive(Clone, Copy, Debug, PartialEq, Eq)]
pub struct Refusal {
    pub number: u32,
    pub place: u32,
}

/// The block table as columns; 65,535 is a missing successor.
#[derive(Clone, Debug, Default, PartialEq, Eq)]
pub struct Blocks {
    pub cost: Vec<u32>,
    pub inner: Vec<u16>,
    pub first: Vec<u16>,
    pub second: Vec<u16>,
    pub figure: Vec<i64>,
}

/// The loop table as columns.
#[derive(Clone, Debug, Default, PartialEq, Eq)]
pub struct Loops {
    pub parent: Vec<u16>,
    pub header: Vec<u16>,
    pub limit: Vec<u32>,
    pub multiplier: Vec<u64>,
}

/// The second certificate of request 10: figures by block, multipliers and least visits by loop.
#[derive(Clone, Debug, Default, PartialEq, Eq)]
pub struct Low {
    pub figure: Vec<i64>,
    pub multiplier: Vec<u64>,
    pub least: Vec<u32>,
}

pub const MISSING: u16 = 65_535;

/// How a record ends. The C library gives these numbers.
#[derive(Clone, Copy, Debug, PartialEq, Eq)]
pub enum LineEnd {
    CrLf = 0,
    Lf = 1,
    Text = 2,
}

pub fn refuse<T>(number: u32, place: usize) -> Result<T, Refusal> {
    Err(Refusal { number, place: place as u32 })
}

// Reading

/// What may stand in a field.
enum Width {
    Number(i128, i128),
    Successor,
}

/// Where the field that starts at `start` ends; None if its quote is never closed.
fn field_end(text: &[u8], start: usize) -> Option<usize> {
    let mut at = start;
    if text.get(at) == Some(&b'"') {
        at += 1;
        loop {
            if *text.get(at)? != b'"' {
                at += 1;
            } else if text.get(at + 1) == Some(&b'"') {
                at += 2;
            } else {
                return Some(at + 1);
            }
        }
    }
    while at < text.len() && !matches!(text[at], b',' | b'\r' | b'\n' | b'"') {
        at += 1;
    }
    Some(at)
}

/// The written fields of the record that starts at `start`, how it ends, and where the next one starts; None if its form is broken.
fn record(text: &[u8], start: usize) -> Option<(Vec<&[u8]>, LineEnd, usize)> {
    let mut fields = Vec::new();
    let mut at = start;
    loop {
        let end = field_end(text, at)?;
        let written = &text[at..end];
        if written.len() > 64 {
            return None;
        }
        fields.push(written);
        if end == text.len() {
            return Some((fields, LineEnd::Text, end));
        } else if text[end] == b',' {
            at = end + 1;
        } else if text[end..].starts_with(b"\r\n") {
            return Some((fields, LineEnd::CrLf, end + 2));
        } else if text[end] == b'\n' {
            return Some((fields, LineEnd::Lf, end + 1));
        } else {
            return None;
        }
    }
}

/// The text of a field: without its quotes, doubled marks undone.
fn content(written: &[u8]) -> Vec<u8> {
    if written.first() != Some(&b'"') {
        return written.to_vec();
    }
    let mut result = Vec::new();
    let mut at = 1;
    while at < written.len() - 1 {
        result.push(written[at]);
        at += if written[at] == b'"' { 2 } else { 1 };
    }
    result
}

/// The number that a text writes, if it is one from `low` to `high`; a minus sign only where there are negative ones.
fn number(text: &[u8], low: i128, high: i128) -> Option<i128> {
    let (minus, digits) = match text {
        [b'-', rest @ ..] => (true, rest),
        _ => (false, text),
    };
    if minus && low >= 0 {
        return None;
    }
    if digits.is_empty() || digits.iter().any(|byte| !byte.is_ascii_digit()) {
        return None;
    }
    if digits[0] == b'0' && (minus || digits.len() > 1) {
        return None;
    }
    // with no leading zero, 21 digits are over every width
    if digits.len() > 20 {
        return None;
    }
    let size = digits.iter().fold(0i128, |sum, digit| sum * 10 + i128::from(digit - b'0'));
    let value = if minus { -size } else { size };
    if low <= value && value <= high {
        Some(value)
    } else {
        None
    }
}

fn value(written: &[u8], width: &Width) -> Option<i128> {
    let text = content(written);
    match width {
        Width::Number(low, high) => number(&text, *low, *high),
        Width::Successor if text.is_empty() => Some(i128::from(MISSING)),
        Width::Successor => number(&text, 0, 65_534),
    }
}

/// A reader's answer: what the rows say, and how the first record ends.
pub type Answer<T> = Result<(T, LineEnd), Refusal>;

/// The rows of a text. `most` is the paper's limit, `places` the length of the shortest lent column.
fn rows(text: &[u8], header_row: bool, widths: &[Width], most: usize, places: usize) -> Answer<Vec<Vec<i128>>> {
    if text.len() > 65_536 {
        return refuse(101, 0);
    }
    if header_row && text.is_empty() {
        return refuse(103, 1);
    }
    let mut rows = Vec::new();
    let mut first_end = LineEnd::Text;
    let mut place = 0;
    let mut at = 0;
    while at < text.len() {
        place += 1;
        let Some((fields, line_end, next)) = record(text, at) else {
            return refuse(102, place);
        };
        at = next;
        if place == 1 {
            first_end = line_end;
        }
        if fields.len() != widths.len() {
            return refuse(103, place);
        }
        if header_row && place == 1 {
            continue;
        }
        let mut row = Vec::new();
        for (written, width) in fields.iter().zip(widths) {
            match value(written, width) {
                Some(value) => row.push(value),
                None => return refuse(104, place),
            }
        }
        if row[0] != rows.len() as i128 {
            return refuse(105, place);
        }
        if rows.len() >= most || rows.len() >= places {
            return refuse(106, place);
        }
        if line_end != first_end && line_end != LineEnd::Text {
            return refuse(108, place);
        }
        rows.push(row);
    }
    Ok((rows, first_end))
}

const SMALL: Width = Width::Number(0, 65_535);
const WIDE: Width = Width::Number(0, (1 << 32) - 1);
const WIDEST: Width = Width::Number(0, (1 << 64) - 1);
const SIGNED: Width = Width::Number(-(1 << 63), (1 << 63) - 1);

pub fn read_blocks(text: &[u8], header_row: bool, places: usize) -> Answer<Blocks> {
    let widths = [SMALL, WIDE, SMALL, Width::Successor, Width::Successor, SIGNED];
    let (rows, first_end) = rows(text, header_row, &widths, 1024, places)?;
    let mut blocks = Blocks::default();
    for row in rows {
        blocks.cost.push(row[1] as u32);
        blocks.inner.push(row[2] as u16);
        blocks.first.push(row[3] as u16);
        blocks.second.push(row[4] as u16);
        blocks.figure.push(row[5] as i64);
    }
    Ok((blocks, first_end))
}

pub fn read_loops(text: &[u8], header_row: bool, places: usize) -> Answer<Loops> {
    let widths = [SMALL, SMALL, SMALL, WIDE, WIDEST];
    let (rows, first_end) = rows(text, header_row, &widths, 64, places)?;
    let mut loops = Loops::default();
    for row in rows {
        loops.parent.push(row[1] as u16);
        loops.header.push(row[2] as u16);
        loops.limit.push(row[3] as u32);
        loops.multiplier.push(row[4] as u64);
    }
    Ok((loops, first_end))
}

// Tables

/// The successors that block `u` names.
pub fn successors(blocks: &Blocks, u: usize) -> Vec<usize> {
    [blocks.first[u], blocks.second[u]].into_iter().filter(|v| *v != MISSING).map(usize::from).collect()
}

/// The lowest place below `count` where `broken` holds is refused with `number`.
pub fn lowest(number: u32, count: usize, broken: impl Fn(usize) -> bool) -> Result<(), Refusal> {
    match (0..count).find(|place| broken(*place)) {
        Some(place) => refuse(number, place),
        None => Ok(()),
    }
}

/// Whether a figure is outside −2^60 to 2^60.
fn outside(figure: i64) -> bool {
    figure < -(1 << 60) || figure > 1 << 60
}

/// Rules 201 to 207; gives back, for each block, the loops around it from the innermost to loop 0.
pub fn shape(blocks: &Blocks, loops: &Loops) -> Result<Vec<Vec<usize>>, Refusal> {
    let n = blocks.cost.len();
    let m = loops.parent.len();
    let block_lengths = [blocks.inner.len(), blocks.first.len(), blocks.second.len(), blocks.figure.len()];
    let loop_lengths = [loops.header.len(), loops.limit.len(), loops.multiplier.len()];
    if n < 2 || n > 1024 || m < 1 || m > 64 || block_lengths != [n; 4] || loop_lengths != [m; 3] {
        return refuse(201, 0);
    }
    lowest(202, m, |l| {
        let (parent, header) = (usize::from(loops.parent[l]), usize::from(loops.header[l]));
        let (limit, multiplier) = (loops.limit[l], loops.multiplier[l]);
        if l == 0 {
            return parent != 0 || header != 0 || limit != 1 || multiplier != 0;
        }
        parent >= l || header >= n || limit < 1 || limit > 65_535 || i128::from(multiplier) > 1 << 40
    })?;
    lowest(203, n, |u| {
        blocks.cost[u] > 1_000_000
            || usize::from(blocks.inner[u]) >= m
            || successors(blocks, u).iter().any(|v| *v >= n)
            || outside(blocks.figure[u])
    })?;
    lowest(204, m, |l| usize::from(blocks.inner[usize::from(loops.header[l])]) != l)?;
    let mut around_loop: Vec<Vec<usize>> = Vec::new();
    for l in 0..m {
        let mut around = vec![l];
        let mut inner = l;
        while inner != 0 {
            inner = usize::from(loops.parent[inner]);
            around.push(inner);
        }
        around_loop.push(around);
    }
    lowest(205, m, |l| around_loop[l].len() > 16)?;
    let around: Vec<Vec<usize>> = (0..n).map(|u| around_loop[usize::from(blocks.inner[u])].clone()).collect();
    lowest(206, n, |u| successors(blocks, u).iter().any(|v| *v == 0 || u == n - 1))?;
    lowest(207, n, |u| {
        successors(blocks, u).into_iter().any(|v| {
            around[v].iter().any(|l| !around[u].contains(l) && usize::from(loops.header[*l]) != v)
        })
    })?;
    Ok(around)
}

/// The loop that block `v` is the header of.
fn headed(loops: &Loops, v: usize) -> Option<usize> {
    (0..loops.header.len()).find(|l| usize::from(loops.header[*l]) == v)
}

/// Whether the edge from `u` to `v` keeps its inequality.
fn kept(blocks: &Blocks, loops: &Loops, around: &[Vec<usize>], u: usize, v: usize) -> bool {
    let cost = i128::from(blocks.cost[v]);
    let fall = i128::from(blocks.figure[u]) - i128::from(blocks.figure[v]);
    match headed(loops, v) {
        None => cost <= fall,
        Some(l) => {
            let multiplier = i128::from(loops.multiplier[l]);
            if around[u].contains(&l) {
                cost <= fall + multiplier
            } else {
                cost + multiplier * (i128::from(loops.limit[l]) - 1) <= fall
            }
        }
    }
}

/// Where the edges out of `u` end that do not return: not at the header of a loop that `u` is inside.
fn onward(blocks: &Blocks, loops: &Loops, around: &[Vec<usize>], u: usize) -> Vec<usize> {
    let headers: Vec<usize> = around[u].iter().map(|l| usize::from(loops.header[*l])).collect();
    successors(blocks, u).into_iter().filter(|v| !headers.contains(v)).collect()
}

/// How far the search has come with a block: not there yet, on the way that it follows now, or done with all that the block leads to.
#[derive(Clone, Copy, PartialEq)]
enum Search {
    Before,
    OnWay,
    Done,
}

/// Whether there is a closed walk of one edge or more, none of which returns. A depth-first search from every block, reachable or not: there
/// is one if an edge ends on the way that led to it.
fn undeclared(blocks: &Blocks, loops: &Loops, around: &[Vec<usize>]) -> bool {
    let mut search = vec![Search::Before; blocks.cost.len()];
    for start in 0..blocks.cost.len() {
        if search[start] == Search::Done {
            continue;
        }
        search[start] = Search::OnWay;
        // the way, each block with the ends of its edges that are left to follow
        let mut way = vec![(start, onward(blocks, loops, around, start))];
        while let Some((u, ends)) = way.last_mut() {
            match ends.pop().map(|v| (v, search[v])) {
                None => {
                    search[*u] = Search::Done;
                    way.pop();
                }
                Some((v, Search::Before)) => {
                    search[v] = Search::OnWay;
                    way.push((v, onward(blocks, loops, around, v)));
                }
                Some((_, Search::OnWay)) => return true,
                Some((_, Search::Done)) => {}
            }
        }
    }
    false
}

/// Rules 201 to 207 and 209; gives back the same as `shape`.
pub fn declared(blocks: &Blocks, loops: &Loops) -> Result<Vec<Vec<usize>>, Refusal> {
    let around = shape(blocks, loops)?;
    if undeclared(blocks, loops, &around) { refuse(209, 0) } else { Ok(around) }
}

/// The cost of block 0 and its figure, less the figure of the exit.
fn bound(blocks: &Blocks, figure: &[i64]) -> i64 {
    let bound = i128::from(blocks.cost[0]) + i128::from(figure[0]) - i128::from(figure[figure.len() - 1]);
    i64::try_from(bound).unwrap()
}

/// The bound of an accepted pair of tables, or 201 to 207, 209 and 208 in this order.
pub fn check(blocks: &Blocks, loops: &Loops) -> Result<i64, Refusal> {
    let around = declared(blocks, loops)?;
    lowest(208, blocks.cost.len(), |u| successors(blocks, u).into_iter().any(|v| !kept(blocks, loops, &around, u, v)))?;
    Ok(bound(blocks, &blocks.figure))
}

/// Whether the edge from `u` to `v` keeps its inequality in the second certificate: "cost ≥ D for no header, cost ≥ D + multiplier from inside,
/// cost + multiplier × (least − 1) ≥ D from outside".
fn kept_low(blocks: &Blocks, loops: &Loops, low: &Low, around: &[Vec<usize>], u: usize, v: usize) -> bool {
    let cost = i128::from(blocks.cost[v]);
    let fall = i128::from(low.figure[u]) - i128::from(low.figure[v]);
    let Some(l) = headed(loops, v) else {
        return cost >= fall;
    };
    let multiplier = i128::from(low.multiplier[l]);
    if around[u].contains(&l) {
        cost >= fall + multiplier
    } else {
        cost + multiplier * (i128::from(low.least[l]) - 1) >= fall
    }
}

/// The number of an accepted second certificate, or 201 to 207, 209, 451, 452 and 453 in this order. 202 and 203 are of the tables' own columns.
pub fn shortest(blocks: &Blocks, loops: &Loops, low: &Low) -> Result<i64, Refusal> {
    let (n, m) = (blocks.cost.len(), loops.parent.len());
    if [low.figure.len(), low.multiplier.len(), low.least.len()] != [n, m, m] {
        return refuse(201, 0);
    }
    let around = declared(blocks, loops)?;
    lowest(451, m, |l| {
        let (multiplier, least) = (low.multiplier[l], low.least[l]);
        if l == 0 { multiplier != 0 || least != 1 } else { multiplier > 1 << 40 || least > 65_535 }
    })?;
    lowest(452, n, |u| outside(low.figure[u]))?;
    lowest(453, n, |u| successors(blocks, u).into_iter().any(|v| !kept_low(blocks, loops, low, &around, u, v)))?;
    Ok(bound(blocks, &low.figure))
}

// Walks

/// The cost and the step count of an accepted walk.
pub fn walk(blocks: &Blocks, loops: &Loops, list: &[u16]) -> Result<(i64, u64), Refusal> {
    let around = shape(blocks, loops)?;
    let n = blocks.cost.len();
    let m = loops.parent.len();
    if list.is_empty() || list.len() > 1_048_576 {
        return refuse(301, 0);
    }
    let mut visits = vec![0u64; m];
    visits[0] = 1;
    let mut cost = 0i128;
    for index in 0..list.len() {
        let v = usize::from(list[index]);
        if v >= n {
            return refuse(302, index);
        }
        if index == 0 {
            if v != 0 {
                return refuse(303, 0);
            }
        } else {
            let u = usize::from(list[index - 1]);
            if u == n - 1 {
                return refuse(311, index);
            }
            if !successors(blocks, u).contains(&v) {
                return refuse(312, index);
            }
            for l in 0..m {
                let inside_before = around[u].contains(&l);
                let inside_now = around[v].contains(&l);
                if usize::from(loops.header[l]) == v {
                    visits[l] = if inside_before { visits[l] + 1 } else { 1 };
                    if visits[l] > u64::from(loops.limit[l]) {
                        return refuse(313, index);
                    }
                } else if inside_before && !inside_now {
                    visits[l] = 0;
                }
            }
        }
        cost += i128::from(blocks.cost[v]);
    }
    if usize::from(list[list.len() - 1]) != n - 1 {
        return refuse(314, list.len());
    }
    Ok((i64::try_from(cost).unwrap(), list.len() as u64 - 1))
}
