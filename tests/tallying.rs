//! Request 7 of document 02, written from the papers alone: for each loop the walk is cut into its stretches inside the loop, and in each of them
//! the header is counted. No count is carried from one block to the next.

use crate::reference::{self, Blocks, Loops, Refusal};

/// What a complete walk shows: for each loop the number of stays and the greatest number of header visits in one stay.
#[derive(Clone, Debug, PartialEq, Eq)]
pub struct Seen {
    pub stays: Vec<u32>,
    pub greatest: Vec<u32>,
    pub steps: u64,
}

/// What a walk shows, where the two lent columns have these lengths; or 201 to 207, 421, 301 to 303, 311, 312 and 314 in this order.
pub fn tally(blocks: &Blocks, loops: &Loops, list: &[u16], lengths: [usize; 2]) -> Result<Seen, Refusal> {
    let around = reference::shape(blocks, loops)?;
    let m = loops.parent.len();
    if lengths != [m, m] {
        return reference::refuse(421, 0);
    }
    complete(blocks, list)?;
    let mut seen = Seen { stays: Vec::new(), greatest: Vec::new(), steps: list.len() as u64 - 1 };
    for l in 0..m {
        let visits = visits(loops, &around, l, list);
        seen.stays.push(visits.len() as u32);
        seen.greatest.push(visits.into_iter().max().unwrap_or(0) as u32);
    }
    Ok(seen)
}

/// The visits to the header of loop `l` in each of its stays.
pub fn visits(loops: &Loops, around: &[Vec<usize>], l: usize, list: &[u16]) -> Vec<usize> {
    stretches(around, l, list).map(|stay| stay.iter().filter(|v| **v == loops.header[l]).count()).collect()
}

/// The maximal stretches of the walk inside loop `l`.
fn stretches<'a>(around: &'a [Vec<usize>], l: usize, list: &'a [u16]) -> impl Iterator<Item = &'a [u16]> {
    list.split(move |v| !around[usize::from(*v)].contains(&l)).filter(|stretch| !stretch.is_empty())
}

/// Whether the list is a walk from block 0 to the exit, whatever the limits are.
fn complete(blocks: &Blocks, list: &[u16]) -> Result<(), Refusal> {
    let exit = blocks.cost.len() - 1;
    if list.is_empty() || list.len() > 1_048_576 {
        return reference::refuse(301, 0);
    }
    let mut before = None;
    for (index, v) in list.iter().map(|v| usize::from(*v)).enumerate() {
        match before {
            _ if v > exit => return reference::refuse(302, index),
            None if v != 0 => return reference::refuse(303, index),
            Some(u) if u == exit => return reference::refuse(311, index),
            Some(u) if !reference::successors(blocks, u).contains(&v) => return reference::refuse(312, index),
            _ => before = Some(v),
        }
    }
    if before == Some(exit) { Ok(()) } else { reference::refuse(314, list.len()) }
}

/// The limits that a walk shows: its greatest numbers, with 1 in place of 0. None where one is over 65,535.
pub fn limits(seen: &Seen) -> Option<Vec<u32>> {
    seen.greatest.iter().map(|greatest| Some((*greatest).max(1)).filter(|limit| *limit <= 65_535)).collect()
}
