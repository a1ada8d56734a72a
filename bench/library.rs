// The C library.
#[cfg(before)]
use crate::routine::Loops;
use crate::routine::{Blocks, Low, Routine};

#[repr(C)]
#[derive(Debug, PartialEq)]
pub struct Reply {
    pub number: u32,
    pub place: u32,
    pub value: i64,
    pub more: u64,
}

#[rustfmt::skip]
extern "C" {
    fn rolkeyda_read_blocks(
        text: *const u8, text_length: usize, header: bool,
        cost: *mut u32, cost_length: usize, loops: *mut u16, loops_length: usize, first: *mut u16, first_length: usize,
        second: *mut u16, second_length: usize, figure: *mut i64, figure_length: usize,
    ) -> Reply;
    #[cfg(before)]
    fn rolkeyda_read_loops(
        text: *const u8, text_length: usize, header: bool,
        parent: *mut u16, parent_length: usize, block: *mut u16, block_length: usize,
        limit: *mut u32, limit_length: usize, multiplier: *mut u64, multiplier_length: usize,
    ) -> Reply;
    // the same of an older library, which bench/run renames
    #[cfg(before)]
    fn before_read_loops(
        text: *const u8, text_length: usize, header: bool,
        parent: *mut u16, parent_length: usize, block: *mut u16, block_length: usize,
        limit: *mut u32, limit_length: usize, multiplier: *mut u64, multiplier_length: usize,
    ) -> Reply;
    #[cfg(before)]
    fn before_read_blocks(
        text: *const u8, text_length: usize, header: bool,
        cost: *mut u32, cost_length: usize, loops: *mut u16, loops_length: usize, first: *mut u16, first_length: usize,
        second: *mut u16, second_length: usize, figure: *mut i64, figure_length: usize,
    ) -> Reply;
    fn rolkeyda_check(
        cost: *const u32, cost_length: usize, loops: *const u16, loops_length: usize, first: *const u16, first_length: usize,
        second: *const u16, second_length: usize, figure: *const i64, figure_length: usize,
        parent: *const u16, parent_length: usize, header: *const u16, header_length: usize,
        limit: *const u32, limit_length: usize, multiplier: *const u64, multiplier_length: usize,
    ) -> Reply;
    #[cfg(before)]
    fn before_check(
        cost: *const u32, cost_length: usize, loops: *const u16, loops_length: usize, first: *const u16, first_length: usize,
        second: *const u16, second_length: usize, figure: *const i64, figure_length: usize,
        parent: *const u16, parent_length: usize, header: *const u16, header_length: usize,
        limit: *const u32, limit_length: usize, multiplier: *const u64, multiplier_length: usize,
    ) -> Reply;
    fn rolkeyda_shortest(
        cost: *const u32, cost_length: usize, loops: *const u16, loops_length: usize, first: *const u16, first_length: usize,
        second: *const u16, second_length: usize, figure: *const i64, figure_length: usize,
        parent: *const u16, parent_length: usize, header: *const u16, header_length: usize,
        limit: *const u32, limit_length: usize, multiplier: *const u64, multiplier_length: usize,
        low_figure: *const i64, low_figure_length: usize, low_multiplier: *const u64, low_multiplier_length: usize,
        least: *const u32, least_length: usize,
    ) -> Reply;
    fn rolkeyda_solve(
        cost: *const u32, cost_length: usize, loops: *const u16, loops_length: usize, first: *const u16, first_length: usize,
        second: *const u16, second_length: usize, figure: *mut i64, figure_length: usize,
        parent: *const u16, parent_length: usize, header: *const u16, header_length: usize,
        limit: *const u32, limit_length: usize, multiplier: *mut u64, multiplier_length: usize,
    ) -> Reply;
    fn rolkeyda_walk(
        cost: *const u32, cost_length: usize, loops: *const u16, loops_length: usize, first: *const u16, first_length: usize,
        second: *const u16, second_length: usize, figure: *const i64, figure_length: usize,
        parent: *const u16, parent_length: usize, header: *const u16, header_length: usize,
        limit: *const u32, limit_length: usize, multiplier: *const u64, multiplier_length: usize,
        blocks: *const u16, blocks_length: usize,
    ) -> Reply;
    #[cfg(before)]
    fn before_walk(
        cost: *const u32, cost_length: usize, loops: *const u16, loops_length: usize, first: *const u16, first_length: usize,
        second: *const u16, second_length: usize, figure: *const i64, figure_length: usize,
        parent: *const u16, parent_length: usize, header: *const u16, header_length: usize,
        limit: *const u32, limit_length: usize, multiplier: *const u64, multiplier_length: usize,
        blocks: *const u16, blocks_length: usize,
    ) -> Reply;
    fn rolkeyda_tally(
        cost: *const u32, cost_length: usize, loops: *const u16, loops_length: usize, first: *const u16, first_length: usize,
        second: *const u16, second_length: usize, figure: *const i64, figure_length: usize,
        parent: *const u16, parent_length: usize, header: *const u16, header_length: usize,
        limit: *const u32, limit_length: usize, multiplier: *const u64, multiplier_length: usize,
        blocks: *const u16, blocks_length: usize, stays: *mut u32, stays_length: usize, greatest: *mut u32, greatest_length: usize,
    ) -> Reply;
    fn rolkeyda_mps(
        cost: *const u32, cost_length: usize, loops: *const u16, loops_length: usize, first: *const u16, first_length: usize,
        second: *const u16, second_length: usize, figure: *const i64, figure_length: usize,
        parent: *const u16, parent_length: usize, header: *const u16, header_length: usize,
        limit: *const u32, limit_length: usize, multiplier: *const u64, multiplier_length: usize,
        text: *mut u8, text_length: usize,
    ) -> Reply;
    fn rolkeyda_vcd(
        cost: *const u32, cost_length: usize, loops: *const u16, loops_length: usize, first: *const u16, first_length: usize,
        second: *const u16, second_length: usize, figure: *const i64, figure_length: usize,
        parent: *const u16, parent_length: usize, header: *const u16, header_length: usize,
        limit: *const u32, limit_length: usize, multiplier: *const u64, multiplier_length: usize,
        text: *const u8, text_length: usize, code: *const u8, code_length: usize, blocks: *mut u16, blocks_length: usize,
    ) -> Reply;
}

#[rustfmt::skip]
type ReadBlocks = unsafe extern "C" fn(
    *const u8, usize, bool, *mut u32, usize, *mut u16, usize, *mut u16, usize, *mut u16, usize, *mut i64, usize,
) -> Reply;

#[rustfmt::skip]
fn read_by(read: ReadBlocks, text: &[u8], to: &mut Blocks) -> Reply {
    let n = to.cost.len();
    // SAFETY: each pointer comes with the length of its own column, and no two columns overlap.
    unsafe {
        read(
            text.as_ptr(), text.len(), false, to.cost.as_mut_ptr(), n, to.loops.as_mut_ptr(), n, to.first.as_mut_ptr(), n,
            to.second.as_mut_ptr(), n, to.figure.as_mut_ptr(), n,
        )
    }
}

#[cfg(before)]
type ReadLoops = unsafe extern "C" fn(*const u8, usize, bool, *mut u16, usize, *mut u16, usize, *mut u32, usize, *mut u64, usize) -> Reply;

#[cfg(before)]
#[rustfmt::skip]
fn read_loops_by(read: ReadLoops, text: &[u8], to: &mut Loops) -> Reply {
    let m = to.parent.len();
    // SAFETY: each pointer comes with the length of its own column, and no two columns overlap.
    unsafe {
        read(
            text.as_ptr(), text.len(), false, to.parent.as_mut_ptr(), m, to.header.as_mut_ptr(), m, to.limit.as_mut_ptr(), m,
            to.multiplier.as_mut_ptr(), m,
        )
    }
}

#[rustfmt::skip]
type Check = unsafe extern "C" fn(
    *const u32, usize, *const u16, usize, *const u16, usize, *const u16, usize, *const i64, usize,
    *const u16, usize, *const u16, usize, *const u32, usize, *const u64, usize,
) -> Reply;

#[rustfmt::skip]
fn check_by(check: Check, t: &Routine) -> Reply {
    let (b, l) = (&t.blocks, &t.loops);
    let (n, m) = (b.cost.len(), l.parent.len());
    // SAFETY: each pointer comes with the length of its own column.
    unsafe {
        check(
            b.cost.as_ptr(), n, b.loops.as_ptr(), n, b.first.as_ptr(), n, b.second.as_ptr(), n, b.figure.as_ptr(), n,
            l.parent.as_ptr(), m, l.header.as_ptr(), m, l.limit.as_ptr(), m, l.multiplier.as_ptr(), m,
        )
    }
}

#[rustfmt::skip]
type Walk = unsafe extern "C" fn(
    *const u32, usize, *const u16, usize, *const u16, usize, *const u16, usize, *const i64, usize,
    *const u16, usize, *const u16, usize, *const u32, usize, *const u64, usize, *const u16, usize,
) -> Reply;

#[rustfmt::skip]
fn walk_by(by: Walk, t: &Routine, walk: &[u16]) -> Reply {
    let (b, l) = (&t.blocks, &t.loops);
    let (n, m) = (b.cost.len(), l.parent.len());
    // SAFETY: each pointer comes with the length of its own column.
    unsafe {
        by(
            b.cost.as_ptr(), n, b.loops.as_ptr(), n, b.first.as_ptr(), n, b.second.as_ptr(), n, b.figure.as_ptr(), n,
            l.parent.as_ptr(), m, l.header.as_ptr(), m, l.limit.as_ptr(), m, l.multiplier.as_ptr(), m,
            walk.as_ptr(), walk.len(),
        )
    }
}

pub struct Library;

#[rustfmt::skip]
impl Library {
    pub fn read_blocks(text: &[u8], to: &mut Blocks) -> Reply {
        read_by(rolkeyda_read_blocks, text, to)
    }

    #[cfg(before)]
    pub fn read_blocks_before(text: &[u8], to: &mut Blocks) -> Reply {
        read_by(before_read_blocks, text, to)
    }

    #[cfg(before)]
    pub fn read_loops(text: &[u8], to: &mut Loops) -> Reply {
        read_loops_by(rolkeyda_read_loops, text, to)
    }

    #[cfg(before)]
    pub fn read_loops_before(text: &[u8], to: &mut Loops) -> Reply {
        read_loops_by(before_read_loops, text, to)
    }

    pub fn check(t: &Routine) -> Reply {
        check_by(rolkeyda_check, t)
    }

    #[cfg(before)]
    pub fn check_before(t: &Routine) -> Reply {
        check_by(before_check, t)
    }

    pub fn shortest(t: &Routine, c: &Low) -> Reply {
        let (b, l) = (&t.blocks, &t.loops);
        let (n, m) = (b.cost.len(), l.parent.len());
        // SAFETY: each pointer comes with the length of its own column.
        unsafe {
            rolkeyda_shortest(
                b.cost.as_ptr(), n, b.loops.as_ptr(), n, b.first.as_ptr(), n, b.second.as_ptr(), n, b.figure.as_ptr(), n,
                l.parent.as_ptr(), m, l.header.as_ptr(), m, l.limit.as_ptr(), m, l.multiplier.as_ptr(), m,
                c.figure.as_ptr(), c.figure.len(), c.multiplier.as_ptr(), c.multiplier.len(), c.least.as_ptr(), c.least.len(),
            )
        }
    }

    pub fn solve(t: &mut Routine) -> Reply {
        let (b, l) = (&mut t.blocks, &mut t.loops);
        let (n, m) = (b.cost.len(), l.parent.len());
        // SAFETY: each pointer comes with the length of its own column, and no two columns overlap.
        unsafe {
            rolkeyda_solve(
                b.cost.as_ptr(), n, b.loops.as_ptr(), n, b.first.as_ptr(), n, b.second.as_ptr(), n, b.figure.as_mut_ptr(), n,
                l.parent.as_ptr(), m, l.header.as_ptr(), m, l.limit.as_ptr(), m, l.multiplier.as_mut_ptr(), m,
            )
        }
    }

    pub fn walk(t: &Routine, walk: &[u16]) -> Reply {
        walk_by(rolkeyda_walk, t, walk)
    }

    #[cfg(before)]
    pub fn walk_before(t: &Routine, walk: &[u16]) -> Reply {
        walk_by(before_walk, t, walk)
    }

    pub fn tally(t: &Routine, walk: &[u16], stays: &mut [u32], greatest: &mut [u32]) -> Reply {
        let (b, l) = (&t.blocks, &t.loops);
        let (n, m) = (b.cost.len(), l.parent.len());
        // SAFETY: each pointer comes with the length of its own column, and those that are written overlap no other.
        unsafe {
            rolkeyda_tally(
                b.cost.as_ptr(), n, b.loops.as_ptr(), n, b.first.as_ptr(), n, b.second.as_ptr(), n, b.figure.as_ptr(), n,
                l.parent.as_ptr(), m, l.header.as_ptr(), m, l.limit.as_ptr(), m, l.multiplier.as_ptr(), m,
                walk.as_ptr(), walk.len(), stays.as_mut_ptr(), stays.len(), greatest.as_mut_ptr(), greatest.len(),
            )
        }
    }

    pub fn mps(t: &Routine, text: &mut [u8]) -> Reply {
        let (b, l) = (&t.blocks, &t.loops);
        let (n, m) = (b.cost.len(), l.parent.len());
        // SAFETY: each pointer comes with the length of its own column or buffer, and the buffer overlaps no column.
        unsafe {
            rolkeyda_mps(
                b.cost.as_ptr(), n, b.loops.as_ptr(), n, b.first.as_ptr(), n, b.second.as_ptr(), n, b.figure.as_ptr(), n,
                l.parent.as_ptr(), m, l.header.as_ptr(), m, l.limit.as_ptr(), m, l.multiplier.as_ptr(), m,
                text.as_mut_ptr(), text.len(),
            )
        }
    }

    pub fn vcd(t: &Routine, text: &[u8], code: &[u8], blocks: &mut [u16]) -> Reply {
        let (b, l) = (&t.blocks, &t.loops);
        let (n, m) = (b.cost.len(), l.parent.len());
        // SAFETY: each pointer comes with the length of its own column, text or buffer, and the buffer overlaps none of the others.
        unsafe {
            rolkeyda_vcd(
                b.cost.as_ptr(), n, b.loops.as_ptr(), n, b.first.as_ptr(), n, b.second.as_ptr(), n, b.figure.as_ptr(), n,
                l.parent.as_ptr(), m, l.header.as_ptr(), m, l.limit.as_ptr(), m, l.multiplier.as_ptr(), m,
                text.as_ptr(), text.len(), code.as_ptr(), code.len(), blocks.as_mut_ptr(), blocks.len(),
            )
        }
    }
}
