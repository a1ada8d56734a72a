//! The C ABI of the library, and wrappers that take slices.

#[repr(C)]
#[derive(Clone, Copy, Debug, PartialEq, Eq)]
pub struct Reply {
    pub number: u32,
    pub place: u32,
    pub value: i64,
    pub more: u64,
}

#[link(name = "rolkeyda", kind = "static")]
extern "C" {
    fn rolkeyda_read_blocks(
        text: *const u8, text_length: usize, header_row: bool,
        cost: *mut u32, cost_length: usize, inner: *mut u16, inner_length: usize,
        first: *mut u16, first_length: usize, second: *mut u16, second_length: usize,
        figure: *mut i64, figure_length: usize,
    ) -> Reply;

    fn rolkeyda_read_loops(
        text: *const u8, text_length: usize, header_row: bool,
        parent: *mut u16, parent_length: usize, header: *mut u16, header_length: usize,
        limit: *mut u32, limit_length: usize, multiplier: *mut u64, multiplier_length: usize,
    ) -> Reply;

    fn rolkeyda_check(
        cost: *const u32, cost_length: usize, inner: *const u16, inner_length: usize,
        first: *const u16, first_length: usize, second: *const u16, second_length: usize,
        figure: *const i64, figure_length: usize,
        parent: *const u16, parent_length: usize, header: *const u16, header_length: usize,
        limit: *const u32, limit_length: usize, multiplier: *const u64, multiplier_length: usize,
    ) -> Reply;

    fn rolkeyda_walk(
        cost: *const u32, cost_length: usize, inner: *const u16, inner_length: usize,
        first: *const u16, first_length: usize, second: *const u16, second_length: usize,
        figure: *const i64, figure_length: usize,
        parent: *const u16, parent_length: usize, header: *const u16, header_length: usize,
        limit: *const u32, limit_length: usize, multiplier: *const u64, multiplier_length: usize,
        blocks: *const u16, blocks_length: usize,
    ) -> Reply;

    fn rolkeyda_solve(
        cost: *const u32, cost_length: usize, inner: *const u16, inner_length: usize,
        first: *const u16, first_length: usize, second: *const u16, second_length: usize,
        figure: *mut i64, figure_length: usize,
        parent: *const u16, parent_length: usize, header: *const u16, header_length: usize,
        limit: *const u32, limit_length: usize, multiplier: *mut u64, multiplier_length: usize,
    ) -> Reply;

    fn rolkeyda_mps(
        cost: *const u32, cost_length: usize, inner: *const u16, inner_length: usize,
        first: *const u16, first_length: usize, second: *const u16, second_length: usize,
        figure: *const i64, figure_length: usize,
        parent: *const u16, parent_length: usize, header: *const u16, header_length: usize,
        limit: *const u32, limit_length: usize, multiplier: *const u64, multiplier_length: usize,
        text: *mut u8, text_length: usize,
    ) -> Reply;

    fn rolkeyda_tally(
        cost: *const u32, cost_length: usize, inner: *const u16, inner_length: usize,
        first: *const u16, first_length: usize, second: *const u16, second_length: usize,
        figure: *const i64, figure_length: usize,
        parent: *const u16, parent_length: usize, header: *const u16, header_length: usize,
        limit: *const u32, limit_length: usize, multiplier: *const u64, multiplier_length: usize,
        blocks: *const u16, blocks_length: usize,
        stays: *mut u32, stays_length: usize, greatest: *mut u32, greatest_length: usize,
    ) -> Reply;

    fn rolkeyda_vcd(
        cost: *const u32, cost_length: usize, inner: *const u16, inner_length: usize,
        first: *const u16, first_length: usize, second: *const u16, second_length: usize,
        figure: *const i64, figure_length: usize,
        parent: *const u16, parent_length: usize, header: *const u16, header_length: usize,
        limit: *const u32, limit_length: usize, multiplier: *const u64, multiplier_length: usize,
        text: *const u8, text_length: usize, code: *const u8, code_length: usize,
        blocks: *mut u16, blocks_length: usize,
    ) -> Reply;

    fn rolkeyda_shortest(
        cost: *const u32, cost_length: usize, inner: *const u16, inner_length: usize,
        first: *const u16, first_length: usize, second: *const u16, second_length: usize,
        figure: *const i64, figure_length: usize,
        parent: *const u16, parent_length: usize, header: *const u16, header_length: usize,
        limit: *const u32, limit_length: usize, multiplier: *const u64, multiplier_length: usize,
        low_figure: *const i64, low_figure_length: usize,
        low_multiplier: *const u64, low_multiplier_length: usize, least: *const u32, least_length: usize,
    ) -> Reply;
}

/// The nine columns of a pair of tables.
#[derive(Clone, Copy)]
pub struct Columns<'a> {
    pub cost: &'a [u32],
    pub inner: &'a [u16],
    pub first: &'a [u16],
    pub second: &'a [u16],
    pub figure: &'a [i64],
    pub parent: &'a [u16],
    pub header: &'a [u16],
    pub limit: &'a [u32],
    pub multiplier: &'a [u64],
}

pub fn read_blocks(
    text: &[u8], header_row: bool,
    cost: &mut [u32], inner: &mut [u16], first: &mut [u16], second: &mut [u16], figure: &mut [i64],
) -> Reply {
    unsafe {
        rolkeyda_read_blocks(
            text.as_ptr(), text.len(), header_row,
            cost.as_mut_ptr(), cost.len(), inner.as_mut_ptr(), inner.len(),
            first.as_mut_ptr(), first.len(), second.as_mut_ptr(), second.len(),
            figure.as_mut_ptr(), figure.len(),
        )
    }
}

pub fn read_loops(
    text: &[u8], header_row: bool,
    parent: &mut [u16], header: &mut [u16], limit: &mut [u32], multiplier: &mut [u64],
) -> Reply {
    unsafe {
        rolkeyda_read_loops(
            text.as_ptr(), text.len(), header_row,
            parent.as_mut_ptr(), parent.len(), header.as_mut_ptr(), header.len(),
            limit.as_mut_ptr(), limit.len(), multiplier.as_mut_ptr(), multiplier.len(),
        )
    }
}

pub fn check(c: Columns) -> Reply {
    unsafe {
        rolkeyda_check(
            c.cost.as_ptr(), c.cost.len(), c.inner.as_ptr(), c.inner.len(),
            c.first.as_ptr(), c.first.len(), c.second.as_ptr(), c.second.len(),
            c.figure.as_ptr(), c.figure.len(),
            c.parent.as_ptr(), c.parent.len(), c.header.as_ptr(), c.header.len(),
            c.limit.as_ptr(), c.limit.len(), c.multiplier.as_ptr(), c.multiplier.len(),
        )
    }
}

pub fn walk(c: Columns, blocks: &[u16]) -> Reply {
    unsafe {
        rolkeyda_walk(
            c.cost.as_ptr(), c.cost.len(), c.inner.as_ptr(), c.inner.len(),
            c.first.as_ptr(), c.first.len(), c.second.as_ptr(), c.second.len(),
            c.figure.as_ptr(), c.figure.len(),
            c.parent.as_ptr(), c.parent.len(), c.header.as_ptr(), c.header.len(),
            c.limit.as_ptr(), c.limit.len(), c.multiplier.as_ptr(), c.multiplier.len(),
            blocks.as_ptr(), blocks.len(),
        )
    }
}

pub fn solve(
    cost: &[u32], inner: &[u16], first: &[u16], second: &[u16], figure: &mut [i64],
    parent: &[u16], header: &[u16], limit: &[u32], multiplier: &mut [u64],
) -> Reply {
    unsafe {
        rolkeyda_solve(
            cost.as_ptr(), cost.len(), inner.as_ptr(), inner.len(),
            first.as_ptr(), first.len(), second.as_ptr(), second.len(),
            figure.as_mut_ptr(), figure.len(),
            parent.as_ptr(), parent.len(), header.as_ptr(), header.len(),
            limit.as_ptr(), limit.len(), multiplier.as_mut_ptr(), multiplier.len(),
        )
    }
}

/// (For tests/mps.rs.)
#[allow(dead_code)]
pub fn mps(c: Columns, text: &mut [u8]) -> Reply {
    unsafe {
        rolkeyda_mps(
            c.cost.as_ptr(), c.cost.len(), c.inner.as_ptr(), c.inner.len(),
            c.first.as_ptr(), c.first.len(), c.second.as_ptr(), c.second.len(),
            c.figure.as_ptr(), c.figure.len(),
            c.parent.as_ptr(), c.parent.len(), c.header.as_ptr(), c.header.len(),
            c.limit.as_ptr(), c.limit.len(), c.multiplier.as_ptr(), c.multiplier.len(),
            text.as_mut_ptr(), text.len(),
        )
    }
}

pub fn tally(c: Columns, blocks: &[u16], stays: &mut [u32], greatest: &mut [u32]) -> Reply {
    unsafe {
        rolkeyda_tally(
            c.cost.as_ptr(), c.cost.len(), c.inner.as_ptr(), c.inner.len(),
            c.first.as_ptr(), c.first.len(), c.second.as_ptr(), c.second.len(),
            c.figure.as_ptr(), c.figure.len(),
            c.parent.as_ptr(), c.parent.len(), c.header.as_ptr(), c.header.len(),
            c.limit.as_ptr(), c.limit.len(), c.multiplier.as_ptr(), c.multiplier.len(),
            blocks.as_ptr(), blocks.len(),
            stays.as_mut_ptr(), stays.len(), greatest.as_mut_ptr(), greatest.len(),
        )
    }
}

pub fn vcd(c: Columns, text: &[u8], code: &[u8], blocks: &mut [u16]) -> Reply {
    unsafe {
        rolkeyda_vcd(
            c.cost.as_ptr(), c.cost.len(), c.inner.as_ptr(), c.inner.len(),
            c.first.as_ptr(), c.first.len(), c.second.as_ptr(), c.second.len(),
            c.figure.as_ptr(), c.figure.len(),
            c.parent.as_ptr(), c.parent.len(), c.header.as_ptr(), c.header.len(),
            c.limit.as_ptr(), c.limit.len(), c.multiplier.as_ptr(), c.multiplier.len(),
            text.as_ptr(), text.len(), code.as_ptr(), code.len(),
            blocks.as_mut_ptr(), blocks.len(),
        )
    }
}

pub fn shortest(c: Columns, low_figure: &[i64], low_multiplier: &[u64], least: &[u32]) -> Reply {
    unsafe {
        rolkeyda_shortest(
            c.cost.as_ptr(), c.cost.len(), c.inner.as_ptr(), c.inner.len(),
            c.first.as_ptr(), c.first.len(), c.second.as_ptr(), c.second.len(),
            c.figure.as_ptr(), c.figure.len(),
            c.parent.as_ptr(), c.parent.len(), c.header.as_ptr(), c.header.len(),
            c.limit.as_ptr(), c.limit.len(), c.multiplier.as_ptr(), c.multiplier.len(),
            low_figure.as_ptr(), low_figure.len(),
            low_multiplier.as_ptr(), low_multiplier.len(), least.as_ptr(), least.len(),
        )
    }
}
