// The path-counting program written as MPS by straight C.
use crate::routine::Routine;
use crate::straight;

#[rustfmt::skip]
extern "C" {
    fn mps_straight(
        cost: *const u32, loops: *const u16, first: *const u16, second: *const u16, n: usize,
        around: *const u64, header: *const u16, limit: *const u32, m: usize, text: *mut u8, room: usize,
    ) -> i64;
}

// The rules that rolkeyda_mps asks, in straight Rust, then the text.
#[rustfmt::skip]
pub fn straight(t: &Routine, text: &mut [u8]) -> Result<usize, (u32, usize)> {
    let around = straight::structure_and_cycles(t)?;
    let (b, l) = (&t.blocks, &t.loops);
    // SAFETY: each column has the length of its table, `around` has 64 places, and the buffer comes with its own length.
    let length = unsafe {
        mps_straight(
            b.cost.as_ptr(), b.loops.as_ptr(), b.first.as_ptr(), b.second.as_ptr(), b.cost.len(),
            around.as_ptr(), l.header.as_ptr(), l.limit.as_ptr(), l.parent.len(), text.as_mut_ptr(), text.len(),
        )
    };
    usize::try_from(length).map_err(|_| (411, 0))
}
