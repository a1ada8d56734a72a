// The block table read by csv-core and by libcsv, with its numbers parsed: what one would write over those libraries. VCD read by straight C.
use crate::routine::{Blocks, Routine};
use crate::straight;
use csv_core::{ReadRecordResult, Reader};

extern "C" {
    fn csv_blocks(text: *const u8, length: usize, cost: *mut u32, loops: *mut u16, first: *mut u16, second: *mut u16, figure: *mut i64, room: usize) -> i64;
    fn vcd_straight(text: *const u8, length: usize, code: *const u8, code_length: usize, blocks: *mut u16, room: usize, place: *mut u32) -> i64;
}

pub fn libcsv(text: &[u8], to: &mut Blocks) -> Option<usize> {
    let room = to.cost.len();
    // SAFETY: every column has `room` places.
    let rows = unsafe {
        csv_blocks(
            text.as_ptr(),
            text.len(),
            to.cost.as_mut_ptr(),
            to.loops.as_mut_ptr(),
            to.first.as_mut_ptr(),
            to.second.as_mut_ptr(),
            to.figure.as_mut_ptr(),
            room,
        )
    };
    usize::try_from(rows).ok()
}

fn number(field: &[u8], most: u64) -> Option<u64> {
    if field.is_empty() || field.len() > 19 || (field.len() > 1 && field[0] == b'0') {
        return None;
    }
    let mut v = 0u64;
    for &b in field {
        let d = b.wrapping_sub(b'0');
        if d > 9 {
            return None;
        }
        v = v * 10 + u64::from(d);
    }
    (v <= most).then_some(v)
}

fn successor(field: &[u8]) -> Option<u16> {
    if field.is_empty() { Some(65535) } else { number(field, 65534).map(|v| v as u16) }
}

fn figure(field: &[u8]) -> Option<i64> {
    match field.split_first() {
        Some((b'-', rest)) => number(rest, i64::MAX as u64).map(|v| -(v as i64)),
        _ => number(field, i64::MAX as u64).map(|v| v as i64),
    }
}

fn row(fields: &[u8], ends: &[usize], k: usize, to: &mut Blocks) -> Option<()> {
    let field = |i: usize| &fields[if i == 0 { 0 } else { ends[i - 1] }..ends[i]];
    if ends.len() != 6 || number(field(0), 65535)? as usize != k || k >= to.cost.len() {
        return None;
    }
    to.cost[k] = number(field(1), u64::from(u32::MAX))? as u32;
    to.loops[k] = number(field(2), 65535)? as u16;
    to.first[k] = successor(field(3))?;
    to.second[k] = successor(field(4))?;
    to.figure[k] = figure(field(5))?;
    Some(())
}

// The reader is the caller's, who may make one for each text or keep one.
pub fn csv_core(reader: &mut Reader, text: &[u8], to: &mut Blocks) -> Option<usize> {
    reader.reset();
    let mut fields = [0u8; 1024];
    let mut ends = [0usize; 16];
    let mut rest = text;
    let mut k = 0;
    loop {
        let (result, read, _, count) = reader.read_record(rest, &mut fields, &mut ends);
        rest = &rest[read..];
        match result {
            ReadRecordResult::Record => {
                row(&fields, &ends[..count], k, to)?;
                k += 1;
            }
            // no more text: a call with nothing ends the last record
            ReadRecordResult::InputEmpty => {}
            ReadRecordResult::End => return Some(k),
            ReadRecordResult::OutputFull | ReadRecordResult::OutputEndsFull => return None,
        }
    }
}

// The rules that rolkeyda_vcd asks of the tables, in straight Rust, then the text: the count of the blocks.
pub fn vcd(t: &Routine, text: &[u8], code: &[u8], blocks: &mut [u16]) -> Result<usize, (u32, usize)> {
    straight::structure_and_self_edges(t)?;
    let mut place = 0;
    // SAFETY: the text, the code and the buffer come with their own lengths, and the buffer overlaps neither.
    let count = unsafe { vcd_straight(text.as_ptr(), text.len(), code.as_ptr(), code.len(), blocks.as_mut_ptr(), blocks.len(), &mut place) };
    usize::try_from(count).map_err(|_| (count.unsigned_abs() as u32, place as usize))
}
