//! The original's span keys as slot numbers from 0, its free slots in the order in which they will be taken, and how
//! often a slot was taken. The slot map tells none of these itself, so a copy of it is filled and its keys are read.

use crate::heightfield::Heightfield;
use crate::span::{AreaType, Span, SpanKey, Spans};
use slotmap::Key;

pub const NONE: u32 = u32::MAX;

/// The slot that a key names. Keys count from 1.
pub fn slot(key: SpanKey) -> usize {
    (key.data().as_ffi() as u32 - 1) as usize
}

pub fn slot_or_none(key: Option<SpanKey>) -> u32 {
    key.map_or(NONE, |key| slot(key) as u32)
}

/// How often the slot of a key was taken so far: its version is odd while it is taken, and grows by one at each change.
fn times_taken(key: SpanKey) -> u64 {
    ((key.data().as_ffi() >> 32) + 1) / 2
}

fn take(spans: &mut Spans) -> SpanKey {
    spans.insert(Span {
        min: 0,
        max: 0,
        area: AreaType(0),
        next: None,
    })
}

/// The free slots among the first `total`, the next to be taken first.
pub fn free_chain(field: &Heightfield, total: usize) -> Vec<usize> {
    let mut spans = field.allocated_spans.clone();
    let free = total.saturating_sub(spans.len());
    (0..free).map(|_| slot(take(&mut spans))).collect()
}

/// How many insertions were made since the field was fresh.
pub fn insertions(field: &Heightfield) -> u64 {
    let mut spans = field.allocated_spans.clone();
    let mut sum: u64 = spans.keys().map(times_taken).sum();
    loop {
        let before = times_taken(take(&mut spans)) - 1;
        if before == 0 {
            return sum; // this slot was never taken, and so none after it
        }
        sum += before;
    }
}
