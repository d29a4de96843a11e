//! What `show` writes.

use crate::compact_heightfield::CompactHeightfield;
use crate::heightfield::Heightfield;
use crate::slots::{NONE, free_chain, slot, slot_or_none};
use std::io::{Result, Write};

pub fn columns(out: &mut impl Write, field: &Heightfield) -> Result<()> {
    writeln!(out, "show columns")?;
    for z in 0..field.height {
        for x in 0..field.width {
            let mut next = field.span_key_at(x, z);
            let mut mark = format!("{x} {z}: ");
            while let Some(key) = next {
                let span = field.span(key);
                write!(out, "{mark}{}-{} {}", span.min, span.max, span.area.0)?;
                mark = ", ".to_string();
                next = span.next;
            }
            if mark == ", " {
                writeln!(out)?;
            }
        }
    }
    Ok(())
}

fn line(out: &mut impl Write, name: &str, numbers: impl Iterator<Item = u32>) -> Result<()> {
    write!(out, "{name}")?;
    for number in numbers {
        write!(out, " {number}")?;
    }
    writeln!(out)
}

pub fn raw(out: &mut impl Write, field: &Heightfield, total: usize) -> Result<()> {
    // the original may have gone past the slots that were said, so the highest number counts
    let free = free_chain(field, total);
    let taken = field.allocated_spans.keys().map(slot);
    let highest = taken.chain(free.iter().copied()).max();
    let count = total.max(highest.map_or(0, |slot| slot + 1));

    // floor, ceiling, area, next of each slot
    let mut slots = vec![[0, 0, 0, NONE]; count];
    for (key, span) in field.allocated_spans.iter() {
        let next = slot_or_none(span.next);
        slots[slot(key)] = [span.min as u32, span.max as u32, span.area.0 as u32, next];
    }
    for pair in free.windows(2) {
        slots[pair[0]][3] = pair[1] as u32;
    }
    writeln!(out, "show raw")?;
    line(
        out,
        "heads",
        field.spans.iter().map(|head| slot_or_none(*head)),
    )?;
    line(
        out,
        "free",
        std::iter::once(free.first().map_or(NONE, |first| *first as u32)),
    )?;
    for (place, name) in ["floors", "ceilings", "areas", "nexts"]
        .into_iter()
        .enumerate()
    {
        line(out, name, slots.iter().map(|slot| slot[place]))?;
    }
    Ok(())
}

pub fn compact(out: &mut impl Write, result: Option<&CompactHeightfield>) -> Result<()> {
    writeln!(out, "show compact")?;
    let Some(result) = result else {
        return Ok(());
    };
    for z in 0..result.height {
        for x in 0..result.width {
            let cell = result.cell_at(x, z);
            writeln!(out, "cell {x} {z}: {} {}", cell.index(), cell.count())?;
        }
    }
    for (number, (span, area)) in result.spans.iter().zip(&result.areas).enumerate() {
        writeln!(
            out,
            "span {number}: {} 0x{:08x} {}",
            span.y, span.data, area.0
        )?;
    }
    Ok(())
}
