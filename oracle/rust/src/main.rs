//! Reads calls on standard input, makes them on the Rust original and writes its answers (see oracle/README.md).

#![allow(dead_code, unused_imports, unfulfilled_lint_expectations)]

#[macro_use]
extern crate alloc;

// The original's own modules, copied in by `oracle/build`.
mod compact_cell;
mod compact_heightfield;
mod compact_span;
mod heightfield;
mod ops;
mod pre_filter;
mod rasterize;
mod region;
mod span;

// What stands in for modules that its text does not show.
mod math;
mod trimesh;

// The runner.
mod bench;
mod show;
mod slots;

// Where the original's modules look for them.
pub use math::Aabb3d;
pub use trimesh::TriMesh;

use std::io::{BufWriter, Read, Write};

fn main() {
    let mut text = String::new();
    std::io::stdin()
        .read_to_string(&mut text)
        .expect("standard input is not text");
    std::panic::set_hook(Box::new(|_| {}));
    let mut bench = bench::Bench::new(BufWriter::new(std::io::stdout().lock()));
    for (number, line) in text.lines().enumerate() {
        let words: Vec<&str> = line
            .split('#')
            .next()
            .unwrap_or("")
            .split_whitespace()
            .collect();
        if bench.obey(&words).is_none() {
            let _ = bench.out.flush();
            eprintln!("line {}: not understood: {line}", number + 1);
            std::process::exit(2);
        }
    }
}
