//! One field, one mesh and one compact result of the Rust original, for a program in C that times each stage.

#![allow(dead_code, unused_imports, unfulfilled_lint_expectations)]

#[macro_use]
extern crate alloc;

// The original's own modules, copied in by `bench/run`.
mod compact_cell;
mod compact_heightfield;
mod compact_span;
mod heightfield;
mod ops;
mod pre_filter;
mod rasterize;
mod region;
mod span;

// What stands in for modules that its text does not show, from oracle/rust.
mod math;
mod trimesh;

// Where the original's modules look for them.
pub use math::Aabb3d;
pub use trimesh::TriMesh;

use compact_heightfield::CompactHeightfield;
use glam::Vec3A;
use heightfield::{Heightfield, HeightfieldBuilder};
use span::AreaType;
use std::cell::RefCell;

#[derive(Default)]
struct Work {
    grid: [f32; 8],
    mesh: TriMesh,
    lent: TriMesh,
    field: Heightfield,
    compact: Option<CompactHeightfield>,
}

thread_local!(static WORK: RefCell<Work> = RefCell::default());

// The numbers of `enum stage` in bench/peer.h.
const FRESH: u32 = 0;
const MESH: u32 = 2;
const LOW: u32 = 4;
const LEDGES: u32 = 5;
const CEILINGS: u32 = 6;
const COMPACT: u32 = 7;
const POPULATE: u32 = 8;

/// # Safety
/// The pointers have the lengths that are said, and three numbers make a vertex or a triangle.
#[unsafe(no_mangle)]
pub unsafe extern "C" fn rust_prepare(
    grid: *const f32,
    vertices: *const f32,
    vertex_count: usize,
    indices: *const u32,
    areas: *const u8,
    triangles: usize,
) {
    let (grid, vertices, indices, areas) = unsafe {
        (
            std::slice::from_raw_parts(grid, 8),
            std::slice::from_raw_parts(vertices, 3 * vertex_count),
            std::slice::from_raw_parts(indices, 3 * triangles),
            std::slice::from_raw_parts(areas, triangles),
        )
    };
    WORK.with_borrow_mut(|work| {
        work.grid = grid.try_into().expect("eight floats");
        let corners = vertices.chunks_exact(3).map(|v| Vec3A::new(v[0], v[1], v[2]));
        work.mesh.vertices = corners.collect();
        let faces = indices.chunks_exact(3).map(|i| [i[0], i[1], i[2]]);
        work.mesh.indices = faces.collect();
        work.mesh.area_types = areas.iter().map(|area| AreaType(*area)).collect();
    });
}

/// `populate_from_trimesh` takes the mesh away, so it is given a copy, made before the clock starts.
#[unsafe(no_mangle)]
pub extern "C" fn rust_ready(stage: u32) {
    if stage == POPULATE {
        WORK.with_borrow_mut(|work| work.lent = work.mesh.clone());
    }
}

fn fresh(grid: [f32; 8]) -> Heightfield {
    let [x0, y0, z0, x1, y1, z1, cell_size, cell_height] = grid;
    let (min, max) = (Vec3A::new(x0, y0, z0), Vec3A::new(x1, y1, z1));
    let aabb = Aabb3d { min, max };
    let builder = HeightfieldBuilder { aabb, cell_size, cell_height };
    builder.build().expect("a field")
}

#[unsafe(no_mangle)]
pub extern "C" fn rust_stage(stage: u32, height: u16, climb: u16) {
    WORK.with_borrow_mut(|work| match stage {
        FRESH => work.field = fresh(work.grid),
        MESH => work.field.rasterize_triangles(&work.mesh, climb).expect("a mesh"),
        LOW => work.field.filter_low_hanging_walkable_obstacles(climb),
        LEDGES => work.field.filter_ledge_spans(height, climb),
        CEILINGS => work.field.filter_walkable_low_height_spans(height),
        COMPACT => {
            let field = std::mem::take(&mut work.field);
            work.compact = Some(field.into_compact(height, climb).expect("a result"));
        }
        POPULATE => {
            let mesh = std::mem::take(&mut work.lent);
            work.field.populate_from_trimesh(mesh, height, climb).expect("a mesh");
        }
        _ => {}
    });
}

fn sum_with(sum: u64, number: u32) -> u64 {
    (sum ^ number as u64).wrapping_mul(1099511628211)
}

#[unsafe(no_mangle)]
pub extern "C" fn rust_finish() -> u64 {
    WORK.with_borrow_mut(|work| {
        work.field = Heightfield::default();
        let Some(result) = work.compact.take() else {
            return 0;
        };
        let mut sum = 1;
        for cell in &result.cells {
            sum = sum_with(sum, cell.count() as u32);
        }
        for (span, area) in result.spans.iter().zip(&result.areas) {
            for number in [span.y as u32, span.data, area.0 as u32] {
                sum = sum_with(sum, number);
            }
        }
        sum
    })
}
