//! One call after the other, each answered by a line.

use crate::compact_heightfield::{CompactHeightfield, CompactHeightfieldError};
use crate::heightfield::{Heightfield, HeightfieldBuilder, HeightfieldBuilderError, SpanInsertion};
use crate::span::{AreaType, SpanBuilder};
use crate::{Aabb3d, TriMesh, show, slots};
use glam::Vec3A;
use std::io::Write;
use std::panic::{AssertUnwindSafe, catch_unwind};

/// What is still answered in this case: everything, the `show` lines that follow at once (after a mesh that panicked),
/// nothing.
#[derive(Clone, Copy, PartialEq)]
enum Answers {
    All,
    Shows,
    None,
}

pub struct Bench<W: Write> {
    pub out: W,
    grid: [f32; 8],
    slots: usize,
    field: Heightfield,
    mesh: TriMesh,
    area: u8,
    compact: Option<CompactHeightfield>,
    answers: Answers,
}

/// A whole number, decimal or 0x.
fn whole(word: &str) -> Option<u32> {
    match word.strip_prefix("0x") {
        Some(digits) => u32::from_str_radix(digits, 16).ok(),
        None => word.parse().ok(),
    }
}

/// A float, decimal or as 0x and its bits.
fn float(word: &str) -> Option<f32> {
    match word.starts_with("0x") {
        true => whole(word).map(f32::from_bits),
        false => word.parse().ok(),
    }
}

fn all<T, const N: usize>(words: &[&str], read: impl Fn(&str) -> Option<T>) -> Option<[T; N]> {
    let read: Option<Vec<T>> = words.iter().map(|word| read(word)).collect();
    read?.try_into().ok()
}

fn short(number: u32) -> Option<u16> {
    number.try_into().ok()
}

/// The call's outcome, or nothing if it panicked.
fn tried<T>(call: impl FnOnce() -> T) -> Option<T> {
    catch_unwind(AssertUnwindSafe(call)).ok()
}

impl<W: Write> Bench<W> {
    pub fn new(out: W) -> Self {
        Bench {
            out,
            grid: [0.0; 8],
            slots: 1024,
            field: Heightfield::default(),
            mesh: TriMesh::default(),
            area: 255,
            compact: None,
            answers: Answers::All,
        }
    }

    /// Carries out one line; nothing if it is not understood.
    pub fn obey(&mut self, words: &[&str]) -> Option<()> {
        let Some((name, rest)) = words.split_first() else {
            return Some(());
        };
        if *name == "case" {
            return self.start(rest);
        }
        if self.answers == Answers::Shows && *name != "show" {
            self.answers = Answers::None;
        }
        if self.answers == Answers::None {
            return Some(());
        }
        match *name {
            "grid" => self.grid = all(rest, float)?,
            "slots" => self.slots = whole(rest.first()?)? as usize,
            "spans" => whole(rest.first()?).map(|_| ())?,
            "v" | "f" | "area" | "nomesh" => self.shape(name, rest)?,
            "show" => self.show(rest)?,
            _ => {
                let line = self.call(name, rest)?;
                writeln!(self.out, "{name}: {line}").ok()?;
            }
        }
        Some(())
    }

    fn start(&mut self, rest: &[&str]) -> Option<()> {
        self.slots = 1024;
        self.field = Heightfield::default();
        self.mesh = TriMesh::default();
        self.area = 255;
        self.compact = None;
        self.answers = Answers::All;
        writeln!(self.out, "case {}", rest.join(" ")).ok()
    }

    fn shape(&mut self, name: &str, rest: &[&str]) -> Option<()> {
        match name {
            "v" => {
                let [x, y, z] = all(rest, float)?;
                self.mesh.vertices.push(Vec3A::new(x, y, z));
            }
            "f" => {
                let corners: [u32; 3] = all(rest, whole)?;
                self.mesh
                    .indices
                    .push(corners.map(|corner| corner.wrapping_sub(1)));
                self.mesh.area_types.push(AreaType(self.area));
            }
            "area" => self.area = whole(rest.first()?)?.try_into().ok()?,
            _ => self.mesh = TriMesh::default(),
        }
        Some(())
    }

    fn show(&mut self, rest: &[&str]) -> Option<()> {
        match *rest.first()? {
            "columns" => show::columns(&mut self.out, &self.field).ok(),
            "raw" => show::raw(&mut self.out, &self.field, self.slots).ok(),
            "compact" => show::compact(&mut self.out, self.compact.as_ref()).ok(),
            _ => None,
        }
    }

    fn call(&mut self, name: &str, rest: &[&str]) -> Option<String> {
        if name == "add" {
            return self.add(all(rest, whole)?);
        }
        let numbers: Option<Vec<u16>> = rest
            .iter()
            .map(|word| whole(word).and_then(short))
            .collect();
        match (name, numbers?.as_slice()) {
            ("fresh", []) => Some(self.fresh()),
            ("rasterize", &[threshold]) => Some(self.mesh(
                |field, mesh| field.rasterize_triangles(&mesh, threshold).is_ok(),
                threshold,
            )),
            ("populate", &[height, climb]) => {
                let call = |field: &mut Heightfield, mesh| {
                    field.populate_from_trimesh(mesh, height, climb).is_ok()
                };
                Some(self.mesh(call, climb))
            }
            ("low", &[climb]) => {
                Some(self.filter(|field| field.filter_low_hanging_walkable_obstacles(climb)))
            }
            ("ledges", &[height, climb]) => {
                Some(self.filter(|field| field.filter_ledge_spans(height, climb)))
            }
            ("ceilings", &[height]) => {
                Some(self.filter(|field| field.filter_walkable_low_height_spans(height)))
            }
            ("compact", &[height, climb]) => Some(self.pack(height, climb)),
            _ => None,
        }
    }

    fn fresh(&mut self) -> String {
        let [x0, y0, z0, x1, y1, z1, cell_size, cell_height] = self.grid;
        let aabb = Aabb3d {
            min: Vec3A::new(x0, y0, z0),
            max: Vec3A::new(x1, y1, z1),
        };
        let built = tried(|| {
            HeightfieldBuilder {
                aabb,
                cell_size,
                cell_height,
            }
            .build()
        });
        self.compact = None;
        match built {
            Some(Ok(field)) => {
                self.field = field;
                "reply 0".to_string()
            }
            Some(Err(HeightfieldBuilderError::ColumnCountTooLarge { width, height })) => {
                self.answers = Answers::None;
                format!(
                    "reply 3 0x{:08x} 0x{:08x}",
                    width.to_bits(),
                    height.to_bits()
                )
            }
            None => self.stop(),
        }
    }

    /// No more answers in this case.
    fn stop(&mut self) -> String {
        self.answers = Answers::None;
        "panic".to_string()
    }

    fn filter(&mut self, work: impl FnOnce(&mut Heightfield)) -> String {
        match tried(|| work(&mut self.field)) {
            Some(()) => "reply 0".to_string(),
            None => self.stop(),
        }
    }

    fn add(&mut self, [x, z, floor, ceiling, area, threshold]: [u32; 6]) -> Option<String> {
        let area = AreaType(area.try_into().ok()?);
        let span = SpanBuilder {
            min: short(floor)?,
            max: short(ceiling)?,
            area,
            next: None,
        }
        .build();
        let insertion = SpanInsertion {
            x: short(x)?,
            z: short(z)?,
            flag_merge_threshold: short(threshold)?,
            span,
        };
        Some(match tried(|| self.field.add_span(insertion)) {
            Some(Ok(())) => "reply 0".to_string(),
            Some(Err(_)) => "reply 8".to_string(),
            None => self.stop(),
        })
    }

    /// A mesh's calls; where one panics, the triangle it was at and how many insertions of it were made.
    fn mesh(
        &mut self,
        work: impl FnOnce(&mut Heightfield, TriMesh) -> bool,
        threshold: u16,
    ) -> String {
        let mut again = self.field.clone();
        match tried(|| work(&mut self.field, self.mesh.clone())) {
            Some(true) => "reply 0".to_string(),
            Some(false) => "error".to_string(),
            None => {
                self.answers = Answers::Shows;
                let (triangle, made) = stopped(&mut again, &self.mesh, threshold);
                format!("panic {triangle} {made}")
            }
        }
    }

    fn pack(&mut self, height: u16, climb: u16) -> String {
        let field = self.field.clone();
        self.compact = None;
        match tried(|| field.into_compact(height, climb)) {
            Some(Ok(result)) => {
                let raised = result.aabb.max.y.to_bits();
                self.compact = Some(result);
                format!("reply 0 0x{raised:08x}")
            }
            Some(Err(CompactHeightfieldError::TooManyLayers { layer_index, .. })) => {
                format!("reply 12 {layer_index}")
            }
            None => self.stop(),
        }
    }
}

/// Goes through a mesh that panics, triangle by triangle, and says where it stopped.
fn stopped(field: &mut Heightfield, mesh: &TriMesh, threshold: u16) -> (usize, u64) {
    for (number, corners) in mesh.indices.iter().enumerate() {
        let before = slots::insertions(field);
        let done = tried(|| {
            let triangle = corners.map(|corner| mesh.vertices[corner as usize]);
            field
                .rasterize_triangle(triangle, mesh.area_types[number], threshold)
                .is_ok()
        });
        if done != Some(true) {
            return (number, slots::insertions(field) - before);
        }
    }
    (mesh.indices.len(), 0)
}
