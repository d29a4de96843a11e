//! What the original's text uses of its `math` module and does not show: boxes, a triangle's box, the four directions.

use glam::Vec3A;

#[derive(Clone, Copy, Debug, Default, PartialEq)]
pub struct Aabb3d {
    pub min: Vec3A,
    pub max: Vec3A,
}

impl Aabb3d {
    /// Boxes that only touch do overlap.
    pub fn intersects(&self, other: &Aabb3d) -> bool {
        (0..3).all(|axis| self.min[axis] <= other.max[axis] && other.min[axis] <= self.max[axis])
    }
}

pub trait TriangleVertices {
    fn aabb(&self) -> Aabb3d;
}

impl TriangleVertices for [Vec3A; 3] {
    fn aabb(&self) -> Aabb3d {
        let [a, b, c] = *self;
        Aabb3d {
            min: a.with(b, f32::min).with(c, f32::min),
            max: a.with(b, f32::max).with(c, f32::max),
        }
    }
}

pub fn dir_offset_x(direction: u8) -> i8 {
    [-1, 0, 1, 0][direction as usize]
}

pub fn dir_offset_z(direction: u8) -> i8 {
    [0, 1, 0, -1][direction as usize]
}
