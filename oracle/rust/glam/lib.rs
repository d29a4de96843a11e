//! Stands in for the crate `glam`: three f32, worked element by element, each operation rounded once.

use std::ops::{Add, Index, Mul, Sub};

#[derive(Clone, Copy, Debug, Default, PartialEq)]
pub struct Vec3A {
    pub x: f32,
    pub y: f32,
    pub z: f32,
}

impl Vec3A {
    pub const ZERO: Vec3A = Vec3A::new(0.0, 0.0, 0.0);

    pub const fn new(x: f32, y: f32, z: f32) -> Vec3A {
        Vec3A { x, y, z }
    }

    /// One vector from two, element by element.
    pub fn with(self, other: Vec3A, op: impl Fn(f32, f32) -> f32) -> Vec3A {
        Vec3A::new(
            op(self.x, other.x),
            op(self.y, other.y),
            op(self.z, other.z),
        )
    }
}

impl Add for Vec3A {
    type Output = Vec3A;

    fn add(self, other: Vec3A) -> Vec3A {
        self.with(other, |a, b| a + b)
    }
}

impl Sub for Vec3A {
    type Output = Vec3A;

    fn sub(self, other: Vec3A) -> Vec3A {
        self.with(other, |a, b| a - b)
    }
}

impl Mul<f32> for Vec3A {
    type Output = Vec3A;

    fn mul(self, by: f32) -> Vec3A {
        self.with(Vec3A::new(by, by, by), |a, b| a * b)
    }
}

impl Index<usize> for Vec3A {
    type Output = f32;

    fn index(&self, axis: usize) -> &f32 {
        match axis {
            0 => &self.x,
            1 => &self.y,
            2 => &self.z,
            _ => panic!("no axis {axis}"),
        }
    }
}
