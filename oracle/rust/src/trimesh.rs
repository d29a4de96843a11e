//! A mesh as the original takes it; its own definition is not in the text.

use crate::span::AreaType;
use glam::Vec3A;

#[derive(Clone, Debug, Default)]
pub struct TriMesh {
    pub vertices: Vec<Vec3A>,
    pub indices: Vec<[u32; 3]>,
    pub area_types: Vec<AreaType>,
}
