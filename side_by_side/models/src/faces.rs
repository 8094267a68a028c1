//! A mesh with lists of its own.
use dokphalun::Mesh;

/// A corner: position, normal and texture coordinates.
pub type Corner = ([f32; 3], [f32; 3], [f32; 2]);

/// A corner in a plane, whose texture coordinates are its place.
pub const fn flat([x, y]: [f32; 2]) -> Corner {
    ([x, y, 0.0], [0.0, 0.0, 1.0], [x, y])
}

/// Faces, corner by corner.
#[derive(Clone, Debug, Default)]
pub struct Faces {
    pub sizes: Vec<u8>,
    pub positions: Vec<[f32; 3]>,
    pub normals: Vec<[f32; 3]>,
    pub texture: Vec<[f32; 2]>,
}

impl Faces {
    /// Faces of these corners.
    pub fn of(faces: impl IntoIterator<Item = impl AsRef<[Corner]>>) -> Faces {
        let mut all = Faces::default();
        faces.into_iter().for_each(|face| all.push(face.as_ref()));
        all
    }

    /// Adds a face of these corners.
    pub fn push(&mut self, face: &[Corner]) {
        self.sizes.push(face.len() as u8);
        for (position, normal, texture) in face {
            self.positions.push(*position);
            self.normals.push(*normal);
            self.texture.push(*texture);
        }
    }

    /// The mesh of them.
    pub fn mesh(&self) -> Mesh<'_> {
        Mesh {
            sizes: &self.sizes,
            positions: &self.positions,
            normals: &self.normals,
            texture: &self.texture,
        }
    }
}
