//! A mesh as it was read from a file: lists by corner, and where each face stands in the file.
use crate::stop::{Fault, Spot};
use dokphalun::{MOST_FACES, Mesh, Place, takes_slots};

/// A mesh, corner by corner in face order.
#[derive(Debug, Default)]
pub struct Surface {
    pub sizes: Vec<u8>,
    pub positions: Vec<[f32; 3]>,
    pub normals: Vec<[f32; 3]>,
    pub texture: Vec<[f32; 2]>,
    /// Where each face stands in its file.
    pub spots: Vec<Spot>,
}

/// The numbers of one corner.
#[derive(Clone, Copy, Debug)]
pub struct Corner {
    pub position: [f32; 3],
    pub normal: [f32; 3],
    pub texture: [f32; 2],
}

impl Surface {
    /// Starts a face of so many corners.
    pub fn face(&mut self, size: usize, spot: Spot) -> Result<(), Fault> {
        let face = self.sizes.len();
        let size = u8::try_from(size)
            .map_err(|_| Fault::at(spot, format!("face {face} has {size} corners; at most 255")))?;
        self.sizes.push(size);
        self.spots.push(spot);
        Ok(())
    }

    /// Adds a corner. More faces than are accepted are refused by their number alone, so their corners are not kept.
    pub fn corner(&mut self, corner: Corner) {
        if self.sizes.len() <= MOST_FACES {
            self.positions.push(corner.position);
            self.normals.push(corner.normal);
            self.texture.push(corner.texture);
        }
    }

    /// The lists for the archive.
    pub fn mesh(&self) -> Mesh<'_> {
        Mesh {
            sizes: &self.sizes,
            positions: &self.positions,
            normals: &self.normals,
            texture: &self.texture,
        }
    }

    /// Where the corners of each face start.
    pub fn starts(&self) -> Vec<usize> {
        let sums = self.sizes.iter().scan(0, |sum, &size| {
            let start = *sum;
            *sum += usize::from(size);
            Some(start)
        });
        sums.collect()
    }

    /// How many slots the mesh has.
    pub fn slots(&self) -> usize {
        let with_slots = self.sizes.iter().filter(|&&size| takes_slots(size));
        with_slots.map(|&size| usize::from(size)).sum()
    }

    /// The numbers of a corner, if they are there.
    pub fn numbers(&self, place: Place) -> Option<Corner> {
        let before = self.sizes.get(..place.face)?;
        let sum: usize = before.iter().map(|&size| usize::from(size)).sum();
        let at = sum + place.corner;
        Some(Corner {
            position: *self.positions.get(at)?,
            normal: *self.normals.get(at)?,
            texture: *self.texture.get(at)?,
        })
    }
}
