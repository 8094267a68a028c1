//! The sound triangles of a mesh, in the order in which lists of links have them: steps 1 and 2 of document 01.
use crate::mesh::Mesh;
use std::fmt;

/// A sound triangle: its number in the lists, its face, and which corners of the face it has.
#[derive(Clone, Copy, Debug, PartialEq, Eq)]
pub struct Triangle {
    /// Its number in the lists.
    pub number: usize,
    /// Its face.
    pub face: usize,
    /// The corners of the face that it has.
    pub corners: [usize; 3],
}

/// A side of a sound triangle: its row in the lists, its face, and from which corner of the face to which it runs. A face
/// has no two sides that are alike in both, so the corner where it starts is named by it too.
#[derive(Clone, Copy, Debug, PartialEq, Eq)]
pub struct Side {
    /// Its row in the lists.
    pub row: usize,
    /// Its face.
    pub face: usize,
    /// The corner of the face where it starts.
    pub from: usize,
    /// The corner of the face where it ends.
    pub to: usize,
}

impl Triangle {
    /// The side that starts at corner 0, 1 or 2 of it.
    pub fn side(&self, corner: usize) -> Side {
        Side {
            row: 3 * self.number + corner,
            face: self.face,
            from: self.corners[corner],
            to: self.corners[(corner + 1) % 3],
        }
    }
}

impl fmt::Display for Triangle {
    fn fmt(&self, f: &mut fmt::Formatter) -> fmt::Result {
        let [a, b, c] = self.corners;
        let Triangle { number, face, .. } = self;
        write!(f, "face {face}, corners {a} {b} {c} (triangle {number})")
    }
}

impl fmt::Display for Side {
    fn fmt(&self, f: &mut fmt::Formatter) -> fmt::Result {
        let Side {
            row,
            face,
            from,
            to,
        } = self;
        write!(f, "face {face}, side {from} to {to} (row {row})")
    }
}

/// The corners that a triangle keeps, where a quad's corner of that number is missing.
const KEPT: [[usize; 3]; 4] = [[1, 2, 3], [0, 2, 3], [0, 1, 3], [0, 1, 2]];

/// The sound triangles of an accepted mesh: a face of 3 has one and a quad two, without those of which two positions are
/// equal. Of a mesh whose lists are not one for each corner, those of the faces that are whole.
pub fn triangles(mesh: Mesh) -> Vec<Triangle> {
    let (mut all, mut first) = (Vec::new(), 0);
    for (face, &size) in mesh.sizes.iter().enumerate() {
        let corners = first..first + usize::from(size);
        first = corners.end;
        let lists = (
            mesh.positions.get(corners.clone()),
            mesh.texture.get(corners),
        );
        let (Some(positions), Some(texture)) = lists else {
            break;
        };
        for corners in pieces(positions, texture) {
            let number = all.len();
            if sound(corners.map(|corner| positions[corner])) {
                all.push(Triangle {
                    number,
                    face,
                    corners,
                });
            }
        }
    }
    all
}

/// The triangles of one face: none where it is not of 3 or 4.
fn pieces(positions: &[[f32; 3]], texture: &[[f32; 2]]) -> Vec<[usize; 3]> {
    match (positions, texture) {
        ([_, _, _], _) => vec![KEPT[3]],
        (&[a, b, c, d], &[s, t, u, v]) => match cut_02([a, b, c, d], [s, t, u, v]) {
            true => vec![KEPT[3], KEPT[1]],
            false => vec![KEPT[2], KEPT[0]],
        },
        _ => vec![],
    }
}

/// Whether a quad is cut from corner 0 to 2: by the shorter diagonal of its texture; equal or unordered, of its positions.
fn cut_02(positions: [[f32; 3]; 4], texture: [[f32; 2]; 4]) -> bool {
    let across = [
        squared(texture[2], texture[0]),
        squared(texture[3], texture[1]),
    ];
    let apart = [
        squared(positions[2], positions[0]),
        squared(positions[3], positions[1]),
    ];
    match across[0] < across[1] || across[1] < across[0] {
        true => across[0] < across[1],
        false => apart[1] >= apart[0],
    }
}

/// The squared distance of two points; squares are added from the first on.
fn squared<const N: usize>(a: [f32; N], b: [f32; N]) -> f32 {
    let squares = a.into_iter().zip(b).map(|(x, y)| (x - y) * (x - y));
    squares.reduce(|sum, square| sum + square).unwrap_or(0.0)
}

/// Whether no two of three positions are equal; 0 and -0 are.
fn sound([a, b, c]: [[f32; 3]; 3]) -> bool {
    a != b && b != c && c != a
}
