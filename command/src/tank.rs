//! The demo's tank: a tube with a dished end, a manhole with a lid, and a few faces that went wrong.
use std::f32::consts::TAU;
use std::fmt::Write;

/// Faces around and along the tube, and rings of the dished end.
const AROUND: usize = 32;
const ALONG: usize = 12;
const RINGS: usize = 4;
/// The tube's length; its radius is 1.
const LENGTH: f32 = 3.6;
/// The manhole's faces: the first around and along, and how many each way.
const HOLE: [usize; 3] = [6, 4, 4];
/// Where faces are mirrored: the first around and along, and how many each way.
const MIRRORED: [usize; 4] = [22, 2, 4, 3];
/// Faces whose texture was lost: around and along.
const UNWRAPPED: [[usize; 2]; 3] = [[14, 8], [15, 8], [28, 9]];

/// A mesh of shared vertices: position, normal and texture of each.
#[derive(Default)]
struct Tank {
    vertices: Vec<[f32; 8]>,
    faces: Vec<Vec<usize>>,
}

/// The tank as a PLY file of text.
pub fn ply() -> String {
    let mut tank = Tank::default();
    tank.tube();
    tank.dish();
    tank.manhole();
    tank.slivers();
    tank.text()
}

/// Whether a place of the tube is within a stretch of faces: the first ones, and how many each way.
fn within(i: usize, j: usize, [first, row, wide, high]: [usize; 4]) -> bool {
    (first..first + wide).contains(&i) && (row..row + high).contains(&j)
}

/// A vertex of the tube: so far around and along, each from 0 to 1.
fn on_tube(around: f32, along: f32) -> [f32; 8] {
    let (sin, cos) = (around * TAU).sin_cos();
    // seen from inside: the normals point to the axis
    let place = [cos, sin, along * LENGTH];
    let [x, y, z] = place;
    [x, y, z, -x, -y, 0.0, 1.0 - around, along * LENGTH / TAU]
}

/// A vertex of the dished end: so far around, and from its rim to its pole, each from 0 to 1.
fn on_dish(around: f32, inward: f32) -> [f32; 8] {
    let (sin, cos) = (around * TAU).sin_cos();
    let (rise, out) = (inward * TAU / 4.0).sin_cos();
    let (x, y, z) = (cos * out, sin * out, LENGTH + 0.45 * rise);
    let reach = 0.17 * (1.0 - inward);
    [
        x,
        y,
        z,
        -x,
        -y,
        -rise,
        1.21 + reach * cos,
        0.3 - reach * sin,
    ]
}

/// So far around and along, of a corner of the tube's faces.
fn fractions(i: usize, j: usize) -> [f32; 2] {
    [i as f32 / AROUND as f32, j as f32 / ALONG as f32]
}

impl Tank {
    /// Adds a vertex; the result is its number.
    fn vertex(&mut self, vertex: [f32; 8]) -> usize {
        self.vertices.push(vertex);
        self.vertices.len() - 1
    }

    /// Adds a face with vertices of its own.
    fn face(&mut self, vertices: impl IntoIterator<Item = [f32; 8]>) {
        let face = vertices
            .into_iter()
            .map(|vertex| self.vertex(vertex))
            .collect();
        self.faces.push(face);
    }

    /// The tube, without the manhole; some faces mirrored, and some without texture.
    fn tube(&mut self) {
        for j in 0..=ALONG {
            for i in 0..=AROUND {
                let [around, along] = fractions(i, j);
                self.vertex(on_tube(around, along));
            }
        }
        for j in 0..ALONG {
            for i in 0..AROUND {
                let [first, row, count] = HOLE;
                if within(i, j, [first, row, count, count]) {
                    continue;
                }
                let at = [[i, j], [i, j + 1], [i + 1, j + 1], [i + 1, j]];
                if within(i, j, MIRRORED) || UNWRAPPED.contains(&[i, j]) {
                    self.face(at.map(|at| spoilt(at, [i, j])));
                } else {
                    self.faces
                        .push(at.map(|[i, j]| j * (AROUND + 1) + i).into());
                }
            }
        }
    }

    /// The dished end: rings around a pole, its texture a disc beside the tube's.
    fn dish(&mut self) {
        let first = self.vertices.len();
        for ring in 0..=RINGS {
            for i in 0..=AROUND {
                self.vertex(on_dish(
                    i as f32 / AROUND as f32,
                    ring as f32 / RINGS as f32,
                ));
            }
        }
        let at = |ring: usize, i: usize| first + ring * (AROUND + 1) + i;
        for ring in 0..RINGS {
            for i in 0..AROUND {
                let mut face = vec![
                    at(ring, i),
                    at(ring + 1, i),
                    at(ring + 1, i + 1),
                    at(ring, i + 1),
                ];
                if ring + 1 == RINGS {
                    // at the pole two corners are one
                    face.remove(2);
                }
                self.faces.push(face);
            }
        }
    }

    /// A collar from the hole's rim to a circle, and a lid of many corners.
    fn manhole(&mut self) {
        let [first, row, count] = HOLE;
        let side = |k: usize| match k / count {
            0 => [first, row + k],
            1 => [first + k - count, row + count],
            2 => [first + count, row + 3 * count - k],
            _ => [first + 4 * count - k, row],
        };
        let middle = [
            first as f32 + count as f32 / 2.0,
            row as f32 + count as f32 / 2.0,
        ];
        let circle = |k: usize| {
            let [i, j] = side(k % (4 * count)).map(|n| n as f32);
            let (x, y) = (i - middle[0], j - middle[1]);
            let pull = 0.36 * count as f32 / x.hypot(y);
            on_tube(
                (middle[0] + x * pull) / AROUND as f32,
                (middle[1] + y * pull) / ALONG as f32,
            )
        };
        let rim = |k: usize| {
            let [around, along] = fractions(side(k % (4 * count))[0], side(k % (4 * count))[1]);
            on_tube(around, along)
        };
        for k in 0..4 * count {
            self.face([rim(k), rim(k + 1), circle(k + 1), circle(k)]);
        }
        self.face((0..4 * count).map(circle));
    }

    /// Slivers: triangles with two corners at one place, on the steel beside the seam.
    fn slivers(&mut self) {
        for i in [2, 18] {
            let [around, along] = fractions(i, 1);
            let mut corners = [[0.02, 0.01], [0.02, 0.05], [0.04, 0.03]]
                .map(|[a, b]| on_tube(around + a, along + b));
            let place = corners[0];
            corners[1][..3].copy_from_slice(&place[..3]);
            self.face(corners);
        }
    }

    /// The text of the file.
    fn text(&self) -> String {
        let mut text = format!(
            "ply\nformat ascii 1.0\ncomment a tank shell with a few bad faces, made by `dokphalun demo`\nelement vertex {}\n",
            self.vertices.len()
        );
        for name in ["x", "y", "z", "nx", "ny", "nz", "s", "t"] {
            let _ = writeln!(text, "property float {name}");
        }
        let _ = writeln!(
            text,
            "element face {}\nproperty list uchar int vertex_indices\nend_header",
            self.faces.len()
        );
        for vertex in &self.vertices {
            let _ = writeln!(
                text,
                "{}",
                vertex.map(|number| number.to_string()).join(" ")
            );
        }
        for face in &self.faces {
            let corners: Vec<String> = face.iter().map(usize::to_string).collect();
            let _ = writeln!(text, "{} {}", face.len(), corners.join(" "));
        }
        text
    }
}

/// A vertex of a face of the tube that went wrong: its texture is mirrored, or all of it at the face's middle.
fn spoilt([i, j]: [usize; 2], [face, row]: [usize; 2]) -> [f32; 8] {
    let [around, along] = fractions(i, j);
    let mut vertex = on_tube(around, along);
    if UNWRAPPED.contains(&[face, row]) {
        let middle = [
            (face as f32 + 0.5) / AROUND as f32,
            (row as f32 + 0.5) / ALONG as f32,
        ];
        let [s, t] = [1.0 - middle[0], middle[1] * LENGTH / TAU];
        vertex[6..].copy_from_slice(&[s, t]);
    } else {
        let [first, _, wide, _] = MIRRORED;
        vertex[6] = 1.0 - ((2 * first + wide) as f32 / AROUND as f32 - around);
    }
    vertex
}
