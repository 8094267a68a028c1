//! Faces over a pool of corners.
use crate::mesh::{Corner, Mesh};
use crate::random::Random;

/// The corners of one face.
pub type Face = Vec<Corner>;

/// Any faces: mostly of corners that differ, one in twelve of a size that has no slots.
pub fn soup(r: &mut Random, pool: &[Corner]) -> Vec<Face> {
    let tied = r.chance(2, 3);
    let count = if r.chance(1, 20) {
        60
    } else {
        r.from_to(1, 14)
    };
    let face = |r: &mut Random| {
        if r.chance(1, 12) {
            return unframed(r, pool);
        }
        let face = some_of(r, pool);
        if tied { face } else { mixed(r, pool, face) }
    };
    (0..count).map(|_| face(r)).collect()
}

/// Three or four corners of a pool; they differ in nine of ten.
fn some_of(r: &mut Random, pool: &[Corner]) -> Face {
    let size = r.from_to(3, 4);
    if r.chance(1, 10) || pool.len() < size {
        return (0..size).map(|_| r.pick(pool)).collect();
    }
    let mut places: Vec<usize> = (0..pool.len()).collect();
    r.shuffle(&mut places);
    places[..size].iter().map(|&i| pool[i]).collect()
}

/// A face with normals and texture of other corners.
fn mixed(r: &mut Random, pool: &[Corner], mut face: Face) -> Face {
    for corner in &mut face {
        if r.chance(1, 2) {
            corner[3..6].copy_from_slice(&r.pick(pool)[3..6]);
        }
        if r.chance(1, 2) {
            corner[6..8].copy_from_slice(&r.pick(pool)[6..8]);
        }
    }
    face
}

/// A face of a size that has no slots; some corners hold no numbers.
pub fn unframed(r: &mut Random, pool: &[Corner]) -> Face {
    const RUBBISH: Corner = [
        0x7FC0_0001,
        0x7F80_0000,
        0xFF80_0000,
        0,
        0,
        0,
        0,
        0x7F80_0001,
    ];
    let size = r.pick(&[0, 1, 2, 5, 5, 6, 255]);
    (0..size)
        .map(|_| {
            if r.chance(1, 8) {
                RUBBISH
            } else {
                r.pick(pool)
            }
        })
        .collect()
}

/// A book: faces that share one side, run either way.
pub fn book(r: &mut Random, pool: &[Corner]) -> Vec<Face> {
    let (spine, leaves) = pool.split_at(2);
    let leaf = |r: &mut Random| {
        let mut face = vec![spine[0], spine[1], r.pick(leaves)];
        if r.chance(1, 2) {
            face.swap(0, 1);
        }
        if r.chance(1, 4) {
            face.push(r.pick(leaves));
        }
        turned(r, face)
    };
    (0..r.from_to(2, 10)).map(|_| leaf(r)).collect()
}

/// Faces of an octahedron over six corners, as triangles and as quads of two; one in ten is run the other way.
pub fn closed(r: &mut Random, pool: &[Corner]) -> Vec<Face> {
    const TRIANGLES: [[usize; 3]; 8] = [
        [0, 2, 4],
        [2, 1, 4],
        [1, 3, 4],
        [3, 0, 4],
        [2, 0, 5],
        [1, 2, 5],
        [3, 1, 5],
        [0, 3, 5],
    ];
    const QUADS: [[usize; 4]; 6] = [
        [0, 2, 1, 4],
        [1, 3, 0, 4],
        [2, 0, 3, 5],
        [3, 1, 2, 5],
        [0, 2, 1, 3],
        [0, 3, 1, 2],
    ];
    let face = |r: &mut Random| {
        let mut face: Face = if r.chance(2, 3) {
            r.pick(&TRIANGLES).iter().map(|&i| pool[i]).collect()
        } else {
            r.pick(&QUADS).iter().map(|&i| pool[i]).collect()
        };
        if r.chance(1, 10) {
            face.reverse();
        }
        turned(r, face)
    };
    (0..r.from_to(1, 12)).map(|_| face(r)).collect()
}

/// Quads with exactly one degenerate triangle among other faces: two neighbouring corners have one position.
pub fn pinched(r: &mut Random, pool: &[Corner]) -> Vec<Face> {
    let mut faces = closed(r, &pool[..6]);
    for _ in 0..r.from_to(1, 4) {
        faces.push(pinch(r, pool));
    }
    r.shuffle(&mut faces);
    faces
}

/// A quad with two neighbouring corners in one position; the rest of the two corners may differ.
fn pinch(r: &mut Random, pool: &[Corner]) -> Face {
    let mut face: Face = (0..4).map(|_| r.pick(pool)).collect();
    let (a, b) = (face[0], &mut face[1]);
    b[0..3].copy_from_slice(&a[0..3]);
    if r.chance(1, 2) {
        *b = a;
    }
    let zero = b[0..3].iter().position(|bits| bits << 1 == 0);
    if let (Some(i), true) = (zero, r.chance(1, 2)) {
        b[i] ^= 0x8000_0000;
    }
    turned(r, face)
}

/// A fan round one corner, open or closed, whole or half mirrored or rough, faces in order or not.
pub fn fan(r: &mut Random) -> Vec<Face> {
    let rim = rim(r);
    let hub: Corner = [0, 0, 0, 0, 0, 0x3F80_0000, 0, 0];
    let mut order: Vec<usize> = (0..rim.len() - usize::from(r.chance(1, 3))).collect();
    if r.chance(1, 2) {
        r.shuffle(&mut order);
    }
    let blade = |r: &mut Random, i: usize| {
        let (a, b) = (rim[i], rim[(i + 1) % rim.len()]);
        let face = match r.below(8) {
            0 => vec![hub, b, a],
            1 => vec![hub, a, r.pick(&rim), b],
            _ => vec![hub, a, b],
        };
        let mut face = turned(r, face);
        if r.chance(1, 10) {
            let texture = [face[0][6], face[0][7]];
            face[1][6..8].copy_from_slice(&texture);
        }
        face
    };
    order.into_iter().map(|i| blade(r, i)).collect()
}

/// The corners round a fan.
fn rim(r: &mut Random) -> Vec<Corner> {
    let count = r.from_to(3, 22);
    let (rough, mirrored) = (r.chance(1, 3), r.chance(1, 3));
    let make = |r: &mut Random, i: usize| {
        let (sine, cosine) = (i as f32 / count as f32 * std::f32::consts::TAU).sin_cos();
        let u = if mirrored && i > count / 2 {
            -cosine
        } else {
            cosine
        };
        let z = if rough { r.unit() } else { 0.0 };
        crate::mesh::corner([cosine, sine, z], [0.0, 0.0, 1.0], [u, sine])
    };
    (0..count).map(|i| make(r, i)).collect()
}

/// A face that starts at any of its corners.
pub fn turned(r: &mut Random, mut face: Face) -> Face {
    let by = r.below(face.len());
    face.rotate_left(by);
    face
}

/// The mesh of these faces; in one of two the lent lists are longer than needed.
pub fn lent(r: &mut Random, faces: &[Face], threshold: u32) -> Mesh {
    let mut mesh = Mesh::of(faces, threshold);
    mesh.lend(r.pick(&[0, 0, 1, 9, 25]), r.pick(&[0, 0, 1, 17, 130]));
    mesh
}
