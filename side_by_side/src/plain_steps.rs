//! A plain model of steps 1 to 6, written from document 01.
use std::collections::HashMap;

/// Three numbers.
pub type Vector = [f32; 3];

/// The difference of two.
fn sub(a: Vector, b: Vector) -> Vector {
    [a[0] - b[0], a[1] - b[1], a[2] - b[2]]
}

/// All three times a number.
fn scale(a: Vector, k: f32) -> Vector {
    a.map(|x| x * k)
}

/// The dot product.
fn dot(a: Vector, b: Vector) -> f32 {
    a[0] * b[0] + a[1] * b[1] + a[2] * b[2]
}

/// Whether a number's size is above zero, as step 3 has it.
fn counts(x: f32) -> bool {
    x.abs() > f32::MIN_POSITIVE
}

/// The vector at unit length, or none: no component counts, or the squared length is zero, infinite or NaN (request E6).
fn direction(a: Vector) -> Option<Vector> {
    let squared = dot(a, a);
    let none = !a.into_iter().any(counts) || squared == 0.0 || !squared.is_finite();
    (!none).then(|| scale(a, 1.0 / squared.sqrt()))
}

/// The vector at unit length, or the zero vector.
fn unit(a: Vector) -> Vector {
    direction(a).unwrap_or([0.0; 3])
}

/// The numbers of a corner.
#[derive(Clone, Copy)]
pub struct Corner {
    pub place: Vector,
    normal: Vector,
    texture: [f32; 2],
}

impl Corner {
    /// The bits of its eight numbers.
    pub fn bits(&self) -> [u32; 8] {
        let (p, n, t) = (self.place, self.normal, self.texture);
        [p[0], p[1], p[2], n[0], n[1], n[2], t[0], t[1]].map(f32::to_bits)
    }
}

/// A triangle: its face, whether it is the second of a quad, the face's corner that is missing in it and those that it keeps, and what steps 2, 3 and 6 make of it.
#[derive(Clone)]
pub struct Triangle {
    pub face: usize,
    pub second: bool,
    pub missing: usize,
    pub which: [usize; 3],
    pub corners: [Corner; 3],
    pub degenerate: bool,
    pub marked: bool,
    pub any: bool,
    pub orientation: bool,
    area: f32,
    pub s: Vector,
    pub t: Vector,
    pub magnitudes: [f32; 2],
}

/// Steps 2 and 3 of one triangle.
fn triangle(
    face: usize,
    second: bool,
    missing: usize,
    which: [usize; 3],
    corners: [Corner; 3],
) -> Triangle {
    let [a, b, c] = corners;
    let degenerate = a.place == b.place || b.place == c.place || c.place == a.place;
    let (t1, t2) = (
        [b.texture[0] - a.texture[0], b.texture[1] - a.texture[1]],
        [c.texture[0] - a.texture[0], c.texture[1] - a.texture[1]],
    );
    let area = t1[0] * t2[1] - t1[1] * t2[0];
    let (d1, d2) = (sub(b.place, a.place), sub(c.place, a.place));
    let (mut s, mut t, mut magnitudes, mut points) = ([0.0; 3], [0.0; 3], [0.0; 2], false);
    if !degenerate && counts(area) {
        let raw_s = sub(scale(d1, t2[1]), scale(d2, t1[1]));
        let (x, y) = (scale(d1, -t2[0]), scale(d2, t1[0]));
        let raw_t = [x[0] + y[0], x[1] + y[1], x[2] + y[2]];
        let sign = if area > 0.0 { 1.0 } else { -1.0 };
        s = scale(unit(raw_s), sign);
        t = scale(unit(raw_t), sign);
        magnitudes = [raw_s, raw_t].map(|v| dot(v, v).sqrt() / area.abs());
        points = direction(raw_s).is_some() && direction(raw_t).is_some();
    }
    let tangents = points && counts(magnitudes[0]) && counts(magnitudes[1]);
    let any = !degenerate && !tangents;
    let orientation = !degenerate && area > 0.0;
    Triangle {
        face,
        second,
        missing,
        which,
        corners,
        degenerate,
        marked: false,
        any,
        orientation,
        area: area.abs(),
        s,
        t,
        magnitudes,
    }
}

/// Steps 1 to 3 of one face.
fn pieces(face: usize, corners: &[Corner]) -> Vec<Triangle> {
    let make = |second, missing: usize| {
        let kept: Vec<usize> = (0..4).filter(|&i| i != missing).collect();
        triangle(
            face,
            second,
            missing,
            [kept[0], kept[1], kept[2]],
            [corners[kept[0]], corners[kept[1]], corners[kept[2]]],
        )
    };
    match corners.len() {
        3 => vec![make(false, 3)],
        4 => {
            let across = |i: usize, j: usize| {
                let (x, y) = (
                    corners[i].texture[0] - corners[j].texture[0],
                    corners[i].texture[1] - corners[j].texture[1],
                );
                x * x + y * y
            };
            let apart = |i: usize, j: usize| {
                let d = sub(corners[i].place, corners[j].place);
                dot(d, d)
            };
            let (a, b) = (across(2, 0), across(3, 1));
            let cut02 = if a < b || b < a {
                a < b
            } else {
                apart(3, 1) >= apart(2, 0)
            };
            let (mut x, mut y) = if cut02 {
                (make(false, 3), make(true, 1))
            } else {
                (make(false, 2), make(true, 0))
            };
            if x.degenerate != y.degenerate {
                x.marked = true;
                y.marked = true;
            } else if !x.degenerate && x.orientation != y.orientation {
                let way = if y.any || x.area >= y.area {
                    x.orientation
                } else {
                    y.orientation
                };
                x.orientation = way;
                y.orientation = way;
            }
            vec![x, y]
        }
        _ => vec![],
    }
}

/// What the plain model says of steps 1 to 6: triangles in their order, how many are sound, vertices and links by row; each corner's group, and the members of each group as they were met.
pub struct Model {
    pub triangles: Vec<Triangle>,
    pub sound: usize,
    pub vertices: Vec<usize>,
    pub links: Vec<u32>,
    pub corner_starts: Vec<usize>,
    pub slot_starts: Vec<usize>,
    pub group: Vec<u32>,
    pub members: Vec<Vec<usize>>,
}

/// The row after a row in the same triangle: where its side ends.
pub fn end(r: usize) -> usize {
    r - r % 3 + (r + 1) % 3
}

/// Steps 1 to 6 of a mesh that is accepted: sizes; positions, normals and texture.
pub fn model(sizes: &[u8], numbers: &[Vec<f32>; 3]) -> Model {
    let mut model = cut(sizes, numbers);
    link(&mut model);
    for r in 0..3 * model.sound {
        if !model.triangles[r / 3].any && model.group[r] == 0 {
            model.members.push(vec![]);
            let way = model.triangles[r / 3].orientation;
            walk(&mut model, r, way);
        }
    }
    model
}

/// Steps 1 to 4: triangles and vertices, nothing linked or grouped yet.
pub fn cut(sizes: &[u8], [positions, normals, texture]: &[Vec<f32>; 3]) -> Model {
    let corner = |i: usize| Corner {
        place: [positions[3 * i], positions[3 * i + 1], positions[3 * i + 2]],
        normal: [normals[3 * i], normals[3 * i + 1], normals[3 * i + 2]],
        texture: [texture[2 * i], texture[2 * i + 1]],
    };
    let (mut all, mut corner_starts, mut slot_starts) = (vec![], vec![], vec![]);
    let (mut corners, mut slots) = (0, 0);
    for (face, &size) in sizes.iter().enumerate() {
        corner_starts.push(corners);
        slot_starts.push(slots);
        let n = usize::from(size);
        if n == 3 || n == 4 {
            all.extend(pieces(
                face,
                &(corners..corners + n).map(corner).collect::<Vec<Corner>>(),
            ));
            slots += n;
        }
        corners += n;
    }
    let (mut triangles, broken): (Vec<Triangle>, Vec<Triangle>) =
        all.into_iter().partition(|t| !t.degenerate);
    let sound = triangles.len();
    triangles.extend(broken);
    let bits: Vec<[u32; 8]> = triangles
        .iter()
        .flat_map(|t| t.corners.iter().map(Corner::bits))
        .collect();
    let mut first = HashMap::new();
    let vertices = bits
        .iter()
        .enumerate()
        .map(|(r, b)| *first.entry(b).or_insert(r))
        .collect();
    Model {
        triangles,
        sound,
        vertices,
        links: vec![0; 3 * sound],
        corner_starts,
        slot_starts,
        group: vec![0; 3 * sound],
        members: vec![],
    }
}

/// Step 5.
fn link(m: &mut Model) {
    let (vertices, links) = (&m.vertices, &mut m.links);
    let key = |r: usize| {
        let (a, b) = (vertices[r], vertices[end(r)]);
        (a.min(b), a.max(b), r / 3)
    };
    let mut sides: Vec<usize> = (0..3 * m.sound).collect();
    sides.sort_by_key(|&r| key(r));
    for (i, &r) in sides.iter().enumerate() {
        let opposite = |&&u: &&usize| {
            links[u] == 0 && vertices[u] == vertices[end(r)] && vertices[end(u)] == vertices[r]
        };
        let ends = |r: usize| (key(r).0, key(r).1);
        let mut later = sides[i + 1..].iter().take_while(|&&u| ends(u) == ends(r));
        if links[r] == 0
            && let Some(&u) = later.find(opposite)
        {
            links[r] = u as u32 + 1;
            links[u] = r as u32 + 1;
        }
    }
}

/// The walk of the last group, of orientation `way`, enters corner r: the side before the corner first, and over a side to the same corner beyond.
fn walk(m: &mut Model, r: usize, way: bool) {
    let t = r / 3;
    if m.group[r] != 0 {
        return;
    }
    if m.triangles[t].any && m.group[3 * t..3 * t + 3] == [0; 3] {
        m.triangles[t].orientation = way;
    }
    if m.triangles[t].orientation != way {
        return;
    }
    m.group[r] = m.members.len() as u32;
    m.members.last_mut().unwrap().push(r);
    for side in [3 * t + (r + 2) % 3, r] {
        if m.links[side] != 0 {
            let beyond = (m.links[side] as usize - 1) / 3;
            if let Some(same) =
                (3 * beyond..3 * beyond + 3).find(|&c| m.vertices[c] == m.vertices[r])
            {
                walk(m, same, way);
            }
        }
    }
}
