//! Small sound files for the tests: one mesh in every form that is read.
use std::fmt::Write;

/// A sheet of two quads, a triangle and a face of five: position, normal and texture of nine vertices.
pub const VERTICES: [[f32; 8]; 9] = [
    [0.0, 0.0, 0.0, 0.0, 0.0, 1.0, 0.0, 0.0],
    [1.0, 0.0, 0.0, 0.0, 0.0, 1.0, 1.0, 0.0],
    [1.0, 1.0, 0.0, 0.0, 0.0, 1.0, 1.0, 1.0],
    [0.0, 1.0, 0.0, 0.0, 0.0, 1.0, 0.0, 1.0],
    [2.0, 0.0, 0.25, -0.2, 0.0, 1.0, 2.0, 0.0],
    [2.0, 1.0, 0.25, -0.2, 0.0, 1.0, 2.0, 1.0],
    [3.0, 0.5, 0.5, -0.3, 0.0, 1.0, 3.0, 0.5],
    [1.5, 2.0, 0.0, 0.0, 0.0, 1.0, 1.5, 2.0],
    [0.5, 2.0, 0.0, 0.0, 0.0, 1.0, 0.5, 2.0],
];
/// Faces that all get frames.
pub const FACES: [&[usize]; 3] = [&[0, 1, 2, 3], &[1, 4, 5, 2], &[4, 6, 5]];
/// A face that takes no slot.
pub const FIVE: &[usize] = &[3, 2, 5, 7, 8];

/// The header of a PLY file; the texture coordinates have these names, if any.
fn header(format: &str, texture: Option<[&str; 2]>, faces: usize, more: &str) -> String {
    let mut text = format!(
        "ply\nformat {format} 1.0\ncomment nine vertices\nelement vertex {}\n",
        VERTICES.len()
    );
    for name in ["x", "y", "z", "nx", "ny", "nz"]
        .into_iter()
        .chain(texture.into_iter().flatten())
    {
        let _ = writeln!(text, "property float {name}");
    }
    let _ = write!(
        text,
        "element face {faces}\nproperty list uchar int vertex_indices\n{more}end_header\n"
    );
    text
}

/// A PLY file of text.
pub fn ply_text(faces: &[&[usize]]) -> String {
    let mut text = header("ascii", Some(["u", "v"]), faces.len(), "");
    for vertex in VERTICES {
        let _ = writeln!(
            text,
            "{}",
            vertex.map(|number| number.to_string()).join(" ")
        );
    }
    for face in faces {
        let corners: Vec<String> = face.iter().map(usize::to_string).collect();
        let _ = writeln!(text, "{} {}", face.len(), corners.join(" "));
    }
    text
}

/// A PLY file of bytes.
pub fn ply_bytes(faces: &[&[usize]]) -> Vec<u8> {
    let mut bytes = header("binary_little_endian", Some(["s", "t"]), faces.len(), "").into_bytes();
    bytes.extend(
        VERTICES
            .iter()
            .flatten()
            .flat_map(|number| number.to_le_bytes()),
    );
    for face in faces {
        bytes.push(face.len() as u8);
        bytes.extend(
            face.iter()
                .flat_map(|vertex| (*vertex as i32).to_le_bytes()),
        );
    }
    bytes
}

/// A PLY file of bytes whose faces have texture coordinates of their own.
pub fn ply_wedges(faces: &[&[usize]]) -> Vec<u8> {
    let more = "property list uchar float texcoord\nproperty int texnumber\n";
    let mut bytes = header("binary_little_endian", None, faces.len(), more).into_bytes();
    let short = VERTICES.iter().flat_map(|vertex| &vertex[..6]);
    bytes.extend(short.flat_map(|number| number.to_le_bytes()));
    for face in faces {
        bytes.push(face.len() as u8);
        bytes.extend(
            face.iter()
                .flat_map(|vertex| (*vertex as i32).to_le_bytes()),
        );
        bytes.push(2 * face.len() as u8);
        let own = face.iter().flat_map(|vertex| &VERTICES[*vertex][6..]);
        bytes.extend(own.flat_map(|number| number.to_le_bytes()));
        bytes.extend(0i32.to_le_bytes());
    }
    bytes
}

/// An OBJ file; each other face counts its corners from the end.
pub fn obj(faces: &[&[usize]]) -> String {
    let mut text = String::from("# nine vertices\nmtllib steel.mtl\no sheet\n");
    for [x, y, z, a, b, c, s, t] in VERTICES {
        let _ = write!(text, "v {x} {y} {z}\nvn {a} {b} {c}\nvt {s} {t}\n");
    }
    text.push_str("usemtl steel\ns off\n");
    for (k, face) in faces.iter().enumerate() {
        text.push('f');
        for vertex in *face {
            let n = if k % 2 == 0 {
                *vertex as i64 + 1
            } else {
                *vertex as i64 - VERTICES.len() as i64
            };
            let _ = write!(text, " {n}/{n}/{n}");
        }
        text.push('\n');
    }
    text
}

/// Every form, with and without the face of five.
pub fn all() -> Vec<Vec<u8>> {
    let five: Vec<&[usize]> = FACES.into_iter().chain([FIVE]).collect();
    let forms = [&FACES[..], &five].map(|faces| {
        [
            ply_text(faces).into_bytes(),
            ply_bytes(faces),
            ply_wedges(faces),
            obj(faces).into_bytes(),
        ]
    });
    forms.into_iter().flatten().collect()
}
