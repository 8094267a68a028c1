//! OBJ files: positions, texture coordinates, normals and faces. Lines that hold no part of the mesh are passed over by name.
use crate::stop::{Fault, Spot, shown};
use crate::surface::{Corner, Surface};
use std::str::SplitAsciiWhitespace;

/// The lines that are passed over: names, groups, materials, points and lines.
const PASSED: [&str; 16] = [
    "o",
    "g",
    "s",
    "mg",
    "l",
    "p",
    "vp",
    "usemtl",
    "mtllib",
    "usemap",
    "maplib",
    "bevel",
    "c_interp",
    "d_interp",
    "lod",
    "shadow_obj",
];

/// What was read so far.
#[derive(Default)]
struct Parts {
    positions: Vec<[f32; 3]>,
    texture: Vec<[f32; 2]>,
    normals: Vec<[f32; 3]>,
    faces: Vec<Face>,
}

/// A face: for each corner the numbers of its position, texture and normal, counted from 0.
struct Face {
    corners: Vec<[i64; 3]>,
    line: usize,
}

/// The mesh of an OBJ file.
pub fn read(bytes: &[u8]) -> Result<Surface, Fault> {
    let mut parts = Parts::default();
    let mut joined = String::new();
    for (number, line) in bytes.split(|&byte| byte == b'\n').enumerate() {
        let text = String::from_utf8_lossy(line);
        let text = text.split('#').next().unwrap_or_default().trim_end();
        // a line that ends in a backslash goes on in the next
        let more = text.strip_suffix('\\');
        joined.push_str(more.unwrap_or(text));
        joined.push(' ');
        if more.is_none() {
            add_line(&mut parts, &joined, number + 1)?;
            joined.clear();
        }
    }
    add_line(
        &mut parts,
        &joined,
        bytes.split(|&byte| byte == b'\n').count(),
    )?;
    assemble(&parts)
}

/// One line of the file.
fn add_line(parts: &mut Parts, text: &str, line: usize) -> Result<(), Fault> {
    let mut words = text.split_ascii_whitespace();
    let Some(name) = words.next() else {
        return Ok(());
    };
    match name {
        // a weight or a colour may follow a position, and a third number texture coordinates
        "v" => parts.positions.push(numbers(words, 7, line)?),
        "vt" => parts.texture.push(numbers(words, 3, line)?),
        "vn" => parts.normals.push(numbers(words, 3, line)?),
        "f" => {
            let corners = words
                .map(|word| corner(parts, word, line))
                .collect::<Result<Vec<_>, _>>()?;
            if corners.is_empty() {
                return Err(Fault::line(line, "a face without corners"));
            }
            parts.faces.push(Face { corners, line });
        }
        _ if PASSED.contains(&name) => (),
        _ => {
            let shown = shown(name);
            return Err(Fault::line(
                line,
                format!("`{shown}` is no line of an OBJ mesh that is read here"),
            ));
        }
    }
    Ok(())
}

/// The first N numbers of a line that has no more than `most`.
fn numbers<const N: usize>(
    mut words: SplitAsciiWhitespace,
    most: usize,
    line: usize,
) -> Result<[f32; N], Fault> {
    if words.clone().count() > most {
        return Err(Fault::line(line, format!("more than {most} numbers")));
    }
    let mut numbers = [0.0; N];
    for number in &mut numbers {
        let Some(word) = words.next() else {
            return Err(Fault::line(line, format!("fewer than {N} numbers")));
        };
        let shown = shown(word);
        *number = word
            .parse()
            .map_err(|_| Fault::line(line, format!("`{shown}` is no number")))?;
    }
    Ok(numbers)
}

/// A corner `v/vt/vn`; numbers below zero count from the end of what was read so far.
fn corner(parts: &Parts, word: &str, line: usize) -> Result<[i64; 3], Fault> {
    let shown = shown(word);
    let counts = [
        parts.positions.len(),
        parts.texture.len(),
        parts.normals.len(),
    ];
    let mut texts = word.split('/');
    let mut corner = [0; 3];
    for (i, (number, count)) in corner.iter_mut().zip(counts).enumerate() {
        let text = texts.next().unwrap_or_default();
        if text.is_empty() {
            return Err(Fault::line(line, lacking(&shown, i)));
        }
        *number = match text.parse::<i64>() {
            Ok(named @ 1..) => named - 1,
            Ok(named @ ..=-1) => named.saturating_add(count as i64),
            _ => {
                return Err(Fault::line(
                    line,
                    format!(
                        "corner `{shown}` does not name its vertex by whole numbers from 1 on, or from -1 down"
                    ),
                ));
            }
        };
    }
    match texts.next() {
        None => Ok(corner),
        Some(_) => Err(Fault::line(
            line,
            format!("corner `{shown}` has more than three numbers"),
        )),
    }
}

/// What is said where a corner names no position, texture or normal.
fn lacking(shown: &str, which: usize) -> String {
    let what = ["position", "texture coordinates", "normal"][which.min(2)];
    format!(
        "corner `{shown}` has no {what}. A corner is v/vt/vn; no frame can be made without: export the mesh with normals and texture"
    )
}

/// One of a list, or a fault that names the corner.
fn named<T: Copy>(
    list: &[T],
    index: i64,
    what: &str,
    face: usize,
    line: usize,
) -> Result<T, Fault> {
    let found = usize::try_from(index)
        .ok()
        .and_then(|index| list.get(index));
    found.copied().ok_or_else(|| {
        let (number, count) = (index.saturating_add(1), list.len());
        Fault::line(
            line,
            format!("face {face} names {what} {number}; there are {count}, counted from 1"),
        )
    })
}

/// The surface of all faces, corner by corner.
fn assemble(parts: &Parts) -> Result<Surface, Fault> {
    let mut surface = Surface::default();
    for (number, face) in parts.faces.iter().enumerate() {
        surface.face(face.corners.len(), Spot::Line(face.line))?;
        for &[position, texture, normal] in &face.corners {
            surface.corner(Corner {
                position: named(&parts.positions, position, "position", number, face.line)?,
                normal: named(&parts.normals, normal, "normal", number, face.line)?,
                texture: named(
                    &parts.texture,
                    texture,
                    "texture coordinates",
                    number,
                    face.line,
                )?,
            });
        }
    }
    Ok(surface)
}
