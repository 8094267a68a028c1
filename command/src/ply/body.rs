//! The rows of a PLY file: vertices and faces to a surface; other elements are passed over.
use super::header::{Element, Header, Property};
use super::values::{Value, Values};
use crate::stop::{Fault, Spot};
use crate::surface::{Corner, Surface};

/// The names of a vertex's numbers: position and normal, and the pairs that texture coordinates are called by.
const NUMBERS: [&str; 6] = ["x", "y", "z", "nx", "ny", "nz"];
const PAIRS: [[&str; 2]; 4] = [
    ["s", "t"],
    ["u", "v"],
    ["texture_u", "texture_v"],
    ["texture_s", "texture_t"],
];

/// The longest list that is read. No face that is read has as many corners.
const MOST_LISTED: usize = 65_536;

/// Which of a vertex's eight numbers each property is.
struct Columns {
    number: Vec<Option<usize>>,
    textured: bool,
}

/// A face as it stands in the file.
struct Face {
    vertices: Vec<Value>,
    /// Texture coordinates of its own, two a corner.
    texture: Vec<Value>,
    spot: Spot,
}

/// The mesh that the header describes.
pub fn read(header: &Header, mut values: impl Values) -> Result<Surface, Fault> {
    let element = |name: &str| {
        let found = header.elements.iter().find(|element| element.name == name);
        found.ok_or_else(|| Fault::line(header.lines, format!("the header has no element {name}")))
    };
    let (vertex, face) = (element("vertex")?, element("face")?);
    let columns = columns(vertex)?;
    check_face(face, columns.textured)?;
    let (mut vertices, mut faces) = (Vec::new(), Vec::new());
    for element in &header.elements {
        for row in 0..element.rows {
            if !values.row() {
                let what = format!(
                    "the file ends after {row} of {} rows of element {}",
                    element.rows, element.name
                );
                return Err(Fault::at(values.spot(), what));
            }
            match element.name.as_str() {
                "vertex" => vertices.push(vertex_row(&mut values, element, &columns)?),
                "face" => faces.push(face_row(&mut values, element)?),
                _ => pass_row(&mut values, element)?,
            }
            values.end_row()?;
        }
    }
    if values.row() {
        let what = "the file goes on after the last row that the header calls for";
        return Err(Fault::at(values.spot(), what));
    }
    assemble(&vertices, &faces, columns.textured)
}

/// Finds the numbers of a vertex among its properties.
fn columns(vertex: &Element) -> Result<Columns, Fault> {
    let single = |name: &str| {
        let mut all = vertex.properties.iter();
        all.position(|property| property.count.is_none() && property.name == name)
    };
    let mut number = vec![None; vertex.properties.len()];
    for (i, name) in NUMBERS.iter().enumerate() {
        let Some(at) = single(name) else {
            return Err(Fault::line(vertex.line, missing(name, i)));
        };
        number[at] = Some(i);
    }
    let pair = PAIRS
        .iter()
        .find_map(|[s, t]| Some([single(s)?, single(t)?]));
    for (i, at) in pair.iter().flatten().enumerate() {
        number[*at] = Some(NUMBERS.len() + i);
    }
    let textured = pair.is_some();
    Ok(Columns { number, textured })
}

/// What is said where a vertex has no such number.
fn missing(name: &str, number: usize) -> String {
    match number < 3 {
        true => format!("element vertex has no position: property {name} is not there"),
        false => format!(
            "element vertex has no normals: property {name} is not there. No frame can be made without: export the mesh with normals"
        ),
    }
}

/// Whether a property is the list of a face's vertices.
fn names_vertices(property: &Property) -> bool {
    property.count.is_some() && ["vertex_indices", "vertex_index"].contains(&property.name.as_str())
}

/// Whether a property is the list of a face's own texture coordinates.
fn holds_texture(property: &Property) -> bool {
    property.count.is_some() && property.name == "texcoord"
}

/// Sees that a face names its vertices, and that there are texture coordinates.
fn check_face(face: &Element, textured: bool) -> Result<(), Fault> {
    let Some(list) = face
        .properties
        .iter()
        .find(|property| names_vertices(property))
    else {
        return Err(Fault::line(
            face.line,
            "element face has no list vertex_indices",
        ));
    };
    if !list.kind.whole() {
        return Err(Fault::line(
            face.line,
            "the vertices of element face are no whole numbers",
        ));
    }
    match textured || face.properties.iter().any(holds_texture) {
        true => Ok(()),
        false => Err(Fault::line(
            face.line,
            "there are no texture coordinates: neither s t, u v nor texture_u texture_v in element vertex, nor a list texcoord in element face. \
             No frame can be made without: unwrap the mesh and export it again",
        )),
    }
}

/// The eight numbers of a vertex.
fn vertex_row(
    values: &mut impl Values,
    element: &Element,
    columns: &Columns,
) -> Result<[f32; 8], Fault> {
    let mut numbers = [0.0; 8];
    for (property, number) in element.properties.iter().zip(&columns.number) {
        let last = property_values(values, property)?.pop();
        if let (Some(at), Some(value)) = (number, last) {
            numbers[*at] = value.real();
        }
    }
    Ok(numbers)
}

/// The lists of a face.
fn face_row(values: &mut impl Values, element: &Element) -> Result<Face, Fault> {
    let (mut vertices, mut texture, spot) = (Vec::new(), Vec::new(), values.spot());
    for property in &element.properties {
        let list = property_values(values, property)?;
        if names_vertices(property) {
            vertices = list;
        } else if holds_texture(property) {
            texture = list;
        }
    }
    Ok(Face {
        vertices,
        texture,
        spot,
    })
}

/// A row of an element that is not used.
fn pass_row(values: &mut impl Values, element: &Element) -> Result<(), Fault> {
    for property in &element.properties {
        property_values(values, property)?;
    }
    Ok(())
}

/// The numbers of a property: of a list, or a single one.
fn property_values(values: &mut impl Values, property: &Property) -> Result<Vec<Value>, Fault> {
    let count = match property.count {
        None => 1,
        Some(kind) => {
            let spot = values.spot();
            let count = values.value(kind)?.index();
            count.ok_or_else(|| {
                Fault::at(
                    spot,
                    format!("the count of list {} is below zero", property.name),
                )
            })?
        }
    };
    if count > MOST_LISTED {
        let what = format!(
            "list {} has {count} numbers; at most {MOST_LISTED} are read",
            property.name
        );
        return Err(Fault::at(values.spot(), what));
    }
    (0..count).map(|_| values.value(property.kind)).collect()
}

/// The surface of all faces, corner by corner; the vertices have texture coordinates where they are textured.
fn assemble(vertices: &[[f32; 8]], faces: &[Face], textured: bool) -> Result<Surface, Fault> {
    let mut surface = Surface::default();
    for (number, face) in faces.iter().enumerate() {
        surface.face(face.vertices.len(), face.spot)?;
        let own = face.texture.as_chunks::<2>().0;
        let by_vertices = face.texture.is_empty() && textured;
        if !by_vertices && face.texture.len() != 2 * face.vertices.len() {
            let (numbers, corners) = (face.texture.len(), face.vertices.len());
            let what =
                format!("face {number} has {numbers} numbers of texture for {corners} corners");
            return Err(Fault::at(face.spot, what));
        }
        for (corner, index) in face.vertices.iter().enumerate() {
            let found = index.index().and_then(|index| vertices.get(index));
            let Some([x, y, z, a, b, c, s, t]) = found.copied() else {
                let what = format!(
                    "face {number}, corner {corner} names vertex {index}; there are {}, counted from 0",
                    vertices.len()
                );
                return Err(Fault::at(face.spot, what));
            };
            surface.corner(Corner {
                position: [x, y, z],
                normal: [a, b, c],
                texture: own.get(corner).map_or([s, t], |pair| pair.map(Value::real)),
            });
        }
    }
    Ok(surface)
}
