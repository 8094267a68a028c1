//! The face limit: sample 10 of document 01, with the limit of request E8, and meshes of that size in a small stack.
use dokphalun::{Buffers, Frame, MOST_FACES, MOST_SLOTS, Mesh, Reading, Refusal};
use models::Faces;
use models::shapes::{deepest, fan, tube};
use models::stack::{OURS, within};

/// How far a number may be from the one that a plane or a tube has.
const NEAR: f32 = 1e-3;

/// Faces of no corner.
fn cornerless(sizes: &[u8]) -> Mesh<'_> {
    Mesh {
        sizes,
        positions: &[],
        normals: &[],
        texture: &[],
    }
}

#[test]
fn sample_10_one_face_more_is_refused_and_the_limit_is_not() {
    let sizes = vec![0; 65_537];
    let mut buffers = Buffers::new();
    let refusal = buffers.frames(cornerless(&sizes), -1.0).unwrap_err();
    assert_eq!(refusal, Refusal::TooManyFaces { faces: 65_537 });
    assert_eq!(refusal.number(), 1);
    let answer = buffers.frames(cornerless(&sizes[1..]), -1.0);
    assert_eq!(answer.expect("it is refused").total(), 0);
}

/// The readings of all slots, made in a thread of little stack. Our own links are accepted there.
fn readings(faces: &Faces) -> Vec<Reading> {
    within(OURS, || {
        let (mesh, mut buffers) = (faces.mesh(), Buffers::new());
        let own = buffers.links(mesh).expect("it is refused");
        assert!(own.orientations.len() >= MOST_FACES);
        assert_eq!(buffers.examine(mesh, own.lists()), Ok(()));
        let answer = buffers.frames(mesh, -1.0).expect("it is refused");
        let readings = answer.readings();
        readings.map(|(_, reading)| reading).collect()
    })
}

/// The frame of a slot that has one.
fn present(reading: Reading) -> Frame {
    match reading {
        Reading::Present(frame) => frame,
        other => panic!("{other:?}"),
    }
}

/// The frames of all slots, where each has one.
fn frames(faces: &Faces) -> Vec<Frame> {
    readings(faces).into_iter().map(present).collect()
}

/// Whether two directions are the same, nearly.
fn near(a: [f32; 3], b: [f32; 3]) -> bool {
    a.iter().zip(b).all(|(x, y)| (x - y).abs() < NEAR)
}

/// Whether a frame is that of a plane whose texture runs as its positions do.
fn plane(frame: &Frame) -> bool {
    let (east, north) = ([1.0, 0.0, 0.0], [0.0, 1.0, 0.0]);
    frame.preserving && near(frame.tangent, east) && near(frame.bitangent, north)
}

#[test]
fn a_fan_at_the_limit_in_a_small_stack() {
    let frames = frames(&fan(MOST_FACES));
    assert_eq!(frames.len(), 3 * MOST_FACES);
    assert!(frames.iter().all(plane));
}

#[test]
fn the_deepest_walk_at_the_limit_in_a_small_stack() {
    let readings = readings(&deepest(MOST_FACES));
    assert_eq!(readings.len(), MOST_SLOTS);
    // most angles at the rim are too small to weigh anything, so that corners 1 and 3 have no direction
    let mut blank = 0;
    for pair in readings.as_chunks().0 {
        let [inner, rim] = *pair;
        assert!(plane(&present(inner)));
        match rim {
            Reading::Blank(_) => blank += 1,
            other => assert!(plane(&present(other))),
        }
    }
    assert!(
        blank > MOST_FACES,
        "{blank} of {} are blank",
        2 * MOST_FACES
    );
}

#[test]
fn a_tube_at_the_limit_in_a_small_stack() {
    let tube = tube(MOST_FACES);
    let frames = frames(&tube);
    assert_eq!(frames.len(), MOST_SLOTS);
    for (frame, [x, y, _]) in frames.into_iter().zip(tube.normals) {
        assert!(near(frame.tangent, [-y, x, 0.0]) && near(frame.bitangent, [0.0, 0.0, 1.0]));
    }
}
