//! Islands: their numbers, frames one island at a time, and frames on several threads.
use dokphalun::{Answer, Buffers, Place, Refusal};
use models::{Corner, Faces};
use std::num::NonZeroUsize;

/// A corner at a place of a bulging sheet.
fn bulging([x, y]: [f32; 2]) -> Corner {
    let height = 0.1 * (3.0 * x).sin() * y.cos();
    ([x, y, height], [0.0, 0.0, 1.0], [x * 0.5, y * 0.25])
}

/// A face whose corners stand at these places of the sheet.
fn push<const N: usize>(faces: &mut Faces, corners: [[f32; 2]; N]) {
    faces.push(&corners.map(bulging));
}

/// A square of so many by so many quads; their corners are apart by a half, so that corners of one square are welded exactly.
fn square(faces: &mut Faces, side: usize, left: f32) {
    for i in 0..side * side {
        let (x, y) = (left + (i % side) as f32 * 0.5, (i / side) as f32 * 0.5);
        push(
            faces,
            [[x, y], [x + 0.5, y], [x + 0.5, y + 0.5], [x, y + 0.5]],
        );
    }
}

/// Squares of several sizes, a face of five and a degenerate triangle between them.
fn archipelago() -> Faces {
    let mut faces = Faces::default();
    for (i, side) in [3, 1, 7, 2, 5, 4, 6, 1].into_iter().enumerate() {
        square(&mut faces, side, 100.0 * i as f32);
        push(&mut faces, [[0.0; 2]; 5]);
        push(&mut faces, [[-1.0 - i as f32, 0.0]; 3]);
    }
    faces
}

/// The words of an answer.
fn words(answer: Result<Answer, Refusal>) -> Vec<u32> {
    answer.expect("it is refused").words().to_vec()
}

/// So many threads.
fn threads(count: usize) -> NonZeroUsize {
    NonZeroUsize::new(count).expect("at least one")
}

#[test]
fn each_face_is_given_the_lowest_number_of_its_island() {
    let mut faces = Faces::default();
    push(&mut faces, [[5.0, 0.0], [6.0, 0.0], [5.0, 1.0]]);
    push(&mut faces, [[0.0, 0.0], [1.0, 0.0], [0.0, 1.0]]);
    push(&mut faces, [[0.0, 0.0]; 5]);
    push(&mut faces, [[9.0, 9.0]; 3]);
    push(&mut faces, [[6.0, 0.0], [7.0, 0.0], [1.0, 0.0], [6.0, 1.0]]);
    push(&mut faces, [[20.0, 0.0], [21.0, 0.0], [20.0, 1.0]]);
    let mut buffers = Buffers::new();
    let islands = buffers.islands(faces.mesh()).expect("it is refused");
    let given: Vec<Option<usize>> = islands.of_faces().collect();
    assert_eq!(given, [Some(0), Some(0), None, Some(3), Some(0), Some(5)]);
    assert_eq!(islands.count(), 3);
}

#[test]
fn islands_refuse_as_frames_do() {
    let mut faces = archipelago();
    faces.positions[7] = [f32::NAN; 3];
    let refusal = Buffers::new().islands(faces.mesh()).unwrap_err();
    assert_eq!(refusal, Refusal::NotFinite(Place { face: 1, corner: 3 }));
    faces.positions[7] = [0.0; 3];
    faces.normals[7] = [0.0; 3];
    let refusal = Buffers::new().islands(faces.mesh()).unwrap_err();
    assert_eq!(refusal, Refusal::NoNormal(Place { face: 1, corner: 3 }));
    faces.positions.pop();
    let refusal = Buffers::new().islands(faces.mesh()).unwrap_err();
    assert_eq!(refusal, Refusal::UnequalLists);
}

#[test]
fn the_words_are_the_same_by_islands_and_on_any_number_of_threads() {
    let faces = archipelago();
    for threshold in [-1.0, 0.999] {
        let whole = words(Buffers::new().frames(faces.mesh(), threshold));
        let mut buffers = Buffers::new();
        assert_eq!(
            words(buffers.frames_by_islands(faces.mesh(), threshold)),
            whole
        );
        for count in (1..=8).chain([8, 3, 1, 40]) {
            let answer = buffers.frames_on(faces.mesh(), threshold, threads(count));
            let answer = answer.expect("it is refused");
            assert_eq!(answer.parts(), count.min(16), "{count} threads");
            assert_eq!(answer.words(), whole, "{count} threads");
        }
    }
}

#[test]
fn one_island_is_one_part() {
    let mut faces = Faces::default();
    square(&mut faces, 9, 0.0);
    let whole = words(Buffers::new().frames(faces.mesh(), -1.0));
    let mut buffers = Buffers::new();
    let answer = buffers.frames_on(faces.mesh(), -1.0, threads(4)).unwrap();
    assert_eq!((answer.parts(), answer.words()), (1, &whole[..]));
    let nothing = Faces::default();
    let answer = buffers.frames_on(nothing.mesh(), -1.0, threads(4));
    assert_eq!(words(answer), []);
}

#[test]
fn refusals_are_the_whole_mesh_s_on_any_number_of_threads() {
    for (normal, number) in [([0.0, f32::INFINITY, 1.0], 4), ([0.0; 3], 7)] {
        let mut faces = archipelago();
        faces.normals[200] = normal;
        let mut buffers = Buffers::new();
        for (threshold, number) in [(-1.0, number), (f32::NAN, 3)] {
            let whole = Buffers::new().frames(faces.mesh(), threshold).unwrap_err();
            assert_eq!(whole.number(), number);
            for count in 1..=3 {
                let on = buffers.frames_on(faces.mesh(), threshold, threads(count));
                assert_eq!(on.unwrap_err(), whole);
            }
            let by = buffers.frames_by_islands(faces.mesh(), threshold);
            assert_eq!(by.unwrap_err(), whole);
        }
    }
}
