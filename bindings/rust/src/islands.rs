//! Islands: faces that share a welded corner, directly or over others; and frames of islands on several threads.
use crate::buffers::{Answer, Buffers};
use crate::mesh::{MOST_FACES, Mesh, takes_slots};
use crate::refusal::Refusal;
use dokphalun_sys::{self as archive, ISLAND_ENTRIES, IslandLists, NO_ISLAND, SLOT_WORDS};
use std::cmp::Reverse;
use std::num::NonZeroUsize;
use std::sync::Mutex;
use std::thread::{Builder, scope};

/// The islands of a mesh. Two faces of 3 or 4 are in one island if a chain of faces, each sharing a welded corner with the
/// next, leads from one to the other. Other faces are in none.
#[derive(Clone, Copy, Debug)]
pub struct Islands<'a> {
    labels: &'a [u32],
    count: usize,
}

impl<'a> Islands<'a> {
    /// How many there are.
    pub fn count(&self) -> usize {
        self.count
    }

    /// The island of each face, by the lowest face number in it; none where the face is not of 3 or 4.
    pub fn of_faces(&self) -> impl Iterator<Item = Option<usize>> + Clone + use<'a> {
        let island = |&label: &u32| (label != NO_ISLAND).then_some(label as usize);
        self.labels.iter().map(island)
    }
}

/// Whole islands that are handed through the archive in one call: their faces in order, and the lists for it.
#[derive(Debug, Default)]
pub(crate) struct Batch {
    faces: Vec<usize>,
    sizes: Vec<u8>,
    positions: Vec<[f32; 3]>,
    normals: Vec<[f32; 3]>,
    texture: Vec<[f32; 2]>,
    buffers: Buffers,
    refused: bool,
}

impl Batch {
    /// Takes its faces out of a mesh, whose corners start at these numbers, and makes their frames.
    fn run(&mut self, mesh: Mesh, starts: &[usize], threshold: f32) {
        self.sizes.clear();
        self.positions.clear();
        self.normals.clear();
        self.texture.clear();
        for &face in &self.faces {
            let size = mesh.sizes[face];
            let corners = starts[face]..starts[face] + usize::from(size);
            self.sizes.push(size);
            self.positions
                .extend_from_slice(&mesh.positions[corners.clone()]);
            self.normals
                .extend_from_slice(&mesh.normals[corners.clone()]);
            self.texture.extend_from_slice(&mesh.texture[corners]);
        }
        let part = Mesh {
            sizes: &self.sizes,
            positions: &self.positions,
            normals: &self.normals,
            texture: &self.texture,
        };
        self.refused = self.buffers.make(part, threshold).is_err();
    }

    /// Puts each frame in its place: the slots of a face start at that number.
    fn scatter(&self, starts: &[usize], answer: &mut [u32]) {
        let mut words = &self.buffers.answer[..];
        for (&face, &size) in self.faces.iter().zip(&self.sizes) {
            let (own, rest) = words.split_at(usize::from(size) * SLOT_WORDS);
            let place = starts[face] * SLOT_WORDS;
            answer[place..place + own.len()].copy_from_slice(own);
            words = rest;
        }
    }
}

impl Buffers {
    /// The islands of a mesh.
    pub fn islands(&mut self, mesh: Mesh) -> Result<Islands<'_>, Refusal> {
        self.lend(mesh.sizes);
        let faces = mesh.sizes.len().min(MOST_FACES);
        self.own.labels.resize(faces, 0);
        let said = archive::labels(mesh.flat(), &mut self.own.labels, &mut self.work);
        match Refusal::of(said.number, said.place, mesh.sizes) {
            Some(refusal) => Err(refusal),
            None => Ok(Islands {
                labels: &self.own.labels,
                count: said.islands as usize,
            }),
        }
    }

    /// The frames of a mesh, handed through the archive one island at a time: the same words as from [`Buffers::frames`].
    pub fn frames_by_islands<'a>(
        &'a mut self,
        mesh: Mesh<'a>,
        threshold: f32,
    ) -> Result<Answer<'a>, Refusal> {
        self.lend(mesh.sizes);
        let own = self.own.lend(mesh.sizes.len().min(MOST_FACES));
        let (answer, work) = (&mut self.answer, &mut self.work);
        let said = archive::frames_by_islands(mesh.flat(), threshold, answer, work, own);
        match Refusal::of(said.number, said.place, mesh.sizes) {
            Some(refusal) => Err(refusal),
            None => Ok(self.judged().answer(mesh.sizes, 1)),
        }
    }

    /// The frames of a mesh, made on at most so many threads: the same words as from [`Buffers::frames`], and the same
    /// refusals. Whole islands go to each thread, since what shares no welded corner does not matter to a frame; a mesh of
    /// one island is made on one.
    pub fn frames_on<'a>(
        &'a mut self,
        mesh: Mesh<'a>,
        threshold: f32,
        threads: NonZeroUsize,
    ) -> Result<Answer<'a>, Refusal> {
        if threads == NonZeroUsize::MIN {
            return self.frames(mesh, threshold);
        }
        let parts = self.batched(mesh, threads.get());
        if parts < 2 {
            return self.frames(mesh, threshold);
        }
        let corner_starts = starts(mesh.sizes, |_| true);
        run_all(&mut self.batches[..parts], |batch| {
            batch.run(mesh, &corner_starts, threshold)
        });
        // only for its threshold; the call on the whole mesh says so
        if self.batches[..parts].iter().any(|batch| batch.refused) {
            return self.frames(mesh, threshold);
        }
        let slot_starts = starts(mesh.sizes, takes_slots);
        for batch in &self.batches[..parts] {
            batch.scatter(&slot_starts, &mut self.answer);
        }
        Ok(self.judged().answer(mesh.sizes, parts))
    }

    /// Deals the islands of a mesh to at most so many batches; how many have any. None where the mesh is refused.
    fn batched(&mut self, mesh: Mesh, most: usize) -> usize {
        let parts = match self.islands(mesh) {
            Ok(islands) => islands.count().min(most),
            Err(_) => return 0,
        };
        if parts < 2 {
            return parts;
        }
        let owners = dealt(&self.own.labels, parts);
        if self.batches.len() < parts {
            self.batches.resize_with(parts, Batch::default);
        }
        for (part, batch) in self.batches[..parts].iter_mut().enumerate() {
            let faces = owners.iter().enumerate();
            let own = faces.filter(|(_, owner)| **owner == Some(part));
            batch.faces.clear();
            batch.faces.extend(own.map(|(face, _)| face));
        }
        parts
    }
}

/// The lists that [`Buffers::frames_by_islands`] works in besides.
#[derive(Debug, Default)]
pub(crate) struct Own {
    labels: Vec<u32>,
    order: Vec<u32>,
    sizes: Vec<u8>,
    numbers: Vec<f32>,
    frames: Vec<u32>,
}

impl Own {
    /// Each list, as long as so many faces need.
    fn lend(&mut self, faces: usize) -> IslandLists<'_> {
        let [labels, order, sizes, numbers, frames] = ISLAND_ENTRIES.map(|entries| entries * faces);
        self.labels.resize(labels, 0);
        self.order.resize(order, 0);
        self.sizes.resize(sizes, 0);
        self.numbers.resize(numbers, 0.0);
        self.frames.resize(frames, 0);
        IslandLists {
            labels: &mut self.labels,
            order: &mut self.order,
            sizes: &mut self.sizes,
            numbers: &mut self.numbers,
            frames: &mut self.frames,
        }
    }
}

/// Which of so many batches each face goes to, by its island: the largest island first, each to the batch that has the fewest faces.
fn dealt(labels: &[u32], parts: usize) -> Vec<Option<usize>> {
    let mut sizes = vec![0usize; labels.len()];
    let islands = labels.iter().filter(|label| **label != NO_ISLAND);
    islands.for_each(|&label| sizes[label as usize] += 1);
    let mut order: Vec<usize> = (0..sizes.len()).filter(|&i| sizes[i] > 0).collect();
    order.sort_by_key(|&island| Reverse(sizes[island]));
    let (mut loads, mut owners) = (vec![0; parts], vec![None; labels.len()]);
    for island in order {
        let part = (0..parts).min_by_key(|&part| loads[part]);
        let part = part.expect("there is a batch");
        loads[part] += sizes[island];
        owners[island] = Some(part);
    }
    let owner = |&label: &u32| owners.get(label as usize).copied().flatten();
    labels.iter().map(owner).collect()
}

/// How many corners stand before each face, counting those of faces of the sizes that are asked for.
fn starts(sizes: &[u8], counted: fn(u8) -> bool) -> Vec<usize> {
    let mut before = 0;
    let mut start = |&size: &u8| {
        let start = before;
        before += if counted(size) { usize::from(size) } else { 0 };
        start
    };
    sizes.iter().map(&mut start).collect()
}

/// Runs every batch, as many at once as threads can be had; this thread is one of them.
fn run_all(batches: &mut [Batch], run: impl Fn(&mut Batch) + Sync) {
    let others = batches.len() - 1;
    let waiting = Mutex::new(batches.iter_mut());
    let next = || waiting.lock().expect("no thread panics").next();
    let work = || std::iter::from_fn(next).for_each(&run);
    scope(|scope| {
        for _ in 0..others {
            let _ = Builder::new().spawn_scoped(scope, work);
        }
        work();
    });
}
