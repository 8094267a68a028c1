//! Makes every call on empty lists, and says how many of them refused the archive. tests/other_archive.rs builds it with archives of
//! other editions.
use dokphalun_sys::*;
use std::panic::catch_unwind;

/// A mesh of no face.
const NOTHING: Mesh = Mesh {
    sizes: &[],
    positions: &[],
    normals: &[],
    texture: &[],
};

/// Frames by islands of that mesh.
fn by_islands() -> Outcome {
    let own = IslandLists {
        labels: &mut [],
        order: &mut [],
        sizes: &mut [],
        numbers: &mut [],
        frames: &mut [],
    };
    frames_by_islands(NOTHING, -1.0, &mut [], &mut [], own)
}

/// Every call.
const CALLS: [fn(); 18] = [
    || _ = frames(NOTHING, -1.0, &mut [], &mut []),
    || _ = reasons(NOTHING, -1.0, &mut [], &mut [], &mut []),
    || _ = judge(&[], &mut []),
    || _ = part(NOTHING, 0, 0),
    || _ = labels(NOTHING, &mut [], &mut []),
    || _ = by_islands(),
    || _ = examine(NOTHING, &[], &[], &[], &mut []),
    || _ = links(NOTHING, &mut [], &mut [], &mut [], &mut []),
    || _ = card_write(&[], &mut []),
    || _ = card_read(&[], 0, &mut []),
    || _ = card_next(0, 0),
    || _ = card_append(0, 0, &[], &mut []),
    || _ = old_card_write(&[], &mut []),
    || _ = old_card_read(&[], 0, &mut []),
    || _ = old_card_next(0, 0),
    || _ = old_card_append(0, 0, &[], &mut []),
    || _ = pack(&[], &mut []),
    || _ = unpack(&[], &mut []),
];

fn main() {
    let refused = CALLS.into_iter().filter(|call| catch_unwind(call).is_err());
    println!("{} of {} refused", refused.count(), CALLS.len());
}
