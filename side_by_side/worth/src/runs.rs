//! What is run: random slots in lists of random length, lists of every length, and the archive's own frames of the oracle's meshes.
use crate::compare::{EDGES, Seen, both};
use models::lent::room;
use models::oracle::Words;
use models::packed::SLOT;
use models::random::Random;
use models::worth::{Worth, verdict};

/// Three components: of [-1, 1], or of a few edges that stand beside one another, or zeros, or any bits; some of them mixed.
fn three(random: &mut Random) -> [u32; 3] {
    let first = random.below(EDGES.len() - 3);
    let (kind, mixed) = (random.below(12), random.chance(1, 3));
    [0; 3].map(|_| {
        let sign = (random.below(2) as u32) << 31;
        match kind {
            _ if mixed && random.chance(1, 2) => random.signed().to_bits(),
            0..=3 => sign | EDGES[first + random.below(4)],
            4 => sign | random.pick(&EDGES),
            5 => random.word(),
            6 => sign,
            _ => random.signed().to_bits(),
        }
    })
}

/// A slot; word 0 is mostly 1, and word 9 mostly 0 or 1.
fn slot(random: &mut Random) -> [u32; SLOT] {
    let mut slot = [0; SLOT];
    slot.fill_with(|| random.word());
    let any = random.word();
    slot[0] = random.pick(&[1, 1, 1, 1, 1, 1, 0, 2, any]);
    slot[1..4].copy_from_slice(&three(random));
    slot[4..7].copy_from_slice(&three(random));
    slot[9] = random.pick(&[0, 0, 0, 1, 1, 1, 1, 2, any]);
    slot
}

/// A random answer list, one of eight not in whole slots, into a lent list near the length that is needed; what came up, if it is judged.
pub fn random_list(
    verdict: impl Fn(&[u32]) -> Worth,
    random: &mut Random,
    seen: &mut Seen,
) -> Result<(), String> {
    let most = random.pick(&[1, 2, 3, 20, 100]);
    let mut answer: Vec<u32> = (0..random.below(most + 1))
        .flat_map(|_| slot(random))
        .collect();
    if random.chance(1, 8) {
        answer.truncate(random.below(answer.len() + 1));
    }
    let (whole, need) = (answer.len().is_multiple_of(SLOT), answer.len() / SLOT);
    let lent = room(random, need, 40);
    let (said, verdicts) = both(verdict, &answer, lent)?;
    let meant = match (whole, need <= lent) {
        (false, _) => 1,
        (true, false) => 2,
        (true, true) => 0,
    };
    if said.0 != meant {
        return Err(format!("judging says {said:?}, meant {meant}"));
    }
    if meant == 0 {
        seen.count(&answer, &verdicts);
    }
    Ok(())
}

/// Lists of every length up to some slots, into lent lists of every length up to some more; how many.
pub fn every_length(random: &mut Random) -> Result<u64, String> {
    let mut count = 0;
    let answer: Vec<u32> = (0..5).flat_map(|_| slot(random)).collect();
    for length in 0..=answer.len() {
        for lent in 0..8 {
            both(verdict, &answer[..length], lent)?;
            count += 1;
        }
    }
    Ok(count)
}

/// The archive's own frames of the meshes of an ext file, judged; how many meshes were accepted, and what came up.
pub fn meshes(file: &[u8]) -> Result<(u64, Seen), String> {
    let (mut words, mut seen, mut accepted) = (Words(file), Seen::default(), 0);
    while let Some(call) = words.next_call() {
        let (said, answer, _) = call.framed();
        if said.number != 0 {
            continue;
        }
        let slots = said.slots as usize;
        let answer = &answer[..SLOT * slots];
        let (_, verdicts) = both(verdict, answer, slots)?;
        seen.count(answer, &verdicts);
        accepted += 1;
    }
    match (seen.slots, seen.of(Worth::Lost)) {
        (0, _) => Err("no slot was judged".into()),
        (_, 0) => Ok((accepted, seen)),
        (_, lost) => Err(format!("{lost} slots of accepted meshes are lost")),
    }
}
