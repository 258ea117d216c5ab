//! Levels: a mesh loaded and refined several times, every word of what stands, and refusals with places and counts.

use crate::proved::{self, Found};
use compare::generate::{cuboid, damage, frame, lawful, mark_some, renumbered, ring, side_by_side, spindle};
use compare::random::Random;
use compare::{Bench, Counts, Refusal, Tables};

pub const MARK: u32 = 77;

/// A bench refined level by level: what it answers, and what stands then.
fn refined(words: usize, tables: &Tables, levels: u32) -> (Result<(), Refusal>, Option<Tables>) {
    let mut bench = Bench::new(words, MARK);
    if let Err(refusal) = bench.load(tables.clone()) {
        return (Err(refusal), None);
    }
    let mut answer = Ok(());
    for _ in 0..levels {
        let Counts { quads, points } = bench.level().unwrap().counts();
        match bench.begin() {
            Err(refusal) => {
                answer = Err(refusal);
                break;
            }
            Ok(slip) => {
                (0..quads).for_each(|q| bench.quad(q).unwrap());
                (0..points).for_each(|v| bench.point(v).unwrap());
                bench.finish(slip).unwrap();
            }
        }
    }
    (answer, Some(bench.standing().unwrap().tables().clone()))
}

/// The standing level laid over the front of a table, if it has room.
pub fn copied(standing: Option<&Tables>, out: &mut [u32]) {
    let Some(Tables { corners, friends, marks, starts }) = standing else { return };
    let level = [&corners[..], friends, marks, starts].concat();
    if let Some(front) = out.get_mut(..level.len()) {
        front.copy_from_slice(&level);
    }
}

/// Refines both ways and gives the number of the refusal.
fn same(words: usize, tables: &Tables, levels: u32, room: usize) -> u32 {
    let (answer, standing) = refined(words, tables, levels);
    let counts = standing.as_ref().map_or(Counts { quads: 0, points: 0 }, Tables::counts);
    let (number, place) = answer.map_or_else(|refusal| (refusal.number(), refusal.place as u32), |()| (0, 0));
    let ours = Found { number, place, quads: counts.quads as u32, points: counts.points as u32 };
    let mut lent = vec![0xdead_beef; words];
    let mut out = vec![0x5eed; room];
    assert_eq!(proved::refine(&mut lent, MARK, tables, levels, &mut out), ours);
    let mut expected = vec![0x5eed; room];
    copied(standing.as_ref(), &mut expected);
    assert!(out == expected, "another level: {levels} times, room {room}");
    // What stands lies at the front of the words too.
    let mut front = lent.clone();
    copied(standing.as_ref(), &mut front);
    assert!(front == lent, "another level in the words: {levels} times");
    number
}

/// Words for a mesh to be refined so many times, and for the level to be copied.
fn needs(mesh: Counts, levels: u32) -> (usize, usize) {
    let (mut words, mut level) = (8 * mesh.quads + mesh.points, mesh);
    for _ in 0..levels {
        words = words.max(44 * level.quads + 3 * level.points);
        level = level.refined();
    }
    (words, 8 * level.quads + level.points)
}

#[test]
fn generated_meshes() {
    let mut random = Random::new(301);
    let mut seen = [0; 23];
    for _ in 0..3_000 {
        let mut tables = lawful(&mut random).into_tables();
        let levels = random.below(4) as u32;
        let (words, room) = needs(tables.counts(), levels);
        if random.one_in(4) {
            damage(&mut tables, &mut random);
        }
        let few = |n: usize, random: &mut Random| match random.below(5) {
            0 => n.saturating_sub(1),
            1 => random.below(n + 1),
            2 => n + random.below(9),
            _ => n,
        };
        seen[same(few(words, &mut random), &tables, levels, few(room, &mut random)) as usize] += 1;
    }
    assert!((0..=10).chain([14]).filter(|&number| seen[number] == 0).count() <= 1, "{seen:?}");
}

#[test]
fn every_valence() {
    for n in 2..=65 {
        let tables = spindle(n);
        let (words, room) = needs(tables.counts(), 2);
        assert_eq!(same(words, &tables, 2, room), if n <= 64 { 0 } else { 9 });
    }
}

#[test]
fn genus_and_components() {
    let mut random = Random::new(302);
    for _ in 0..60 {
        let side = |random: &mut Random| 3 + random.below(3) as i32;
        let parts = [
            cuboid([side(&mut random), 2, 1]),
            frame([side(&mut random), side(&mut random), 1]),
            ring(2, 2 + 2 * random.below(4)),
            spindle(2 + random.below(20)),
        ];
        let mut tables = side_by_side(&parts[..1 + random.below(4)]);
        mark_some(&mut tables, 2, &mut random);
        let tables = renumbered(&tables, &mut random);
        let (words, room) = needs(tables.counts(), 3);
        assert_eq!(same(words, &tables, 3, room), 0);
    }
}

#[test]
fn long_meshes() {
    let mut random = Random::new(303);
    let mut tables = ring(260, 256);
    mark_some(&mut tables, 3, &mut random);
    let tables = renumbered(&tables, &mut random);
    let (words, room) = needs(tables.counts(), 2);
    assert!(tables.counts().quads > 65_536);
    assert_eq!(same(words, &tables, 1, room), 0);
    // The next level has 266,240 quads, and one more would have too many.
    assert_eq!(same(words, &tables, 2, room), 13);
    let most = ring(512, 512);
    let (words, room) = needs(most.counts(), 1);
    assert_eq!(same(words, &most, 1, room), 0);
    assert_eq!(same(words - 1, &most, 1, room), 14);
}
