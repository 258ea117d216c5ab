//! Four tables: whether they are a lawful mesh, or the number and the place of what is wrong.

use crate::proved::{self, Refused};
use compare::Tables;
use compare::generate::{cuboid, damage, lawful, mark_some, pillow, renumbered, ring, spindle};
use compare::judge::judge;
use compare::random::Random;

/// Judges both ways, and gives the number of the refusal.
fn same(tables: &Tables) -> u32 {
    let ours = judge(tables).map_or_else(
        |refusal| Refused { number: refusal.number(), place: refusal.place as u32 },
        |()| Refused { number: 0, place: 0 },
    );
    let shown = || if tables.corners.len() < 500 { format!("{tables:?}") } else { "long tables".to_string() };
    assert_eq!(proved::judge(tables), ours, "{}", shown());
    ours.number
}

#[test]
fn generated_tables() {
    let mut random = Random::new(201);
    let mut seen = [0; 11];
    for _ in 0..20_000 {
        let mut tables = lawful(&mut random).into_tables();
        if !random.one_in(8) {
            damage(&mut tables, &mut random);
        }
        seen[same(&tables) as usize] += 1;
    }
    assert!(seen.iter().all(|&count| count > 30), "{seen:?}");
}

#[test]
fn refined_levels() {
    let mut random = Random::new(202);
    for _ in 0..200 {
        let mut level = lawful(&mut random);
        for _ in 0..3 {
            level = level.refined();
            assert_eq!(same(level.tables()), 0);
            let mut tables = level.tables().clone();
            damage(&mut tables, &mut random);
            same(&tables);
        }
    }
}

const TABLES: [fn(&mut Tables) -> &mut Vec<u32>; 4] =
    [|t| &mut t.corners, |t| &mut t.friends, |t| &mut t.marks, |t| &mut t.starts];

#[test]
fn each_word_of_small_tables_changed() {
    for mesh in [pillow(), ring(2, 2), ring(2, 4), spindle(3), cuboid([1, 1, 1])] {
        let most = mesh.corners.len() as u32 + 2;
        let others = [255, 256, 4_095, 4_096, 4_097, 65_534, 65_535, 65_536, u32::MAX];
        for word in (0..most).chain(others) {
            for table in TABLES {
                for at in 0..table(&mut mesh.clone()).len() {
                    let mut changed = mesh.clone();
                    table(&mut changed)[at] = word;
                    same(&changed);
                }
            }
        }
    }
}

#[test]
fn all_friends_of_small_tables() {
    // Every friend table of a ring of four quads between words that run the right way or not: exchanged and shared ones.
    let mesh = ring(2, 2);
    let mut random = Random::new(203);
    let mut seen = [0; 11];
    for _ in 0..20_000 {
        let mut changed = mesh.clone();
        for _ in 0..1 + random.below(6) {
            let (at, of) = (random.below(8), random.below(8));
            if random.one_in(2) {
                changed.friends.swap(at, of);
            } else {
                changed.friends[at] = mesh.friends[of];
            }
        }
        seen[same(&changed) as usize] += 1;
    }
    assert!([0, 7, 9, 10].into_iter().all(|cause| seen[cause] > 0), "{seen:?}");
}

#[test]
fn valences_to_their_limit() {
    for n in 2..=70 {
        assert_eq!(same(&spindle(n)), if n <= 64 { 0 } else { 9 });
    }
}

#[test]
fn long_tables() {
    let mut random = Random::new(204);
    let mut tables = cuboid([1, 1, 1]).judged().unwrap().level(7).into_tables();
    mark_some(&mut tables, 3, &mut random);
    let tables = renumbered(&tables, &mut random);
    assert!(tables.counts().quads > 65_536);
    assert_eq!(same(&tables), 0);
    for _ in 0..60 {
        let mut changed = tables.clone();
        damage(&mut changed, &mut random);
        same(&changed);
    }
}

#[test]
fn as_many_quads_as_may_be() {
    let mut most = ring(2, 524_288);
    assert_eq!(same(&most), 0);
    most.marks[2_097_151] = 4_097;
    assert_eq!(same(&most), 6);
    assert_eq!(same(&ring(2, 524_290)), 2);
}
