//! Texts of loaded meshes: bytes, counts, what lies past the text in the buffer, and refusals.

use crate::proved::{self, Written};
use crate::refining::MARK;
use compare::generate::{damage, lawful, mark_some, renumbered, ring};
use compare::random::Random;
use compare::{Bench, Tables};

/// Writes both ways and gives the number of the refusal.
fn same(words: usize, tables: &Tables, room: usize) -> u32 {
    let mut bench = Bench::new(words, MARK);
    let mut expected = vec![0xaa; room];
    let ours = match bench.load(tables.clone()).and_then(|()| bench.write(&mut expected)) {
        Ok(count) => Written { number: 0, place: 0, count },
        Err(refusal) => Written { number: refusal.number(), place: refusal.place as u32, count: 0 },
    };
    let mut out = vec![0xaa; room];
    assert_eq!(proved::write(&mut vec![0xdead_beef; words], MARK, tables, &mut out), ours);
    assert!(out == expected, "other bytes");
    ours.number
}

#[test]
fn generated_meshes() {
    let mut random = Random::new(501);
    let mut seen = [0; 23];
    for _ in 0..6_000 {
        let mut tables = lawful(&mut random).into_tables();
        let words = 8 * tables.counts().quads + tables.counts().points;
        let length = compare::text::write(&tables).len();
        if random.one_in(6) {
            damage(&mut tables, &mut random);
        }
        let words = if random.one_in(12) { words - 1 } else { words + random.below(3) };
        let room = *random.pick(&[length, length, length - 1, length + 5, random.clone().below(length)]);
        seen[same(words, &tables, room) as usize] += 1;
    }
    for outcome in [0, 14, 22] {
        assert!(seen[outcome] > 100, "{seen:?}");
    }
}

#[test]
fn long_texts() {
    let mut random = Random::new(502);
    let mut tables = ring(260, 256);
    mark_some(&mut tables, 3, &mut random);
    let tables = renumbered(&tables, &mut random);
    let words = 8 * tables.counts().quads + tables.counts().points;
    let length = compare::text::write(&tables).len();
    assert_eq!(same(words, &tables, length), 0);
    assert_eq!(same(words, &tables, length - 1), 22);
    // The longest words that there are.
    let most = ring(2, 524_288);
    assert_eq!(same(9 * 1_048_576, &most, 64_000_000), 0);
}
