//! Texts: counts, tables, refusals with places, and what lies past the mesh in the lent tables.

use crate::proved::{self, Found};
use compare::generate::{cuboid, damage, damage_text, lawful, mark_some, pillow, renumbered, wild_text};
use compare::random::Random;
use compare::text::{counts, read_into, write};
use compare::{Counts, Refusal, Tables};

fn found(answer: Result<Counts, Refusal>) -> Found {
    match answer {
        Ok(Counts { quads, points }) => Found { number: 0, place: 0, quads: quads as u32, points: points as u32 },
        Err(refusal) => Found { number: refusal.number(), place: refusal.place as u32, quads: 0, points: 0 },
    }
}

/// Reads both ways into tables that hold the same words before, and gives the number of the refusal.
fn same(text: &[u8], lent: &Tables) -> u32 {
    let (mut ours, mut theirs) = (lent.clone(), lent.clone());
    let answer = found(read_into(text, &mut ours));
    let shown = || String::from_utf8_lossy(&text[..text.len().min(2_000)]).into_owned();
    assert_eq!(proved::read(text, &mut theirs), answer, "{}", shown());
    assert!(theirs == ours, "other words in the tables: {}", shown());
    assert_eq!(proved::read_counts(text), found(counts(text)), "{}", shown());
    answer.number
}

/// Tables full of words, with room for the counts and some more or, now and then, one too few.
fn lent_for(counts: Counts, random: &mut Random) -> Tables {
    let mut table = |words: usize| {
        let length = if random.one_in(12) { words.saturating_sub(1) } else { words + random.below(4) };
        (0..length).map(|_| random.word() as u32).collect()
    };
    Tables {
        corners: table(4 * counts.quads),
        friends: table(2 * counts.quads),
        marks: table(2 * counts.quads),
        starts: table(counts.points),
    }
}

#[test]
fn generated_texts() {
    let mut random = Random::new(101);
    let mut seen = [0; 23];
    for _ in 0..8_000 {
        let mut text = match random.below(4) {
            0 => wild_text(&mut random),
            1 => {
                let mut tables = lawful(&mut random).into_tables();
                damage(&mut tables, &mut random);
                write(&tables)
            }
            _ => write(lawful(&mut random).tables()),
        }
        .into_bytes();
        let lent = match counts(&text) {
            Ok(counts) if counts.quads < 4_096 => lent_for(counts, &mut random),
            _ => lent_for(Counts { quads: 9, points: 9 }, &mut random),
        };
        if !random.one_in(4) {
            damage_text(&mut text, &mut random);
        }
        seen[same(&text, &lent) as usize] += 1;
    }
    for outcome in [0, 21, 22] {
        assert!(seen[outcome] > 300, "{seen:?}");
    }
}

#[test]
fn each_byte_of_a_text_changed() {
    let mut tables = pillow();
    tables.marks = vec![0x12, 0xffff, 0x100, 1];
    let text = write(&tables).into_bytes();
    let lent = Tables { corners: vec![7; 9], friends: vec![7; 5], marks: vec![7; 4], starts: vec![7; 6] };
    for at in 0..text.len() {
        for byte in 0..=255 {
            let mut changed = text.clone();
            changed[at] = byte;
            same(&changed, &lent);
            changed.insert(at, text[at]);
            same(&changed, &lent);
        }
        same(&text[..at], &lent);
        same(&text[at..], &lent);
        same(&[&text[..at], &text[at + 1..]].concat(), &lent);
    }
    for byte in 0..=255 {
        same(&[&text[..], &[byte]].concat(), &lent);
    }
}

#[test]
fn bytes_at_random() {
    let mut random = Random::new(102);
    let lent = Tables { corners: vec![7; 9], friends: vec![7; 5], marks: vec![7; 4], starts: vec![7; 6] };
    for _ in 0..20_000 {
        let length = random.below(40);
        let bytes: Vec<u8> = if random.one_in(2) {
            (0..length).map(|_| random.word() as u8).collect()
        } else {
            // What is likely in a text comes further.
            (0..length).map(|_| *random.pick(b"00012ab \n")).collect()
        };
        same(&bytes, &lent);
        same(&[b"00 1 1\n", &bytes[..]].concat(), &lent);
    }
}

#[test]
fn long_texts() {
    let mut random = Random::new(103);
    let mut tables = cuboid([1, 1, 1]).judged().unwrap().level(7).into_tables();
    mark_some(&mut tables, 3, &mut random);
    let tables = renumbered(&tables, &mut random);
    assert!(tables.counts().quads > 65_536);
    let text = write(&tables).into_bytes();
    let mut lent = Tables::blank(tables.counts());
    lent.starts.push(1);
    assert_eq!(same(&text, &lent), 0);
    for _ in 0..40 {
        let mut changed = text.clone();
        let at = random.below(text.len());
        changed[at] = *random.pick(b"0a \nG");
        same(&changed, &lent);
    }
    same(&text[..text.len() - 1], &lent);
    same(&[&text[..], b"\n"].concat(), &lent);
    lent.friends.pop();
    assert_eq!(same(&text, &lent), 22);
}
