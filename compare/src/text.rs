//! Mesh texts.

use crate::mesh::{Counts, Tables};
use crate::refusal::{Cause, Refusal, refuse_if};

/// How many words each lent table can take.
#[derive(Clone, Copy, Debug, PartialEq, Eq)]
pub struct Room {
    pub corners: usize,
    pub friends: usize,
    pub marks: usize,
    pub starts: usize,
}

impl Room {
    pub const ENDLESS: Room = Room { corners: usize::MAX, friends: usize::MAX, marks: usize::MAX, starts: usize::MAX };

    pub fn of(tables: &Tables) -> Self {
        Self {
            corners: tables.corners.len(),
            friends: tables.friends.len(),
            marks: tables.marks.len(),
            starts: tables.starts.len(),
        }
    }

    fn holds(&self, Counts { quads, points }: Counts) -> bool {
        4 * quads <= self.corners && 2 * quads <= self.friends && 2 * quads <= self.marks && points <= self.starts
    }
}

/// The counts on line 0.
pub fn counts(text: &[u8]) -> Result<Counts, Refusal> {
    let line = text.split_inclusive(|&b| b == b'\n').next();
    let [quads, points] = line.and_then(|line| words(line, "00")).ok_or(Cause::Line.at(0))?;
    Ok(Counts { quads: quads as usize, points: points as usize })
}

/// The tables of a text, if there is room for them.
pub fn parse(text: &[u8], room: Room) -> Result<Tables, Refusal> {
    let Counts { quads, points } = counts(text)?;
    refuse_if(Cause::Room, !room.holds(Counts { quads, points }))?;

    // Counts of a damaged text may be far above what the text has, so no room is kept for them beforehand.
    let mut tables = Tables::default();
    let mut lines = text.split_inclusive(|&b| b == b'\n').skip(1);
    for number in 1..=quads {
        let line = lines.next().and_then(|line| words(line, "01"));
        let [a, b, c, d, friend0, friend1, mark0, mark1] = line.ok_or(Cause::Line.at(number))?;
        tables.corners.extend([a, b, c, d]);
        tables.friends.extend([friend0, friend1]);
        tables.marks.extend([mark0, mark1]);
    }
    for number in quads + 1..=quads + points {
        let line = lines.next().and_then(|line| words(line, "02"));
        let [start] = line.ok_or(Cause::Line.at(number))?;
        tables.starts.push(start);
    }
    match lines.next() {
        None => Ok(tables),
        Some(_) => Err(Cause::Line.at(quads + points + 1)),
    }
}

/// Fills lent tables from word 0 on; what is past the mesh stays, and so does all on a refusal.
pub fn read_into(text: &[u8], lent: &mut Tables) -> Result<Counts, Refusal> {
    let read = parse(text, Room::of(lent))?;
    let fill = |lent: &mut [u32], words: &[u32]| lent[..words.len()].copy_from_slice(words);
    fill(&mut lent.corners, &read.corners);
    fill(&mut lent.friends, &read.friends);
    fill(&mut lent.marks, &read.marks);
    fill(&mut lent.starts, &read.starts);
    Ok(read.counts())
}

/// The `N` words of a line of this kind.
fn words<const N: usize>(line: &[u8], kind: &str) -> Option<[u32; N]> {
    let mut pieces = line.strip_suffix(b"\n")?.split(|&b| b == b' ');
    if pieces.next()? != kind.as_bytes() {
        return None;
    }
    let mut words = [0; N];
    for slot in &mut words {
        *slot = word(pieces.next()?)?;
    }
    pieces.next().is_none().then_some(words)
}

fn word(piece: &[u8]) -> Option<u32> {
    match piece {
        [] | [b'0', _, ..] => None,
        _ if piece.len() > 6 => None,
        _ => piece.iter().try_fold(0, |number, &byte| Some(16 * number + digit(byte)?)),
    }
}

fn digit(byte: u8) -> Option<u32> {
    match byte {
        b'0'..=b'9' => Some(u32::from(byte - b'0')),
        b'a'..=b'f' => Some(u32::from(byte - b'a') + 10),
        _ => None,
    }
}

pub fn write(tables: &Tables) -> String {
    let Counts { quads, points } = tables.counts();
    let mut text = String::new();
    push_line(&mut text, "00", [quads as u32, points as u32]);
    let rows = tables.corners.chunks_exact(4).zip(tables.friends.chunks_exact(2)).zip(tables.marks.chunks_exact(2));
    for ((corners, friends), marks) in rows {
        push_line(&mut text, "01", corners.iter().chain(friends).chain(marks).copied());
    }
    for &start in &tables.starts {
        push_line(&mut text, "02", [start]);
    }
    text
}

fn push_line(text: &mut String, kind: &str, words: impl IntoIterator<Item = u32>) {
    text.push_str(kind);
    for word in words {
        text.push(' ');
        let digits = (u32::BITS - word.leading_zeros()).div_ceil(4).max(1);
        text.extend((0..digits).rev().filter_map(|k| char::from_digit((word >> (4 * k)) & 15, 16)));
    }
    text.push('\n');
}

#[cfg(test)]
mod tests {
    use super::*;
    use crate::generate::{lawful_samples, pillow};
    use crate::random::Random;

    pub const PILLOW: &str = "00 2 4\n01 0 1 2 3 2 3 0 0\n01 2 1 0 3 0 1 0 0\n02 0\n02 1\n02 2\n02 3\n";
    pub const REFINED: &str = "00 8 a
01 0 2 1 7 3 c 0 0
01 4 6 1 2 5 a 0 0
01 8 3 1 6 7 8 0 0
01 9 7 1 3 1 e 0 0
01 8 6 5 3 b 4 0 0
01 4 2 5 6 d 2 0 0
01 0 7 5 2 f 0 0 0
01 9 3 5 7 9 6 0 0
02 0
02 2
02 1
02 9
02 4
02 12
02 11
02 19
02 8
02 c
";

    fn answer(text: &str) -> Result<Counts, (u32, usize)> {
        let mut lent = Tables::blank(Counts { quads: 4, points: 6 });
        read_into(text.as_bytes(), &mut lent).map_err(|r| (r.number(), r.place))
    }

    #[test]
    fn the_pillow_refined() {
        let mesh = parse(PILLOW.as_bytes(), Room::ENDLESS).unwrap();
        assert_eq!(mesh, pillow());
        assert_eq!(write(mesh.judged().unwrap().refined().tables()), REFINED);
    }

    #[test]
    fn texts_are_read_back() {
        let mut random = Random::new(21);
        for mesh in lawful_samples(&mut random, 60) {
            let text = write(mesh.tables());
            assert_eq!(parse(text.as_bytes(), Room::ENDLESS).as_ref(), Ok(mesh.tables()));
        }
    }

    #[test]
    fn refusals_by_line() {
        assert_eq!(answer(PILLOW), Ok(Counts { quads: 2, points: 4 }));
        assert_eq!(answer("00 0 0\n"), Ok(Counts { quads: 0, points: 0 }));
        assert_eq!(answer(""), Err((21, 0)));
        assert_eq!(answer("00 2 4"), Err((21, 0)));
        assert_eq!(answer("00 5 4\nrubbish"), Err((22, 0)));
        assert_eq!(answer("00 2 7\n"), Err((22, 0)));
        assert_eq!(answer("00 ffffff ffffff\n"), Err((22, 0)));
        assert_eq!(answer("00 1000000 4\n"), Err((21, 0)));
        assert_eq!(answer("00 2 4\n"), Err((21, 1)));
        assert_eq!(answer(&PILLOW.replace("01 2 1", "01 02 1")), Err((21, 2)));
        assert_eq!(answer(&PILLOW.replace("02 2\n", "02 2 \n")), Err((21, 5)));
        assert_eq!(answer(&PILLOW.replace("02 2\n", "02 2\r\n")), Err((21, 5)));
        assert_eq!(answer(&PILLOW.replace("02 2\n", "02 A\n")), Err((21, 5)));
        assert_eq!(answer(&PILLOW.replace("02 2\n", "02 +2\n")), Err((21, 5)));
        assert_eq!(answer(&PILLOW.replace("02 2\n", "")), Err((21, 6)));
        assert_eq!(answer(PILLOW.trim_end()), Err((21, 6)));
        assert_eq!(answer(&format!("{PILLOW}\n")), Err((21, 7)));
        assert_eq!(answer(&format!("{PILLOW}x\n\ny")), Err((21, 7)));
        assert_eq!(answer(&format!("\u{feff}{PILLOW}")), Err((21, 0)));
    }

    #[test]
    fn tails_and_refused_tables_stay() {
        let mut lent = Tables { corners: vec![7; 9], friends: vec![7; 4], marks: vec![7; 6], starts: vec![7; 5] };
        let before = lent.clone();
        assert!(read_into(&PILLOW.as_bytes()[..PILLOW.len() - 1], &mut lent).is_err());
        assert_eq!(lent, before);
        read_into(PILLOW.as_bytes(), &mut lent).unwrap();
        assert_eq!(lent.corners, [0, 1, 2, 3, 2, 1, 0, 3, 7]);
        assert_eq!(lent.marks, [0, 0, 0, 0, 7, 7]);
        assert_eq!(lent.starts, [0, 1, 2, 3, 7]);
    }
}
