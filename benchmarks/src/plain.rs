//! The same jobs in plain Rust, over the same lent buffers and with the same checks: judging is that of the package `compare`.

use compare::judge::judge;
use compare::mesh::{INFINITE, MOST_QUADS, across, diagonal, off_edge_at};
use compare::refine::fallen;
use compare::{Cause, Counts, Refusal, Tables};

fn refuse_if(cause: Cause, holds: bool) -> Result<(), Refusal> {
    if holds { Err(cause.plain()) } else { Ok(()) }
}

/// Judges the tables and copies them to the front of the words.
pub fn load(words: &mut [u32], tables: &Tables) -> Result<Counts, Refusal> {
    judge(tables)?;
    let Counts { quads, points } = tables.counts();
    refuse_if(Cause::TooFewWords, words.len() < 8 * quads + points)?;
    words[..4 * quads].copy_from_slice(&tables.corners);
    words[4 * quads..6 * quads].copy_from_slice(&tables.friends);
    words[6 * quads..8 * quads].copy_from_slice(&tables.marks);
    words[8 * quads..8 * quads + points].copy_from_slice(&tables.starts);
    Ok(tables.counts())
}

/// The level at the front of the words, and the words after it.
fn split(words: &mut [u32], Counts { quads, points }: Counts) -> ([&mut [u32]; 4], &mut [u32]) {
    let (corners, rest) = words.split_at_mut(4 * quads);
    let (friends, rest) = rest.split_at_mut(2 * quads);
    let (marks, rest) = rest.split_at_mut(2 * quads);
    let (starts, rest) = rest.split_at_mut(points);
    ([corners, friends, marks, starts], rest)
}

fn old_slot(quads: usize, point: u32) -> u32 {
    if point as usize <= quads { 4 * point } else { 3 * quads as u32 + point }
}

fn edge_slot(edge: usize) -> usize {
    4 * (edge / 2) + 2 + edge % 2
}

/// Refines the level at the front of the words: a blank level in work, every task, and the finished level moved to the front.
pub fn refine(words: &mut [u32], counts: Counts) -> Result<Counts, Refusal> {
    let Counts { quads, points } = counts;
    refuse_if(Cause::TooManyQuads, 4 * quads > MOST_QUADS)?;
    refuse_if(Cause::TooFewWords, words.len() < 44 * quads + 3 * points)?;
    let new = counts.refined();
    let ([corners, friends, marks, starts], work) = split(words, counts);
    let work = &mut work[..36 * quads + 2 * points];
    work.fill(0);
    let ([new_corners, new_friends, new_marks, new_starts], ran) = split(work, new);
    for q in 0..quads {
        let [g0, g1] = [0, 1].map(|k| friends[2 * q + k] as usize);
        let [m0, m1] = [0, 1].map(|k| fallen(marks[2 * q + k]));
        let w: [u32; 4] = std::array::from_fn(|k| old_slot(quads, corners[4 * q + k]));
        let [e0, e1] = [g0, g1].map(|g| edge_slot(g) as u32);
        let face = 4 * q as u32 + 1;
        let (d0, d1) = (face + 1, face + 2);
        new_corners[16 * q..16 * q + 16]
            .copy_from_slice(&[w[0], d0, face, e1, w[1], e0, face, d0, w[2], d1, face, e0, w[3], e1, face, d1]);
        let edge = 8 * q as u32;
        let row: &mut [u32; 8] = (&mut new_friends[8 * q..8 * q + 8]).try_into().unwrap();
        [row[0], row[2], row[4], row[6]] = [edge + 3, edge + 5, edge + 7, edge + 1];
        [row[1], row[5]] = [4 * g1 as u32, 4 * g0 as u32];
        new_friends[4 * g0 + 3] = edge + 2;
        new_friends[4 * g1 + 3] = edge + 6;
        let row: &mut [u32; 8] = (&mut new_marks[8 * q..8 * q + 8]).try_into().unwrap();
        [row[0], row[2], row[4], row[6]] = [0; 4];
        [row[1], row[5]] = [m1, m0];
        new_marks[4 * g0 + 3] = m0;
        new_marks[4 * g1 + 3] = m1;
        new_starts[4 * q + 1] = 16 * q as u32 + 2;
        new_starts[edge_slot(g0)] = 8 * g0 as u32 + 1;
        new_starts[edge_slot(g1)] = 8 * g1 as u32 + 1;
        ran[q] = 1;
    }
    for v in 0..points {
        new_starts[old_slot(quads, v as u32) as usize] = 4 * starts[v];
        ran[quads + v] = 1;
    }
    if let Some(task) = ran.iter().position(|&ran| ran == 0) {
        return Err(Cause::TaskLeft.at(task));
    }
    let from = 8 * quads + points;
    words.copy_within(from..from + 35 * quads + points, 0);
    Ok(new)
}

const LIMIT: i32 = 16_777_216;

/// A weighted sum of coordinates.
#[derive(Default)]
struct Mix {
    sums: [i64; 3],
    weight: i64,
}

impl Mix {
    fn add(&mut self, row: &[i32; 3], weight: u32) {
        if weight != 0 {
            self.weight += i64::from(weight);
            self.sums.iter_mut().zip(row).for_each(|(sum, &x)| *sum += i64::from(weight) * i64::from(x));
        }
    }

    /// Rounded once, a half to the greater.
    fn row(self) -> [i32; 3] {
        self.sums.map(|sum| (2 * sum + self.weight).div_euclid(2 * self.weight) as i32)
    }
}

/// Judges the tables and the rows, and writes the coordinates of the next level.
pub fn coordinates(tables: &Tables, rows: &[[i32; 3]], out: &mut [[i32; 3]]) -> Result<(), Refusal> {
    judge(tables)?;
    let Counts { quads, points } = tables.counts();
    refuse_if(Cause::TooManyQuads, 4 * quads > MOST_QUADS)?;
    refuse_if(Cause::ValueLength, rows.len() != points || out.len() != points + 3 * quads)?;
    if let Some(place) = rows.iter().position(|row| row.iter().any(|x| !(-LIMIT..=LIMIT).contains(x))) {
        return Err(Cause::PastLimit.at(place));
    }
    let at = |corner: usize| &rows[tables.corners[corner] as usize];
    for (v, &start) in tables.starts.iter().enumerate() {
        out[old_slot(quads, v as u32) as usize] = moved(tables, &rows[v], start as usize, at);
    }
    for q in 0..quads {
        let mut mix = Mix::default();
        (4 * q..4 * q + 4).for_each(|c| mix.add(at(c), 1));
        out[4 * q + 1] = mix.row();
    }
    for (o, (&friend, &mark)) in tables.friends.iter().zip(&tables.marks).enumerate() {
        let sharp = mark.min(256);
        let (begin, friend) = (2 * o + 1, 2 * friend as usize);
        let end = across(begin);
        let mut mix = Mix::default();
        mix.add(at(begin), 1_536 + 2 * sharp);
        mix.add(at(end), 1_536 + 2 * sharp);
        for corner in [diagonal(begin), diagonal(end), across(friend), across(friend + 1)] {
            mix.add(at(corner), 256 - sharp);
        }
        out[edge_slot(friend / 2)] = mix.row();
    }
    Ok(())
}

/// The blend of an old point, from one walk round it.
fn moved<'a>(tables: &Tables, own: &[i32; 3], start: usize, at: impl Fn(usize) -> &'a [i32; 3]) -> [i32; 3] {
    let mut met = [0; 64];
    let (mut n, mut marked, mut sum, mut infinite) = (0, 0, 0, false);
    let mut corner = start;
    loop {
        met[n] = corner;
        n += 1;
        let off_edge = off_edge_at(corner);
        let mark = tables.marks[off_edge];
        if mark != 0 {
            marked += 1;
            sum += mark;
            infinite |= mark == INFINITE;
        }
        corner = 2 * tables.friends[off_edge] as usize + corner % 2;
        if corner == start {
            break;
        }
    }
    let met = &met[..n];
    let n = n as u32;
    let sharp = if infinite { 256 * marked } else { sum.min(256 * marked) };
    let times = match marked {
        0 | 1 => 1,
        2 => 8 * (512 - sharp),
        m => 256 * m - sharp,
    };
    let mut mix = Mix::default();
    mix.add(own, times * n * (4 * n - 7));
    for &c in met {
        mix.add(at(across(c)), 6 * times);
        mix.add(at(diagonal(c)), times);
    }
    if marked == 2 {
        mix.add(own, 24 * n * n * sharp);
        for &c in met.iter().filter(|&&c| tables.marks[off_edge_at(c)] != 0) {
            mix.add(at(across(c)), 4 * n * n * sharp);
        }
    } else if marked > 2 {
        mix.add(own, 4 * n * n * sharp);
    }
    mix.row()
}

/// Judges the tables and writes the colours of the next level.
pub fn colours(tables: &Tables, rows: &[[u8; 3]], out: &mut [[u8; 3]]) -> Result<(), Refusal> {
    judge(tables)?;
    let quads = tables.counts().quads;
    refuse_if(Cause::TooManyQuads, 4 * quads > MOST_QUADS)?;
    refuse_if(Cause::ValueLength, rows.len() != 4 * quads || out.len() != 16 * quads)?;
    let middle = |x: [u8; 3], y: [u8; 3]| [0, 1, 2].map(|k| ((u16::from(x[k]) + u16::from(y[k])) / 2) as u8);
    for (old, new) in rows.chunks_exact(4).zip(out.chunks_exact_mut(16)) {
        let [a, b, c, d] = [old[0], old[1], old[2], old[3]];
        let (ab, bc, cd, da) = (middle(a, b), middle(b, c), middle(c, d), middle(d, a));
        let centre = middle(ab, cd);
        new.copy_from_slice(&[a, ab, centre, da, b, bc, centre, ab, c, cd, centre, bc, d, da, centre, cd]);
    }
    Ok(())
}

/// The digit that each byte is, and 16 where it is none.
const DIGITS: [u8; 256] = {
    let mut digits = [16; 256];
    let mut k = 0;
    while k < 16 {
        digits[b"0123456789abcdef"[k] as usize] = k as u8;
        k += 1;
    }
    digits
};

/// A space and a word from `at` on, and the place after it.
fn word(text: &[u8], at: usize) -> Option<(u32, usize)> {
    let &[b' ', first, ref more @ ..] = text.get(at..)? else { return None };
    let mut number = u32::from(DIGITS[first as usize]);
    if number == 16 {
        return None;
    }
    for (k, &byte) in more.iter().enumerate() {
        let digit = u32::from(DIGITS[byte as usize]);
        if digit == 16 {
            return Some((number, at + 2 + k));
        }
        // A digit after a zero in front, or a seventh one.
        if number == 0 || k == 5 {
            return None;
        }
        number = 16 * number + digit;
    }
    Some((number, text.len()))
}

/// A line of a kind with as many words as there are places, from `at` on, and the place after it.
fn line(text: &[u8], at: usize, kind: u8, words: &mut [u32]) -> Option<usize> {
    if text.get(at..at + 2)? != [b'0', kind] {
        return None;
    }
    let mut at = at + 2;
    for slot in words {
        (*slot, at) = word(text, at)?;
    }
    (text.get(at) == Some(&b'\n')).then_some(at + 1)
}

/// Judges every line, then fills the tables.
pub fn read(text: &[u8], lent: &mut Tables) -> Result<Counts, Refusal> {
    let mut head = [0; 2];
    let body = line(text, 0, b'0', &mut head).ok_or(Cause::Line.at(0))?;
    let counts = Counts { quads: head[0] as usize, points: head[1] as usize };
    let Counts { quads, points } = counts;
    let room = 4 * quads <= lent.corners.len()
        && 2 * quads <= lent.friends.len()
        && 2 * quads <= lent.marks.len()
        && points <= lent.starts.len();
    refuse_if(Cause::Room, !room)?;
    lines(text, body, counts, |_, _| (), |_, _| ())?;
    let Tables { corners, friends, marks, starts } = lent;
    lines(
        text,
        body,
        counts,
        |q, row| {
            corners[4 * q..4 * q + 4].copy_from_slice(&row[..4]);
            friends[2 * q..2 * q + 2].copy_from_slice(&row[4..6]);
            marks[2 * q..2 * q + 2].copy_from_slice(&row[6..]);
        },
        |v, start| starts[v] = start,
    )?;
    Ok(counts)
}

/// The lines after line 0, one by one.
fn lines(
    text: &[u8],
    body: usize,
    Counts { quads, points }: Counts,
    mut quad: impl FnMut(usize, &[u32; 8]),
    mut point: impl FnMut(usize, u32),
) -> Result<(), Refusal> {
    let mut at = body;
    let mut row = [0; 8];
    for q in 0..quads {
        at = line(text, at, b'1', &mut row).ok_or(Cause::Line.at(1 + q))?;
        quad(q, &row);
    }
    let mut start = [0];
    for v in 0..points {
        at = line(text, at, b'2', &mut start).ok_or(Cause::Line.at(1 + quads + v))?;
        point(v, start[0]);
    }
    if at == text.len() { Ok(()) } else { Err(Cause::Line.at(1 + quads + points)) }
}

fn digits(word: u32) -> usize {
    (32 - (word | 1).leading_zeros() as usize).div_ceil(4)
}

/// Writes the text of the level at the front of the words, where there is room for it.
pub fn write(words: &[u32], Counts { quads, points }: Counts, out: &mut [u8]) -> Result<usize, Refusal> {
    let size = |words: &[u32]| words.iter().map(|&word| 1 + digits(word)).sum::<usize>();
    let level = &words[..8 * quads + points];
    let length = 3 * (1 + quads + points) + size(&[quads as u32, points as u32]) + size(level);
    refuse_if(Cause::Room, out.len() < length)?;
    let (corners, rest) = level.split_at(4 * quads);
    let (friends, rest) = rest.split_at(2 * quads);
    let (marks, starts) = rest.split_at(2 * quads);
    let mut at = put_line(out, 0, *b"00", &[quads as u32, points as u32]);
    for ((corners, friends), marks) in corners.chunks_exact(4).zip(friends.chunks_exact(2)).zip(marks.chunks_exact(2)) {
        let row = [corners[0], corners[1], corners[2], corners[3], friends[0], friends[1], marks[0], marks[1]];
        at = put_line(out, at, *b"01", &row);
    }
    for &start in starts {
        at = put_line(out, at, *b"02", &[start]);
    }
    Ok(at)
}

fn put_line(out: &mut [u8], at: usize, kind: [u8; 2], words: &[u32]) -> usize {
    out[at..at + 2].copy_from_slice(&kind);
    let mut at = at + 2;
    for &word in words {
        let count = digits(word);
        let piece = &mut out[at..at + 1 + count];
        piece[0] = b' ';
        let mut left = word;
        for byte in piece[1..].iter_mut().rev() {
            *byte = b"0123456789abcdef"[(left & 15) as usize];
            left >>= 4;
        }
        at += 1 + count;
    }
    out[at] = b'\n';
    at + 1
}
