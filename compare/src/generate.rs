//! Meshes and texts to try, lawful and damaged, the same for the same random numbers.

use crate::mesh::{Counts, INFINITE, MOST_SHARP, Mesh, Tables};
use crate::random::Random;
use crate::text;
use std::collections::HashMap;
use std::hash::Hash;

/// Quads as their points round them, with a name for the edge of the surface after each. The points of a quad are
/// by turns of two sorts, the same at each of its quads.
fn closed<P: Hash + Eq, E: Hash + Eq>(quads: impl IntoIterator<Item = [(P, E); 4]>) -> Tables {
    let mut points: HashMap<P, u32> = HashMap::new();
    let mut off_edges: HashMap<E, usize> = HashMap::new();
    let mut edges: HashMap<E, u32> = HashMap::new();
    let mut tables = Tables::default();
    for (h, (point, edge)) in quads.into_iter().flatten().enumerate() {
        let number = points.len() as u32;
        let number = *points.entry(point).or_insert(number);
        if number as usize == tables.starts.len() {
            tables.starts.push(h as u32);
        }
        tables.corners.push(number);
        let taken = if h % 2 == 0 {
            edges.insert(edge, h as u32 / 2).is_some()
        } else {
            off_edges.insert(edge, h / 2).is_some()
        };
        assert!(!taken, "an edge with more than two sides");
    }
    tables.friends = vec![0; off_edges.len()];
    tables.marks = vec![0; off_edges.len()];
    for (edge, off_edge) in off_edges {
        tables.friends[off_edge] = edges[&edge];
    }
    tables
}

/// Two quads back to back.
pub fn pillow() -> Tables {
    Tables {
        corners: vec![0, 1, 2, 3, 2, 1, 0, 3],
        friends: vec![2, 3, 0, 1],
        marks: vec![0; 4],
        starts: vec![0, 1, 2, 3],
    }
}

/// `n` quads around two poles, which have valence `n`.
pub fn spindle(n: usize) -> Tables {
    // Poles are 0 and 1, and between them stand 2 to n + 1. An edge is named by its pole and its other point.
    closed((0..n).map(|k| {
        let (here, there) = (2 + k, 2 + (k + 1) % n);
        [(0, (0, here)), (here, (1, here)), (1, (1, there)), (there, (0, there))]
    }))
}

/// A strip of `long` by `wide` quads closed both ways, to a torus; both numbers are even.
pub fn ring(wide: usize, long: usize) -> Tables {
    assert!(wide.is_multiple_of(2) && long.is_multiple_of(2));
    let quad = move |i: usize, j: usize| {
        let (k, l) = ((i + 1) % wide, (j + 1) % long);
        // An edge is named by the point it leaves and its direction.
        let mut sides = [((i, j), (i, j, 0)), ((k, j), (k, j, 1)), ((k, l), (i, l, 0)), ((i, l), (i, j, 1))];
        sides.rotate_left((i + j) % 2);
        sides
    };
    closed((0..wide).flat_map(|i| (0..long).map(move |j| quad(i, j))))
}

/// The surface of a solid of unit cubes, none of which touch at an edge or a point alone.
pub fn solid(cubes: &[[i32; 3]]) -> Tables {
    let inside = |cube: &[i32; 3]| cubes.contains(cube);
    let mut quads = Vec::new();
    for &cube in cubes {
        for axis in 0..3 {
            for out in [-1, 1] {
                let mut beyond = cube;
                beyond[axis] += out;
                if inside(&beyond) {
                    continue;
                }
                let (u, v) = ((axis + 1) % 3, (axis + 2) % 3);
                let mut quad = [(0, 0), (1, 0), (1, 1), (0, 1)].map(|(a, b)| {
                    let mut point = cube;
                    point[axis] += (out + 1) / 2;
                    point[u] += a;
                    point[v] += b;
                    point
                });
                if out < 0 {
                    quad.reverse();
                }
                // Neighbours on the lattice differ in parity.
                let parity = quad[0].iter().sum::<i32>().rem_euclid(2) as usize;
                quad.rotate_left(parity);
                quads.push([0, 1, 2, 3].map(|k| {
                    let (from, to) = (quad[k], quad[(k + 1) % 4]);
                    (from, (from.min(to), from.max(to)))
                }));
            }
        }
    }
    closed(quads)
}

/// A box of unit cubes: genus 0. `[1, 1, 1]` is the cube.
pub fn cuboid(size: [i32; 3]) -> Tables {
    solid(&lattice(size, |_| true))
}

/// A plate with a hole through it: genus 1.
pub fn frame(size: [i32; 3]) -> Tables {
    solid(&lattice(size, |[x, y, _]| (x, y) != (1, 1)))
}

fn lattice(size: [i32; 3], keep: impl Fn([i32; 3]) -> bool) -> Vec<[i32; 3]> {
    let all = (0..size[0]).flat_map(|x| (0..size[1]).flat_map(move |y| (0..size[2]).map(move |z| [x, y, z])));
    all.filter(|&cube| keep(cube)).collect()
}

/// Several meshes as one.
pub fn side_by_side(meshes: &[Tables]) -> Tables {
    let mut all = Tables::default();
    for mesh in meshes {
        let Counts { quads, points } = all.counts();
        all.corners.extend(mesh.corners.iter().map(|p| p + points as u32));
        all.friends.extend(mesh.friends.iter().map(|e| e + 2 * quads as u32));
        all.marks.extend(&mesh.marks);
        all.starts.extend(mesh.starts.iter().map(|c| c + 4 * quads as u32));
    }
    all
}

/// The same mesh with its quads and points in another order, some quads turned by half, and walks from other corners.
pub fn renumbered(mesh: &Tables, random: &mut Random) -> Tables {
    let Counts { quads, points } = mesh.counts();
    let quad_at = random.order(quads);
    let point_at = random.order(points);
    let turns: Vec<usize> = (0..quads).map(|_| 2 * random.below(2)).collect();
    let corner_at = |c: usize| 4 * quad_at[c / 4] + (c + turns[c / 4]) % 4;
    let mut new = Tables::blank(mesh.counts());
    for (c, &p) in mesh.corners.iter().enumerate() {
        new.corners[corner_at(c)] = point_at[p as usize] as u32;
    }
    for (o, (&friend, &mark)) in mesh.friends.iter().zip(&mesh.marks).enumerate() {
        let at = corner_at(2 * o + 1) / 2;
        new.friends[at] = (corner_at(2 * friend as usize) / 2) as u32;
        new.marks[at] = mark;
    }
    for (v, &start) in mesh.starts.iter().enumerate() {
        let mut corner = start as usize;
        for _ in 0..random.below(8) {
            corner = mesh.step(corner);
        }
        new.starts[point_at[v]] = corner_at(corner) as u32;
    }
    new
}

/// Marks of all sorts on one edge in `every`.
pub fn mark_some(mesh: &mut Tables, every: usize, random: &mut Random) {
    for mark in &mut mesh.marks {
        if random.one_in(every) {
            *mark = match random.below(4) {
                0 => INFINITE,
                1 => random.between(1, 300) as u32,
                2 => *random.pick(&[1, 255, 256, 257, 511, 512, 513, MOST_SHARP - 1, MOST_SHARP]),
                _ => random.between(1, i64::from(MOST_SHARP)) as u32,
            };
        }
    }
}

/// A small mesh, smooth and in the order in which it is made.
fn plain(random: &mut Random) -> Tables {
    let mut side = || 1 + random.below(3) as i32;
    let size = [side(), side(), side()];
    match random.below(7) {
        0 => pillow(),
        1 => spindle(2 + random.below(63)),
        2 => spindle(*random.pick(&[2, 3, 5, 63, 64])),
        3 => ring(2 + 2 * random.below(3), 2 + 2 * random.below(6)),
        4 => cuboid(size),
        5 => frame([size[0] + 2, size[1] + 2, size[2]]),
        _ => cuboid([1, 1, 1]).judged().unwrap().level(random.below(3)).into_tables(),
    }
}

/// A lawful mesh of some kind.
pub fn lawful(random: &mut Random) -> Mesh {
    let mut mesh = if random.one_in(4) {
        let several: Vec<_> = (0..2 + random.below(3)).map(|_| plain(random)).collect();
        side_by_side(&several)
    } else {
        plain(random)
    };
    if !random.one_in(4) {
        let every = *random.pick(&[1, 2, 3, 10]);
        mark_some(&mut mesh, every, random);
    }
    if random.one_in(2) {
        mesh = renumbered(&mesh, random);
    }
    mesh.judged().expect("generated meshes are lawful")
}

pub fn lawful_samples(random: &mut Random, count: usize) -> Vec<Mesh> {
    (0..count).map(|_| lawful(random)).collect()
}

/// Changes one thing, or a few.
pub fn damage(tables: &mut Tables, random: &mut Random) {
    for _ in 0..*random.pick(&[1, 1, 1, 2, 3]) {
        if random.one_in(4) {
            damage_whole(tables, random);
            continue;
        }
        let Counts { quads, points } = tables.counts();
        let limit = *random.pick(&[points, 2 * quads, 4 * quads]) as u32;
        let table = match random.below(4) {
            0 => &mut tables.corners,
            1 => &mut tables.friends,
            2 => &mut tables.marks,
            _ => &mut tables.starts,
        };
        if table.is_empty() {
            continue;
        }
        let (k, l) = (random.below(table.len()), random.below(table.len()));
        match random.below(12) {
            0 => table[k] = random.word() as u32,
            1 => table[k] = table[k].wrapping_add(1),
            2 => table[k] = table[k].wrapping_sub(1),
            3 => table[k] ^= 2,
            4 => table[k] = *random.pick(&[0, 1, 4_096, 4_097, 65_534, 65_535, 65_536, u32::MAX]),
            5 => table[k] = *random.pick(&[limit.saturating_sub(1), limit, limit + 1]),
            6 | 7 => table[k] = table[l],
            8 | 9 => table.swap(k, l),
            10 => table.truncate(random.below(table.len() + 1)),
            _ => table.extend((0..1 + random.below(4)).map(|_| random.word() as u32 % 8)),
        }
    }
}

/// Changes that leave each table by itself in order, so that the later causes are reached too.
fn damage_whole(tables: &mut Tables, random: &mut Random) {
    let Counts { quads, points } = tables.counts();
    match random.below(6) {
        // The point that comes at the end becomes one with another, whose walk then misses corners.
        0 if points > 1 => {
            let (end, other) = (points as u32 - 1, random.below(points - 1) as u32);
            tables.corners.iter_mut().filter(|p| **p == end).for_each(|p| *p = other);
            tables.starts.pop();
        }
        // Of two off-edges that run between the same points, one takes the other's friend, or they exchange theirs.
        1 | 2 if tables.friends.len() >= 2 * quads => {
            let ends = |o: usize| (tables.corners[2 * o + 1], tables.corners[crate::mesh::next(2 * o + 1)]);
            let mut first = HashMap::new();
            let pairs: Vec<_> = (0..2 * quads).filter_map(|o| first.insert(ends(o), o).map(|p| (o, p))).collect();
            if pairs.is_empty() {
                return;
            }
            let &(o, p) = random.pick(&pairs);
            if random.one_in(2) {
                tables.friends.swap(o, p);
            } else {
                tables.friends[o] = tables.friends[p];
            }
        }
        // A quad folded on itself, whose tip is a point of its own or one that is there already.
        3 if quads > 0 && tables.friends.len() == 2 * quads => fold_in(tables, random),
        // A part of the quads and points.
        4 => {
            let (quads, points) = (random.below(quads + 1), random.below(points + 1));
            tables.corners.truncate(4 * quads);
            tables.friends.truncate(2 * quads);
            tables.marks.truncate(2 * quads);
            tables.starts.truncate(points.max(random.below(2 * quads + 1)));
        }
        // A walk that is too long beside the rest.
        _ => *tables = side_by_side(&[tables.clone(), spindle(65 + random.below(3))]),
    }
}

/// Opens an edge and sets in a quad of which one off-edge is glued to the edge beside it. The walk round its tip, corner 1,
/// is back after one step.
fn fold_in(tables: &mut Tables, random: &mut Random) {
    let Counts { quads, points } = tables.counts();
    let opened = random.below(2 * quads);
    let begin = 2 * opened + 1;
    let (from, to) = (tables.corners[begin], tables.corners[crate::mesh::next(begin)]);
    let tip = if random.one_in(3) {
        tables.starts.push(4 * quads as u32 + 1);
        points as u32
    } else {
        tables.corners[2 * random.below(2 * quads) + 1]
    };
    tables.corners.extend([to, tip, to, from]);
    tables.friends.extend([2 * quads as u32, tables.friends[opened]]);
    tables.friends[opened] = 2 * quads as u32 + 1;
    tables.marks.extend([0, 0]);
}

/// Changes a byte or a line, or a few.
pub fn damage_text(text: &mut Vec<u8>, random: &mut Random) {
    for _ in 0..*random.pick(&[1, 1, 1, 2, 3]) {
        let at = random.below(text.len() + 1);
        let byte = *random.pick(b"0123456789abcdefABFgx \n\t\r\0+-\x7f\x80\xff");
        let lines: Vec<Vec<u8>> = text.split_inclusive(|&b| b == b'\n').map(<[u8]>::to_vec).collect();
        let line = random.below(lines.len().max(1));
        match random.below(9) {
            0 | 1 if at < text.len() => text[at] = byte,
            2 => text.insert(at, byte),
            3 if at < text.len() => drop(text.remove(at)),
            4 => text.truncate(at),
            5 => text.push(byte),
            6 if !lines.is_empty() => {
                let mut lines = lines;
                lines.remove(line);
                *text = lines.concat();
            }
            7 if !lines.is_empty() => {
                let mut lines = lines;
                lines.insert(line, lines[line].clone());
                *text = lines.concat();
            }
            8 if !lines.is_empty() => {
                let (mut lines, other) = (lines, random.below(line + 1));
                lines.swap(line, other);
                *text = lines.concat();
            }
            _ => (),
        }
    }
}

/// A text of tables that may hold any words below 16,777,216 and any counts.
pub fn wild_text(random: &mut Random) -> String {
    let counts = Counts { quads: random.below(12), points: random.below(20) };
    let mut tables = Tables::blank(counts);
    for table in [&mut tables.corners, &mut tables.friends, &mut tables.marks, &mut tables.starts] {
        table.iter_mut().for_each(|word| *word = (random.word() as u32 & 0xff_ffff) >> random.below(24));
    }
    text::write(&tables)
}

#[cfg(test)]
mod tests {
    use super::*;
    use crate::judge::judge;
    use crate::refusal::Cause;

    #[test]
    fn plain_meshes_are_lawful() {
        for n in 2..=64 {
            let mesh = spindle(n).judged().unwrap();
            assert_eq!(mesh.counts(), Counts { quads: n, points: n + 2 });
            assert_eq!(mesh.valence(0), n);
        }
        let cube = cuboid([1, 1, 1]).judged().unwrap();
        assert_eq!(cube.counts(), Counts { quads: 6, points: 8 });
        assert_eq!(cuboid([3, 2, 1]).judged().unwrap().counts(), Counts { quads: 22, points: 24 });
        for torus in [ring(2, 2), ring(2, 8), ring(4, 6), frame([3, 3, 1]), frame([4, 3, 2])] {
            let Counts { quads, points } = torus.judged().unwrap().counts();
            assert_eq!(quads, points);
        }
    }

    #[test]
    fn genus_two_has_too_few_points() {
        let two_holes = solid(&lattice([5, 3, 1], |[x, y, _]| y != 1 || x % 2 == 0));
        assert_eq!(judge(&two_holes), Err(Cause::PointCount.plain()));
        assert_eq!(judge(&side_by_side(&[two_holes, pillow()])), Ok(()));
    }

    #[test]
    fn samples_are_of_many_kinds() {
        let mut random = Random::new(61);
        let mut valences = [0; 65];
        for mesh in lawful_samples(&mut random, 3_000) {
            (0..mesh.counts().points).for_each(|v| valences[mesh.valence(v)] += 1);
        }
        assert!(valences[2..=64].iter().all(|&count| count > 0));
    }

    /// Damage reaches each cause of the judge.
    #[test]
    fn damage_is_seen() {
        let mut random = Random::new(62);
        let mut seen = [0; 11];
        for _ in 0..4_000 {
            let mut tables = lawful(&mut random).into_tables();
            damage(&mut tables, &mut random);
            seen[judge(&tables).map_or_else(|refusal| refusal.number() as usize, |()| 0)] += 1;
        }
        assert!(seen.iter().all(|&count| count > 0), "{seen:?}");
    }
}
