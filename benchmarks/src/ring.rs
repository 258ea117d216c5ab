//! The mesh that is timed: a ring of quads closed both ways, a torus.

use compare::Tables;

/// `a` by `b` quads, both even. Quad `i * b + j` has the points (i, j), (i, j+1), (i+1, j+1), (i+1, j), wrapped round, and point
/// (i, j) is number `i * b + j`. Where i + j is odd the corners begin one later, so that every off-edge lies along an on-edge.
pub fn ring(a: usize, b: usize) -> Tables {
    assert!(a.is_multiple_of(2) && b.is_multiple_of(2));
    let number = |i: usize, j: usize| (i % a * b + j % b) as u32;
    let mut tables = Tables::default();
    for i in 0..a {
        for j in 0..b {
            let mut round = [number(i, j), number(i, j + 1), number(i + 1, j + 1), number(i + 1, j)];
            let odd = (i + j) % 2;
            round.rotate_left(odd);
            tables.corners.extend(round);
            tables.friends.extend(if odd == 0 {
                [2 * number(i, j + 1) + 1, 2 * number(i, j + b - 1)]
            } else {
                [2 * number(i + 1, j), 2 * number(i + a - 1, j) + 1]
            });
        }
    }
    // Smooth, semi-sharp and infinite edges.
    tables.marks = (0..2 * a * b).map(|o| [0, 0, 0, 65_535, 0, 0, 300, 0, 0, 0, 0, 0, 0][o % 13]).collect();
    tables.starts = vec![u32::MAX; a * b];
    for (c, &p) in tables.corners.iter().enumerate() {
        let start = &mut tables.starts[p as usize];
        *start = (*start).min(c as u32);
    }
    tables
}
