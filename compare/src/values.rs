//! Values on points, carried to the next level.

use crate::mesh::{INFINITE, Mesh, across, diagonal, next, off_edge_at, previous};
use crate::refine::{Origin, Slots};
use crate::refusal::{Cause, Refusal, refuse_at};

/// A value that is made from a row of plain numbers.
pub trait Rowed: Copy {
    type Row: Copy;

    fn from_row(row: Self::Row) -> Result<Self, Refusal>;
    fn row(self) -> Self::Row;
}

/// A value of which blends are made.
pub trait Value: Rowed {
    /// Of parts with weights other than 0, of which there is at least one.
    fn blend(parts: impl Iterator<Item = (Self, u32)>) -> Self;
}

/// Three whole numbers in tenths of a micrometre.
#[derive(Clone, Copy, Debug, PartialEq, Eq)]
pub struct Coordinates([i32; 3]);

impl Coordinates {
    pub const LIMIT: i32 = 16_777_216;
}

impl Rowed for Coordinates {
    type Row = [i32; 3];

    fn from_row(row: [i32; 3]) -> Result<Self, Refusal> {
        let within = -Self::LIMIT..=Self::LIMIT;
        refuse_at(Cause::PastLimit, row.iter().position(|x| !within.contains(x)))?;
        Ok(Self(row))
    }

    fn row(self) -> [i32; 3] {
        self.0
    }
}

impl Value for Coordinates {
    fn blend(parts: impl Iterator<Item = (Self, u32)>) -> Self {
        // At most 2^24 times 2^28 either way.
        let (mut sums, mut weight) = ([0i64; 3], 0i64);
        for (value, w) in parts {
            weight += i64::from(w);
            sums.iter_mut().zip(value.0).for_each(|(sum, x)| *sum += i64::from(w) * i64::from(x));
        }
        // The whole number below sum / weight + 1/2.
        Self(sums.map(|sum| (2 * sum + weight).div_euclid(2 * weight) as i32))
    }
}

/// A set of up to 64 members, as bits.
#[derive(Clone, Copy, Debug, PartialEq, Eq)]
pub struct Influence(u64);

impl Rowed for Influence {
    type Row = u64;

    fn from_row(row: u64) -> Result<Self, Refusal> {
        Ok(Self(row))
    }

    fn row(self) -> u64 {
        self.0
    }
}

impl Value for Influence {
    fn blend(parts: impl Iterator<Item = (Self, u32)>) -> Self {
        Self(parts.fold(0, |set, (part, _)| set | part.0))
    }
}

/// A corner, which stands for its point, with a weight that may be 0.
type Part = (usize, u32);

/// The marked edges that a walk meets.
#[derive(Default)]
struct Marked {
    count: u32,
    sum: u32,
    infinite: bool,
    /// The corners at which the first two are met.
    first: [usize; 2],
}

impl Marked {
    fn meet(&mut self, corner: usize, mark: u32) {
        if mark == 0 {
            return;
        }
        if let Some(place) = self.first.get_mut(self.count as usize) {
            *place = corner;
        }
        self.count += 1;
        self.sum += mark;
        self.infinite |= mark == INFINITE;
    }

    fn sharpness(&self) -> u32 {
        let most = 256 * self.count;
        if self.infinite { most } else { self.sum.min(most) }
    }
}

impl Mesh {
    /// The values of the refined level's points.
    pub fn values<K: Value>(&self, old: &[K]) -> Vec<K> {
        let slots = Slots::new(self.counts().quads);
        let mut parts = Vec::new();
        let value = |slot| {
            self.parts(slots.origin(slot), &mut parts);
            K::blend(parts.iter().filter(|(_, w)| *w != 0).map(|&(c, w)| (old[self.point(c)], w)))
        };
        (0..self.counts().refined().points).map(value).collect()
    }

    /// The parts of a new point, those of weight 0 among them.
    pub fn parts(&self, origin: Origin, parts: &mut Vec<Part>) {
        parts.clear();
        match origin {
            Origin::Face(q) => parts.extend((4 * q..4 * q + 4).map(|c| (c, 1))),
            Origin::Edge(e) => parts.extend(self.edge_parts(e)),
            Origin::Point(v) => self.moved_parts(v, parts),
        }
    }

    fn edge_parts(&self, edge: usize) -> [Part; 6] {
        let on = 2 * edge;
        let (begin, end) = (self.twin(on), next(self.twin(on)));
        let (third, fourth) = (next(end), previous(begin));
        let sharp = self.mark(on).min(256);
        let smooth = 256 - sharp;
        [
            (begin, 6 * smooth + 8 * sharp),
            (end, 6 * smooth + 8 * sharp),
            (third.min(fourth), smooth),
            (third.max(fourth), smooth),
            (across(on), smooth),
            (across(on + 1), smooth),
        ]
    }

    fn moved_parts(&self, point: usize, parts: &mut Vec<Part>) {
        let own = self.tables().starts[point] as usize;
        let mut marked = Marked::default();
        parts.push((own, 0));
        for c in self.walk(point) {
            parts.extend([(across(c), 6), (diagonal(c), 1)]);
            marked.meet(c, self.tables().marks[off_edge_at(c)]);
        }
        let n = parts.len() as u32 / 2;
        parts[0].1 = n * (4 * n - 7);

        let whole = 4 * n * n;
        let sharp = marked.sharpness();
        match marked.count {
            0 | 1 => (),
            2 => {
                parts.iter_mut().for_each(|(_, w)| *w *= 8 * (512 - sharp));
                parts.push((own, 6 * whole * sharp));
                parts.extend(marked.first.map(|c| (across(c), whole * sharp)));
            }
            m => {
                parts.iter_mut().for_each(|(_, w)| *w *= 256 * m - sharp);
                parts.push((own, whole * sharp));
            }
        }
    }
}

#[cfg(test)]
mod tests {
    use super::*;
    use crate::generate::{lawful_samples, pillow};
    use crate::mesh::{Counts, Tables};
    use crate::random::Random;

    fn along_x(tables: Tables, xs: [i32; 4]) -> Vec<i32> {
        let old = xs.map(|x| Coordinates::from_row([x, -x, 0]).unwrap());
        tables.judged().unwrap().values(&old).into_iter().map(|x| x.row()[0]).collect()
    }

    fn marked(marks: &[(usize, u32)]) -> Tables {
        let mut tables = pillow();
        marks.iter().for_each(|&(o, m)| tables.marks[o] = m);
        tables
    }

    #[test]
    fn coordinates_on_the_pillow() {
        let xs = [0, 16, 32, 48];
        assert_eq!(along_x(pillow(), xs), [28, 24, 16, 32, 20, 24, 24, 24, 28, 20]);
        assert_eq!(along_x(marked(&[(2, 128)]), xs)[2], 12);
        assert_eq!(along_x(marked(&[(2, 256)]), xs)[2], 8);
        assert_eq!(along_x(marked(&[(1, INFINITE), (2, INFINITE)]), xs)[0], 8);
    }

    #[test]
    fn influences_on_the_pillow() {
        let old = [1, 2, 4, 8].map(Influence);
        assert!(pillow().judged().unwrap().values(&old).iter().all(|x| x.row() == 15));
        assert_eq!(marked(&[(2, INFINITE)]).judged().unwrap().values(&old)[2].row(), 3);
    }

    #[test]
    fn a_half_goes_up() {
        assert_eq!(along_x(pillow(), [0, 0, 1, 1])[1], 1);
        assert_eq!(along_x(pillow(), [0, 0, -1, -1])[1], 0);
    }

    #[test]
    fn coordinates_past_the_limit() {
        let limit = Coordinates::LIMIT;
        assert!(Coordinates::from_row([limit, -limit, 0]).is_ok());
        assert_eq!(Coordinates::from_row([0, limit + 1, limit + 1]), Err(Cause::PastLimit.at(1)));
        assert_eq!(Coordinates::from_row([0, 0, -limit - 1]), Err(Cause::PastLimit.at(2)));
    }

    #[test]
    fn weights_add_up() {
        let mut random = Random::new(31);
        for mesh in lawful_samples(&mut random, 150) {
            let Counts { quads, points } = mesh.counts();
            let mut parts = Vec::new();
            let mut weight = |origin| {
                mesh.parts(origin, &mut parts);
                parts.iter().map(|&(_, w)| u64::from(w)).sum::<u64>()
            };
            assert!((0..quads).all(|q| weight(Origin::Face(q)) == 4));
            assert!((0..2 * quads).all(|e| weight(Origin::Edge(e)) == 4_096));
            for v in 0..points {
                let n = mesh.valence(v) as u64;
                let m = mesh.walk(v).filter(|&c| mesh.tables().marks[off_edge_at(c)] != 0).count() as u64;
                let times = match m {
                    0 | 1 => 1,
                    2 => 4_096,
                    _ => 256 * m,
                };
                assert_eq!(weight(Origin::Point(v)), 4 * n * n * times);
                assert!(weight(Origin::Point(v)) <= 268_435_456);
            }
        }
    }

    #[test]
    fn coordinates_stay_in_their_box() {
        let mut random = Random::new(32);
        for mesh in lawful_samples(&mut random, 60) {
            let (low, high) = (random.between(-16_777_216, 0), random.between(0, 16_777_216));
            let mut row = || [0; 3].map(|_| random.between(low, high) as i32);
            let mut values: Vec<_> = (0..mesh.counts().points).map(|_| Coordinates::from_row(row()).unwrap()).collect();
            let mut level = mesh;
            for _ in 0..2 {
                values = level.values(&values);
                level = level.refined();
                assert!(values.iter().all(|x| { x.row().iter().all(|&x| (low..=high).contains(&i64::from(x))) }));
            }
        }
    }
}
