//! The next level, each word drawn from the old level: no task and no blank table.

use crate::mesh::{Counts, INFINITE, Mesh, Tables, next, previous};

/// Where a point of the refined level comes from.
#[derive(Clone, Copy, Debug, PartialEq, Eq)]
pub enum Origin {
    Point(usize),
    Face(usize),
    Edge(usize),
}

/// A count of quads gives the slots of the points of the refined level.
#[derive(Clone, Copy, Debug)]
pub struct Slots {
    quads: usize,
}

impl Slots {
    pub fn new(quads: usize) -> Self {
        Self { quads }
    }

    pub fn slot(self, origin: Origin) -> usize {
        match origin {
            Origin::Point(v) if v <= self.quads => 4 * v,
            Origin::Point(v) => 3 * self.quads + v,
            Origin::Face(q) => 4 * q + 1,
            Origin::Edge(e) => 4 * (e / 2) + 2 + e % 2,
        }
    }

    pub fn origin(self, slot: usize) -> Origin {
        if slot >= 4 * self.quads {
            return Origin::Point(slot - 3 * self.quads);
        }
        match (slot / 4, slot % 4) {
            (v, 0) => Origin::Point(v),
            (q, 1) => Origin::Face(q),
            (q, side) => Origin::Edge(2 * q + side - 2),
        }
    }
}

pub fn fallen(mark: u32) -> u32 {
    if mark == INFINITE { mark } else { mark.saturating_sub(256) }
}

impl Counts {
    pub fn refined(self) -> Self {
        Self { quads: 4 * self.quads, points: self.points + 3 * self.quads }
    }
}

impl Mesh {
    /// Half-edge `h` becomes quad `h`: from its corner to its middle, to the face, to the middle of the half-edge
    /// before it, and back.
    pub fn refined(&self) -> Mesh {
        let Counts { quads, .. } = self.counts();
        let slots = Slots::new(quads);
        let slot = |origin| slots.slot(origin) as u32;

        let corners = (0..4 * quads)
            .flat_map(|h| {
                [
                    Origin::Point(self.point(h)),
                    Origin::Edge(self.on_edge(h)),
                    Origin::Face(h / 4),
                    Origin::Edge(self.on_edge(previous(h))),
                ]
            })
            .map(slot)
            .collect();
        let friends = (0..4 * quads)
            .flat_map(|h| {
                let inside = 4 * next(h) + 2;
                let outside = 4 * self.twin(previous(h));
                [inside / 2, outside / 2]
            })
            .map(|edge| edge as u32)
            .collect();
        let marks = (0..4 * quads).flat_map(|h| [0, fallen(self.mark(previous(h)))]).collect();
        let starts = (0..self.counts().refined().points)
            .map(|s| match slots.origin(s) {
                Origin::Point(v) => 4 * self.tables().starts[v],
                Origin::Face(q) => 16 * q as u32 + 2,
                Origin::Edge(e) => 8 * e as u32 + 1,
            })
            .collect();
        Mesh::trusted(Tables { corners, friends, marks, starts })
    }

    /// Refined this many times.
    pub fn level(&self, times: usize) -> Mesh {
        (0..times).fold(self.clone(), |mesh, _| mesh.refined())
    }
}

#[cfg(test)]
pub(crate) mod tests {
    use super::*;
    use crate::generate::{lawful_samples, pillow};
    use crate::judge::judge;
    use crate::random::Random;

    /// The task of a quad as the rules write it, word by word.
    pub(crate) fn quad_task(old: &Mesh, q: usize, new: &mut Tables) {
        let slots = Slots::new(old.counts().quads);
        let slot = |origin| slots.slot(origin) as u32;
        let [g0, g1] = [2 * q, 2 * q + 1].map(|o| old.tables().friends[o] as usize);
        let [m0, m1] = [2 * q, 2 * q + 1].map(|o| fallen(old.tables().marks[o]));
        let w = [0, 1, 2, 3].map(|k| slot(Origin::Point(old.point(4 * q + k))));
        let f = slot(Origin::Face(q));
        let [d0, d1, e0, e1] = [2 * q, 2 * q + 1, g0, g1].map(|e| slot(Origin::Edge(e)));
        let quads = [[w[0], d0, f, e1], [w[1], e0, f, d0], [w[2], d1, f, e0], [w[3], e1, f, d1]];
        new.corners[16 * q..16 * q + 16].copy_from_slice(quads.as_flattened());
        for (off_edge, friend, mark) in [
            (8 * q, 8 * q + 3, 0),
            (8 * q + 2, 8 * q + 5, 0),
            (8 * q + 4, 8 * q + 7, 0),
            (8 * q + 6, 8 * q + 1, 0),
            (8 * q + 1, 4 * g1, m1),
            (8 * q + 5, 4 * g0, m0),
            (4 * g0 + 3, 8 * q + 2, m0),
            (4 * g1 + 3, 8 * q + 6, m1),
        ] {
            new.friends[off_edge] = friend as u32;
            new.marks[off_edge] = mark;
        }
        new.starts[f as usize] = 16 * q as u32 + 2;
        new.starts[e0 as usize] = 8 * g0 as u32 + 1;
        new.starts[e1 as usize] = 8 * g1 as u32 + 1;
    }

    pub(crate) fn point_task(old: &Mesh, v: usize, new: &mut Tables) {
        let slot = Slots::new(old.counts().quads).slot(Origin::Point(v));
        new.starts[slot] = 4 * old.tables().starts[v];
    }

    #[test]
    fn tasks_in_any_order_write_the_level() {
        let mut random = Random::new(11);
        for mesh in lawful_samples(&mut random, 60) {
            let Counts { quads, points } = mesh.counts();
            let mut new = Tables::blank(mesh.counts().refined());
            for task in random.order(quads + points) {
                match task.checked_sub(quads) {
                    None => quad_task(&mesh, task, &mut new),
                    Some(v) => point_task(&mesh, v, &mut new),
                }
            }
            assert_eq!(&new, mesh.refined().tables());
        }
    }

    #[test]
    fn refined_levels_are_lawful() {
        let mut random = Random::new(12);
        for mesh in lawful_samples(&mut random, 150) {
            let mut level = mesh.refined();
            for _ in 0..2 {
                judge(level.tables()).unwrap();
                let (old, new) = (mesh.counts(), level.counts());
                assert_eq!(new.points - new.quads, old.points - old.quads);
                level = level.refined();
            }
        }
    }

    #[test]
    fn valences_are_kept() {
        let mut random = Random::new(13);
        for mesh in lawful_samples(&mut random, 60) {
            let refined = mesh.refined();
            let slots = Slots::new(mesh.counts().quads);
            for slot in 0..refined.counts().points {
                let expected = match slots.origin(slot) {
                    Origin::Point(v) => mesh.valence(v),
                    _ => 4,
                };
                assert_eq!(refined.valence(slot), expected);
            }
        }
    }

    #[test]
    fn slots_and_origins() {
        for (quads, points) in [(2, 2), (2, 4), (3, 5), (6, 8), (6, 12)] {
            let slots = Slots::new(quads);
            for slot in 0..points + 3 * quads {
                assert_eq!(slots.slot(slots.origin(slot)), slot);
            }
        }
    }

    #[test]
    fn a_mark_of_300() {
        let mut tables = pillow();
        tables.marks[2] = 300;
        let once = tables.judged().unwrap().refined();
        let marked: Vec<_> = once.tables().marks.iter().enumerate().filter(|(_, m)| **m != 0).collect();
        assert_eq!(marked, [(3, &44), (13, &44)]);
        assert!(once.refined().tables().marks.iter().all(|&m| m == 0));
    }
}
