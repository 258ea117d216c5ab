//! Which tables make a lawful mesh, and what is wrong with the others.

use crate::mesh::{Counts, INFINITE, MOST_QUADS, MOST_SHARP, Tables, next};
use crate::refusal::{Cause, Refusal, refuse_at, refuse_if};

const MOST_STEPS: usize = 64;

/// The first cause by number, at its first place.
pub fn judge(tables: &Tables) -> Result<(), Refusal> {
    let Tables { corners, friends, marks, starts } = tables;
    let Counts { quads, points } = tables.counts();

    let half = |table: &[u32]| 2 * table.len() == corners.len();
    refuse_if(Cause::TableLengths, corners.len() % 4 != 0 || !half(friends) || !half(marks))?;
    refuse_if(Cause::QuadCount, !(2..=MOST_QUADS).contains(&quads))?;
    refuse_if(Cause::PointCount, !(quads..=2 * quads).contains(&points))?;

    refuse_at(Cause::NoPoint, corners.iter().position(|&p| p as usize >= points))?;
    refuse_at(Cause::NoEdge, friends.iter().position(|&e| e as usize >= 2 * quads))?;
    refuse_at(Cause::NoMark, marks.iter().position(|&m| !is_mark(m)))?;
    refuse_at(Cause::FriendDirection, (0..2 * quads).find(|&o| !friend_runs_back(tables, o)))?;
    refuse_at(
        Cause::NoStart,
        starts.iter().enumerate().position(|(v, &c)| corners.get(c as usize) != Some(&(v as u32))),
    )?;

    let mut met = 0;
    for (point, &start) in starts.iter().enumerate() {
        met += steps_until_back(tables, start as usize).filter(|&n| n >= 2).ok_or(Cause::Walk.at(point))?;
    }
    refuse_if(Cause::Unmet, met != 4 * quads)
}

fn is_mark(word: u32) -> bool {
    word <= MOST_SHARP || word == INFINITE
}

fn friend_runs_back(tables: &Tables, off_edge: usize) -> bool {
    let begin = 2 * off_edge + 1;
    let friend = 2 * tables.friends[off_edge] as usize;
    let point = |corner: usize| tables.corners[corner];
    (point(begin), point(next(begin))) == (point(friend + 1), point(friend))
}

fn steps_until_back(tables: &Tables, start: usize) -> Option<usize> {
    let mut corner = start;
    (1..=MOST_STEPS).find(|_| {
        corner = tables.step(corner);
        corner == start
    })
}

#[cfg(test)]
mod tests {
    use super::*;
    use crate::generate::{pillow, spindle};

    fn refused(change: impl FnOnce(&mut Tables)) -> (u32, usize) {
        let mut tables = pillow();
        change(&mut tables);
        judge(&tables).map_or_else(|r| (r.number(), r.place), |()| (0, 0))
    }

    #[test]
    fn each_cause_at_its_place() {
        assert_eq!(refused(|_| ()), (0, 0));
        assert_eq!(refused(|t| t.corners.push(0)), (1, 0));
        assert_eq!(refused(|t| t.marks.push(0)), (1, 0));
        assert_eq!(refused(|t| *t = Tables::default()), (2, 0));
        assert_eq!(refused(|t| t.starts.truncate(1)), (3, 0));
        assert_eq!(refused(|t| t.starts.push(0)), (3, 0));
        assert_eq!(refused(|t| t.corners[6] = 4), (4, 6));
        assert_eq!(refused(|t| t.friends[3] = 4), (5, 3));
        assert_eq!(refused(|t| t.marks[2] = 4_097), (6, 2));
        assert_eq!(refused(|t| t.marks[2] = 65_534), (6, 2));
        assert_eq!(refused(|t| t.marks[2] = 4_096), (0, 0));
        assert_eq!(refused(|t| t.marks[2] = 65_535), (0, 0));
        assert_eq!(refused(|t| t.friends[1] = 2), (7, 1));
        assert_eq!(refused(|t| t.starts[1] = 0), (8, 1));
        assert_eq!(refused(|t| t.starts[1] = u32::MAX), (8, 1));
    }

    #[test]
    fn the_lowest_number_comes_first() {
        assert_eq!(
            refused(|t| {
                t.marks[0] = 5_000;
                t.friends[3] = 9;
            }),
            (5, 3)
        );
    }

    #[test]
    fn valence_ends_at_64() {
        assert_eq!(judge(&spindle(64)), Ok(()));
        assert_eq!(judge(&spindle(65)), Err(Cause::Walk.at(0)));
    }

    /// A quad of which each off-edge is glued to an edge of its own: both walks are back after one step.
    #[test]
    fn a_walk_of_one_step_is_refused() {
        let tables = Tables {
            corners: vec![0, 1, 0, 2, 1, 3, 1, 2],
            friends: vec![0, 1, 2, 3],
            marks: vec![0; 4],
            starts: vec![0, 1, 3, 5],
        };
        assert_eq!(judge(&tables), Err(Cause::Walk.at(1)));
    }
}
