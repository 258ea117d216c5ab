//! A bench keeps a standing level and at most one level in work. The level in work is refined whole when it is begun,
//! and a word of it shows as 0 until the task that owns it has run.

use crate::corners::{CornerValue, corner_values};
use crate::mesh::{Counts, MOST_QUADS, Mesh, Tables, next, previous};
use crate::refine::{Origin, Slots};
use crate::refusal::{Cause, Refusal, refuse_at, refuse_if};
use crate::text;
use crate::values::{Rowed, Value};

/// What closes a level in work.
#[derive(Clone, Copy, Debug, PartialEq, Eq)]
pub struct Slip {
    mark: u32,
}

/// A refused finish or withdraw hands the slip back.
#[derive(Clone, Copy, Debug, PartialEq, Eq)]
pub struct Declined {
    pub refusal: Refusal,
    pub slip: Slip,
}

#[derive(Clone, Debug, PartialEq, Eq)]
struct Work {
    level: Mesh,
    /// By task: quads, then points.
    done: Vec<bool>,
}

#[derive(Clone, Debug, PartialEq, Eq)]
pub struct Bench {
    words: usize,
    mark: u32,
    standing: Option<Mesh>,
    work: Option<Work>,
}

impl Bench {
    /// With so many working words, and the mark number that its slips bear.
    pub fn new(words: usize, mark: u32) -> Self {
        Self { words, mark, standing: None, work: None }
    }

    pub fn load(&mut self, tables: Tables) -> Result<(), Refusal> {
        let mesh = tables.judged()?;
        let Counts { quads, points } = mesh.counts();
        refuse_if(Cause::InWork, self.work.is_some())?;
        refuse_if(Cause::TooFewWords, self.words < 8 * quads + points)?;
        self.standing = Some(mesh);
        Ok(())
    }

    /// Reads into the lent tables and loads what was read.
    pub fn load_text(&mut self, bytes: &[u8], lent: &mut Tables) -> Result<(), Refusal> {
        let Counts { quads, points } = text::read_into(bytes, lent)?;
        self.load(Tables {
            corners: lent.corners[..4 * quads].to_vec(),
            friends: lent.friends[..2 * quads].to_vec(),
            marks: lent.marks[..2 * quads].to_vec(),
            starts: lent.starts[..points].to_vec(),
        })
    }

    pub fn begin(&mut self) -> Result<Slip, Refusal> {
        refuse_if(Cause::InWork, self.work.is_some())?;
        let old = self.refinable()?;
        let Counts { quads, points } = old.counts();
        refuse_if(Cause::TooFewWords, self.words < 44 * quads + 3 * points)?;
        self.work = Some(Work { level: old.refined(), done: vec![false; quads + points] });
        Ok(Slip { mark: self.mark })
    }

    pub fn quad(&mut self, quad: usize) -> Result<(), Refusal> {
        let Counts { quads, .. } = self.standing()?.counts();
        let work = self.work.as_mut().ok_or(Cause::NotInWork.plain())?;
        in_range(quad, quads)?;
        work.done[quad] = true;
        Ok(())
    }

    pub fn point(&mut self, point: usize) -> Result<(), Refusal> {
        let Counts { quads, points } = self.standing()?.counts();
        let work = self.work.as_mut().ok_or(Cause::NotInWork.plain())?;
        in_range(point, points)?;
        work.done[quads + point] = true;
        Ok(())
    }

    pub fn finish(&mut self, slip: Slip) -> Result<(), Declined> {
        self.closing(slip)
            .and_then(|work| refuse_at(Cause::TaskLeft, work.done.iter().position(|done| !done)))
            .map_err(|refusal| Declined { refusal, slip })?;
        self.standing = self.work.take().map(|work| work.level);
        Ok(())
    }

    pub fn withdraw(&mut self, slip: Slip) -> Result<(), Declined> {
        self.closing(slip).map_err(|refusal| Declined { refusal, slip })?;
        self.work = None;
        Ok(())
    }

    /// The level in work, if the slip may close it.
    fn closing(&self, slip: Slip) -> Result<&Work, Refusal> {
        self.standing()?;
        let work = self.work.as_ref().ok_or(Cause::NotInWork.plain())?;
        refuse_if(Cause::StrangeSlip, slip.mark != self.mark)?;
        Ok(work)
    }

    pub fn standing(&self) -> Result<&Mesh, Refusal> {
        self.standing.as_ref().ok_or(Cause::NoLevel.plain())
    }

    fn refinable(&self) -> Result<&Mesh, Refusal> {
        let mesh = self.standing()?;
        refuse_if(Cause::TooManyQuads, 4 * mesh.counts().quads > MOST_QUADS)?;
        Ok(mesh)
    }

    /// Questions to the standing level.
    pub fn level(&self) -> Result<View<'_>, Refusal> {
        Ok(View { level: self.standing()?, hidden: None })
    }

    /// Questions to the level in work.
    pub fn level_in_work(&self) -> Result<View<'_>, Refusal> {
        let old = self.standing()?;
        let work = self.work.as_ref().ok_or(Cause::NotInWork.plain())?;
        Ok(View { level: &work.level, hidden: Some((old, &work.done)) })
    }

    pub fn values<K: Value>(&self, old: &[K::Row], new: &mut [K::Row]) -> Result<(), Refusal> {
        let mesh = self.refinable()?;
        let expected = (mesh.counts().points, mesh.counts().refined().points);
        let made = made::<K>(old, new, expected)?;
        mesh.values(&made).into_iter().zip(new).for_each(|(value, row)| *row = value.row());
        Ok(())
    }

    pub fn corners<K: CornerValue>(&self, old: &[K::Row], new: &mut [K::Row]) -> Result<(), Refusal> {
        let quads = self.refinable()?.counts().quads;
        let made = made::<K>(old, new, (4 * quads, 16 * quads))?;
        corner_values(&made).into_iter().zip(new).for_each(|(value, row)| *row = value.row());
        Ok(())
    }

    /// The text of the standing level, and how long it is.
    pub fn write(&self, out: &mut [u8]) -> Result<usize, Refusal> {
        let text = text::write(self.standing()?.tables());
        out.get_mut(..text.len()).ok_or(Cause::Room.plain())?.copy_from_slice(text.as_bytes());
        Ok(text.len())
    }
}

fn in_range(number: usize, count: usize) -> Result<(), Refusal> {
    refuse_at(Cause::OutOfRange, (number >= count).then_some(number))
}

/// The values of rows, if there are as many as expected of the old ones and of the new ones.
fn made<K: Rowed>(old: &[K::Row], new: &[K::Row], expected: (usize, usize)) -> Result<Vec<K>, Refusal> {
    refuse_if(Cause::ValueLength, (old.len(), new.len()) != expected)?;
    let make = |(place, &row)| K::from_row(row).map_err(|refusal| refusal.cause.at(place));
    old.iter().enumerate().map(make).collect()
}

/// A level as it answers questions.
#[derive(Clone, Copy, Debug)]
pub struct View<'a> {
    level: &'a Mesh,
    /// Of a level in work, the old level and the tasks that have run.
    hidden: Option<(&'a Mesh, &'a [bool])>,
}

impl View<'_> {
    pub fn counts(&self) -> Counts {
        self.level.counts()
    }

    /// How many tasks have yet to run.
    pub fn tasks_left(&self) -> usize {
        self.hidden.map_or(0, |(_, done)| done.iter().filter(|done| !**done).count())
    }

    pub fn point(&self, corner: usize) -> Result<u32, Refusal> {
        in_range(corner, 4 * self.counts().quads)?;
        Ok(self.shown(self.level.tables().corners[corner], |_| corner / 16))
    }

    /// The points at which an off-edge begins and ends, and its mark word.
    pub fn off_edge(&self, off_edge: usize) -> Result<(u32, u32, u32), Refusal> {
        in_range(off_edge, 2 * self.counts().quads)?;
        let begin = 2 * off_edge + 1;
        let mark = self.shown(self.level.tables().marks[off_edge], |old| writer_of_off_edge(old, off_edge));
        Ok((self.point(begin)?, self.point(next(begin))?, mark))
    }

    pub fn friend(&self, off_edge: usize) -> Result<u32, Refusal> {
        in_range(off_edge, 2 * self.counts().quads)?;
        Ok(self.shown(self.level.tables().friends[off_edge], |old| writer_of_off_edge(old, off_edge)))
    }

    pub fn start(&self, point: usize) -> Result<u32, Refusal> {
        in_range(point, self.counts().points)?;
        Ok(self.shown(self.level.tables().starts[point], |old| writer_of_start(old, point)))
    }

    fn shown(&self, word: u32, writer: impl FnOnce(&Mesh) -> usize) -> u32 {
        match self.hidden {
            Some((old, done)) if !done[writer(old)] => 0,
            _ => word,
        }
    }
}

/// The task that writes a new off-edge. Those inside a quad are written by that quad, and each half by the quad of the
/// old off-edge.
fn writer_of_off_edge(old: &Mesh, off_edge: usize) -> usize {
    let h = off_edge / 2;
    if off_edge.is_multiple_of(2) { h / 4 } else { old.off_edge(previous(h)) / 2 }
}

fn writer_of_start(old: &Mesh, slot: usize) -> usize {
    let quads = old.counts().quads;
    match Slots::new(quads).origin(slot) {
        Origin::Point(v) => quads + v,
        Origin::Face(q) => q,
        Origin::Edge(e) => old.off_edge(2 * e) / 2,
    }
}

#[cfg(test)]
mod tests {
    use super::*;
    use crate::corners::Colour;
    use crate::generate::{lawful_samples, pillow, ring};
    use crate::random::Random;
    use crate::refine::tests::{point_task, quad_task};
    use crate::values::Coordinates;

    fn pillow_on(words: usize) -> Bench {
        let mut bench = Bench::new(words, 7);
        bench.load(pillow()).unwrap();
        bench
    }

    fn done(bench: &mut Bench, quads: usize, points: usize) {
        (0..quads).for_each(|q| bench.quad(q).unwrap());
        (0..points).for_each(|v| bench.point(v).unwrap());
    }

    #[test]
    fn words_needed() {
        assert_eq!(Bench::new(19, 0).load(pillow()), Err(Cause::TooFewWords.plain()));
        let mut bench = pillow_on(20);
        assert_eq!(bench.begin(), Err(Cause::TooFewWords.plain()));
        assert_eq!(pillow_on(99).begin(), Err(Cause::TooFewWords.plain()));
        assert!(pillow_on(100).begin().is_ok());
    }

    #[test]
    fn calls_on_an_empty_bench() {
        let mut bench = Bench::new(100, 7);
        let slip = Slip { mark: 8 };
        let none = Cause::NoLevel.plain();
        assert_eq!(bench.begin(), Err(none));
        assert_eq!(bench.quad(9), Err(none));
        assert_eq!(bench.point(9), Err(none));
        assert_eq!(bench.finish(slip), Err(Declined { refusal: none, slip }));
        assert_eq!(bench.withdraw(slip), Err(Declined { refusal: none, slip }));
        assert_eq!(bench.level().err(), Some(none));
        assert_eq!(bench.level_in_work().err(), Some(none));
        assert_eq!(bench.values::<Coordinates>(&[], &mut []), Err(none));
        assert_eq!(bench.corners::<Colour>(&[], &mut []), Err(none));
        assert_eq!(bench.write(&mut []), Err(none));
    }

    #[test]
    fn a_level_from_begin_to_finish() {
        let mut bench = pillow_on(100);
        let strange = Slip { mark: 8 };
        assert_eq!(bench.quad(0), Err(Cause::NotInWork.plain()));
        assert_eq!(bench.finish(strange).unwrap_err().refusal, Cause::NotInWork.plain());
        let slip = bench.begin().unwrap();
        assert_eq!(bench.begin(), Err(Cause::InWork.plain()));
        assert_eq!(bench.load(pillow()), Err(Cause::InWork.plain()));
        assert_eq!(bench.load(Tables::default()), Err(Cause::QuadCount.plain()));
        assert_eq!(bench.quad(2), Err(Cause::OutOfRange.at(2)));
        assert_eq!(bench.point(4), Err(Cause::OutOfRange.at(4)));
        assert_eq!(bench.finish(strange), Err(Declined { refusal: Cause::StrangeSlip.plain(), slip: strange }));
        assert_eq!(bench.finish(slip), Err(Declined { refusal: Cause::TaskLeft.at(0), slip }));
        bench.quad(0).unwrap();
        bench.quad(0).unwrap();
        bench.quad(1).unwrap();
        bench.point(0).unwrap();
        assert_eq!(bench.level_in_work().unwrap().tasks_left(), 3);
        assert_eq!(bench.finish(slip), Err(Declined { refusal: Cause::TaskLeft.at(3), slip }));
        done(&mut bench, 2, 4);
        bench.finish(slip).unwrap();
        assert_eq!(bench.level().unwrap().counts(), Counts { quads: 8, points: 10 });
        assert_eq!(bench.begin(), Err(Cause::TooFewWords.plain()));
    }

    #[test]
    fn withdrawn_levels_leave_the_standing_one() {
        let mut bench = pillow_on(100);
        let before = bench.clone();
        let slip = bench.begin().unwrap();
        bench.quad(1).unwrap();
        bench.withdraw(slip).unwrap();
        assert_eq!(bench, before);
    }

    #[test]
    fn too_many_quads_come_before_too_few_words() {
        let mut bench = Bench::new(8 * 262_148 + 262_148, 0);
        bench.load(ring(2, 131_074)).unwrap();
        assert_eq!(bench.begin(), Err(Cause::TooManyQuads.plain()));
        assert_eq!(bench.values::<Coordinates>(&[], &mut []), Err(Cause::TooManyQuads.plain()));
    }

    #[test]
    fn values_and_corners_are_refused_by_length_and_row() {
        let bench = pillow_on(20);
        let old = [[0; 3]; 4];
        let mut new = [[9; 3]; 10];
        assert_eq!(bench.values::<Coordinates>(&old[..3], &mut new), Err(Cause::ValueLength.plain()));
        assert_eq!(bench.values::<Coordinates>(&old, &mut new[..9]), Err(Cause::ValueLength.plain()));
        let past = [[0; 3], [0; 3], [0, 0, 16_777_217], [-16_777_217; 3]];
        assert_eq!(bench.values::<Coordinates>(&past, &mut new), Err(Cause::PastLimit.at(2)));
        assert_eq!(new, [[9; 3]; 10]);
        bench.values::<Coordinates>(&old, &mut new).unwrap();
        assert_eq!(new, [[0; 3]; 10]);
        assert_eq!(bench.corners::<Colour>(&[[1; 3]; 8], &mut [[0; 3]; 31]), Err(Cause::ValueLength.plain()));
    }

    #[test]
    fn written_texts() {
        let bench = pillow_on(20);
        let text = text::write(&pillow());
        let mut out = vec![1; text.len() + 2];
        assert_eq!(bench.write(&mut out[..text.len() - 1]), Err(Cause::Room.plain()));
        assert!(out.iter().all(|&b| b == 1));
        assert_eq!(bench.write(&mut out), Ok(text.len()));
        assert_eq!(out, [text.as_bytes(), &[1, 1]].concat());
    }

    #[test]
    fn texts_are_read_before_they_are_loaded() {
        let mut bench = pillow_on(100);
        bench.begin().unwrap();
        let mut lent = Tables::blank(Counts { quads: 2, points: 4 });
        assert_eq!(bench.load_text(b"00 2 4\n", &mut lent), Err(Cause::Line.at(1)));
        assert_eq!(lent, Tables::blank(Counts { quads: 2, points: 4 }));
        let text = text::write(&pillow());
        assert_eq!(bench.load_text(text.as_bytes(), &mut lent), Err(Cause::InWork.plain()));
        assert_eq!(lent, pillow());
    }

    /// Questions to a level in work answer what the tasks that have run would have written on blank tables.
    #[test]
    fn words_show_when_their_task_has_run() {
        let mut random = Random::new(51);
        for mesh in lawful_samples(&mut random, 40) {
            let Counts { quads, points } = mesh.counts();
            let mut bench = Bench::new(usize::MAX, 1);
            bench.load(mesh.tables().clone()).unwrap();
            bench.begin().unwrap();
            let mut written = Tables::blank(mesh.counts().refined());
            for _ in 0..random.below(quads + points) {
                let task = random.below(quads + points);
                match task.checked_sub(quads) {
                    None => {
                        bench.quad(task).unwrap();
                        quad_task(&mesh, task, &mut written);
                    }
                    Some(v) => {
                        bench.point(v).unwrap();
                        point_task(&mesh, v, &mut written);
                    }
                }
            }
            let view = bench.level_in_work().unwrap();
            let all = |n: usize, ask: &dyn Fn(usize) -> u32| (0..n).map(ask).collect::<Vec<_>>();
            assert_eq!(all(16 * quads, &|c| view.point(c).unwrap()), written.corners);
            assert_eq!(all(8 * quads, &|o| view.friend(o).unwrap()), written.friends);
            assert_eq!(all(8 * quads, &|o| view.off_edge(o).unwrap().2), written.marks);
            assert_eq!(all(points + 3 * quads, &|v| view.start(v).unwrap()), written.starts);
            assert_eq!(view.point(16 * quads), Err(Cause::OutOfRange.at(16 * quads)));
        }
    }
}
