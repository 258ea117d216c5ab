//! Values on points and on corners: every row of the next level, and refusals with places.

use crate::proved::{self, Refused};
use compare::corners::{Colour, CornerValue, Texture};
use compare::generate::{damage, lawful, mark_some, renumbered, ring, spindle};
use compare::random::Random;
use compare::values::{Coordinates, Influence, Value};
use compare::{Bench, Counts, Refusal, Tables};
use std::fmt::Debug;

type Proved<R> = fn(&Tables, &[R], &mut [R]) -> Refused;

type Ours<R> = fn(&Bench, &[R], &mut [R]) -> Result<(), Refusal>;

/// Values of a kind in plain rows: where they are, how the two sides carry them, and what rows to try.
struct Kind<R> {
    proved: Proved<R>,
    ours: Ours<R>,
    lengths: fn(Counts) -> (usize, usize),
    row: fn(&mut Random) -> R,
    bad: Option<fn(&mut Random) -> R>,
    /// The bits of a row, by which rows are compared.
    bits: fn(R) -> [u64; 3],
}

fn on_points<K: Value>(bench: &Bench, old: &[K::Row], new: &mut [K::Row]) -> Result<(), Refusal> {
    bench.values::<K>(old, new)
}

fn on_corners<K: CornerValue>(bench: &Bench, old: &[K::Row], new: &mut [K::Row]) -> Result<(), Refusal> {
    bench.corners::<K>(old, new)
}

const COORDINATES: Kind<[i32; 3]> = Kind {
    proved: proved::coordinates,
    ours: on_points::<Coordinates>,
    lengths: points,
    row: |random| {
        let most = *random.pick(&[1, 100, 16_777_216]);
        [0; 3].map(|_| random.between(-most, most) as i32)
    },
    bad: Some(|random| {
        let mut row = [0; 3];
        row[random.below(3)] = *random.pick(&[16_777_217, -16_777_217, i32::MAX, i32::MIN]);
        row
    }),
    bits: |row| row.map(|x| u64::from(x as u32)),
};

const INFLUENCES: Kind<u64> = Kind {
    proved: proved::influences,
    ours: on_points::<Influence>,
    lengths: points,
    row: |random| 1 << random.below(64),
    bad: None,
    bits: |row| [row, 0, 0],
};

const TEXTURES: Kind<[f32; 2]> = Kind {
    proved: proved::textures,
    ours: on_corners::<Texture>,
    lengths: corners,
    row: |random| {
        [0; 2].map(|_| match random.below(6) {
            0 => *random.pick(&[0.0, -0.0, 65_536.0, -65_536.0, f32::MIN_POSITIVE, 1e-45, -1e-45]),
            // Any bits of a number within the limit.
            1 => f32::from_bits((random.word() as u32 & 0x8000_0000) | random.below(0x4780_0001) as u32),
            _ => random.between(-65_536_000, 65_536_000) as f32 / 1_000.0,
        })
    },
    bad: Some(|random| {
        let mut row = [0.0; 2];
        row[random.below(2)] =
            *random.pick(&[f32::NAN, f32::INFINITY, f32::NEG_INFINITY, 65_536.01, -65_536.01, f32::MAX]);
        row
    }),
    bits: |row| [u64::from(row[0].to_bits()), u64::from(row[1].to_bits()), 0],
};

const COLOURS: Kind<[u8; 3]> = Kind {
    proved: proved::colours,
    ours: on_corners::<Colour>,
    lengths: corners,
    row: |random| [0; 3].map(|_| random.word() as u8),
    bad: None,
    bits: |row| row.map(u64::from),
};

fn points(Counts { quads, points }: Counts) -> (usize, usize) {
    (points, points + 3 * quads)
}

fn corners(Counts { quads, .. }: Counts) -> (usize, usize) {
    (4 * quads, 16 * quads)
}

impl<R: Copy + Debug> Kind<R> {
    /// Carries both ways and gives the number of the refusal.
    fn same(&self, tables: &Tables, old: &[R], new: usize, before: R) -> u32 {
        let mut expected = vec![before; new];
        let mut bench = Bench::new(usize::MAX, 0);
        let ours = match bench.load(tables.clone()).and_then(|()| (self.ours)(&bench, old, &mut expected)) {
            Ok(()) => Refused { number: 0, place: 0 },
            Err(refusal) => Refused { number: refusal.number(), place: refusal.place as u32 },
        };
        let mut out = vec![before; new];
        assert_eq!((self.proved)(tables, old, &mut out), ours);
        if let Some(at) = out.iter().zip(&expected).position(|(&a, &b)| (self.bits)(a) != (self.bits)(b)) {
            panic!("row {at}: {:?} and not {:?}", out[at], expected[at]);
        }
        ours.number
    }

    fn generated(&self, seed: u64, meshes: usize) {
        let mut random = Random::new(seed);
        let mut seen = [0; 23];
        for _ in 0..meshes {
            let mut tables = lawful(&mut random).into_tables();
            let (mut old, mut new) = (self.lengths)(tables.counts());
            match random.below(12) {
                0 => old -= 1,
                1 => new -= 1,
                2 => new += 1,
                3 | 4 => damage(&mut tables, &mut random),
                _ => (),
            }
            let mut rows: Vec<R> = (0..old).map(|_| (self.row)(&mut random)).collect();
            if let Some(bad) = self.bad.filter(|_| random.one_in(5)) {
                for _ in 0..1 + random.below(3) {
                    let at = random.below(old);
                    rows[at] = bad(&mut random);
                }
            }
            let before = (self.row)(&mut random);
            seen[self.same(&tables, &rows, new, before) as usize] += 1;
        }
        assert!(seen[0] > meshes / 4 && seen[19] > meshes / 50, "{seen:?}");
        assert!(self.bad.is_none() || seen[20] > meshes / 50, "{seen:?}");
    }

    /// A mesh of more than 65,536 quads.
    fn long(&self, seed: u64) {
        let mut random = Random::new(seed);
        let mut tables = ring(260, 256);
        mark_some(&mut tables, 3, &mut random);
        let tables = renumbered(&tables, &mut random);
        let (old, new) = (self.lengths)(tables.counts());
        let rows: Vec<R> = (0..old).map(|_| (self.row)(&mut random)).collect();
        assert_eq!(self.same(&tables, &rows, new, rows[0]), 0);
        // One that cannot be refined.
        let most = ring(2, 131_074);
        let (old, new) = (self.lengths)(most.counts());
        assert_eq!(self.same(&most, &vec![rows[0]; old], new, rows[0]), 13);
    }

    /// Walks of each length, with edges marked in every way.
    fn valences(&self, seed: u64) {
        let mut random = Random::new(seed);
        for n in 2..=64 {
            for every in [1, 2, 8] {
                let mut tables = spindle(n);
                mark_some(&mut tables, every, &mut random);
                let (old, new) = (self.lengths)(tables.counts());
                let rows: Vec<R> = (0..old).map(|_| (self.row)(&mut random)).collect();
                assert_eq!(self.same(&tables, &rows, new, rows[0]), 0);
            }
        }
    }
}

#[test]
fn coordinates() {
    COORDINATES.generated(401, 6_000);
    COORDINATES.valences(402);
    COORDINATES.long(403);
}

#[test]
fn influences() {
    INFLUENCES.generated(411, 6_000);
    INFLUENCES.valences(412);
    INFLUENCES.long(413);
}

#[test]
fn textures() {
    TEXTURES.generated(421, 4_000);
    TEXTURES.long(423);
}

#[test]
fn colours() {
    COLOURS.generated(431, 4_000);
    COLOURS.long(433);
}
