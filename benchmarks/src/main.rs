//! Times the proved code and plain Rust on the same meshes in one process, one after the other, and prints the ratios.

mod plain;
#[path = "../../compare/tests/exported/proved.rs"]
#[allow(dead_code)]
mod proved;
mod ring;

use compare::random::Random;
use compare::{Counts, Tables};
use std::hint::black_box;
use std::time::Instant;

/// The shapes of the rings, and how often each job is timed.
const RINGS: [(usize, usize, u32); 3] = [(32, 32, 2_000), (256, 256, 80), (512, 512, 40)];

const MARK: u32 = 7;

/// Nanoseconds.
#[derive(Clone, Copy)]
struct Times {
    ours: f64,
    plain: f64,
}

impl Times {
    /// What is left of each without another job that it includes.
    fn less(self, other: Times) -> Times {
        Times { ours: self.ours - other.ours, plain: self.plain - other.plain }
    }
}

/// The best of some runs of each, by turns, after one that is not counted.
fn best(rounds: u32, mut ours: impl FnMut(), mut plain: impl FnMut()) -> Times {
    let once = |job: &mut dyn FnMut()| {
        let began = Instant::now();
        job();
        began.elapsed().as_nanos() as f64
    };
    let mut times = Times { ours: f64::INFINITY, plain: f64::INFINITY };
    for round in 0..=rounds {
        let (a, b) = (once(&mut ours), once(&mut plain));
        if round > 0 {
            times = Times { ours: times.ours.min(a), plain: times.plain.min(b) };
        }
    }
    times
}

fn row(job: &str, quads: usize, times: Times) {
    let each = |time: f64| time / quads as f64;
    println!(
        "{job:<38} {quads:>8} {:>9.2} {:>9.2} {:>7.2}",
        each(times.ours),
        each(times.plain),
        times.ours / times.plain
    );
}

fn main() {
    println!("{:<38} {:>8} {:>9} {:>9} {:>7}", "job", "quads", "ours ns", "Rust ns", "ratio");
    for (a, b, rounds) in RINGS {
        let mesh = ring::ring(a, b);
        time_tables(&mesh, rounds);
        time_text(&mesh, rounds);
        println!();
    }
}

/// Judging, loading, refining and carrying values.
fn time_tables(mesh: &Tables, rounds: u32) {
    let counts = mesh.counts();
    let Counts { quads, points } = counts;
    let mut ours = vec![1u32; 44 * quads + 3 * points];
    let mut plain = ours.clone();
    let mut level = vec![0; 35 * quads + points];
    proved::refine(&mut ours, MARK, mesh, 1, &mut level);
    plain::load(&mut plain, mesh).unwrap();
    plain::refine(&mut plain, counts).unwrap();
    assert!(level == plain[..level.len()] && level == ours[..level.len()], "other levels");

    let judge = best(
        rounds,
        || assert_eq!(proved::judge(black_box(mesh)).number, 0),
        || compare::judge::judge(black_box(mesh)).unwrap(),
    );
    let load = best(
        rounds,
        || assert_eq!(proved::refine(&mut ours, MARK, black_box(mesh), 0, &mut []).number, 0),
        || assert_eq!(plain::load(&mut plain, black_box(mesh)).unwrap(), counts),
    );
    let refine = best(
        rounds,
        || assert_eq!(proved::refine(&mut ours, MARK, black_box(mesh), 1, &mut []).number, 0),
        || {
            plain::load(&mut plain, black_box(mesh)).unwrap();
            assert_eq!(plain::refine(&mut plain, counts).unwrap(), counts.refined());
        },
    );
    row("judge", quads, judge);
    row("load", quads, load);
    row("refine, less load", quads, refine.less(load));

    let mut random = Random::new(7);
    let rows: Vec<[i32; 3]> =
        (0..points).map(|_| [0; 3].map(|_| random.between(-16_777_216, 16_777_216) as i32)).collect();
    let mut ours = vec![[1; 3]; points + 3 * quads];
    let mut plain = ours.clone();
    let values = best(
        rounds,
        || assert_eq!(proved::coordinates(black_box(mesh), &rows, &mut ours).number, 0),
        || plain::coordinates(black_box(mesh), &rows, &mut plain).unwrap(),
    );
    assert!(ours == plain, "other coordinates");
    row("values of coordinates, less judge", quads, values.less(judge));

    let rows: Vec<[u8; 3]> = (0..4 * quads).map(|_| [0; 3].map(|_| random.word() as u8)).collect();
    let mut ours = vec![[1; 3]; 16 * quads];
    let mut plain = ours.clone();
    let corners = best(
        rounds,
        || assert_eq!(proved::colours(black_box(mesh), &rows, &mut ours).number, 0),
        || plain::colours(black_box(mesh), &rows, &mut plain).unwrap(),
    );
    assert!(ours == plain, "other colours");
    row("corners of colours, less judge", quads, corners.less(judge));
}

/// Reading and writing.
fn time_text(mesh: &Tables, rounds: u32) {
    let counts = mesh.counts();
    let Counts { quads, points } = counts;
    let text = compare::text::write(mesh).into_bytes();
    let mut ours = Tables::blank(counts);
    let mut plain = Tables::blank(counts);
    let read = best(
        rounds,
        || assert_eq!(proved::read(black_box(&text), &mut ours).number, 0),
        || assert_eq!(plain::read(black_box(&text), &mut plain).unwrap(), counts),
    );
    assert!(ours == *mesh && plain == *mesh, "other tables");
    row("read text", quads, read);

    let mut words = vec![1u32; 8 * quads + points];
    let mut plain_words = words.clone();
    let mut ours = vec![1u8; text.len()];
    let mut plain = ours.clone();
    let load = best(
        rounds,
        || assert_eq!(proved::refine(&mut words, MARK, black_box(mesh), 0, &mut []).number, 0),
        || assert_eq!(plain::load(&mut plain_words, black_box(mesh)).unwrap(), counts),
    );
    let write = best(
        rounds,
        || assert_eq!(proved::write(&mut words, MARK, black_box(mesh), &mut ours).count, text.len()),
        || {
            plain::load(&mut plain_words, black_box(mesh)).unwrap();
            assert_eq!(plain::write(&plain_words, counts, &mut plain).unwrap(), text.len());
        },
    );
    assert!(ours == text && plain == text, "other bytes");
    row("write text, less load", quads, write.less(load));
}
