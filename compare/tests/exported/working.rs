//! A bench asked in any order: loads, begins, tasks shuffled and repeated, early finishes, numbers that there are not, withdraws.

use crate::proved;
use crate::refining::copied;
use compare::generate::{damage, lawful};
use compare::random::Random;
use compare::{Bench, Counts, Declined, Refusal, Slip, Tables};

const LOAD: u32 = 0;
const BEGIN: u32 = 1;
const QUAD: u32 = 2;
const POINT: u32 = 3;
const FINISH: u32 = 4;
const WITHDRAW: u32 = 5;

const NO_CALL: [u32; 3] = [0; 3];
const DONE: [u32; 3] = [1, 0, 0];

fn refused(refusal: Refusal) -> [u32; 3] {
    [3, refusal.number(), refusal.place as u32]
}

/// At most `count` words of the store from `at` on.
fn part(store: &[u32], at: usize, count: usize) -> Vec<u32> {
    store.iter().skip(at).take(count).copied().collect()
}

fn ask(bench: &mut Bench, held: &mut Option<Slip>, store: &[u32], row: [u32; 6]) -> [u32; 3] {
    let [kind, words @ ..] = row;
    let [at, corners, friends, marks, starts] = words.map(|word| word as usize);
    let closed = |answer: Result<(), Declined>, held: &mut Option<Slip>| match answer {
        Ok(()) => DONE,
        Err(Declined { refusal, slip }) => {
            *held = Some(slip);
            refused(refusal)
        }
    };
    match (kind, held.take()) {
        (BEGIN, None) => match bench.begin() {
            Ok(slip) => {
                *held = Some(slip);
                DONE
            }
            Err(refusal) => refused(refusal),
        },
        (FINISH, Some(slip)) => closed(bench.finish(slip), held),
        (BEGIN | FINISH, other) => {
            *held = other;
            NO_CALL
        }
        (LOAD, other) => {
            *held = other;
            let tables = Tables {
                corners: part(store, at, corners),
                friends: part(store, at + corners, friends),
                marks: part(store, at + corners + friends, marks),
                starts: part(store, at + corners + friends + marks, starts),
            };
            bench.load(tables).map_or_else(refused, |()| DONE)
        }
        (QUAD | POINT, other) => {
            *held = other;
            let answer = if kind == QUAD { bench.quad(at) } else { bench.point(at) };
            answer.map_or_else(refused, |()| [2, bench.level_in_work().unwrap().tasks_left() as u32, 0])
        }
        (_, Some(slip)) => closed(bench.withdraw(slip), held),
        (_, None) => NO_CALL,
    }
}

/// Works both ways, and counts what was answered, by kind of answer and by number of refusal.
fn same(words: usize, store: &[u32], rows: &[[u32; 6]], answers: usize, room: usize, seen: &mut [usize; 27]) {
    let mark = words as u32 ^ 0x55;
    let (mut bench, mut held) = (Bench::new(words, mark), None);
    let mut expected = vec![[9; 3]; answers];
    for (answer, &row) in expected.iter_mut().zip(rows) {
        *answer = ask(&mut bench, &mut held, store, row);
        let [kind, number, _] = *answer;
        seen[if kind == 3 { 3 + number as usize } else { kind as usize }] += 1;
    }
    if let Some(slip) = held {
        bench.withdraw(slip).unwrap();
    }
    let mut level = vec![0x5eed; room];
    copied(bench.standing().ok().map(|mesh| mesh.tables()), &mut level);

    let mut given = vec![[9; 3]; answers];
    let mut out = vec![0x5eed; room];
    proved::work(&mut vec![0xdead_beef; words], mark, store, rows, &mut given, &mut out);
    if let Some(at) = given.iter().zip(&expected).position(|(a, b)| a != b) {
        panic!("request {at}, {:?}: {:?} and not {:?}", rows[at], given[at], expected[at]);
    }
    assert!(out == level, "another level");
}

/// Tables side by side in a store, with what loads them.
fn laid(store: &mut Vec<u32>, tables: &Tables) -> [u32; 6] {
    let Tables { corners, friends, marks, starts } = tables;
    let at = store.len() as u32;
    [corners, friends, marks, starts].iter().for_each(|table| store.extend(table.iter()));
    [LOAD, at, corners.len() as u32, friends.len() as u32, marks.len() as u32, starts.len() as u32]
}

/// The tasks of a level in some order, some of them again, and now and then one left out or one that there is not.
fn tasks(Counts { quads, points }: Counts, rows: &mut Vec<[u32; 6]>, random: &mut Random) {
    let all = quads + points;
    let mut list = random.order(all);
    list.extend((0..random.below(4)).map(|_| random.clone().below(all)));
    random.shuffle(&mut list);
    if random.one_in(4) {
        list.pop();
    }
    for task in list {
        rows.push(if task < quads {
            [QUAD, task as u32, 0, 0, 0, 0]
        } else {
            [POINT, (task - quads) as u32, 0, 0, 0, 0]
        });
        if random.one_in(60) {
            let past = *random.pick(&[quads, points, all, u32::MAX as usize]) as u32;
            rows.push([*random.pick(&[QUAD, POINT]), past, 0, 0, 0, 0]);
        }
    }
}

fn other(kind: u32) -> [u32; 6] {
    [kind, 0, 0, 0, 0, 0]
}

#[test]
fn chains_of_requests() {
    let mut random = Random::new(601);
    let mut seen = [0; 27];
    for _ in 0..1_500 {
        let mut store = vec![0; random.below(4)];
        let mesh = loop {
            let mesh = lawful(&mut random).into_tables();
            if mesh.counts().quads < 40 {
                break mesh;
            }
        };
        let mut damaged = mesh.clone();
        damage(&mut damaged, &mut random);
        let load = laid(&mut store, &mesh);
        let other_load = laid(&mut store, &damaged);
        let counts = mesh.counts();
        let next = counts.refined();

        let mut rows = vec![];
        if random.one_in(4) {
            rows.extend([BEGIN, QUAD, FINISH, WITHDRAW].map(other));
        }
        rows.push(load);
        if random.one_in(3) {
            rows.push(other_load);
        }
        for level in [counts, next] {
            rows.push(other(BEGIN));
            tasks(level, &mut rows, &mut random);
            match random.below(6) {
                0 => rows.extend([other(WITHDRAW), other(FINISH)]),
                1 => rows.extend([load, other(BEGIN), other(FINISH)]),
                2 => rows.push(other(6 + random.below(9) as u32)),
                _ => rows.push(other(FINISH)),
            }
        }
        // Some requests at random among the others.
        for _ in 0..random.below(6) {
            let at = random.below(rows.len() + 1);
            let mut row = *random.pick(&[
                load,
                other_load,
                other(BEGIN),
                other(FINISH),
                other(WITHDRAW),
                other(QUAD),
                other(POINT),
            ]);
            if row[0] == LOAD && random.one_in(3) {
                row[1 + random.below(5)] = *random.pick(&[0, 1, 4, 1_000, u32::MAX]);
            }
            rows.insert(at, row);
        }
        let most = 44 * next.quads + 3 * next.points;
        let least = 44 * counts.quads + 3 * counts.points;
        let words = *random.pick(&[most, most, least, least - 1, 8 * counts.quads + counts.points - 1]);
        let answers = if random.one_in(8) { random.below(rows.len() + 4) } else { rows.len() };
        let room =
            *random.pick(&[0, 35 * counts.quads + counts.points, 8 * 16 * counts.quads + next.points + 3 * next.quads]);
        same(words, &store, &rows, answers, room, &mut seen);
    }
    for outcome in [0, 1, 2, 3 + 11, 3 + 12, 3 + 14, 3 + 15, 3 + 16, 3 + 18] {
        assert!(seen[outcome] > 20, "{outcome}: {seen:?}");
    }
}

#[test]
fn requests_at_random() {
    let mut random = Random::new(602);
    let mut seen = [0; 27];
    for _ in 0..4_000 {
        let mut store = vec![];
        let mesh = compare::generate::pillow();
        let load = laid(&mut store, &mesh);
        let rows: Vec<[u32; 6]> = (0..60)
            .map(|_| match random.below(12) {
                0 => load,
                1 | 2 => other(BEGIN),
                3 => other(FINISH),
                4 if random.one_in(4) => other(WITHDRAW),
                5..=8 => [POINT, random.below(5) as u32, 0, 0, 0, 0],
                _ => [QUAD, random.below(3) as u32, 0, 0, 0, 0],
            })
            .collect();
        same(382, &store, &rows, 60, 352, &mut seen);
    }
    assert!(seen[1] > 1_000 && seen[2] > 1_000 && seen[3 + 18] > 100, "{seen:?}");
}
