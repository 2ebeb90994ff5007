// The proved library beside the reference, measured in one run. Both are given the same words and a buffer of the same words, already
// touched; the best of seven counts, the two by turns, each measured over enough repetitions to last.
// Usage: ratios EXAMPLES, the folder of the pump's tables.
#[path = "largest.rs"]
mod largest;
#[path = "../tests/differential/machine.rs"]
#[allow(dead_code)]
mod machine;
#[path = "../tests/reference/reference.rs"]
mod reference;

use machine::{table_of, two, Act, Edge, Expr, List, Machine, Rng, State, PRODUCT, SUM};
use std::time::Instant;

extern "C" {
    fn sandulipaw_run(
        table: *const u32, table_len: usize,
        input: *const u32, input_len: usize,
        limit: u32,
        out: *mut u32, out_len: usize,
        answer: *mut u64,
    );
    fn sandulipaw_judge(
        first: *const u32, first_len: usize,
        second: *const u32, second_len: usize,
        list: *const u32, list_len: usize,
        answer: *mut u64,
    );
}

// The meter table of the paper, and its list.
const METER: [u32; 53] = [
    1, 53, 2, 10, 3, 20, 5, 29, 9, 44, 1, 0, 0, 0, 0, 3, 0, 2, 1, 2, 1, 0, 1, 0, 1, 2, 0, 3, 2, 1, 0, 0, 2, 1, 4, 2, 0, 6, 2, 1, 2, 2, 0, 0,
    1, 0, 0, 0, 0, 1, 5, 1, 0,
];
const METER_LIST: [u32; 26] = [2, 26, 1, 8, 0, 14, 2, 14, 0, 0, 0, 0, 0, 2, 2, 2, 2, 2, 0, 0, 2, 0, 2, 0, 0, 0];

// Seconds that a part of a measurement lasts at least.
const LASTS: f64 = 0.004;

// Seconds of one call of each, the best of seven, by turns.
fn best(mut ours: impl FnMut(), mut theirs: impl FnMut()) -> (f64, f64) {
    let time = |f: &mut dyn FnMut(), times: u32| {
        let from = Instant::now();
        (0..times).for_each(|_| f());
        from.elapsed().as_secs_f64() / times as f64
    };
    let times = (LASTS / time(&mut theirs, 1).max(1e-8)).ceil().max(1.0) as u32;
    let mut least = (f64::MAX, f64::MAX);
    for _ in 0..7 {
        least.0 = least.0.min(time(&mut ours, times));
        least.1 = least.1.min(time(&mut theirs, times));
    }
    least
}

fn row(name: &str, size: String, (ours, theirs): (f64, f64)) {
    println!("{name:<46} {size:>22} {:>13.2} {:>13.2} {:>7.2}", ours * 1e6, theirs * 1e6, ours / theirs);
}

fn same<T: PartialEq + std::fmt::Debug>(name: &str, ours: T, theirs: T) {
    if ours != theirs {
        println!("{name}: the answers differ: {ours:?} and {theirs:?}");
        std::process::exit(1);
    }
}

fn judge(name: &str, images: [&[u32]; 3], size: String) {
    let [a, b, c] = images;
    let mut answer = [0u64; 3];
    let mut ours = || unsafe { sandulipaw_judge(a.as_ptr(), a.len(), b.as_ptr(), b.len(), c.as_ptr(), c.len(), answer.as_mut_ptr()) };
    ours();
    let theirs = || {
        std::hint::black_box(reference::judge(std::hint::black_box(a), b, c));
    };
    let times = best(&mut ours, theirs);
    same(name, answer, reference::judge(a, b, c).map(u64::from));
    row(name, format!("{size}: {}", answer[0]), times);
}

fn run(name: &str, table: &[u32], input: &[u32], limit: u32, room: usize) {
    let (mut out, mut other) = (vec![7u32; room], vec![7u32; room]);
    let mut answer = [0u64; 22];
    let (t, i) = (table, input);
    let ours = || unsafe {
        sandulipaw_run(t.as_ptr(), t.len(), i.as_ptr(), i.len(), limit, out.as_mut_ptr(), room, answer.as_mut_ptr());
    };
    let theirs = || {
        std::hint::black_box(reference::run(std::hint::black_box(t), i, limit, &mut other));
    };
    let times = best(ours, theirs);
    let (trial, _) = reference::run(t, i, limit, &mut other);
    same(name, [answer[0], answer[3], answer[4], answer[5]], [trial.number as u64, trial.state as u64, trial.edges as u64, trial.couples]);
    same(name, out, other);
    row(name, format!("{} edges: {}", trial.edges, trial.number), times);
}

// The image with its states in their order.
fn image(m: &Machine) -> Vec<u32> {
    let mut all = (0..).map(|k| m.image(&mut Rng::new(k, 0)));
    all.find(|(_, places)| places.iter().enumerate().all(|(i, &p)| i as u32 == p)).unwrap().0
}

// A comb of 32 tests, the false edge of each to the stop 1, with sixteen linear assigns on each true edge; and itself, so many pairs at the
// reset with 33 paths each.
fn comb(pairs: u32) -> ([Vec<u32>; 2], u32) {
    let (mut states, mut edges, mut actions, mut code) = (vec![0; 5 * 33], vec![], vec![], vec![]);
    for v in 0..16 {
        actions.extend([0, v, 8 * v]);
        code.extend([2, 4, 0, 3, 1, v, 1, (v + 1) % 16]);
    }
    actions.extend([2, 0, 4]);
    let at = |k: u32| if k == 0 { 0 } else if k == 32 { 1 } else { k + 1 };
    for k in 0..32 {
        states[5 * at(k) as usize..][..5].copy_from_slice(&[3, 8 * (k % 16) + 4, 2, 2 * k, 2 * k + 1]);
        edges.extend([at(k + 1), 0, 16, 1, 16, 1]);
    }
    let table = table_of(&states, &edges, &actions, &code);
    let mut list = List { links: (0..16).map(|v| [v, v]).collect(), ..List::default() };
    for p in 0..pairs {
        list.pairs.push([0, 0, 0, 16, 33 * p, 33]);
        list.paths.push([32, u32::MAX, 32, u32::MAX, pairs, 0]);
        list.paths.extend((0..32).rev().map(|k| [k + 1, (1u32 << k) - 1, k + 1, (1u32 << k) - 1, pairs, 0]));
    }
    list.pairs.push([1, 1, 0, 16, 0, 0]);
    ([table, list.image()], 33 * pairs)
}

// 64 states, each a test between two edges to the next state; 128 edges of 16 actions: thirteen assigns, a read and two writes, each
// expression the sum of a product and a variable; and its list with itself, a pair for each state and a path for each edge.
fn wide() -> [Vec<u32>; 2] {
    let (mut states, mut edges, mut actions, mut code) = (vec![], vec![], vec![], vec![]);
    for e in 0..256u32 {
        code.extend([2, 4, 1, e % 14, 0, e * 2_654_435 + 1, 1, (e * 5 + 3) % 14]);
    }
    for s in 0..64u32 {
        states.extend([2 + s % 3, 8 * (s * 3 % 256), 8 * (s * 7 % 256), s, 64 + s]);
    }
    for e in 0..128u32 {
        edges.extend([(e % 64 + 1) % 64, 16 * (e % 32), 16]);
    }
    for a in 0..512u32 {
        let (range, k) = (a / 16, a % 16);
        let start = 8 * ((range * 16 + k * 3) % 256);
        actions.extend(match k {
            0..=12 => [0, k, start],
            13 => [1, 0, 13],
            _ => [2, k - 14, start],
        });
    }
    let mut list = List { links: (0..16).map(|v| [v, v]).collect(), ..List::default() };
    for s in 0..64 {
        list.pairs.push([s, s, 0, 16, 2 * s, 2]);
        list.paths.extend([1, 0].map(|side| [1, side, 1, side, (s + 1) % 64, 0]));
    }
    [table_of(&states, &edges, &actions, &code), list.image()]
}

// One step over and over, with so many assigns of the sum of a product and a variable.
fn straight(assigns: u32) -> Vec<u32> {
    let value = |v: u32| two(SUM, two(PRODUCT, Expr::Variable(v), Expr::Constant(5)), Expr::Variable((v + 1) % 16));
    let acts = (0..assigns).map(|v| Act::Assign(v, value(v))).collect();
    image(&Machine { states: vec![State::Step(0)], edges: vec![Edge { target: 0, acts }] })
}

// Couples on ports in turn, with words from a small generator.
fn couples(n: usize, ports: u32, below: u32) -> Vec<u32> {
    let mut rng = Rng::new(1, 1);
    (0..n as u32).flat_map(|k| [k % ports, rng.next() as u32 % below]).collect()
}

fn main() {
    let folder = std::env::args().nth(1).unwrap_or("examples".to_string());
    let example = |name: &str| -> Vec<u32> {
        let text = std::fs::read_to_string(format!("{folder}/{name}.words")).expect("an example");
        text.split_whitespace().map(|w| w.parse().expect("a word")).collect()
    };
    println!("{:<46} {:>22} {:>13} {:>13} {:>7}", "judge", "size: number", "proved us", "reference us", "ratio");
    judge("the meter with itself", [&METER, &METER, &METER_LIST], "2 paths".to_string());
    let (drawn, scheduled, listed) = (example("drawn"), example("scheduled"), example("list"));
    judge("the pump", [&drawn, &scheduled, &listed], "4 paths".to_string());
    judge("the pump, its count lost", [&drawn, &example("count_lost"), &listed], "4 paths".to_string());
    let [table, identity] = wide();
    judge("64 states, 16 actions an edge, with itself", [&table, &table, &identity], "128 paths".to_string());
    let [first, second, list] = largest::largest();
    judge("the largest: paths of 32 edges, 16 terms", [&first, &second, &list], "512 paths".to_string());
    for pairs in [1, 2, 4, 8, 15] {
        let ([table, list], paths) = comb(pairs);
        judge("32 tests, 16 assigns an edge, with itself", [&table, &table, &list], format!("{paths} paths"));
    }
    println!();
    println!("{:<46} {:>22} {:>13} {:>13} {:>7}", "run", "size: number", "proved us", "reference us", "ratio");
    run("the meter, 2 couples of input", &METER, &[0, 7, 0, 4_294_967_290], 10_000, 4096);
    for n in [1_000, 10_000, 100_000, 500_000] {
        run(&format!("the meter, {n} couples of input"), &METER, &couples(n, 1, u32::MAX), u32::MAX, 4 * n);
    }
    run("the pump, 1000 couples of input", &drawn, &couples(1_000, 2, 3), u32::MAX, 4096);
    run("the scheduled pump, 1000 couples of input", &scheduled, &couples(1_000, 2, 3), u32::MAX, 4096);
    for n in [1_000, 10_000, 50_000] {
        run(&format!("64 states, 16 actions an edge, {n} couples"), &table, &couples(n, 1, u32::MAX), u32::MAX, 4 * n);
    }
    for assigns in [0, 1, 16] {
        run(&format!("straight on, {assigns} assigns an edge"), &straight(assigns), &[], 1_000_000, 0);
    }
    for limit in [1_000, 10_000, 100_000] {
        run("straight on, 1 assigns an edge", &straight(1), &[], limit, 0);
    }
}
