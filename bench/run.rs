// A table run by the proved library and by plain Rust, measured in one run. The plain run is written from the paper's rules: it reads the
// records and the prefix words of the image as they stand, and takes a checked table and right input for granted. Both are given the same
// input and a buffer of the same words, already touched; the best of five counts.
use std::time::Instant;

extern "C" {
    fn sandulipaw_run(
        table: *const u32, table_len: usize,
        input: *const u32, input_len: usize,
        limit: u32,
        out: *mut u32, out_len: usize,
        answer: *mut u64,
    );
}

// The meter table of the paper.
const METER: [u32; 53] = [
    1, 53, 2, 10, 3, 20, 5, 29, 9, 44, 1, 0, 0, 0, 0, 3, 0, 2, 1, 2, 1, 0, 1, 0, 1, 2, 0, 3, 2, 1, 0, 0, 2, 1, 4, 2, 0, 6, 2, 1, 2, 2, 0, 0,
    1, 0, 0, 0, 0, 1, 5, 1, 0,
];

// 64 states, each a test between two edges to the next state; 128 edges of 16 actions: thirteen assigns, a read and two writes, each
// expression the sum of a product and a variable, 8 words.
fn wide() -> Vec<u32> {
    let mut states = Vec::new();
    let mut edges = Vec::new();
    let mut actions = Vec::new();
    let mut code = Vec::new();
    for e in 0..256u32 {
        code.extend([2, 4, 1, e % 14, 0, e * 2_654_435 + 1, 1, (e * 5 + 3) % 14]);
    }
    for s in 0..64u32 {
        states.extend([2 + s % 3, 8 * (s * 3 % 256), 8 * (s * 7 % 256), s, 64 + s]);
    }
    for e in 0..128u32 {
        edges.extend([(e % 64 + 1) % 64, 16 * (e % 32), 16]);
    }
    for a in 0..512u32 {
        let (range, k) = (a / 16, a % 16);
        let start = 8 * ((range * 16 + k * 3) % 256);
        match k {
            0..=12 => actions.extend([0, k, start]),
            13 => actions.extend([1, 0, 13]),
            _ => actions.extend([2, k - 14, start]),
        }
    }
    let (s, e, a, n) = (64, 128, 512, code.len() as u32);
    let at = [10, 10 + 5 * s, 10 + 5 * s + 3 * e, 10 + 5 * s + 3 * e + 3 * a];
    let mut table = vec![1, at[3] + n, s, at[0], e, at[1], a, at[2], n, at[3]];
    for area in [states, edges, actions, code] {
        table.extend(area);
    }
    table
}

// The answer's 22 numbers.
type Answer = [u64; 22];

fn value(code: &[u32], at: &mut usize, variables: &[u32; 16]) -> u32 {
    let kind = code[*at];
    *at += 1;
    match kind {
        0 | 1 => {
            let word = code[*at];
            *at += 1;
            if kind == 0 { word } else { variables[word as usize] }
        }
        5 => value(code, at, variables).wrapping_neg(),
        _ => {
            let left = value(code, at, variables);
            let right = value(code, at, variables);
            match kind {
                2 => left.wrapping_add(right),
                3 => left.wrapping_sub(right),
                _ => left.wrapping_mul(right),
            }
        }
    }
}

fn plain(table: &[u32], input: &[u32], limit: u32, out: &mut [u32]) -> Answer {
    let mut ports: [Vec<u32>; 4] = Default::default();
    for couple in input.chunks_exact(2) {
        ports[couple[0] as usize].push(couple[1]);
    }
    let (edges, actions) = (table[5] as usize, table[7] as usize);
    let code = &table[table[9] as usize..];
    let worth = |start: u32, variables: &[u32; 16]| value(code, &mut (start as usize), variables);
    let mut variables = [0u32; 16];
    let mut taken = [0usize; 4];
    let (mut written, mut state, mut done) = (0usize, 0u32, 0u32);
    let number = loop {
        let s = &table[10 + 5 * state as usize..][..5];
        if s[0] == 0 {
            break 20;
        }
        if done == limit {
            break 21;
        }
        let choice = s[0] == 1 || {
            let (left, right) = (worth(s[1], &variables), worth(s[2], &variables));
            match s[0] {
                2 => left == right,
                3 => (left as i32) < (right as i32),
                _ => left < right,
            }
        };
        let edge = &table[edges + 3 * (if choice { s[3] } else { s[4] }) as usize..][..3];
        let acts = table[actions + 3 * edge[1] as usize..][..3 * edge[2] as usize].chunks_exact(3);
        let mut need = taken;
        let mut writes = 0;
        for a in acts.clone() {
            match a[0] {
                1 => need[a[1] as usize] += 1,
                2 => writes += 2,
                _ => {}
            }
        }
        if (0..4).any(|p| need[p] > ports[p].len()) {
            break 22;
        }
        if out.len() - written < writes {
            break 23;
        }
        let before = variables;
        for a in acts {
            match a[0] {
                0 => variables[a[1] as usize] = worth(a[2], &before),
                1 => {
                    let port = a[1] as usize;
                    variables[a[2] as usize] = ports[port][taken[port]];
                    taken[port] += 1;
                }
                _ => {
                    out[written] = a[1];
                    out[written + 1] = worth(a[2], &before);
                    written += 2;
                }
            }
        }
        state = edge[0];
        done += 1;
    };
    let mut answer = [0u64; 22];
    answer[0] = number;
    answer[3] = state as u64;
    answer[4] = done as u64;
    answer[5] = written as u64 / 2;
    for (k, v) in variables.iter().enumerate() {
        answer[6 + k] = *v as u64;
    }
    answer
}

fn proved(table: &[u32], input: &[u32], limit: u32, out: &mut [u32]) -> Answer {
    let mut answer = [0u64; 22];
    unsafe {
        sandulipaw_run(table.as_ptr(), table.len(), input.as_ptr(), input.len(), limit, out.as_mut_ptr(), out.len(), answer.as_mut_ptr());
    }
    answer
}

// Couples of port 0 and words that come from a small generator.
fn couples(n: usize) -> Vec<u32> {
    let mut seed = 12345u32;
    let mut input = Vec::with_capacity(2 * n);
    for _ in 0..n {
        seed = seed.wrapping_mul(1_664_525).wrapping_add(1_013_904_223);
        input.extend([0, seed]);
    }
    input
}

type Run = fn(&[u32], &[u32], u32, &mut [u32]) -> Answer;

// Seconds of the quickest of five runs, with its answer and its buffer.
fn best(run: Run, table: &[u32], input: &[u32], room: usize) -> (f64, Answer, Vec<u32>) {
    let mut out = vec![7u32; room];
    let mut least = f64::MAX;
    let mut answer = [0; 22];
    for _ in 0..5 {
        out.fill(7);
        let from = Instant::now();
        answer = run(table, input, u32::MAX, &mut out);
        least = least.min(from.elapsed().as_secs_f64());
    }
    (least, answer, out)
}

// Measures a table on n couples of input and prints a row; `room` is the words of the buffer for each couple of input.
fn row(name: &str, table: &[u32], n: usize, room: usize) {
    let input = couples(n);
    let (ours, a, x) = best(proved, table, &input, room * n);
    let (theirs, b, y) = best(plain, table, &input, room * n);
    if a != b || x != y {
        println!("{name}: the two runs differ: {a:?} and {b:?}");
        std::process::exit(1);
    }
    let edges = a[4] as f64;
    println!(
        "{name:<44} {n:>9} {:>9} {:>12.2} {:>12.2} {:>7.2}",
        a[4], edges / ours / 1e6, edges / theirs / 1e6, ours / theirs
    );
}

fn main() {
    println!("{:<44} {:>9} {:>9} {:>12} {:>12} {:>7}", "table", "couples", "edges", "proved", "plain", "ratio");
    println!("{:<44} {:>9} {:>9} {:>12} {:>12} {:>7}", "", "of input", "done", "million/s", "million/s", "of time");
    for n in [250_000, 500_000, 1_000_000] {
        row("the meter", &METER, n, 4);
    }
    let wide = wide();
    for n in [50_000, 100_000, 200_000] {
        row("64 states, 16 actions an edge", &wide, n, 4);
    }
}
