// The largest legal case: a table of 64 states, 128 edges of 16 actions and 2,048 code words, the same with its registers named otherwise,
// and their list of 512 paths of 32 edges.

// Numbers that look like chance and are the same every time.
struct Chance(u32);

impl Chance {
    fn next(&mut self) -> u32 {
        self.0 = self.0.wrapping_mul(1_664_525).wrapping_add(1_013_904_223);
        self.0
    }
}

// Expression e of the 32 that fill the code area, 64 words each: every eighth is 62 negations of a variable, the others are a number and
// fifteen variables added up, five of them multiplied, and the whole negated twice. Variable v of the table is register `register(v)`.
fn expression(e: u32, register: fn(u32) -> u32) -> Vec<u32> {
    if e % 8 == 7 {
        let mut words = vec![5; 62];
        words.extend([1, register(e % 15)]);
        return words;
    }
    let mut chance = Chance(e + 1);
    let mut words = vec![5, 5];
    for v in 0..15 {
        words.push(2);
        if v % 3 == e % 3 {
            words.extend([4, 0, chance.next()]);
        }
        words.extend([1, register((v + e) % 15)]);
    }
    words.extend([0, chance.next()]);
    words
}

// A table of 64 states in a ring, each the way to the next: the last of every four is a test whose two edges have other actions, the others
// are steps. An edge has 16 actions: a read, and assigns of all other variables; on the first 16 edges of each half, four of them are writes.
fn ring(register: fn(u32) -> u32) -> Vec<u32> {
    let mut states = Vec::new();
    let mut edges = Vec::new();
    let mut actions = Vec::new();
    let mut code = Vec::new();
    for s in 0..64u32 {
        let starts = [64 * (s % 32), 64 * (s * 5 % 32 ^ 1)];
        states.extend(if s % 4 == 3 { [2 + s % 3, starts[0], starts[1], s, 64 + s] } else { [1, 0, 0, s, 0] });
    }
    for e in 0..128u32 {
        let (s, taken) = (e % 64, e / 64);
        let writing = s % 32 < 16;
        edges.extend([(s + 1) % 64, 16 * (2 * (s % 8) + taken + if writing { 16 } else { 0 }), 16]);
    }
    for group in 0..32u32 {
        for k in 0..16u32 {
            let start = 64 * ((group * 7 + k * 3) % 32);
            match k {
                15 => actions.extend([1, group / 2 % 4, register(15)]),
                11..=14 if group >= 16 => actions.extend([2, k - 11, start]),
                _ => actions.extend([0, register(k), start]),
            }
        }
    }
    for e in 0..32 {
        code.extend(expression(e, register));
    }
    let (s, e, a, n) = (64, 128, 512, code.len() as u32);
    let at = [10, 10 + 5 * s, 10 + 5 * s + 3 * e, 10 + 5 * s + 3 * e + 3 * a];
    let mut table = vec![1, at[3] + n, s, at[0], e, at[1], a, at[2], n, at[3]];
    for area in [states, edges, actions, code] {
        table.extend(area);
    }
    table
}

// The correspondence of the ring with itself, its registers named otherwise: the pairs of states 0 and 32, each with 256 paths of 32 edges to
// the other, one for every outcome of the 8 tests between them, the true one first. All but the register of reads are linked.
fn rings_list(register: fn(u32) -> u32) -> Vec<u32> {
    let (p, l, t) = (2, 15, 512);
    let at = [8, 8 + 6 * p, 8 + 6 * p + 2 * l];
    let mut list = vec![2, at[2] + 6 * t, p, at[0], l, at[1], t, at[2]];
    list.extend([0, 0, 0, 15, 0, 256, 32, 32, 0, 15, 256, 256]);
    for v in 0..15 {
        list.extend([v, register(v)]);
    }
    for path in 0..512u32 {
        let outcome = 255 - path % 256;
        let choices: u32 = (0..8).map(|test| (outcome >> (7 - test) & 1) << (4 * test + 3)).sum();
        list.extend([32, choices, 32, choices, 1 - path / 256, 0]);
    }
    list
}

fn drawn(v: u32) -> u32 {
    v
}

fn renamed(v: u32) -> u32 {
    15 - v
}

// The two tables and their list.
pub fn largest() -> [Vec<u32>; 3] {
    [ring(drawn), ring(renamed), rings_list(renamed)]
}
