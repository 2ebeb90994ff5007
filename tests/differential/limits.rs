// Every limit of the paper, at it and one over, with the number that is the answer.
use crate::machine::{table_of, two, Act, Edge, Expr, List, Machine, Rng, State, PRODUCT, SUM};

// Three images and the answer's number.
pub struct Limit {
    pub name: String,
    pub images: [Vec<u32>; 3],
    pub number: u32,
}

const STOP: [u32; 5] = [0; 5];

fn lone_stops() -> (Vec<u32>, Vec<u32>) {
    (table_of(&STOP, &[], &[], &[]), List { pairs: vec![[0; 6]], ..List::default() }.image())
}

// A machine and itself, with one path for each list of choices from the reset to the stop 1, no links.
fn one_way(m: &Machine, paths: &[[u32; 2]]) -> [Vec<u32>; 3] {
    let (image, _) = plain(m);
    let list = List {
        pairs: vec![[0, 0, 0, 16, 0, paths.len() as u32], [1, 1, 0, 0, 0, 0]],
        links: (0..16).map(|v| [v, v]).collect(),
        paths: paths.iter().map(|&[n, c]| [n, c, n, c, 1, 0]).collect(),
    };
    [image.clone(), image, list.image()]
}

// An image with the records as they stand and nothing shared.
fn plain(m: &Machine) -> (Vec<u32>, Vec<u32>) {
    (0..).map(|k| m.image(&mut Rng::new(k, 0))).find(|(_, places)| places.iter().enumerate().all(|(i, &p)| i as u32 == p)).unwrap()
}

// From the reset by edges with these actions to the stop 1.
fn chain(edges: Vec<Vec<Act>>) -> Machine {
    let last = edges.len() - 1;
    let mut m = Machine { states: vec![State::Step(0), State::Stop], edges: vec![] };
    for (i, acts) in edges.into_iter().enumerate() {
        if i > 0 {
            m.states.push(State::Step(i));
        }
        let target = if i == last { 1 } else { i + 2 };
        m.edges.push(Edge { target, acts });
    }
    m
}

fn sum_of(mut parts: Vec<Expr>) -> Expr {
    let mut sum = parts.pop().unwrap();
    while let Some(e) = parts.pop() {
        sum = two(SUM, e, sum);
    }
    sum
}

fn variables(n: u32) -> Vec<Expr> {
    (0..n).map(Expr::Variable).collect()
}

fn assign(e: Expr) -> Vec<Act> {
    vec![Act::Assign(0, e)]
}

// An expression of so many words: negations before a constant.
fn long(words: usize) -> Vec<u32> {
    let mut code = vec![5; words - 2];
    code.extend([0, 9]);
    code
}

fn tables(put: &mut impl FnMut(&str, Vec<u32>, u32)) {
    for (name, count, number) in [("64 states", 64, 0), ("65 states", 65, 1)] {
        put(name, table_of(&STOP.repeat(count), &[], &[], &[]), number);
    }
    put("no states", table_of(&[], &[], &[], &[]), 1);
    for (name, count, number) in [("128 edges", 128, 0), ("129 edges", 129, 1)] {
        put(name, table_of(&STOP, &[0; 3].repeat(count), &[], &[]), number);
    }
    for (name, count, number) in [("512 actions", 512, 0), ("513 actions", 513, 1)] {
        put(name, table_of(&STOP, &[], &[1, 3, 15].repeat(count), &[]), number);
    }
    for (name, count, number) in [("2048 words of code", 2048, 0), ("2049 words of code", 2049, 1)] {
        put(name, table_of(&STOP, &[], &[], &vec![9; count]), number);
    }
    for (name, words, number) in [("64 words", 64, 0), ("65 words", 65, 5)] {
        put(&format!("an assign of {name}"), table_of(&STOP, &[], &[0, 0, 0], &long(words)), number);
        put(&format!("a write of {name}"), table_of(&STOP, &[], &[2, 0, 0], &long(words)), number);
        let states = [STOP, [2, 0, words as u32, 0, 0]].concat();
        put(&format!("a test of {name}"), table_of(&states, &[0; 3], &[], &[long(words), vec![0, 0]].concat()), number);
    }
    let ends = [("to the code's end", 0, vec![5, 0, 7], 0), ("past the code's end", 0, vec![5, 0], 5), ("from the code's end", 2, vec![0, 7], 5)];
    for (name, start, code, number) in ends {
        put(&format!("an expression {name}"), table_of(&STOP, &[], &[2, 0, start], &code), number);
    }
    for (name, count, number) in [("16 actions", 16, 0), ("17 actions", 17, 4)] {
        put(&format!("an edge of {name}"), table_of(&STOP, &[0, 0, count], &[2, 0, 0].repeat(17), &[0, 0]), number);
    }
    let ranges = [("to the end", 2, 1, 0), ("past the end", 3, 1, 4), ("none at the end", 3, 0, 0), ("none past it", 4, 0, 4), ("wrapping", u32::MAX, 1, 4)];
    for (name, start, count, number) in ranges {
        put(&format!("an edge's actions {name}"), table_of(&STOP, &[0, start, count], &[2, 0, 0].repeat(3), &[0, 0]), number);
    }
    for (name, target, number) in [("the last state", 1, 0), ("behind it", 2, 4)] {
        put(&format!("an edge to {name}"), table_of(&STOP.repeat(2), &[target, 0, 0], &[], &[]), number);
    }
    for (name, edge, number) in [("the last edge", 0, 0), ("behind it", 1, 2)] {
        put(&format!("a true edge {name}"), table_of(&[STOP, [1, 0, 0, edge, 0]].concat(), &[0; 3], &[], &[]), number);
        put(&format!("a false edge {name}"), table_of(&[STOP, [4, 0, 0, 0, edge]].concat(), &[0; 3], &[], &[0, 0]), number);
    }
    for (name, kind, number) in [("kind 4", 4, 0), ("kind 5", 5, 2)] {
        put(&format!("a state of {name}"), table_of(&[STOP, [kind, 0, 0, 0, 0]].concat(), &[0; 3], &[], &[0, 0]), number);
    }
    for (v, number) in [(15, 0), (16, 3)] {
        put(&format!("an assign to {v}"), table_of(&STOP, &[], &[0, v, 0], &[0, 0]), number);
        put(&format!("a read into {v}"), table_of(&STOP, &[], &[1, 0, v], &[]), number);
        put(&format!("a value of {v}"), table_of(&STOP, &[], &[2, 0, 0], &[1, v]), if v == 16 { 5 } else { 0 });
    }
    for (port, number) in [(3, 0), (4, 3)] {
        put(&format!("a read on port {port}"), table_of(&STOP, &[], &[1, port, 0], &[]), number);
        put(&format!("a write on port {port}"), table_of(&STOP, &[], &[2, port, 0], &[0, 0]), number);
    }
    for (kind, number) in [(2, 0), (3, 3)] {
        put(&format!("an action of kind {kind}"), table_of(&STOP, &[], &[kind, 0, 0], &[0, 0]), number);
    }
    for (kind, number) in [(5, 0), (6, 5)] {
        put(&format!("code of kind {kind}"), table_of(&STOP, &[], &[0, 0, 0], &[kind, 0, 0]), number);
    }
    let sets = [("an assign and a read", [0, 3, 0, 1, 0, 3], 4), ("two reads", [1, 0, 3, 1, 1, 3], 4), ("a read and a write", [1, 0, 3, 2, 3, 0], 0)];
    for (name, acts, number) in sets {
        put(&format!("3 set by {name}"), table_of(&STOP, &[0, 0, 2], &acts, &[0, 0]), number);
    }
}

fn lists(put: &mut impl FnMut(&str, List, u32)) {
    let pair = [0u32; 6];
    for (count, number) in [(64, 0), (65, 6), (0, 6)] {
        put(&format!("{count} pairs"), List { pairs: vec![pair; count], ..List::default() }, number);
    }
    for (count, number) in [(1024, 0), (1025, 6)] {
        put(&format!("{count} links"), List { pairs: vec![pair], links: vec![[15, 15]; count], ..List::default() }, number);
    }
    for (count, number) in [(512, 0), (513, 6)] {
        put(&format!("{count} paths"), List { pairs: vec![pair], paths: vec![[1, 0, 1, 0, 0, 0]; count], ..List::default() }, number);
    }
    for (v, number) in [(15, 0), (16, 7)] {
        put(&format!("a link of {v}"), List { pairs: vec![pair], links: vec![[v, 0]], ..List::default() }, number);
        put(&format!("a link with {v}"), List { pairs: vec![pair], links: vec![[0, v]], ..List::default() }, number);
    }
    let paths = [
        ("32 edges", [32, u32::MAX, 32, u32::MAX, 0, 0], 0),
        ("33 edges", [33, 0, 1, 0, 0, 0], 8),
        ("33 second edges", [1, 0, 33, 0, 0, 0], 8),
        ("no edges", [0, 0, 1, 0, 0, 0], 8),
        ("no second edges", [1, 0, 0, 0, 0, 0], 8),
        ("the last choice", [31, 1 << 30, 31, 1 << 30, 0, 0], 0),
        ("a choice past the length", [31, 1 << 31, 31, 0, 0, 0], 8),
        ("a second choice past the length", [31, 0, 31, 1 << 31, 0, 0], 8),
        ("the last pair", [1, 0, 1, 0, 0, 0], 0),
        ("a pair behind it", [1, 0, 1, 0, 1, 0], 8),
        ("mark 1", [1, 0, 0, 0, 0, 1], 0),
        ("mark 1 and a length", [1, 0, 1, 0, 0, 1], 8),
        ("mark 1 and choices", [1, 0, 0, 1, 0, 1], 8),
        ("mark 2", [1, 0, 1, 0, 0, 2], 8),
    ];
    for (name, path, number) in paths {
        put(&format!("a path of {name}"), List { pairs: vec![pair], paths: vec![path], ..List::default() }, number);
    }
    let ranges = [
        ("no links at the end", [0, 0, 2, 0, 0, 0], 0),
        ("no links past it", [0, 0, 3, 0, 0, 0], 9),
        ("links past the end", [0, 0, 1, 2, 0, 0], 9),
        ("links that wrap", [0, 0, u32::MAX, 1, 0, 0], 9),
        ("no paths at the end", [0, 0, 0, 2, 1, 0], 0),
        ("no paths past it", [0, 0, 0, 2, 2, 0], 9),
        ("paths that wrap", [0, 0, 0, 2, u32::MAX, 1], 9),
        ("a path at stops", [0, 0, 0, 2, 0, 1], 11),
        ("a first state behind the last", [1, 0, 0, 0, 0, 0], 9),
        ("a second state behind the last", [0, 1, 0, 0, 0, 0], 9),
    ];
    for (name, pair, number) in ranges {
        put(name, List { pairs: vec![[0; 6], pair], links: vec![[0, 0], [0, 1]], paths: vec![[1, 0, 1, 0, 0, 0]] }, number);
    }
    put("a second variable linked twice", List { pairs: vec![[0, 0, 0, 2, 0, 0]], links: vec![[0, 1], [2, 1]], ..List::default() }, 9);
}

fn sums(put: &mut impl FnMut(&str, [Vec<u32>; 3], u32)) {
    let alone = |e: Expr| one_way(&chain(vec![assign(e)]), &[[1, 0]]);
    let sum = |n: u32| sum_of(variables(n));
    let power = |n: usize| (1..n).fold(Expr::Variable(0), |e, _| two(PRODUCT, Expr::Variable(0), e));
    let plus = |e: Expr, f: Expr| two(SUM, e, f);
    put("16 terms", alone(sum(16)), 0);
    put("17 terms", alone(plus(sum(16), Expr::Constant(1))), 13);
    put("16 terms and 1 - x", alone(plus(sum(16), two(3, Expr::Constant(1), Expr::Variable(0)))), 0);
    put("4 symbols", alone(power(4)), 0);
    put("5 symbols", alone(power(5)), 13);
    let half = two(PRODUCT, Expr::Constant(65536), power(3));
    put("6 symbols that vanish", alone(two(PRODUCT, half.clone(), half)), 0);
    // Products are made on two edges, so that the factors are short: variable 0 holds one, 1 the other.
    let product = |n: u32, m: u32| {
        let factor = |n| two(PRODUCT, Expr::Constant(65536), sum(n));
        let set = vec![Act::Assign(0, factor(n)), Act::Assign(1, factor(m))];
        one_way(&chain(vec![set, assign(two(PRODUCT, Expr::Variable(0), Expr::Variable(1)))]), &[[2, 0]])
    };
    put("8 by 8 products", product(8, 8), 0);
    put("16 by 4 products", product(16, 4), 0);
    put("13 by 5 products", product(13, 5), 13);
    put("9 by 8 products", product(9, 8), 13);
    for (n, number) in [(16, 0), (17, 13)] {
        let reads = |k: u32| (0..k).map(|v| Act::Read(2, v)).collect::<Vec<_>>();
        put(&format!("{n} reads on a port"), one_way(&chain(vec![reads(9), reads(n - 9)]), &[[2, 0]]), number);
        let writes = |k: u32| vec![Act::Write(3, Expr::Variable(0)); k as usize];
        put(&format!("{n} writes on a port"), one_way(&chain(vec![writes(12), writes(n - 12)]), &[[2, 0]]), number);
    }
    put("32 edges", one_way(&chain(vec![vec![]; 32]), &[[32, 0]]), 0);
    // A comb of 32 tests: each false edge leads to the stop. The walk of 32 true edges is one of the paths.
    let mut comb = Machine { states: vec![State::Stop; 33], edges: vec![] };
    let at = |k: usize| if k == 0 { 0 } else if k == 32 { 1 } else { k + 1 };
    for k in 0..32 {
        comb.states[at(k)] = State::Test(3, Expr::Variable(0), Expr::Constant(k as u32), 2 * k, 2 * k + 1);
        comb.edges.push(Edge { target: at(k + 1), acts: vec![] });
        comb.edges.push(Edge { target: 1, acts: vec![] });
    }
    let mut paths = vec![[32, u32::MAX]];
    paths.extend((0..32).rev().map(|k| [k + 1, (1u32 << k) - 1]));
    put("32 tests", one_way(&comb, &paths), 0);
    put("32 tests, a path short", one_way(&comb, &paths[..32]), 11);
}

// A test made twice: the path that takes its two sides is impossible, the one that takes a side twice is not.
fn marks(put: &mut impl FnMut(&str, [Vec<u32>; 3], u32)) {
    let test = |yes, no| State::Test(4, Expr::Variable(3), Expr::Variable(5), yes, no);
    let edge = |target| Edge { target, acts: vec![] };
    let m = Machine { states: vec![test(0, 1), State::Stop, test(1, 2)], edges: vec![edge(2), edge(1), edge(1)] };
    let (image, _) = plain(&m);
    let took = |length, choices| [length, choices, length, choices, 1, 0];
    let never = |length, choices| [length, choices, 0, 0, 0, 1];
    let cases = [
        ("both sides", [took(2, 3), never(2, 1), took(1, 0)], 0),
        ("the true side twice", [never(2, 3), never(2, 1), took(1, 0)], 15),
        ("one side", [took(2, 3), never(2, 1), never(1, 0)], 15),
        ("no mark", [took(2, 3), took(2, 1), took(1, 0)], 0),
    ];
    for (name, paths, number) in cases {
        let list = List { pairs: vec![[0, 0, 0, 16, 0, 3], [1, 1, 0, 0, 0, 0]], links: (0..16).map(|v| [v, v]).collect(), paths: paths.to_vec() };
        put(&format!("impossible: {name}"), [image.clone(), image.clone(), list.image()], number);
    }
}

// The limits in order.
pub fn all() -> Vec<Limit> {
    let mut all = vec![];
    let (stop, nothing) = lone_stops();
    tables(&mut |name, image, number| {
        all.push(Limit { name: format!("{name}, first"), images: [image.clone(), stop.clone(), nothing.clone()], number });
        all.push(Limit { name: format!("{name}, second"), images: [stop.clone(), image, nothing.clone()], number });
    });
    lists(&mut |name, list, number| {
        all.push(Limit { name: name.to_string(), images: [stop.clone(), stop.clone(), list.image()], number });
    });
    sums(&mut |name, images, number| all.push(Limit { name: name.to_string(), images, number }));
    marks(&mut |name, images, number| all.push(Limit { name: name.to_string(), images, number }));
    all
}
