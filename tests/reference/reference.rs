// The paper once more in plain Rust: the check of a table, the run of a table, and the judgement of a correspondence. Written from the
// paper's words alone, to hold the proved library against, in answers and in time. Std only; a run allocates nothing, a judgement only room
// for the conditions and writes of a path, kept from one path to the next.

// A number, an image and a record.
pub type Answer = [u32; 3];

// The areas of a table image.
pub struct Table<'a> {
    pub states: &'a [[u32; 5]],
    pub edges: &'a [[u32; 3]],
    pub actions: &'a [[u32; 3]],
    pub code: &'a [u32],
}

// The number and the record of a refused image.
type Refusal = (u32, u32);

// The words of an image from one place to another, as records of K words.
fn records<const K: usize>(image: &[u32], from: u64, count: u64) -> &[[u32; K]] {
    image[from as usize..][..K * count as usize].as_chunks().0
}

// Whether a range lies inside an area.
fn inside(start: u32, count: u32, area: usize) -> bool {
    start as u64 + count as u64 <= area as u64
}

// Whether an expression of at most 64 words begins at a start and ends inside the code.
fn expression(code: &[u32], start: u32) -> bool {
    let Some(code) = code.get(start as usize..) else { return false };
    let code = &code[..code.len().min(64)];
    let (mut at, mut open) = (0, 1);
    while open > 0 {
        let Some(&kind) = code.get(at) else { return false };
        at += 1;
        match kind {
            0 | 1 => {
                let Some(&word) = code.get(at) else { return false };
                if kind == 1 && word > 15 {
                    return false;
                }
                at += 1;
                open -= 1;
            }
            2..=4 => open += 1,
            5 => {}
            _ => return false,
        }
    }
    true
}

// An area's expressions in turn: the first that is malformed is a 5.
fn expressions(code: &[u32], starts: &[u32]) -> Result<(), Refusal> {
    match starts.iter().find(|&&s| !expression(code, s)) {
        Some(&start) => Err((5, start)),
        None => Ok(()),
    }
}

// Checks a table image: header, states, actions, edges.
pub fn table(image: &[u32]) -> Result<Table<'_>, Refusal> {
    let Some(head) = image.first_chunk::<10>() else { return Err((1, 0)) };
    let [kind, total, s, at_s, e, at_e, a, at_a, n, at_n] = head.map(|w| w as u64);
    let right = kind == 1
        && (1..=64).contains(&s) && e <= 128 && a <= 512 && n <= 2048
        && at_s == 10 && at_e == 10 + 5 * s && at_a == at_e + 3 * e && at_n == at_a + 3 * a
        && total == at_n + n && total == image.len() as u64;
    if !right {
        return Err((1, 0));
    }
    let t = Table {
        states: records(image, at_s, s),
        edges: records(image, at_e, e),
        actions: records(image, at_a, a),
        code: &image[at_n as usize..],
    };
    for (i, &[kind, left, right, yes, no]) in t.states.iter().enumerate() {
        let ok = match kind {
            0 => left | right | yes | no == 0,
            1 => left | right | no == 0 && (yes as usize) < t.edges.len(),
            2..=4 => (yes as usize) < t.edges.len() && (no as usize) < t.edges.len(),
            _ => false,
        };
        if !ok {
            return Err((2, i as u32));
        }
        if kind >= 2 {
            expressions(t.code, &[left, right])?;
        }
    }
    for (i, &[kind, one, two]) in t.actions.iter().enumerate() {
        let ok = match kind {
            0 => one <= 15,
            1 => one <= 3 && two <= 15,
            2 => one <= 3,
            _ => false,
        };
        if !ok {
            return Err((3, i as u32));
        }
        if kind != 1 {
            expressions(t.code, &[two])?;
        }
    }
    for (i, &[target, start, count]) in t.edges.iter().enumerate() {
        let ok = (target as usize) < t.states.len() && count <= 16 && inside(start, count, t.actions.len());
        if !ok || sets_twice(t.acts(i)) {
            return Err((4, i as u32));
        }
    }
    Ok(t)
}

// Whether two actions set the same variable.
fn sets_twice(actions: &[[u32; 3]]) -> bool {
    let mut set = 0u32;
    actions.iter().any(|&[kind, one, two]| {
        let bit = match kind {
            0 => 1 << one,
            1 => 1 << two,
            _ => 0,
        };
        let twice = set & bit != 0;
        set |= bit;
        twice
    })
}

impl Table<'_> {
    // The actions of an edge.
    #[inline]
    fn acts(&self, edge: usize) -> &[[u32; 3]] {
        let [_, start, count] = self.edges[edge];
        &self.actions[start as usize..][..count as usize]
    }
}

// The run's answer: number, image, record, state, edges, couples and the sixteen variables.
#[derive(Clone, Copy, PartialEq, Debug)]
pub struct Trial {
    pub number: u32,
    pub image: u32,
    pub record: u32,
    pub state: u32,
    pub edges: u32,
    pub couples: u64,
    pub variables: [u32; 16],
}

// The value of the expression at a place of the code; the place moves behind it.
fn value(code: &[u32], at: &mut usize, variables: &[u32; 16]) -> u32 {
    let kind = code[*at];
    *at += 1;
    match kind {
        0 => {
            *at += 1;
            code[*at - 1]
        }
        1 => {
            *at += 1;
            variables[code[*at - 1] as usize & 15]
        }
        5 => value(code, at, variables).wrapping_neg(),
        _ => {
            let left = value(code, at, variables);
            let right = value(code, at, variables);
            match kind {
                2 => left.wrapping_add(right),
                3 => left.wrapping_sub(right),
                _ => left.wrapping_mul(right),
            }
        }
    }
}

// Whether a test of a kind holds of two words.
fn holds(kind: u32, left: u32, right: u32) -> bool {
    match kind {
        2 => left == right,
        3 => (left as i32) < (right as i32),
        _ => left < right,
    }
}

// Reads on each port and writes in all of an edge.
#[derive(Clone, Copy, Default)]
struct Need {
    reads: [usize; 4],
    writes: usize,
}

fn need(actions: &[[u32; 3]]) -> Need {
    let mut need = Need::default();
    for &[kind, port, _] in actions {
        match kind {
            1 => need.reads[port as usize] += 1,
            2 => need.writes += 1,
            _ => {}
        }
    }
    need
}

// Input couples by port: how many are left on each, and where the next may stand.
struct Input<'a> {
    couples: &'a [[u32; 2]],
    left: [usize; 4],
    next: [usize; 4],
}

impl Input<'_> {
    // The input, unless its words are odd in number or a port is over 3.
    fn new(words: &[u32]) -> Option<Input<'_>> {
        let (couples, []) = words.as_chunks() else { return None };
        let mut left = [0; 4];
        for &[port, _] in couples {
            *left.get_mut(port as usize)? += 1;
        }
        Some(Input { couples, left, next: [0; 4] })
    }

    fn take(&mut self, port: usize) -> u32 {
        let mut k = self.next[port];
        while self.couples[k][0] as usize != port {
            k += 1;
        }
        self.next[port] = k + 1;
        self.left[port] -= 1;
        self.couples[k][1]
    }
}

// Runs a table on input couples, with a limit on edges and a buffer for output couples. Beside the answer: how many input words are left on
// each port.
pub fn run(image: &[u32], input: &[u32], limit: u32, out: &mut [u32]) -> (Trial, [usize; 4]) {
    let mut end = Trial { number: 0, image: 0, record: 0, state: 0, edges: 0, couples: 0, variables: [0; 16] };
    let t = match table(image) {
        Ok(t) => t,
        Err((number, record)) => return (Trial { number, image: 1, record, ..end }, [0; 4]),
    };
    let Some(mut input) = Input::new(input) else { return (Trial { number: 24, ..end }, [0; 4]) };
    let mut needs = [Need::default(); 128];
    for e in 0..t.edges.len() {
        needs[e] = need(t.acts(e));
    }
    let out = out.as_chunks_mut::<2>().0;
    let (mut state, mut done, mut written) = (0usize, 0u32, 0usize);
    let mut variables = [0u32; 16];
    end.number = loop {
        let [kind, left, right, yes, no] = t.states[state];
        if kind == 0 {
            break 20;
        }
        if done == limit {
            break 21;
        }
        let side = kind == 1 || {
            let left = value(t.code, &mut (left as usize), &variables);
            let right = value(t.code, &mut (right as usize), &variables);
            holds(kind, left, right)
        };
        let edge = (if side { yes } else { no }) as usize;
        let need = &needs[edge];
        if (0..4).any(|p| need.reads[p] > input.left[p]) {
            break 22;
        }
        if need.writes > out.len() - written {
            break 23;
        }
        let before = variables;
        for &[kind, one, two] in t.acts(edge) {
            match kind {
                0 => variables[one as usize & 15] = value(t.code, &mut (two as usize), &before),
                1 => variables[two as usize & 15] = input.take(one as usize),
                _ => {
                    out[written] = [one, value(t.code, &mut (two as usize), &before)];
                    written += 1;
                }
            }
        }
        state = t.edges[edge][0] as usize;
        done += 1;
    };
    (Trial { state: state as u32, edges: done, couples: written as u64, variables, ..end }, input.left)
}

// A coefficient and a list of symbols: four digits to base 128, each a symbol plus one, the first the highest. So rising keys are shorter
// lists first, then the lower first differing symbol.
#[derive(Clone, Copy, PartialEq)]
struct Term {
    coefficient: u32,
    key: u32,
}

const TERMS: usize = 16;
const SYMBOLS: u32 = 4;
const PRODUCTS: usize = 64;

// A normal sum: terms with rising keys.
#[derive(Clone, Copy)]
struct Sum {
    count: usize,
    terms: [Term; TERMS],
}

// What is too large: a sum, or the reads or writes on a port.
struct TooLarge;

// The symbols of a key.
fn symbols(key: u32) -> u32 {
    (32 - key.leading_zeros()).div_ceil(7)
}

// The key of all the symbols of two keys.
fn joined(mut a: u32, mut b: u32) -> u32 {
    let (mut key, mut shift) = (0, 0);
    while a != 0 && b != 0 {
        let last = if a & 127 >= b & 127 { &mut a } else { &mut b };
        key |= (*last & 127) << shift;
        *last >>= 7;
        shift += 7;
    }
    if a | b == 0 { key } else { key | (a | b) << shift }
}

impl Sum {
    const ZERO: Sum = Sum { count: 0, terms: [Term { coefficient: 0, key: 0 }; TERMS] };

    fn constant(word: u32) -> Sum {
        let mut sum = Sum::ZERO;
        sum.count = (word != 0) as usize;
        sum.terms[0].coefficient = word;
        sum
    }

    fn symbol(symbol: u32) -> Sum {
        let mut sum = Sum::ZERO;
        sum.count = 1;
        sum.terms[0] = Term { coefficient: 1, key: symbol + 1 };
        sum
    }

    fn terms(&self) -> &[Term] {
        &self.terms[..self.count]
    }

    // The word of a constant sum.
    fn word(&self) -> Option<u32> {
        match self.terms() {
            [] => Some(0),
            [Term { coefficient, key: 0 }] => Some(*coefficient),
            _ => None,
        }
    }

    fn push(&mut self, term: Term) -> Result<(), TooLarge> {
        if term.coefficient != 0 {
            *self.terms.get_mut(self.count).ok_or(TooLarge)? = term;
            self.count += 1;
        }
        Ok(())
    }

    // The sum with another, whose coefficients are each multiplied by a sign.
    fn plus(&self, other: &Sum, sign: u32) -> Result<Sum, TooLarge> {
        let mut sum = Sum::ZERO;
        let (a, b) = (self.terms(), other.terms());
        let (mut i, mut j) = (0, 0);
        while i < a.len() || j < b.len() {
            let x = a.get(i).map_or(u32::MAX, |t| t.key);
            let y = b.get(j).map_or(u32::MAX, |t| t.key);
            let mut term = Term { coefficient: 0, key: x.min(y) };
            if x <= y {
                term.coefficient = a[i].coefficient;
                i += 1;
            }
            if y <= x {
                term.coefficient = term.coefficient.wrapping_add(b[j].coefficient.wrapping_mul(sign));
                j += 1;
            }
            sum.push(term)?;
        }
        Ok(sum)
    }

    fn negated(mut self) -> Sum {
        for t in &mut self.terms[..self.count] {
            t.coefficient = t.coefficient.wrapping_neg();
        }
        self
    }

    fn times(&self, other: &Sum) -> Result<Sum, TooLarge> {
        if self.count * other.count > PRODUCTS {
            return Err(TooLarge);
        }
        let mut products = [Term { coefficient: 0, key: 0 }; PRODUCTS];
        let mut n = 0;
        for a in self.terms() {
            for b in other.terms() {
                let coefficient = a.coefficient.wrapping_mul(b.coefficient);
                if coefficient == 0 {
                    continue;
                }
                if symbols(a.key) + symbols(b.key) > SYMBOLS {
                    return Err(TooLarge);
                }
                products[n] = Term { coefficient, key: joined(a.key, b.key) };
                n += 1;
            }
        }
        let products = &mut products[..n];
        products.sort_unstable_by_key(|t| t.key);
        let mut sum = Sum::ZERO;
        for same in products.chunk_by(|a, b| a.key == b.key) {
            let coefficient = same.iter().fold(0u32, |c, t| c.wrapping_add(t.coefficient));
            sum.push(Term { coefficient, key: same[0].key })?;
        }
        Ok(sum)
    }
}

impl PartialEq for Sum {
    fn eq(&self, other: &Sum) -> bool {
        self.terms() == other.terms()
    }
}

// The normal sum of the expression at a place of the code; the place moves behind it.
fn normal(code: &[u32], at: &mut usize, variables: &[Sum; 16]) -> Result<Sum, TooLarge> {
    let kind = code[*at];
    *at += 1;
    match kind {
        0 => {
            *at += 1;
            Ok(Sum::constant(code[*at - 1]))
        }
        1 => {
            *at += 1;
            Ok(variables[code[*at - 1] as usize & 15])
        }
        5 => Ok(normal(code, at, variables)?.negated()),
        _ => {
            let left = normal(code, at, variables)?;
            let right = normal(code, at, variables)?;
            match kind {
                2 => left.plus(&right, 1),
                3 => left.plus(&right, u32::MAX),
                _ => left.times(&right),
            }
        }
    }
}

// A kind, two sums as written, and the side taken.
#[derive(Clone, Copy, PartialEq)]
struct Condition {
    kind: u32,
    left: Sum,
    right: Sum,
    side: bool,
}

impl Condition {
    // Whether a constant condition is a true one; nothing where it is open.
    fn truth(&self) -> Option<bool> {
        if let (Some(left), Some(right)) = (self.left.word(), self.right.word()) {
            return Some(holds(self.kind, left, right) == self.side);
        }
        (self.left == self.right).then_some((self.kind == 2) == self.side)
    }

    fn opposite(&self, other: &Condition) -> bool {
        self.side != other.side && self.kind == other.kind && self.left == other.left && self.right == other.right
    }
}

// Reads and writes that a port may have on one side of a path.
const ON_A_PORT: usize = 16;

// One side of a path: variables as sums, those that an edge sets, reads and writes port by port, conditions.
struct Side {
    variables: [Sum; 16],
    set: [Sum; 16],
    reads: [usize; 4],
    written: [Vec<Sum>; 4],
    conditions: Vec<Condition>,
}

impl Side {
    const EMPTY: Side = Side {
        variables: [Sum::ZERO; 16],
        set: [Sum::ZERO; 16],
        reads: [0; 4],
        written: [const { Vec::new() }; 4],
        conditions: Vec::new(),
    };

    // Forms a side of a walkable path to its last edge, each variable beginning as its symbol.
    fn form(&mut self, t: &Table, mut state: usize, length: u32, choices: u32, start: impl Fn(u32) -> u32) -> Result<(), TooLarge> {
        for v in 0..16 {
            self.variables[v as usize] = Sum::symbol(start(v));
        }
        self.reads = [0; 4];
        self.written.iter_mut().for_each(Vec::clear);
        self.conditions.clear();
        for k in 0..length {
            let [kind, left, right, yes, no] = t.states[state];
            let side = choices >> k & 1 == 1;
            if kind != 1 {
                let left = normal(t.code, &mut (left as usize), &self.variables)?;
                let right = normal(t.code, &mut (right as usize), &self.variables)?;
                self.conditions.push(Condition { kind, left, right, side });
            }
            let edge = (if kind == 1 || side { yes } else { no }) as usize;
            self.act(t, t.acts(edge))?;
            state = t.edges[edge][0] as usize;
        }
        Ok(())
    }

    // The actions of one edge, on the values before it.
    fn act(&mut self, t: &Table, actions: &[[u32; 3]]) -> Result<(), TooLarge> {
        let mut which = 0u32;
        for &[kind, one, two] in actions {
            let port = one as usize;
            match kind {
                0 => {
                    self.set[one as usize] = normal(t.code, &mut (two as usize), &self.variables)?;
                    which |= 1 << one;
                }
                1 => {
                    let k = self.reads[port];
                    if k == ON_A_PORT {
                        return Err(TooLarge);
                    }
                    self.reads[port] += 1;
                    self.set[two as usize] = Sum::symbol(32 + 16 * one + k as u32);
                    which |= 1 << two;
                }
                _ => {
                    let sum = normal(t.code, &mut (two as usize), &self.variables)?;
                    if self.written[port].len() == ON_A_PORT {
                        return Err(TooLarge);
                    }
                    self.written[port].push(sum);
                }
            }
        }
        while which != 0 {
            let v = which.trailing_zeros() as usize;
            self.variables[v] = self.set[v];
            which &= which - 1;
        }
        Ok(())
    }
}

// The areas of a correspondence image.
struct List<'a> {
    pairs: &'a [[u32; 6]],
    links: &'a [[u32; 2]],
    paths: &'a [[u32; 6]],
}

// Whether a length is 1..32 and no bit of the choices lies past it.
fn choices_fit(length: u32, choices: u32) -> bool {
    (1..=32).contains(&length) && (choices as u64) >> length == 0
}

// Checks a correspondence image: header, links, paths, pairs.
fn list<'a>(image: &'a [u32], first: &Table, second: &Table) -> Result<List<'a>, Refusal> {
    let Some(head) = image.first_chunk::<8>() else { return Err((6, 0)) };
    let [kind, total, p, at_p, l, at_l, t, at_t] = head.map(|w| w as u64);
    let right = kind == 2
        && (1..=64).contains(&p) && l <= 1024 && t <= 512
        && at_p == 8 && at_l == 8 + 6 * p && at_t == at_l + 2 * l
        && total == at_t + 6 * t && total == image.len() as u64;
    if !right {
        return Err((6, 0));
    }
    let list = List { pairs: records(image, at_p, p), links: records(image, at_l, l), paths: records(image, at_t, t) };
    if let Some(i) = list.links.iter().position(|&[one, two]| one > 15 || two > 15) {
        return Err((7, i as u32));
    }
    for (i, &[length, choices, second_length, second_choices, target, mark]) in list.paths.iter().enumerate() {
        let ok = choices_fit(length, choices)
            && match mark {
                0 => choices_fit(second_length, second_choices) && (target as u64) < p,
                1 => second_length | second_choices | target == 0,
                _ => false,
            };
        if !ok {
            return Err((8, i as u32));
        }
    }
    for (i, pair) in list.pairs.iter().enumerate() {
        let &[one, two, link, links, path, paths] = pair;
        let ok = (one as usize) < first.states.len()
            && (two as usize) < second.states.len()
            && (i > 0 || one | two == 0)
            && inside(link, links, list.links.len())
            && inside(path, paths, list.paths.len());
        if !ok || linked_twice(list.links_of(pair)) {
            return Err((9, i as u32));
        }
    }
    Ok(list)
}

// Whether a second variable stands twice among links.
fn linked_twice(links: &[[u32; 2]]) -> bool {
    let mut seen = 0u32;
    links.iter().any(|&[_, two]| {
        let twice = seen >> two & 1 == 1;
        seen |= 1 << two;
        twice
    })
}

impl List<'_> {
    fn links_of(&self, pair: &[u32; 6]) -> &[[u32; 2]] {
        &self.links[pair[2] as usize..][..pair[3] as usize]
    }

    fn paths_of(&self, pair: &[u32; 6]) -> &[[u32; 6]] {
        &self.paths[pair[4] as usize..][..pair[5] as usize]
    }
}

// Whether every walk on from a state, reached by so many choices, begins with exactly one of the paths, in their order from `next` on.
fn covered(t: &Table, paths: &[[u32; 6]], next: &mut usize, state: usize, length: u32, choices: u32) -> bool {
    let Some(&[whole, bits, ..]) = paths.get(*next) else { return false };
    if whole < length || bits as u64 & ((1 << length) - 1) != choices as u64 {
        return false;
    }
    if whole == length {
        *next += 1;
        return true;
    }
    let [kind, _, _, yes, no] = t.states[state];
    let mut on = |edge: u32, bit: u32| {
        covered(t, paths, next, t.edges[edge as usize][0] as usize, length + 1, choices | bit << length)
    };
    match kind {
        0 => false,
        1 => on(yes, 0),
        _ => on(yes, 1) && on(no, 0),
    }
}

// Where choices lead from a state, if they can be walked.
fn walk(t: &Table, mut state: usize, length: u32, choices: u32) -> Option<usize> {
    for k in 0..length {
        let [kind, _, _, yes, no] = t.states[state];
        let bit = choices >> k & 1;
        let edge = match (kind, bit) {
            (0, _) | (1, 1) => return None,
            (1, _) | (_, 1) => yes,
            _ => no,
        };
        state = t.edges[edge as usize][0] as usize;
    }
    Some(state)
}

// The number of the first rule from 12 on that a path of a pair breaks.
fn broken(first: &Table, second: &Table, list: &List, pair: &[u32; 6], path: &[u32; 6], sides: &mut [Side; 2]) -> Option<u32> {
    let &[length, choices, second_length, second_choices, target, mark] = path;
    let (one, two) = (pair[0] as usize, pair[1] as usize);
    let [a, b] = sides;
    if mark == 1 {
        if a.form(first, one, length, choices, |v| v).is_err() {
            return Some(13);
        }
        let c = &a.conditions;
        let never = (0..c.len()).any(|i| c[i].truth() == Some(false) || c[..i].iter().any(|d| d.opposite(&c[i])));
        return if never { None } else { Some(15) };
    }
    let target = &list.pairs[target as usize];
    if walk(first, one, length, choices) != Some(target[0] as usize)
        || walk(second, two, second_length, second_choices) != Some(target[1] as usize)
    {
        return Some(12);
    }
    let mut start: [u32; 16] = std::array::from_fn(|v| 16 + v as u32);
    for &[v, w] in list.links_of(pair) {
        start[w as usize] = v;
    }
    if a.form(first, one, length, choices, |v| v).is_err()
        || b.form(second, two, second_length, second_choices, |v| start[v as usize]).is_err()
    {
        return Some(13);
    }
    if b.conditions.iter().any(|c| c.truth() != Some(true) && !a.conditions.contains(c)) {
        return Some(16);
    }
    if a.reads != b.reads {
        return Some(17);
    }
    if a.written != b.written {
        return Some(18);
    }
    let kept = |&[v, w]: &[u32; 2]| a.variables[v as usize] == b.variables[w as usize];
    if !list.links_of(target).iter().all(kept) {
        return Some(19);
    }
    None
}

// Judges a correspondence between two tables.
pub fn judge(first: &[u32], second: &[u32], correspondence: &[u32]) -> Answer {
    let (one, two, list) = match images(first, second, correspondence) {
        Ok(images) => images,
        Err(answer) => return answer,
    };
    let mut sides = [Side::EMPTY; 2];
    for (i, pair) in list.pairs.iter().enumerate() {
        let (s, t) = (pair[0] as usize, pair[1] as usize);
        let stop = one.states[s][0] == 0;
        if stop != (two.states[t][0] == 0) {
            return [10, 3, i as u32];
        }
        let paths = list.paths_of(pair);
        let mut next = 0;
        if !((stop || covered(&one, paths, &mut next, s, 0, 0)) && next == paths.len()) {
            return [11, 3, i as u32];
        }
        for (k, path) in paths.iter().enumerate() {
            if let Some(number) = broken(&one, &two, &list, pair, path, &mut sides) {
                return [number, 3, pair[4] + k as u32];
            }
        }
    }
    [0, 0, 0]
}

// The three images, or the first refusal.
fn images<'a>(first: &'a [u32], second: &'a [u32], correspondence: &'a [u32]) -> Result<(Table<'a>, Table<'a>, List<'a>), Answer> {
    let one = table(first).map_err(|(number, record)| [number, 1, record])?;
    let two = table(second).map_err(|(number, record)| [number, 2, record])?;
    let list = list(correspondence, &one, &two).map_err(|(number, record)| [number, 3, record])?;
    Ok((one, two, list))
}
