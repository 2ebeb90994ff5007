// Random numbers, and control tables before they are images: states, edges, actions and expressions, and how they are laid out in words.

// A small generator of random numbers (splitmix64).
pub struct Rng(u64);

impl Rng {
    // The generator of one case of a seed: each case can be made again by itself.
    pub fn new(seed: u64, case: u64) -> Rng {
        let mut rng = Rng(seed ^ case.wrapping_mul(0xD1B5_4A32_D192_ED03));
        rng.next();
        rng
    }

    pub fn next(&mut self) -> u64 {
        self.0 = self.0.wrapping_add(0x9E37_79B9_7F4A_7C15);
        let mut z = self.0;
        z = (z ^ (z >> 30)).wrapping_mul(0xBF58_476D_1CE4_E5B9);
        z = (z ^ (z >> 27)).wrapping_mul(0x94D0_49BB_1331_11EB);
        z ^ (z >> 31)
    }

    pub fn below(&mut self, n: usize) -> usize {
        (self.next() % n.max(1) as u64) as usize
    }

    // From one number to another, both counted.
    pub fn from_to(&mut self, low: usize, high: usize) -> usize {
        low + self.below(high - low + 1)
    }

    // True in so many cases of a hundred.
    pub fn chance(&mut self, percent: usize) -> bool {
        self.below(100) < percent
    }

    pub fn pick<'a, T>(&mut self, from: &'a [T]) -> &'a T {
        &from[self.below(from.len())]
    }

    pub fn shuffle<T>(&mut self, list: &mut [T]) {
        for i in (1..list.len()).rev() {
            list.swap(i, self.below(i + 1));
        }
    }

    // A word: often a small one, or one at an end of the signed or unsigned words.
    pub fn word(&mut self) -> u32 {
        const EDGES: [u32; 12] = [0, 1, 2, 3, 15, 16, 65535, 65536, 0x7FFF_FFFF, 0x8000_0000, 0x8000_0001, 0xFFFF_FFFF];
        match self.below(4) {
            0 => *self.pick(&EDGES),
            1 => self.below(20) as u32,
            2 => (self.below(20) as u32).wrapping_neg(),
            _ => self.next() as u32,
        }
    }
}

#[derive(Clone, PartialEq)]
pub enum Expr {
    Constant(u32),
    Variable(u32),
    Two(u32, Box<Expr>, Box<Expr>),
    Negation(Box<Expr>),
}

pub const SUM: u32 = 2;
pub const DIFFERENCE: u32 = 3;
pub const PRODUCT: u32 = 4;

pub fn two(kind: u32, left: Expr, right: Expr) -> Expr {
    Expr::Two(kind, Box::new(left), Box::new(right))
}

impl Expr {
    pub fn random(rng: &mut Rng, variables: u32, depth: usize) -> Expr {
        if depth == 0 || rng.chance(30) {
            return if rng.chance(35) { Expr::Constant(rng.word()) } else { Expr::Variable(rng.below(variables as usize) as u32) };
        }
        let kind = *rng.pick(&[SUM, SUM, SUM, DIFFERENCE, DIFFERENCE, PRODUCT, 5]);
        let left = Expr::random(rng, variables, depth - 1);
        match kind {
            5 => Expr::Negation(Box::new(left)),
            // A factor is mostly a leaf, so that most sums stay small.
            PRODUCT if rng.chance(80) => two(PRODUCT, Expr::random(rng, variables, 0), left),
            _ => two(kind, left, Expr::random(rng, variables, depth - 1)),
        }
    }

    pub fn words(&self, into: &mut Vec<u32>) {
        match self {
            Expr::Constant(word) => into.extend([0, *word]),
            Expr::Variable(v) => into.extend([1, *v]),
            Expr::Negation(e) => {
                into.push(5);
                e.words(into);
            }
            Expr::Two(kind, left, right) => {
                into.push(*kind);
                left.words(into);
                right.words(into);
            }
        }
    }

    pub fn length(&self) -> usize {
        match self {
            Expr::Constant(_) | Expr::Variable(_) => 2,
            Expr::Negation(e) => 1 + e.length(),
            Expr::Two(_, left, right) => 1 + left.length() + right.length(),
        }
    }

    // The variables that stand in it, as bits.
    pub fn uses(&self) -> u32 {
        match self {
            Expr::Constant(_) => 0,
            Expr::Variable(v) => 1 << v,
            Expr::Negation(e) => e.uses(),
            Expr::Two(_, left, right) => left.uses() | right.uses(),
        }
    }

    // The expression with another in the place of each variable.
    pub fn replaced(&self, by: &impl Fn(u32) -> Expr) -> Expr {
        match self {
            Expr::Constant(word) => Expr::Constant(*word),
            Expr::Variable(v) => by(*v),
            Expr::Negation(e) => Expr::Negation(Box::new(e.replaced(by))),
            Expr::Two(kind, left, right) => two(*kind, left.replaced(by), right.replaced(by)),
        }
    }

    // Another expression with the same normal sum.
    pub fn rearranged(&self, rng: &mut Rng) -> Expr {
        let e = match self {
            Expr::Constant(word) if rng.chance(15) => {
                let part = rng.word();
                two(SUM, Expr::Constant(part), Expr::Constant(word.wrapping_sub(part)))
            }
            Expr::Constant(_) | Expr::Variable(_) => self.clone(),
            Expr::Negation(e) if rng.chance(30) => two(DIFFERENCE, Expr::Constant(0), e.rearranged(rng)),
            Expr::Negation(e) => Expr::Negation(Box::new(e.rearranged(rng))),
            Expr::Two(kind, left, right) => {
                let (l, r) = (left.rearranged(rng), right.rearranged(rng));
                match (kind, rng.below(4)) {
                    (&SUM | &PRODUCT, 0) => two(*kind, r, l),
                    (&SUM, 1) => two(DIFFERENCE, l, Expr::Negation(Box::new(r))),
                    (&DIFFERENCE, 0) => two(SUM, Expr::Negation(Box::new(r)), l),
                    (&DIFFERENCE, 1) => Expr::Negation(Box::new(two(DIFFERENCE, r, l))),
                    (&PRODUCT, 1) => match &r {
                        Expr::Two(k @ (2 | 3), a, b) => {
                            two(*k, two(PRODUCT, l.clone(), (**a).clone()), two(PRODUCT, l, (**b).clone()))
                        }
                        _ => two(PRODUCT, r, l),
                    },
                    _ => two(*kind, l, r),
                }
            }
        };
        let e = match rng.below(25) {
            0 => Expr::Negation(Box::new(Expr::Negation(Box::new(e)))),
            1 => two(PRODUCT, Expr::Constant(1), e),
            2 => {
                let more = Expr::Constant(rng.word());
                two(SUM, two(DIFFERENCE, e, more.clone()), more)
            }
            _ => e,
        };
        if e.length() > 64 { self.clone() } else { e }
    }
}

#[derive(Clone)]
pub enum Act {
    Assign(u32, Expr),
    Read(u32, u32),
    Write(u32, Expr),
}

impl Act {
    // The variable that it sets, as a bit.
    pub fn sets(&self) -> u32 {
        match self {
            Act::Assign(v, _) | Act::Read(_, v) => 1 << v,
            Act::Write(..) => 0,
        }
    }

    // The variables that it uses, as bits.
    pub fn uses(&self) -> u32 {
        match self {
            Act::Assign(_, e) | Act::Write(_, e) => e.uses(),
            Act::Read(..) => 0,
        }
    }

    // Random actions that set no variable twice.
    pub fn random(rng: &mut Rng, variables: u32, most: usize) -> Vec<Act> {
        let mut free: Vec<u32> = (0..variables).collect();
        rng.shuffle(&mut free);
        let count = rng.below(most + 1);
        let mut acts = Vec::new();
        for _ in 0..count {
            let port = rng.below(4) as u32;
            let depth = rng.below(4);
            match rng.below(3) {
                0 => acts.push(Act::Write(port, Expr::random(rng, variables, depth))),
                kind => {
                    let Some(v) = free.pop() else { continue };
                    acts.push(if kind == 1 { Act::Read(port, v) } else { Act::Assign(v, Expr::random(rng, variables, depth)) });
                }
            }
        }
        acts
    }
}

#[derive(Clone)]
pub struct Edge {
    pub target: usize,
    pub acts: Vec<Act>,
}

#[derive(Clone)]
pub enum State {
    Stop,
    Step(usize),
    Test(u32, Expr, Expr, usize, usize),
}

#[derive(Clone, Default)]
pub struct Machine {
    pub states: Vec<State>,
    pub edges: Vec<Edge>,
}

// The words that stand in an area already, or those put behind it; where they begin, in records of so many words.
fn place(rng: &mut Rng, area: &mut Vec<u32>, words: &[u32], record: usize) -> u32 {
    if rng.chance(60) && !words.is_empty() {
        let found = area.windows(words.len()).step_by(record).position(|w| w == words);
        if let Some(at) = found {
            return at as u32;
        }
    }
    area.extend(words);
    ((area.len() - words.len()) / record) as u32
}

// A table image of four areas, with a right header.
pub fn table_of(states: &[u32], edges: &[u32], actions: &[u32], code: &[u32]) -> Vec<u32> {
    let counts = [states.len() / 5, edges.len() / 3, actions.len() / 3, code.len()].map(|n| n as u32);
    let mut image = vec![1, 0];
    let mut at = 10;
    for (count, area) in counts.iter().zip([states, edges, actions, code]) {
        image.extend([*count, at]);
        at += area.len() as u32;
    }
    image[1] = at;
    image.extend([states, edges, actions, code].concat());
    image
}

impl Machine {
    // Edges and states that lead anywhere.
    pub fn random(rng: &mut Rng, states: usize, edges: usize, variables: u32, acts: usize) -> Machine {
        let edges = (0..edges).map(|_| Edge { target: rng.below(states), acts: Act::random(rng, variables, acts) }).collect::<Vec<_>>();
        let e = edges.len();
        let state = |rng: &mut Rng| {
            let depth = rng.below(3);
            match rng.below(8) {
                _ if e == 0 => State::Stop,
                0 => State::Stop,
                1..=3 => State::Step(rng.below(e)),
                _ => {
                    let (l, r) = (Expr::random(rng, variables, depth), Expr::random(rng, variables, depth));
                    State::Test(rng.from_to(2, 4) as u32, l, r, rng.below(e), rng.below(e))
                }
            }
        };
        Machine { states: (0..states).map(|_| state(rng)).collect(), edges }
    }

    // The image, with the records in any order (the reset first), code shared or not and unused records; and the number of each state.
    pub fn image(&self, rng: &mut Rng) -> (Vec<u32>, Vec<u32>) {
        let mut order: Vec<usize> = (0..self.states.len()).collect();
        let mut edge_order: Vec<usize> = (0..self.edges.len()).collect();
        if rng.chance(70) {
            rng.shuffle(&mut order[1..]);
            rng.shuffle(&mut edge_order);
        }
        let mut places = vec![0; order.len()];
        order.iter().enumerate().for_each(|(at, &s)| places[s] = at as u32);
        let mut edge_places = vec![0; edge_order.len()];
        edge_order.iter().enumerate().for_each(|(at, &e)| edge_places[e] = at as u32);
        let (mut states, mut edges, mut actions, mut code) = (vec![], vec![], vec![], vec![]);
        let mut put = |rng: &mut Rng, e: &Expr| {
            let mut words = vec![];
            e.words(&mut words);
            place(rng, &mut code, &words, 1)
        };
        for s in order {
            match &self.states[s] {
                State::Stop => states.extend([0; 5]),
                State::Step(e) => states.extend([1, 0, 0, edge_places[*e], 0]),
                State::Test(kind, l, r, yes, no) => {
                    let (l, r) = (put(rng, l), put(rng, r));
                    states.extend([*kind, l, r, edge_places[*yes], edge_places[*no]]);
                }
            }
        }
        for e in edge_order {
            let mut words = vec![];
            for act in &self.edges[e].acts {
                words.extend(match act {
                    Act::Assign(v, e) => [0, *v, put(rng, e)],
                    Act::Read(port, v) => [1, *port, *v],
                    Act::Write(port, e) => [2, *port, put(rng, e)],
                });
            }
            let start = place(rng, &mut actions, &words, 3);
            edges.extend([places[self.edges[e].target], start, words.len() as u32 / 3]);
        }
        if rng.chance(10) {
            states.extend([0; 5]);
            edges.extend([0, 0, 0]);
            actions.extend([1, 3, 15]);
            code.extend([rng.word(), rng.word()]);
        }
        (table_of(&states, &edges, &actions, &code), places)
    }
}

// A correspondence before it is an image.
#[derive(Clone, Default)]
pub struct List {
    pub pairs: Vec<[u32; 6]>,
    pub links: Vec<[u32; 2]>,
    pub paths: Vec<[u32; 6]>,
}

impl List {
    pub fn image(&self) -> Vec<u32> {
        let (p, l, t) = (self.pairs.len() as u32, self.links.len() as u32, self.paths.len() as u32);
        let mut image = vec![2, 8 + 6 * p + 2 * l + 6 * t, p, 8, l, 8 + 6 * p, t, 8 + 6 * p + 2 * l];
        image.extend(self.pairs.as_flattened());
        image.extend(self.links.as_flattened());
        image.extend(self.paths.as_flattened());
        image
    }
}
