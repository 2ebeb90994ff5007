// Two machines that do the same, with a list that is right: grown together, path by path, from points that match. The second has its
// registers renamed, its edges split and fused, its sums rearranged; either may test what is known already, so that some paths are
// impossible.
use crate::machine::{two, Act, Edge, Expr, List, Machine, Rng, State, DIFFERENCE, PRODUCT, SUM};

pub struct Pair {
    pub first: Machine,
    pub second: Machine,
    pub list: List,
}

// The end of a path that is being grown in one machine.
#[derive(Clone, Copy)]
struct Cursor {
    state: usize,
    length: u32,
    choices: u32,
}

// A condition that a path has passed: kind, sides, side taken.
type Passed = (u32, Expr, Expr, bool);

struct Grower<'a> {
    rng: &'a mut Rng,
    pair: Pair,
    variables: u32,
    // For each point the second's register of each of the first's variables, the rest behind them.
    names: Vec<Vec<u32>>,
    depth: usize,
}

// A pair with so many points, of which some are stops.
pub fn grown(rng: &mut Rng, points: usize, variables: u32, depth: usize) -> Pair {
    let several = rng.chance(30);
    let mut name: Vec<u32> = (0..16).collect();
    rng.shuffle(&mut name);
    let names = (0..points)
        .map(|_| {
            if several {
                rng.shuffle(&mut name);
            }
            name.clone()
        })
        .collect();
    let empty = Machine { states: vec![State::Stop; points], edges: vec![] };
    let stops: Vec<bool> = (0..points).map(|p| rng.chance(if p == 0 { 3 } else { 30 })).collect();
    let pair = Pair { first: empty.clone(), second: empty, list: List::default() };
    let mut g = Grower { rng, pair, variables, names, depth };
    for p in 0..points {
        let list = &mut g.pair.list;
        let (link, path) = (list.links.len() as u32, list.paths.len() as u32);
        let names = &g.names[p];
        list.links.extend((0..variables).map(|v| [v, names[v as usize]]));
        list.pairs.push([p as u32, p as u32, link, variables, path, 0]);
        if !stops[p] {
            let at = Cursor { state: p, length: 0, choices: 0 };
            g.grow(p, at, at, vec![], 0);
        }
        let list = &mut g.pair.list;
        list.pairs[p][5] = list.paths.len() as u32 - path;
    }
    g.pair
}

// An edge from a state to a new one, or to a point.
fn edge(m: &mut Machine, acts: Vec<Act>, to: Option<usize>) -> (usize, usize) {
    let target = to.unwrap_or(m.states.len());
    if to.is_none() {
        m.states.push(State::Stop);
    }
    m.edges.push(Edge { target, acts });
    (m.edges.len() - 1, target)
}

// One step of a machine.
fn step(m: &mut Machine, at: Cursor, acts: Vec<Act>, to: Option<usize>) -> Cursor {
    let (e, target) = edge(m, acts, to);
    m.states[at.state] = State::Step(e);
    Cursor { state: target, length: at.length + 1, choices: at.choices }
}

// A test of a machine: where its true side leads, and its false.
fn test(m: &mut Machine, at: Cursor, (kind, l, r): (u32, Expr, Expr), acts: [Vec<Act>; 2], to: [Option<usize>; 2]) -> [Cursor; 2] {
    let [yes, no] = acts;
    let (e, s) = edge(m, yes, to[0]);
    let (f, t) = edge(m, no, to[1]);
    m.states[at.state] = State::Test(kind, l, r, e, f);
    let on = |state, bit: u32| Cursor { state, length: at.length + 1, choices: at.choices | bit << at.length.min(31) };
    [on(s, 1), on(t, 0)]
}

// Two edges in one: what the first sets is put in its place in the second. Nothing where a read would have to be.
fn fused(one: &[Act], other: &[Act]) -> Option<Vec<Act>> {
    let value = |v: u32| one.iter().find_map(|a| match a {
        Act::Assign(w, e) if *w == v => Some(e.clone()),
        _ => None,
    });
    let (used, set) = other.iter().fold((0, 0), |(u, s), a| (u | a.uses(), s | a.sets()));
    if one.iter().any(|a| matches!(a, Act::Read(..)) && a.sets() & (used | set) != 0) {
        return None;
    }
    let put = |e: &Expr| e.replaced(&|v| value(v).unwrap_or(Expr::Variable(v)));
    let mut acts: Vec<Act> = one.iter().filter(|a| a.sets() & set == 0).cloned().collect();
    acts.extend(other.iter().map(|a| match a {
        Act::Assign(v, e) => Act::Assign(*v, put(e)),
        Act::Write(p, e) => Act::Write(*p, put(e)),
        read => read.clone(),
    }));
    let fits = acts.len() <= 16 && acts.iter().all(|a| match a {
        Act::Assign(_, e) | Act::Write(_, e) => e.length() <= 48,
        _ => true,
    });
    fits.then_some(acts)
}

// Actions of one edge on two, where no later one uses what an earlier one sets.
fn split(rng: &mut Rng, acts: Vec<Act>, spare: &[u32]) -> Vec<Vec<Act>> {
    let at = rng.below(acts.len() + 1);
    let set = acts[..at].iter().fold(0, |s, a| s | a.sets());
    if acts[at..].iter().all(|a| a.uses() & set == 0) {
        return vec![acts[..at].to_vec(), acts[at..].to_vec()];
    }
    // By way of spare registers: all values are worked out on the first edge, some are set on the second.
    let mut spare = spare.iter();
    let mut later = vec![];
    let now = acts.into_iter().map(|a| match a {
        Act::Assign(v, e) if rng.chance(50) => match spare.next() {
            Some(&t) => {
                later.push(Act::Assign(v, Expr::Variable(t)));
                Act::Assign(t, e)
            }
            None => Act::Assign(v, e),
        },
        a => a,
    });
    let now = now.collect();
    vec![now, later]
}

// The same actions in another order, each port's reads and writes in theirs.
fn reordered(rng: &mut Rng, acts: &[Act]) -> Vec<Act> {
    let group = |a: &Act| match a {
        Act::Assign(v, _) => (0, *v),
        Act::Read(p, _) => (1, *p),
        Act::Write(p, _) => (2, *p),
    };
    let mut left: Vec<Act> = acts.to_vec();
    let mut out = vec![];
    while !left.is_empty() {
        let k = group(&left[rng.below(left.len())]);
        let i = left.iter().position(|a| group(a) == k).unwrap();
        out.push(left.remove(i));
    }
    out
}

impl Grower<'_> {
    fn point(&mut self) -> usize {
        self.rng.below(self.names.len())
    }

    fn expr(&mut self) -> Expr {
        let depth = self.rng.below(3);
        Expr::random(self.rng, self.variables, depth)
    }

    // The second's form of an expression, from a point on.
    fn told(&mut self, from: usize, e: &Expr) -> Expr {
        let names = &self.names[from];
        e.replaced(&|v| Expr::Variable(names[v as usize])).rearranged(self.rng)
    }

    // The edges of a machine for some edges' actions, one after another: fused here and there, then split.
    fn edges_of(&mut self, parts: &[Vec<Act>], spare: &[u32]) -> Vec<Vec<Act>> {
        let mut whole: Vec<Vec<Act>> = vec![];
        for part in parts {
            let fuse = self.rng.chance(50);
            match whole.last_mut().and_then(|last| fused(last, part)).filter(|_| fuse) {
                Some(acts) => *whole.last_mut().unwrap() = acts,
                None => whole.push(part.clone()),
            }
        }
        let mut edges = vec![];
        for acts in whole {
            if self.rng.chance(30) && acts.len() > 1 {
                edges.extend(split(self.rng, acts, spare));
            } else {
                edges.push(acts);
            }
        }
        edges
    }

    // The second's form of one edge's actions.
    fn second_acts(&mut self, from: usize, part: &[Act]) -> Vec<Act> {
        let mut acts = vec![];
        for a in part {
            acts.push(match a {
                Act::Assign(v, e) => Act::Assign(self.names[from][*v as usize], self.told(from, e)),
                Act::Read(p, v) => Act::Read(*p, self.names[from][*v as usize]),
                Act::Write(p, e) => Act::Write(*p, self.told(from, e)),
            });
        }
        reordered(self.rng, &acts)
    }

    // The second's edges for the first's; where they lead to a point, its names are taken.
    fn second_edges(&mut self, from: usize, parts: &[Vec<Act>], to: Option<usize>) -> Vec<Vec<Act>> {
        let named: Vec<Vec<Act>> = parts.iter().map(|part| self.second_acts(from, part)).collect();
        let spare = self.names[from][self.variables as usize..].to_vec();
        let mut edges = self.edges_of(&named, &spare);
        if let Some(to) = to {
            let moves = (0..self.variables as usize).filter(|&v| self.names[from][v] != self.names[to][v]);
            let moves: Vec<Act> = moves.map(|v| Act::Assign(self.names[to][v], Expr::Variable(self.names[from][v]))).collect();
            if !moves.is_empty() {
                edges.push(moves);
            }
        }
        edges
    }

    fn ended(&mut self, a: Cursor, b: Cursor, to: usize) {
        self.pair.list.paths.push([a.length, a.choices, b.length, b.choices, to as u32, 0]);
    }

    // A path of the first that can't be taken, from an edge that leads somewhere.
    fn impossible(&mut self, a: Cursor) {
        self.pair.list.paths.push([a.length, a.choices, 0, 0, 0, 1]);
    }

    // A condition that is known: one that was passed and still holds, or a constant one; with the side that is taken.
    fn known(&mut self, passed: &[Passed]) -> Passed {
        if !passed.is_empty() && self.rng.chance(70) {
            return self.rng.pick(passed).clone();
        }
        let kind = self.rng.from_to(2, 4) as u32;
        if self.rng.chance(50) {
            let e = self.expr();
            return (kind, e.clone(), e, kind == 2);
        }
        let (x, y) = (self.rng.word(), self.rng.word());
        let y = if self.rng.chance(30) { x } else { y };
        let side = match kind {
            2 => x == y,
            3 => (x as i32) < (y as i32),
            _ => x < y,
        };
        let part = self.rng.word();
        let l = two(SUM, Expr::Constant(part), Expr::Constant(x.wrapping_sub(part)));
        (kind, l, Expr::Constant(y), side)
    }

    fn grow(&mut self, from: usize, a: Cursor, b: Cursor, passed: Vec<Passed>, depth: usize) {
        let late = depth >= self.depth || a.length > 20 || b.length > 16;
        let known = if passed.is_empty() { 4 } else { 6 };
        match self.rng.below(12) {
            0..=2 if !late => self.branch(from, a, b, passed, depth),
            k @ 3..=6 if !late && k < known => self.known_in_first(from, a, b, passed, depth),
            7 if !late => self.known_in_second(from, a, b, passed, depth),
            _ => self.edges(from, a, b, passed, depth, late),
        }
    }

    // Some edges without a test, to a point or on.
    fn edges(&mut self, from: usize, mut a: Cursor, mut b: Cursor, mut passed: Vec<Passed>, depth: usize, late: bool) {
        let to = if late || self.rng.chance(50) { Some(self.point()) } else { None };
        let parts: Vec<Vec<Act>> = (0..self.rng.from_to(1, 3)).map(|_| Act::random(self.rng, self.variables, 4)).collect();
        let set = parts.iter().flatten().fold(0, |s, a| s | a.sets());
        passed.retain(|(_, l, r, _)| (l.uses() | r.uses()) & set == 0);
        let ones = self.edges_of(&parts, &[]);
        let twos = self.second_edges(from, &parts, to);
        for (m, at, edges) in [(&mut self.pair.first, &mut a, ones), (&mut self.pair.second, &mut b, twos)] {
            let last = edges.len() - 1;
            for (i, acts) in edges.into_iter().enumerate() {
                *at = step(m, *at, acts, to.filter(|_| i == last));
            }
        }
        match to {
            Some(to) => self.ended(a, b, to),
            None => self.grow(from, a, b, passed, depth + 1),
        }
    }

    // A test that both make, with actions on its edges.
    fn branch(&mut self, from: usize, a: Cursor, b: Cursor, passed: Vec<Passed>, depth: usize) {
        let (kind, l, r) = (self.rng.from_to(2, 4) as u32, self.expr(), self.expr());
        let acts = [Act::random(self.rng, self.variables, 3), Act::random(self.rng, self.variables, 3)];
        let told = (kind, self.told(from, &l), self.told(from, &r));
        let twos = [self.second_acts(from, &acts[0]), self.second_acts(from, &acts[1])];
        let set = [0, 1].map(|k: usize| acts[k].iter().fold(0, |s, a| s | a.sets()));
        let on = test(&mut self.pair.first, a, (kind, l.clone(), r.clone()), acts, [None, None]);
        let tw = test(&mut self.pair.second, b, told, twos, [None, None]);
        for k in 0..2 {
            let mut next = passed.clone();
            next.push((kind, l.clone(), r.clone(), k == 0));
            next.retain(|(_, l, r, _)| (l.uses() | r.uses()) & set[k] == 0);
            self.grow(from, on[k], tw[k], next, depth + 1);
        }
    }

    // A test in the first alone, of what is known already: its other side is an impossible path.
    fn known_in_first(&mut self, from: usize, a: Cursor, b: Cursor, passed: Vec<Passed>, depth: usize) {
        let (kind, l, r, side) = self.known(&passed);
        let (l, r) = (l.rearranged(self.rng), r.rearranged(self.rng));
        let somewhere = self.point();
        let wild = Act::random(self.rng, self.variables, 3);
        let (acts, to) = if side { ([vec![], wild], [None, Some(somewhere)]) } else { ([wild, vec![]], [Some(somewhere), None]) };
        let on = test(&mut self.pair.first, a, (kind, l, r), acts, to);
        if side {
            self.grow(from, on[0], b, passed, depth + 1);
            self.impossible(on[1]);
        } else {
            self.impossible(on[0]);
            self.grow(from, on[1], b, passed, depth + 1);
        }
    }

    // A test in the second alone, of what is known already: its other side leads anywhere.
    fn known_in_second(&mut self, from: usize, a: Cursor, b: Cursor, passed: Vec<Passed>, depth: usize) {
        let (kind, l, r, side) = self.known(&passed);
        let told = (kind, self.told(from, &l), self.told(from, &r));
        let somewhere = self.point();
        let wild = Act::random(self.rng, 16, 3);
        let (acts, to) = if side { ([vec![], wild], [None, Some(somewhere)]) } else { ([wild, vec![]], [Some(somewhere), None]) };
        let on = test(&mut self.pair.second, b, told, acts, to);
        self.grow(from, a, on[if side { 0 } else { 1 }], passed, depth + 1);
    }
}

// A table with itself: a pair for each state, a path for each way on, each variable linked with itself.
pub fn itself(m: &Machine, places: &[u32]) -> List {
    let mut list = List { links: (0..16).map(|v| [v, v]).collect(), ..List::default() };
    let mut order: Vec<usize> = (0..m.states.len()).collect();
    order.sort_by_key(|&s| places[s]);
    for s in order {
        let first = list.paths.len() as u32;
        let to = |e: usize| places[m.edges[e].target];
        match &m.states[s] {
            State::Stop => {}
            State::Step(e) => list.paths.push([1, 0, 1, 0, to(*e), 0]),
            State::Test(_, _, _, yes, no) => {
                list.paths.push([1, 1, 1, 1, to(*yes), 0]);
                list.paths.push([1, 0, 1, 0, to(*no), 0]);
            }
        }
        list.pairs.push([places[s], places[s], 0, 16, first, list.paths.len() as u32 - first]);
    }
    list
}

// A small change of what a machine does.
pub fn spoilt(rng: &mut Rng, m: &mut Machine) {
    if m.edges.is_empty() {
        return;
    }
    let e = rng.below(m.edges.len());
    let states = m.states.len();
    let acts = &mut m.edges[e].acts;
    let k = rng.below(acts.len());
    match rng.below(6) {
        0 if !acts.is_empty() => drop(acts.remove(k)),
        1 if acts.len() < 16 => acts.push(Act::Read(rng.below(4) as u32, rng.below(16) as u32)),
        2 if acts.len() < 16 => acts.push(Act::Write(rng.below(4) as u32, Expr::Constant(7))),
        3 if !acts.is_empty() => {
            if let Act::Assign(_, x) | Act::Write(_, x) = &mut acts[k] {
                let kind = *rng.pick(&[SUM, DIFFERENCE, PRODUCT]);
                *x = two(kind, x.clone(), Expr::Variable(rng.below(16) as u32));
            }
        }
        4 => m.edges[e].target = rng.below(states),
        _ => {
            let s = rng.below(states);
            if let State::Test(kind, l, r, yes, no) = &mut m.states[s] {
                match rng.below(3) {
                    0 => std::mem::swap(l, r),
                    1 => std::mem::swap(yes, no),
                    _ => *kind = rng.from_to(2, 4) as u32,
                }
            }
        }
    }
}
