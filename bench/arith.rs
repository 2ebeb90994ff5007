// The arithmetic of the chip and the algebra of the paper in plain Rust, to measure the proved crates against. Written from the
// paper's rules. Usage: arith WHICH ROUNDS, as the proved program `arith` takes them; it prints the same check number.
// WHICH: 0 a 16-term sum plus a 16-term sum, 1 an 8 by 8 product, 2 the normal sum and 3 the value of a 63-word expression.
use std::env;

#[derive(Clone, Copy)]
struct Term {
    coef: u32,
    mono: u32,
}

#[derive(Clone)]
struct Sum {
    terms: Vec<Term>,
}

fn symbols(mut mono: u32) -> u32 {
    let mut n = 0;
    while mono != 0 {
        mono /= 128;
        n += 1;
    }
    n
}

fn merge(mut a: u32, mut b: u32) -> u32 {
    let mut digits = Vec::with_capacity(8);
    while a != 0 {
        digits.push(a % 128);
        a /= 128;
    }
    while b != 0 {
        digits.push(b % 128);
        b /= 128;
    }
    digits.sort_unstable();
    digits.iter().fold(0, |m, d| m * 128 + d)
}

impl Sum {
    fn constant(c: u32) -> Sum {
        let terms = if c == 0 { vec![] } else { vec![Term { coef: c, mono: 0 }] };
        Sum { terms }
    }

    fn insert(&mut self, t: Term) {
        match self.terms.binary_search_by_key(&t.mono, |u| u.mono) {
            Ok(i) => {
                let c = self.terms[i].coef.wrapping_add(t.coef);
                if c == 0 {
                    self.terms.remove(i);
                } else {
                    self.terms[i].coef = c;
                }
            }
            Err(i) => {
                if t.coef != 0 {
                    self.terms.insert(i, t);
                }
            }
        }
    }

    fn fit(self) -> Option<Sum> {
        if self.terms.len() <= 16 { Some(self) } else { None }
    }

    fn add(&self, other: &Sum) -> Option<Sum> {
        let mut s = self.clone();
        for t in &other.terms {
            s.insert(*t);
        }
        s.fit()
    }

    fn negate(&self) -> Sum {
        Sum { terms: self.terms.iter().map(|t| Term { coef: t.coef.wrapping_neg(), mono: t.mono }).collect() }
    }

    fn multiply(&self, other: &Sum) -> Option<Sum> {
        if self.terms.len() * other.terms.len() > 64 {
            return None;
        }
        let mut s = Sum { terms: Vec::with_capacity(64) };
        for t in &self.terms {
            for u in &other.terms {
                let coef = t.coef.wrapping_mul(u.coef);
                if coef == 0 {
                    continue;
                }
                if symbols(t.mono) + symbols(u.mono) > 4 {
                    return None;
                }
                s.insert(Term { coef, mono: merge(t.mono, u.mono) });
            }
        }
        s.fit()
    }

    fn check(&self) -> u32 {
        self.terms.iter().fold(self.terms.len() as u32, |n, t| n.wrapping_add(t.coef).wrapping_add(t.mono))
    }
}

fn value(words: &[u32], variables: &[u32; 16]) -> (u32, usize) {
    match words[0] {
        0 => (words[1], 2),
        1 => (variables[words[1] as usize], 2),
        5 => {
            let (x, n) = value(&words[1..], variables);
            (x.wrapping_neg(), n + 1)
        }
        op => {
            let (x, n) = value(&words[1..], variables);
            let (y, m) = value(&words[1 + n..], variables);
            let z = match op {
                2 => x.wrapping_add(y),
                3 => x.wrapping_sub(y),
                _ => x.wrapping_mul(y),
            };
            (z, 1 + n + m)
        }
    }
}

fn normal(words: &[u32], env: &[Sum]) -> (Option<Sum>, usize) {
    match words[0] {
        0 => (Some(Sum::constant(words[1])), 2),
        1 => (Some(env[words[1] as usize].clone()), 2),
        5 => {
            let (x, n) = normal(&words[1..], env);
            (x.map(|s| s.negate()), n + 1)
        }
        op => {
            let (x, n) = normal(&words[1..], env);
            let (y, m) = normal(&words[1 + n..], env);
            let z = match (x, y) {
                (Some(x), Some(y)) => match op {
                    2 => x.add(&y),
                    3 => x.add(&y.negate()),
                    _ => x.multiply(&y),
                },
                _ => None,
            };
            (z, 1 + n + m)
        }
    }
}

// Ten products of two and a negation under sums and differences, over all sixteen variables: 63 words, 11 terms.
const EXPRESSION: [u32; 63] = [
    3, 2, 3, 2, 3, 2, 3, 2, 3, 2, 4, 1, 0, 1, 1, 4, 0, 3, 1, 2, 4, 1, 3, 1,
    4, 4, 0, 7, 1, 5, 4, 1, 6, 0, 65536, 4, 1, 7, 1, 8, 4, 0, 2, 1, 9, 4, 1, 10,
    1, 11, 4, 0, 5, 1, 12, 4, 1, 13, 1, 14, 5, 1, 15,
];

fn main() {
    let args: Vec<u32> = env::args().skip(1).map(|a| a.parse().unwrap()).collect();
    let (which, rounds) = (args[0], args[1]);
    let wide = |k: u32| Sum { terms: (1..17).map(|v| Term { coef: v * k, mono: v }).collect() };
    // 1, x, y, xx, xy, yy, xxx, yyy, with coefficients such that a product of five symbols or more vanishes: 15 terms are left.
    let monos = [0u32, 1, 2, 129, 130, 258, 16513, 33026];
    let scales = [1u32, 1, 1, 256, 256, 256, 16777216, 16777216];
    let term = |i: usize, k: u32| Term { coef: scales[i].wrapping_mul(monos[i] + k), mono: monos[i] };
    let eight = |k: u32| Sum { terms: (0..8).map(|i| term(i, k)).collect() };
    let env: Vec<Sum> = (1..17).map(|v| Sum { terms: vec![Term { coef: 1, mono: v }] }).collect();
    let mut variables = [0u32; 16];
    for v in 0..16 {
        variables[v] = v as u32 + 1;
    }
    let (mut a, b) = (wide(3), wide(5));
    let (mut c, mut d) = (eight(3), eight(5));
    d.terms[0].coef = 5;
    let mut total = 0u32;
    for i in 0..rounds {
        match which {
            0 => {
                a = a.add(&b).unwrap_or_else(|| wide(3));
                total = total.wrapping_add(a.check());
            }
            1 => {
                c.terms[0].coef = i;
                total = total.wrapping_add(match c.multiply(&d) {
                    Some(s) => s.check(),
                    None => 1,
                });
            }
            2 => {
                total = total.wrapping_add(match normal(&EXPRESSION, &env).0 {
                    Some(s) => s.check(),
                    None => 1,
                });
            }
            _ => {
                variables[(i % 16) as usize] = total;
                total = total.wrapping_add(value(&EXPRESSION, &variables).0);
            }
        }
    }
    println!("{total}");
}
