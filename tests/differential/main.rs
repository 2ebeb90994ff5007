// The proved library against the reference, on generated cases: whole answers, whole buffers, and what is lent to be read left as it was.
// Usage: differential SEED ROUNDS RUN-VECTORS JUDGE-VECTORS. The vectors come first, against their recorded answers; then every limit of
// the paper, at it and one over; then the rounds, each some thirty cases made from the seed and the round's number alone.
// Accepted pairs are run, both tables on the same random words, and the words on each port compared.
// It prints how often each number was the answer; one that never was is a failure. A case that fails is printed as a line of vectors, with
// the reference's answer. The last line is 'N passed, M failed'.
mod harm;
mod limits;
mod machine;
mod pairs;
#[path = "../reference/reference.rs"]
mod reference;

use machine::{Machine, Rng};
use std::process::ExitCode;
use std::{env, fs, thread};

extern "C" {
    fn sandulipaw_run(
        table: *const u32, table_len: usize,
        input: *const u32, input_len: usize,
        limit: u32,
        out: *mut u32, out_len: usize,
        answer: *mut u64,
    );
    fn sandulipaw_judge(
        first: *const u32, first_len: usize,
        second: *const u32, second_len: usize,
        list: *const u32, list_len: usize,
        answer: *mut u64,
    );
}

// Words behind a buffer, and numbers behind an answer, that are not lent.
const GUARD: usize = 4;

// What stands at a place of the buffer before a run: no two places alike.
fn pattern(i: usize) -> u32 {
    0xA5C3_0000 ^ (i as u32).wrapping_mul(2_654_435_761)
}

fn patterned(words: usize) -> Vec<u32> {
    (0..words).map(pattern).collect()
}

// Numbers that a judgement answers and that a run answers; 14 is never one.
const JUDGED: [usize; 19] = [0, 1, 2, 3, 4, 5, 6, 7, 8, 9, 10, 11, 12, 13, 15, 16, 17, 18, 19];
const RUN: [usize; 10] = [1, 2, 3, 4, 5, 20, 21, 22, 23, 24];

// Failures that are printed in full.
const SHOWN: usize = 10;

#[derive(Default)]
struct Tally {
    passed: u64,
    failed: u64,
    judged: [u64; 25],
    run: [u64; 25],
    promises: u64,
    both_stopped: u64,
    shown: Vec<String>,
}

impl Tally {
    fn add(&mut self, other: Tally) {
        self.passed += other.passed;
        self.failed += other.failed;
        self.promises += other.promises;
        self.both_stopped += other.both_stopped;
        for n in 0..25 {
            self.judged[n] += other.judged[n];
            self.run[n] += other.run[n];
        }
        self.shown.extend(other.shown);
    }

    fn count(&mut self, wrong: Option<String>, line: impl Fn() -> String) {
        match wrong {
            None => self.passed += 1,
            Some(wrong) => {
                self.failed += 1;
                if self.shown.len() < SHOWN {
                    self.shown.push(format!("FAILED {wrong}\n{}", line()));
                }
            }
        }
    }
}

fn spaced<T: ToString>(words: impl IntoIterator<Item = T>) -> String {
    words.into_iter().map(|w| w.to_string()).collect::<Vec<_>>().join(" ")
}

type Images = [Vec<u32>; 3];

fn judge_line(images: &Images, answer: [u32; 3]) -> String {
    let [first, second, list] = images;
    format!("{} | {} | {} = {}", spaced(first), spaced(second), spaced(list), spaced(answer))
}

// What is wrong with the library's answer to three images, or nothing.
fn judge_fault(images: &Images, must: [u32; 3]) -> Option<String> {
    let lent = images.clone();
    let [first, second, list] = &lent;
    let mut answer = [u64::MAX; 3 + GUARD];
    unsafe {
        sandulipaw_judge(first.as_ptr(), first.len(), second.as_ptr(), second.len(), list.as_ptr(), list.len(), answer.as_mut_ptr());
    }
    if answer[..3] != must.map(u64::from) {
        return Some(format!("judge: the library answers {:?}, the reference {must:?}", &answer[..3]));
    }
    if answer[3..] != [u64::MAX; GUARD] || lent != *images {
        return Some("judge: the library writes where it must not".to_string());
    }
    None
}

// Three images judged by both; the number.
fn judged(tally: &mut Tally, images: &Images) -> u32 {
    let must = reference::judge(&images[0], &images[1], &images[2]);
    tally.judged[must[0] as usize] += 1;
    tally.count(judge_fault(images, must), || judge_line(images, must));
    must[0]
}

struct Run {
    table: Vec<u32>,
    input: Vec<u32>,
    limit: u32,
    room: usize,
}

// What a run left: its answer, its buffer and the input words left on each port.
struct Left {
    trial: reference::Trial,
    buffer: Vec<u32>,
    left: [usize; 4],
}

fn numbers(t: &reference::Trial) -> [u64; 22] {
    let head = [t.number, t.image, t.record, t.state, t.edges].map(u64::from);
    std::array::from_fn(|i| match i {
        0..=4 => head[i],
        5 => t.couples,
        _ => t.variables[i - 6] as u64,
    })
}

fn run_line(run: &Run, left: &Left) -> String {
    let couples = &left.buffer[..2 * left.trial.couples as usize];
    let given = format!("{} | {} | {} | {}", spaced(&run.table), spaced(&run.input), run.limit, run.room);
    format!("{given} = {} : {}", spaced(numbers(&left.trial)), spaced(couples))
}

// What is wrong with the library's answer and buffer, or nothing.
fn run_fault(run: &Run, must: &Left) -> Option<String> {
    let (table, input) = (run.table.clone(), run.input.clone());
    let mut out = patterned(run.room + GUARD);
    let mut answer = [u64::MAX; 22 + GUARD];
    unsafe {
        sandulipaw_run(table.as_ptr(), table.len(), input.as_ptr(), input.len(), run.limit, out.as_mut_ptr(), run.room, answer.as_mut_ptr());
    }
    let right = numbers(&must.trial);
    if answer[..22] != right {
        return Some(format!("run: the library answers {:?}, the reference {right:?}", &answer[..22]));
    }
    if let Some(i) = (0..run.room).find(|&i| out[i] != must.buffer[i]) {
        return Some(format!("run: word {i} of the library's buffer is {}, of the reference's {}", out[i], must.buffer[i]));
    }
    if answer[22..] != [u64::MAX; GUARD] || (run.room..out.len()).any(|i| out[i] != pattern(i)) || table != run.table || input != run.input {
        return Some("run: the library writes where it must not".to_string());
    }
    None
}

// A run by both; what the reference left.
fn ran(tally: &mut Tally, run: &Run) -> Left {
    let mut buffer = patterned(run.room);
    let (trial, left) = reference::run(&run.table, &run.input, run.limit, &mut buffer);
    let left = Left { trial, buffer, left };
    tally.run[trial.number as usize] += 1;
    tally.count(run_fault(run, &left), || run_line(run, &left));
    left
}

// Random input couples, so many on each port, the ports mixed.
fn input(rng: &mut Rng, each: usize) -> Vec<u32> {
    let mut ports: Vec<u32> = (0..4 * each as u32).map(|k| k % 4).collect();
    rng.shuffle(&mut ports);
    let small = rng.chance(50);
    ports.into_iter().flat_map(|p| [p, if small { rng.below(5) as u32 } else { rng.word() }]).collect()
}

// The words that a run wrote on a port.
fn on_port(left: &Left, port: u32) -> Vec<u32> {
    let couples = left.buffer[..2 * left.trial.couples as usize].chunks(2);
    couples.filter(|c| c[0] == port).map(|c| c[1]).collect()
}

// An accepted pair at work: each side's words on a port begin the other's; where both stop, the words and the counts of reads are equal.
fn promise(tally: &mut Tally, rng: &mut Rng, images: &Images) {
    let each = rng.from_to(0, 60);
    let input = input(rng, each);
    let limit = *rng.pick(&[200, 1000]);
    let run = |table: &Vec<u32>| Run { table: table.clone(), input: input.clone(), limit, room: 6000 };
    let (a, b) = (ran(tally, &run(&images[0])), ran(tally, &run(&images[1])));
    let both = a.trial.number == 20 && b.trial.number == 20;
    let kept = (0..4).all(|p| {
        let (x, y) = (on_port(&a, p), on_port(&b, p));
        (x.starts_with(&y) || y.starts_with(&x)) && (!both || x == y)
    });
    let kept = kept && (!both || a.left == b.left);
    tally.promises += 1;
    tally.both_stopped += both as u64;
    let wrong = (!kept).then(|| format!("promise: an accepted pair differs on input {}", spaced(&input)));
    tally.count(wrong, || judge_line(images, [0; 3]));
}

// Judged by both and, where accepted, seen at work.
fn judged_and_kept(tally: &mut Tally, rng: &mut Rng, images: &Images) {
    if judged(tally, images) == 0 {
        promise(tally, rng, images);
    }
}

// A grown pair's images.
fn images_of(rng: &mut Rng, pair: &pairs::Pair) -> Images {
    let (first, places) = pair.first.image(rng);
    let (second, other) = pair.second.image(rng);
    let mut list = pair.list.clone();
    for p in &mut list.pairs {
        p[0] = places.get(p[0] as usize).copied().unwrap_or(p[0]);
        p[1] = other.get(p[1] as usize).copied().unwrap_or(p[1]);
    }
    [first, second, list.image()]
}

// A pair that is right, and what small changes make of it.
fn pair_cases(tally: &mut Tally, rng: &mut Rng) {
    let points = if rng.chance(5) { rng.from_to(6, 16) } else { rng.from_to(1, 4) };
    let variables = if rng.chance(15) { 16 } else { rng.from_to(1, 8) as u32 };
    let depth = rng.from_to(1, 5);
    let pair = pairs::grown(rng, points, variables, depth);
    let images = images_of(rng, &pair);
    judged_and_kept(tally, rng, &images);
    let right = reference::judge(&images[0], &images[1], &images[2]);
    let wrong = (![0, 1, 13].contains(&right[0])).then(|| "pair: one that is right, and not too large, is refused".to_string());
    tally.count(wrong, || judge_line(&images, right));
    for _ in 0..6 {
        let mut changed = images.clone();
        let which = rng.below(3);
        harm::one_word(rng, &mut changed[which]);
        judged_and_kept(tally, rng, &changed);
    }
    for _ in 0..4 {
        let mut list = pair.list.clone();
        harm::relisted(rng, &mut list);
        let changed = pairs::Pair { first: pair.first.clone(), second: pair.second.clone(), list };
        let changed = images_of(rng, &changed);
        judged_and_kept(tally, rng, &changed);
    }
    for k in 0..4 {
        let mut changed = pairs::Pair { first: pair.first.clone(), second: pair.second.clone(), list: pair.list.clone() };
        pairs::spoilt(rng, if k == 0 { &mut changed.first } else { &mut changed.second });
        let changed = images_of(rng, &changed);
        judged_and_kept(tally, rng, &changed);
    }
    let mut changed = images;
    let which = rng.below(3);
    harm::damage(rng, &mut changed[which]);
    judged(tally, &changed);
}

// A table that leads anywhere, with itself.
fn itself_cases(tally: &mut Tally, rng: &mut Rng) -> Vec<u32> {
    let (states, edges) = if rng.chance(5) { (64, 128) } else { (rng.from_to(1, 9), rng.from_to(0, 14)) };
    let variables = rng.from_to(1, 16) as u32;
    let acts = if rng.chance(10) { 16 } else { 4 };
    let m = Machine::random(rng, states, edges, variables, acts);
    let (table, places) = m.image(rng);
    let images = [table.clone(), table.clone(), pairs::itself(&m, &places).image()];
    judged_and_kept(tally, rng, &images);
    let mut changed = images;
    let which = rng.below(3);
    harm::one_word(rng, &mut changed[which]);
    judged_and_kept(tally, rng, &changed);
    table
}

// A table run to every end: limits, input and room at what it needs, one under and one over.
fn run_cases(tally: &mut Tally, rng: &mut Rng, table: Vec<u32>) {
    let each = rng.below(12);
    let limit = if rng.chance(10) { 3000 } else { rng.below(120) as u32 };
    let base = Run { table, input: input(rng, each), limit, room: 4096 };
    let before = tally.failed;
    let all = ran(tally, &base);
    if tally.failed > before {
        return;
    }
    let again = |tally: &mut Tally, input: &[u32], limit: u32, room: usize| {
        ran(tally, &Run { table: base.table.clone(), input: input.to_vec(), limit, room });
    };
    let edges = all.trial.edges;
    let room = 2 * all.trial.couples as usize;
    for limit in [edges.saturating_sub(1), edges, edges + 1] {
        again(tally, &base.input, limit, 4096);
    }
    for room in [room.saturating_sub(2), room.saturating_sub(1), room, room + 1] {
        again(tally, &base.input, limit, room);
    }
    if all.trial.number != 21 {
        again(tally, &base.input, u32::MAX, 4096);
    }
    let some = 2 * rng.below(base.input.len() / 2 + 1);
    again(tally, &base.input[..some], limit, 4096);
    let mut wrong = base.input.clone();
    if rng.chance(50) {
        wrong.push(rng.below(4) as u32);
    } else {
        let port = if rng.chance(50) { 4 } else { rng.word() };
        wrong.extend([port, 0]);
    }
    again(tally, &wrong, limit, 64);
    for k in 0..3 {
        let mut table = base.table.clone();
        if k == 0 {
            harm::damage(rng, &mut table);
        } else {
            harm::one_word(rng, &mut table);
        }
        ran(tally, &Run { table, input: base.input.clone(), limit, room: rng.below(40) });
    }
}

// Vectors with a word changed.
fn vector_cases(tally: &mut Tally, rng: &mut Rng, runs: &[Run], judgements: &[Images]) {
    let mut images = rng.pick(judgements).clone();
    let which = rng.below(3);
    harm::one_word(rng, &mut images[which]);
    judged_and_kept(tally, rng, &images);
    let run = rng.pick(runs);
    let mut table = run.table.clone();
    harm::one_word(rng, &mut table);
    ran(tally, &Run { table, input: run.input.clone(), limit: run.limit.min(3000), room: run.room });
}

fn words<T: std::str::FromStr>(text: &str) -> Option<Vec<T>> {
    text.split_whitespace().map(|w| w.parse().ok()).collect()
}

// A line of vectors of the judgement: the images, and whether both give the recorded answer.
fn judge_vector(tally: &mut Tally, line: &str) -> Option<Images> {
    let (given, answer) = line.split_once('=')?;
    let images: Vec<Vec<u32>> = given.split('|').map(words).collect::<Option<_>>()?;
    let images: Images = images.try_into().ok()?;
    let recorded: [u32; 3] = words(answer)?.try_into().ok()?;
    let is = reference::judge(&images[0], &images[1], &images[2]);
    let other = (is != recorded).then(|| format!("vector: the reference answers {is:?}, recorded is {recorded:?}"));
    tally.count(other.or_else(|| judge_fault(&images, recorded)), || line.to_string());
    Some(images)
}

// A line of vectors of the run: the case, and whether both give the recorded answer and couples.
fn run_vector(tally: &mut Tally, line: &str) -> Option<Run> {
    let (given, answer) = line.split_once('=')?;
    let given: Vec<&str> = given.split('|').collect();
    let [table, input, limit, room] = given[..] else { return None };
    let run = Run { table: words(table)?, input: words(input)?, limit: limit.trim().parse().ok()?, room: room.trim().parse().ok()? };
    let (answer, couples) = answer.split_once(':')?;
    let (answer, couples) = (words::<u64>(answer)?, words::<u32>(couples)?);
    let mut buffer = patterned(run.room);
    let (trial, left) = reference::run(&run.table, &run.input, run.limit, &mut buffer);
    let mut must = patterned(run.room);
    must.get_mut(..couples.len())?.copy_from_slice(&couples);
    let other = (numbers(&trial)[..] != answer || buffer != must).then(|| "vector: the reference's answer is not the recorded".to_string());
    let left = Left { trial, buffer, left };
    tally.count(other.or_else(|| run_fault(&run, &left)), || line.to_string());
    Some(run)
}

// The limits, each with the answer that it must have, and their tables run.
fn limit_cases(tally: &mut Tally) {
    for limit in limits::all() {
        judged(tally, &limit.images);
        let [first, second, list] = &limit.images;
        let is = reference::judge(first, second, list);
        let wrong = (is[0] != limit.number).then(|| format!("limit: {} gives {}, not {}", limit.name, is[0], limit.number));
        tally.count(wrong, || judge_line(&limit.images, is));
        let [table, ..] = limit.images;
        ran(tally, &Run { table, input: vec![2, 5].repeat(20), limit: 100, room: 100 });
    }
}

// A thread's share of the rounds.
fn rounds(seed: u64, mine: impl Iterator<Item = u64>, runs: &[Run], judgements: &[Images]) -> Tally {
    let mut tally = Tally::default();
    for round in mine {
        let rng = &mut Rng::new(seed, round);
        pair_cases(&mut tally, rng);
        let table = itself_cases(&mut tally, rng);
        run_cases(&mut tally, rng, table);
        vector_cases(&mut tally, rng, runs, judgements);
    }
    tally
}

fn report(tally: &mut Tally) {
    println!("{:>6} {:>10} {:>10}", "number", "judgements", "runs");
    for n in (0..25).filter(|&n| n != 14) {
        println!("{n:>6} {:>10} {:>10}", tally.judged[n], tally.run[n]);
    }
    println!("accepted pairs at work: {}, both stopped: {}", tally.promises, tally.both_stopped);
    let never = |what: &str, n: usize| format!("FAILED no {what} answered {n}");
    let mut missing: Vec<String> = JUDGED.iter().filter(|&&n| tally.judged[n] == 0).map(|&n| never("judgement", n)).collect();
    missing.extend(RUN.iter().filter(|&&n| tally.run[n] == 0).map(|&n| never("run", n)));
    if tally.both_stopped == 0 {
        missing.push("FAILED no accepted pair ran to two stops".to_string());
    }
    if tally.judged[14] > 0 {
        missing.push("FAILED a judgement answered 14".to_string());
    }
    tally.failed += missing.len() as u64;
    tally.shown.iter().take(SHOWN).chain(&missing).for_each(|line| println!("{line}"));
}

// Every line of a file of vectors, compared; nothing where the file or a line cannot be read.
fn vectors<T>(file: &str, tally: &mut Tally, one: fn(&mut Tally, &str) -> Option<T>) -> Option<Vec<T>> {
    let text = fs::read_to_string(file).ok()?;
    let all: Option<Vec<T>> = text.lines().map(|line| one(tally, line)).collect();
    all.filter(|all| !all.is_empty())
}

fn main() -> ExitCode {
    let args: Vec<String> = env::args().collect();
    let parsed = match &args[..] {
        [_, seed, count, runs, judgements] => seed.parse::<u64>().ok().zip(count.parse::<u64>().ok()).map(|(s, c)| (s, c, runs, judgements)),
        _ => None,
    };
    let Some((seed, count, runs, judgements)) = parsed else {
        eprintln!("usage: differential SEED ROUNDS RUN-VECTORS JUDGE-VECTORS");
        return ExitCode::from(2);
    };
    let mut tally = Tally::default();
    let Some(runs) = vectors(runs, &mut tally, run_vector) else {
        println!("FAILED {runs} cannot be read");
        return ExitCode::FAILURE;
    };
    let Some(judgements) = vectors(judgements, &mut tally, judge_vector) else {
        println!("FAILED {judgements} cannot be read");
        return ExitCode::FAILURE;
    };
    limit_cases(&mut tally);
    let threads = thread::available_parallelism().map_or(1, |n| n.get());
    thread::scope(|scope| {
        let share = |t: usize| (t as u64..count).step_by(threads);
        let (runs, judgements) = (&runs, &judgements);
        let start = |t| thread::Builder::new().stack_size(64 << 20).spawn_scoped(scope, move || rounds(seed, share(t), runs, judgements));
        let all: Vec<_> = (0..threads).map(|t| start(t).expect("a thread")).collect();
        for one in all {
            tally.add(one.join().expect("a thread ends"));
        }
    });
    println!("seed {seed}, {count} rounds");
    report(&mut tally);
    println!("{} passed, {} failed", tally.passed, tally.failed);
    if tally.failed == 0 { ExitCode::SUCCESS } else { ExitCode::FAILURE }
}
