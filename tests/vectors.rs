// Runs every case of files of vectors through the compiled library and compares the whole answer, of a run the whole buffer too.
// Usage: vectors KIND FILE CASES [KIND FILE CASES ..], where KIND is run or judge. A case is a line
//   run    table | input words | limit | words of room = number image record state edges couples v0 .. v15 : port word port word ..
//   judge  first table | second table | correspondence = number image record
// It prints a line for each case that fails and then how many there were. It fails where a line cannot be read, where a file has
// another number of cases than CASES, and where a case fails.
use std::env;
use std::fs;
use std::process::ExitCode;

extern "C" {
    fn sandulipaw_run(
        table: *const u32, table_len: usize,
        input: *const u32, input_len: usize,
        limit: u32,
        out: *mut u32, out_len: usize,
        answer: *mut u64,
    );
    fn sandulipaw_judge(
        first: *const u32, first_len: usize,
        second: *const u32, second_len: usize,
        list: *const u32, list_len: usize,
        answer: *mut u64,
    );
}

// Words behind the room that no run is lent, and numbers behind an answer.
const GUARD: usize = 4;

// What stands at a place of the buffer before the run: no two places alike, and no word that a run would write there by chance.
fn pattern(i: usize) -> u32 {
    0xA5C3_0000 ^ (i as u32).wrapping_mul(2_654_435_761)
}

fn numbers<T: std::str::FromStr>(text: &str) -> Option<Vec<T>> {
    text.split_whitespace().map(|w| w.parse().ok()).collect()
}

// What is wrong with an answer and the guard behind it, or nothing.
fn other_than(answer: &[u64], must: &[u64]) -> Option<String> {
    let (is, guard) = answer.split_at(must.len());
    if is != must {
        return Some(format!("answers {is:?} and not {must:?}"));
    }
    guard.iter().any(|&n| n != u64::MAX).then(|| "changes what stands behind its answer".to_string())
}

struct Run {
    table: Vec<u32>,
    input: Vec<u32>,
    limit: u32,
    room: usize,
    numbers: Vec<u64>,
    couples: Vec<u32>,
}

fn run_case(line: &str) -> Option<Run> {
    let (given, answer) = line.split_once('=')?;
    let given: Vec<&str> = given.split('|').collect();
    let [table, input, limit, room] = given[..] else { return None };
    let (answer, couples) = answer.split_once(':')?;
    let case = Run {
        table: numbers(table)?,
        input: numbers(input)?,
        limit: limit.trim().parse().ok()?,
        room: room.trim().parse().ok()?,
        numbers: numbers(answer)?,
        couples: numbers(couples)?,
    };
    let whole = case.numbers.len() == 22 && case.couples.len() as u64 == 2 * case.numbers[5] && case.couples.len() <= case.room;
    whole.then_some(case)
}

// What is wrong with the answer to a run, or nothing.
fn run_fault(case: &Run) -> Option<String> {
    let mut out: Vec<u32> = (0..case.room + GUARD).map(pattern).collect();
    let mut answer = [u64::MAX; 22 + GUARD];
    let (table, input) = (case.table.clone(), case.input.clone());
    unsafe {
        sandulipaw_run(table.as_ptr(), table.len(), input.as_ptr(), input.len(), case.limit, out.as_mut_ptr(), case.room, answer.as_mut_ptr());
    }
    if let Some(wrong) = other_than(&answer, &case.numbers) {
        return Some(wrong);
    }
    let n = case.couples.len();
    if out[..n] != case.couples[..] {
        return Some(format!("writes {:?} and not {:?}", &out[..n], case.couples));
    }
    if let Some(i) = (n..out.len()).find(|&i| out[i] != pattern(i)) {
        return Some(format!("changes word {i} behind its {n} words of couples"));
    }
    if table != case.table || input != case.input {
        return Some("changes what it was lent to read".to_string());
    }
    None
}

struct Judge {
    images: [Vec<u32>; 3],
    numbers: Vec<u64>,
}

fn judge_case(line: &str) -> Option<Judge> {
    let (given, answer) = line.split_once('=')?;
    let given: Vec<&str> = given.split('|').collect();
    let [first, second, list] = given[..] else { return None };
    let case = Judge {
        images: [numbers(first)?, numbers(second)?, numbers(list)?],
        numbers: numbers(answer)?,
    };
    (case.numbers.len() == 3).then_some(case)
}

// What is wrong with the answer to a judgement, or nothing.
fn judge_fault(case: &Judge) -> Option<String> {
    let mut answer = [u64::MAX; 3 + GUARD];
    let [first, second, list] = case.images.clone();
    unsafe {
        sandulipaw_judge(first.as_ptr(), first.len(), second.as_ptr(), second.len(), list.as_ptr(), list.len(), answer.as_mut_ptr());
    }
    if let Some(wrong) = other_than(&answer, &case.numbers) {
        return Some(wrong);
    }
    if [first, second, list] != case.images {
        return Some("changes what it was lent to read".to_string());
    }
    None
}

// What is wrong with a line's case, or nothing.
type Fault = fn(&str) -> Option<String>;

fn run_line(line: &str) -> Option<String> {
    run_case(line).map_or_else(|| Some("is no case".to_string()), |case| run_fault(&case))
}

fn judge_line(line: &str) -> Option<String> {
    judge_case(line).map_or_else(|| Some("is no case".to_string()), |case| judge_fault(&case))
}

// Runs the cases of a file, adds how many passed and failed, and tells whether the file could be read and has so many cases.
fn run_file(fault: Fault, file: &str, count: &str, passed: &mut usize, failed: &mut usize) -> bool {
    let text = match fs::read_to_string(file) {
        Ok(text) => text,
        Err(why) => {
            println!("FAILED {file}: {why}");
            return false;
        }
    };
    let mut cases = 0;
    for (i, line) in text.lines().enumerate() {
        cases += 1;
        match fault(line) {
            Some(wrong) => {
                *failed += 1;
                println!("FAILED {file}:{}: {wrong}", i + 1);
            }
            None => *passed += 1,
        }
    }
    if cases.to_string() != count {
        println!("FAILED {file} has {cases} cases and not {count}");
        return false;
    }
    true
}

fn main() -> ExitCode {
    let args: Vec<String> = env::args().skip(1).collect();
    let (mut passed, mut failed) = (0, 0);
    for triple in args.chunks(3) {
        let (fault, file, count) = match triple {
            [kind, file, count] if kind == "run" => (run_line as Fault, file, count),
            [kind, file, count] if kind == "judge" => (judge_line as Fault, file, count),
            _ => {
                eprintln!("usage: vectors KIND FILE CASES [KIND FILE CASES ..], where KIND is run or judge");
                return ExitCode::from(2);
            }
        };
        if !run_file(fault, file, count, &mut passed, &mut failed) {
            return ExitCode::FAILURE;
        }
    }
    println!("{passed} passed, {failed} failed");
    if failed == 0 && passed > 0 { ExitCode::SUCCESS } else { ExitCode::FAILURE }
}
