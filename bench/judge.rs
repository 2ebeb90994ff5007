// The compiled judgement, measured: the paper's meter against itself, the pump of examples/, and the largest legal case. Each is judged
// again and again; the best time counts.
// Usage: judge EXAMPLES [FOLDER]. EXAMPLES is the folder of the pump's images; with FOLDER it measures nothing, and writes the largest
// case's images there, as first, second and list.
#[path = "largest.rs"]
mod largest;

use std::env;
use std::fs;
use std::time::Instant;

extern "C" {
    fn sandulipaw_judge(
        first: *const u32, first_len: usize,
        second: *const u32, second_len: usize,
        list: *const u32, list_len: usize,
        answer: *mut u64,
    );
}

// The meter table of the paper, and its list.
const METER: [u32; 53] = [
    1, 53, 2, 10, 3, 20, 5, 29, 9, 44, 1, 0, 0, 0, 0, 3, 0, 2, 1, 2, 1, 0, 1, 0, 1, 2, 0, 3, 2, 1, 0, 0, 2, 1, 4, 2, 0, 6, 2, 1, 2, 2, 0, 0,
    1, 0, 0, 0, 0, 1, 5, 1, 0,
];
const LIST: [u32; 26] = [2, 26, 1, 8, 0, 14, 2, 14, 0, 0, 0, 0, 0, 2, 2, 2, 2, 2, 0, 0, 2, 0, 2, 0, 0, 0];

struct Case {
    name: &'static str,
    images: [Vec<u32>; 3],
}

fn judged(case: &Case) -> [u64; 3] {
    let mut answer = [u64::MAX; 3];
    let [first, second, list] = &case.images;
    unsafe {
        sandulipaw_judge(first.as_ptr(), first.len(), second.as_ptr(), second.len(), list.as_ptr(), list.len(), answer.as_mut_ptr());
    }
    answer
}

// Judges a case for a second or more and at least three times, and prints the quickest.
fn measure(case: &Case) {
    let begin = Instant::now();
    let mut least = f64::MAX;
    let mut answer = [u64::MAX; 3];
    let mut times = 0;
    while times < 3 || begin.elapsed().as_secs_f64() < 1.0 {
        let from = Instant::now();
        answer = judged(case);
        least = least.min(from.elapsed().as_secs_f64());
        times += 1;
    }
    println!("{:<58} {:>12.1} us   {} {} {}", case.name, least * 1e6, answer[0], answer[1], answer[2]);
    if answer != [0; 3] {
        println!("it should have been accepted");
        std::process::exit(1);
    }
}

fn image(file: &str) -> Vec<u32> {
    let bytes = fs::read(file).expect(file);
    bytes.chunks_exact(4).map(|b| u32::from_le_bytes([b[0], b[1], b[2], b[3]])).collect()
}

fn write(folder: &str, case: &Case) {
    for (name, words) in ["first", "second", "list"].iter().zip(&case.images) {
        let bytes: Vec<u8> = words.iter().flat_map(|w| w.to_le_bytes()).collect();
        fs::write(format!("{folder}/{name}"), bytes).expect("the folder can be written");
    }
}

fn main() {
    let args: Vec<String> = env::args().skip(1).collect();
    let largest = Case {
        name: "64 states, 512 paths of 32 edges, sums of 16 terms",
        images: largest::largest(),
    };
    match &args[..] {
        [_, folder] => write(folder, &largest),
        [examples] => {
            let pump = ["drawn", "scheduled", "list"].map(|name| image(&format!("{examples}/{name}")));
            measure(&Case { name: "the meter against itself", images: [METER.to_vec(), METER.to_vec(), LIST.to_vec()] });
            measure(&Case { name: "the pump of examples/", images: pump });
            measure(&largest);
        }
        _ => {
            eprintln!("usage: judge EXAMPLES [FOLDER]");
            std::process::exit(2);
        }
    }
}
