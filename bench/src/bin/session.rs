//! The printed program against the same calls through the library: how much reading and printing cost.
use std::env;
use std::fmt::Write as _;
use std::fs::{self, File};
use std::process::{Command, Stdio};

#[path = "../clock.rs"]
mod clock;
#[path = "../../../examples/rust/src/nasturakh.rs"]
#[allow(dead_code)]
mod nasturakh;

use nasturakh::{Parameters, Session, DONE};

const P: Parameters = Parameters { wpb: 30, wpr: 3, k: 1, space: 2, control: 10, n: 40 };
const CALLS: usize = 1_000_000;
const KEYS: u64 = 200;

/// A call: its name and, for the keyed ones, its key.
struct Call {
    name: &'static str,
    key: u32,
}

/// splitmix64, with a fixed seed.
struct Random(u64);

impl Random {
    fn below(&mut self, n: u64) -> u64 {
        self.0 = self.0.wrapping_add(0x9e37_79b9_7f4a_7c15);
        let mut z = self.0;
        z = (z ^ (z >> 30)).wrapping_mul(0xbf58_476d_1ce4_e5b9);
        z = (z ^ (z >> 27)).wrapping_mul(0x94d0_49bb_1331_11eb);
        (z ^ (z >> 31)) % n
    }
}

/// Half of the calls look a name up; the rest insert, strike off, correct and walk.
fn calls() -> Vec<Call> {
    let mut random = Random(1969);
    let names = ["SEEK", "SEEK", "SEEK", "SEEK", "SEEK", "NSERT", "NSERT", "DLETE", "UPDAT", "ADV"];
    let mut all = vec![Call { name: "CREATE", key: 0 }, Call { name: "OPEN", key: 0 }];
    while all.len() < CALLS {
        let name = names[random.below(10) as usize];
        all.push(Call { name, key: 1 + random.below(KEYS) as u32 });
    }
    all
}

fn input(calls: &[Call]) -> String {
    let mut text = format!("{} {} {} {} {} {}\n", P.wpb, P.wpr, P.k, P.space, P.control, P.n);
    for c in calls {
        let _ = match c.name {
            "SEEK" | "DLETE" => writeln!(text, "{} {}", c.name, c.key),
            "NSERT" | "UPDAT" => writeln!(text, "{} {} 7 8", c.name, c.key),
            _ => writeln!(text, "{}", c.name),
        };
    }
    text
}

/// Seconds of processor time for all calls through the library, and the numbers that they answered.
fn through_library(calls: &[Call]) -> (f64, Vec<u32>) {
    let mut session = Session::new(P);
    let mut file = vec![0; P.file_words()];
    let mut buffer = vec![0; P.wpb as usize];
    let mut marks = vec![0; P.n as usize];
    let mut work = [0; 3];
    let mut numbers = Vec::with_capacity(calls.len());
    let start = clock::now();
    for c in calls {
        if c.key > 0 {
            work = [c.key, 7, 8];
        }
        let answer = match c.name {
            "CREATE" => session.create(&mut file),
            "OPEN" => session.open(&file, &buffer, &mut marks),
            "SEEK" => session.seek(&mut file, &mut buffer, &mut work),
            "NSERT" => session.nsert(&mut file, &mut buffer, &work),
            "DLETE" => session.dlete(&mut file, &mut buffer, &work),
            "UPDAT" => session.updat(&mut file, &mut buffer, &work),
            _ => session.adv(&mut file, &mut buffer, &mut work),
        };
        numbers.push(answer.number);
    }
    (clock::now() - start, numbers)
}

/// Seconds of processor time that the printed program took for the input, and the numbers that it printed.
fn through_program(program: &str, folder: &str) -> (f64, Vec<u32>) {
    let printed = format!("{folder}/session.out");
    let start = clock::of_children();
    let done = Command::new(program)
        .stdin(Stdio::from(File::open(format!("{folder}/session.in")).expect("the input was written")))
        .stdout(Stdio::from(File::create(&printed).expect("the folder is there")))
        .status();
    assert!(done.is_ok_and(|s| s.success()), "{program} does not run");
    let seconds = clock::of_children() - start;
    let text = fs::read_to_string(printed).expect("what the program printed");
    let number = |line: &str| u32::from_str_radix(line.split(' ').nth(1).expect("a number"), 8).expect("octal digits");
    (seconds, text.lines().map(number).collect())
}

fn main() {
    let words: Vec<String> = env::args().collect();
    let [_, program, folder] = &words[..] else { panic!("the program and a folder are wanted") };
    let calls = calls();
    fs::write(format!("{folder}/session.in"), input(&calls)).expect("the folder can be written");
    let mut ratios = Vec::new();
    let mut rates = Vec::new();
    for _ in 0..5 {
        let (library, numbers) = through_library(&calls);
        let (whole, printed) = through_program(program, folder);
        assert!(numbers == printed, "the program printed other numbers than the library answered");
        assert!(numbers.contains(&DONE));
        ratios.push(whole / library);
        rates.push(calls.len() as f64 / whole);
    }
    ratios.sort_by(f64::total_cmp);
    rates.sort_by(f64::total_cmp);
    println!("{CALLS} calls, read, performed and printed, in {:.1} times the time of the same calls through the library", ratios[2]);
    println!("at least 200000 calls a second: {}", if rates[2] >= 200_000.0 { "yes" } else { "no" });
    println!("calls a second of processor time: {:.0}", rates[2]);
}
