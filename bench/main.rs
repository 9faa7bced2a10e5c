//! Compares the proved statement with a plain one, every byte of the page, and times both.
//!
//! `main FOLDER` compares on the texts of FOLDER and on made ones, and then prints the times of each kind of text.
//! `main FOLDER time` only prints the times. `main FOLDER only SIDE KIND CALLS` makes CALLS statements of the KIND-th kind by
//! SIDE (proved or plain) and nothing else, for a profiler.

#[forbid(unsafe_code)]
mod plain;
#[forbid(unsafe_code)]
mod texts;

use plain::Answer;
use std::hint::black_box;
use std::process::exit;
use std::time::Instant;
use texts::{Dice, Kind, LONGEST};

/// The archive's one symbol.
mod archive {
    #[repr(C)]
    pub struct Answer {
        pub number: u32,
        pub value: u64,
    }

    extern "C" {
        #[link_name = "maqdylez_statement"]
        pub fn statement(
            tariff: u64,
            opening: u64,
            text: *const u8,
            text_bytes: usize,
            page: *mut u8,
            page_bytes: usize,
        ) -> Answer;
    }
}

type Statement = fn(u64, u64, &[u8], &mut [u8]) -> Answer;

// Neither is inlined here, so that both are calls.
#[inline(never)]
fn proved(tariff: u64, opening: u64, text: &[u8], page: &mut [u8]) -> Answer {
    // SAFETY: the archive reads `text` and writes `page`, each for its length.
    let answer = unsafe {
        archive::statement(
            tariff,
            opening,
            text.as_ptr(),
            text.len(),
            page.as_mut_ptr(),
            page.len(),
        )
    };
    Answer {
        number: answer.number,
        value: answer.value,
    }
}

#[inline(never)]
fn plainly(tariff: u64, opening: u64, text: &[u8], page: &mut [u8]) -> Answer {
    plain::statement(tariff, opening, text, page)
}

/// More than the longest result: nine bytes of page for a line of one byte, and the journal.
const WIDEST_PAGE: usize = 640_000;
const SEED: u64 = 20_000_101;

/// Compares the two, and counts what is compared and which refusals are met.
struct Comparison {
    one: Vec<u8>,
    two: Vec<u8>,
    statements: u64,
    answers: [[u64; 32]; 3],
    corrected: [u64; 2],
}

impl Comparison {
    fn new() -> Comparison {
        Comparison {
            one: vec![0; WIDEST_PAGE],
            two: vec![0; WIDEST_PAGE],
            statements: 0,
            answers: [[0; 32]; 3],
            corrected: [0; 2],
        }
    }

    /// Compares one call, on a page that is full of other bytes.
    fn call(&mut self, tariff: u64, opening: u64, text: &[u8], bytes: usize) -> Answer {
        let one = &mut self.one[..bytes];
        let two = &mut self.two[..bytes];
        one.fill(0xa5);
        two.fill(0x5a);
        let by_proof = proved(tariff, opening, text, one);
        let by_hand = plainly(tariff, opening, text, two);
        self.statements += 1;
        if by_proof != by_hand || one != two {
            let shown = |page: &[u8], answer: Answer| {
                let filled = page.len().min(answer.value as usize);
                String::from_utf8_lossy(&page[..filled]).into_owned()
            };
            eprintln!("tariff {tariff}, opening day {opening}, a page of {bytes} bytes, the text:");
            eprintln!("{}", String::from_utf8_lossy(text));
            eprintln!("proved: {by_proof:?}\n{}", shown(one, by_proof));
            eprintln!("plain: {by_hand:?}\n{}", shown(two, by_hand));
            eprintln!("bench: the two statements differ");
            exit(1);
        }
        by_hand
    }

    /// Compares a text on pages of several lengths: ample, exactly right, one byte less, none, and one within.
    fn text(&mut self, dice: &mut Dice, tariff: u64, opening: u64, text: &[u8]) {
        let ample = (9 * text.len() + 70_000).min(WIDEST_PAGE);
        let answer = self.call(tariff, opening, text, ample);
        self.count(answer);
        let right = answer.value as usize;
        if text.len() > 5_000 && !dice.one_in(4) {
            return;
        }
        let within = dice.below(right as u64 + 1) as usize;
        for bytes in [right + 1, right, right.saturating_sub(1), within, 0] {
            self.call(tariff, opening, text, bytes);
        }
    }

    fn count(&mut self, answer: Answer) {
        for line in self.one[..answer.value as usize].split(|&byte| byte == b'\n') {
            let mut fields = line.split(|&byte| byte == b',');
            match (fields.next(), fields.next(), fields.next()) {
                (Some(b"A"), Some(layer), Some(number)) => {
                    let layer = b"rma".iter().position(|it| layer == [*it]).unwrap();
                    let number = number
                        .iter()
                        .fold(0, |sum, digit| 10 * sum + usize::from(digit - b'0'));
                    self.answers[layer][number] += 1;
                }
                (Some(b"J"), _, Some(b"C")) => self.corrected[0] += 1,
                (Some(b"J"), _, _) => self.corrected[1] += 1,
                _ => {}
            }
        }
    }

    fn report(&self) {
        println!("{} statements agree, in answer and page", self.statements);
        for (layer, name) in ["reader", "method", "account"].iter().enumerate() {
            let counts = self.answers[layer]
                .iter()
                .enumerate()
                .filter(|(_, &count)| count > 0);
            let told: Vec<String> = counts
                .map(|(number, count)| format!("{number}: {count}"))
                .collect();
            println!("answers of the {name}: {}", told.join(", "));
        }
        println!(
            "journal lines of corrections {}, of bills and payments {}",
            self.corrected[0], self.corrected[1]
        );
    }
}

fn stored(folder: &str) -> Vec<Vec<u8>> {
    let found = std::fs::read_dir(folder).unwrap_or_else(|error| panic!("{folder}: {error}"));
    let mut files: Vec<_> = found.map(|entry| entry.unwrap().path()).collect();
    files.retain(|file| file.extension().is_some_and(|it| it == "txt"));
    files.sort();
    assert!(!files.is_empty(), "{folder} has no text");
    files
        .iter()
        .map(|file| std::fs::read(file).unwrap())
        .collect()
}

fn opening(dice: &mut Dice) -> u64 {
    match dice.below(10) {
        0 => 18_262,
        1 => 18_200,
        2 => 365,
        3 => dice.below(18_263),
        _ => dice.below(400),
    }
}

fn compare(folder: &str) {
    let mut dice = Dice(SEED);
    let mut comparison = Comparison::new();
    let texts = stored(folder);
    for text in &texts {
        for tariff in 0..=5 {
            for opening in [0, 300, 364, 18_262, 18_263, 1 << 32, u64::MAX] {
                comparison.text(&mut dice, tariff, opening, text);
            }
        }
        for _ in 0..300 {
            let mut damaged = text.clone();
            let places = dice.between(1, 6);
            texts::damage(&mut dice, &mut damaged, places);
            let tariff = dice.between(1, 4);
            comparison.text(&mut dice, tariff, 0, &damaged);
        }
    }
    for tariff in [0, 1, 2, 3, 4, 5, (1 << 32) + 1, u64::MAX] {
        for bytes in [0, 1, LONGEST - 1, LONGEST, LONGEST + 1, LONGEST + 1_000] {
            for byte in [b'\n', b'T', 0, 255] {
                comparison.text(&mut dice, tariff, 0, &vec![byte; bytes]);
            }
        }
    }
    for round in 0..6_000 {
        let (tariff, opening) = (dice.between(1, 4), opening(&mut dice));
        let bytes = match round % 100 {
            0..=79 => dice.between(20, 1_500),
            80..=97 => dice.between(1_500, 8_000),
            _ => dice.between(8_000, 66_000),
        };
        let mut text = texts::session(&mut dice, opening, bytes as usize);
        if dice.one_in(4) {
            text.pop();
        }
        comparison.text(&mut dice, tariff, opening, &text);
        let places = dice.between(1, 1 + bytes / 60);
        texts::damage(&mut dice, &mut text, places);
        comparison.text(&mut dice, tariff, opening, &text);
    }
    for round in 0..3_000 {
        let (tariff, opening) = (dice.between(0, 5), opening(&mut dice));
        let lines = if round % 50 == 0 {
            1_200
        } else {
            dice.between(1, 40)
        };
        let mut text = b"T,0,86400\n".to_vec();
        text.extend(texts::loose(&mut dice, lines));
        comparison.text(&mut dice, tariff, opening, &text);
        let places = dice.between(1, 8);
        texts::damage(&mut dice, &mut text, places);
        comparison.text(&mut dice, tariff, opening, &text);
    }
    for Kind { tariff, text, .. } in texts::kinds(&mut dice) {
        comparison.text(&mut dice, tariff, 0, &text);
    }
    comparison.report();
}

/// The microseconds of one call, of so many in a row.
fn timed(call: Statement, tariff: u64, text: &[u8], page: &mut [u8], calls: u32) -> f64 {
    let start = Instant::now();
    for _ in 0..calls {
        black_box(call(tariff, 0, black_box(text), black_box(page)));
    }
    start.elapsed().as_secs_f64() * 1e6 / f64::from(calls)
}

/// A page for a kind: as long as its result, less what it misses. By neither of the two that a profile shows.
fn page_of(kind: &Kind) -> Vec<u8> {
    let mut page = vec![0; WIDEST_PAGE];
    let answer = plain::statement(kind.tariff, 0, &kind.text, &mut page);
    page.truncate(answer.value as usize - kind.missing);
    page
}

/// Times both in turn, each kind on a page of its length, and takes the least time of each.
fn time_all() {
    println!(
        "{:<44} {:>7} {:>6} {:>12} {:>12} {:>7}",
        "text", "bytes", "lines", "proved us", "plain us", "ratio"
    );
    let mut logarithms = Vec::new();
    let mut totals = [0.0; 2];
    for kind in texts::kinds(&mut Dice(SEED)) {
        let page = &mut page_of(&kind);
        let Kind {
            name, tariff, text, ..
        } = kind;
        let once = timed(plainly, tariff, &text, page, 3);
        let calls = (200.0 / once).ceil() as u32;
        let mut least = [f64::MAX; 2];
        for _ in 0..300 {
            for (side, call) in [proved as Statement, plainly].into_iter().enumerate() {
                least[side] = least[side].min(timed(call, tariff, &text, page, calls));
            }
        }
        let ratio = least[0] / least[1];
        let lines = text.iter().filter(|&&byte| byte == b'\n').count();
        println!(
            "{name:<44} {:>7} {lines:>6} {:>12.2} {:>12.2} {ratio:>7.2}",
            text.len(),
            least[0],
            least[1]
        );
        logarithms.push(ratio.ln());
        totals[0] += least[0];
        totals[1] += least[1];
    }
    let mean = (logarithms.iter().sum::<f64>() / logarithms.len() as f64).exp();
    println!(
        "{:<44} {:>7} {:>6} {:>12.2} {:>12.2} {:>7.2}",
        "all",
        "",
        "",
        totals[0],
        totals[1],
        totals[0] / totals[1]
    );
    println!("geometric mean of the ratios: {mean:.3}");
}

fn only(side: &str, kind: &str, calls: &str) {
    let call: Statement = match side {
        "proved" => proved,
        "plain" => plainly,
        _ => panic!("{side} is neither proved nor plain"),
    };
    let kinds = texts::kinds(&mut Dice(SEED));
    let kind = &kinds[kind.parse::<usize>().unwrap()];
    let page = &mut page_of(kind);
    let calls = calls.parse().unwrap();
    timed(call, kind.tariff, &kind.text, page, calls);
    println!("{side}: {}", kind.name);
}

fn main() {
    let words: Vec<String> = std::env::args().skip(1).collect();
    match &words.iter().map(String::as_str).collect::<Vec<_>>()[..] {
        [folder] => {
            compare(folder);
            time_all();
        }
        [_, "time"] => time_all(),
        [_, "only", side, kind, calls] => only(side, kind, calls),
        _ => panic!("main FOLDER, main FOLDER time, or main FOLDER only SIDE KIND CALLS"),
    }
}
