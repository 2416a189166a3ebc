//! An adapter and a scanner written by hand from docs/PROFILE.md, and the work of tools/measure/c_steady.c at them:
//! `by_hand steady|sum WORK SIZE COUNT`. `sum` prints a sum over all answers, which the library has too.
//! `by_hand lines FILE` reads the lines of events of a trace, and prints how many there are.

mod adapter;
mod adapter_work;
mod answer;
mod datagrams;
mod frames;
mod lines;
mod opening;
mod requests;
mod scanner;
mod scanner_work;

use answer::Answer;

/// Takes answers, and sums them up where it is asked to.
pub struct Taker {
    is_summing: bool,
    sum: u64,
}

impl Taker {
    /// Forgets the answers so far, which are those of the preparations.
    pub fn forget(&mut self) {
        self.sum = 0;
    }

    fn add(&mut self, number: u64) {
        self.sum = self.sum.wrapping_mul(31).wrapping_add(number);
    }

    fn add_bytes(&mut self, bytes: &[u8]) {
        bytes.iter().for_each(|byte| self.add(*byte as u64));
    }

    /// Takes the answer to an event, which has to be done.
    pub fn take(&mut self, answer: &Answer) {
        assert!(answer.is_done, "an event is not done");
        if self.is_summing {
            self.add_answer(answer);
        }
    }

    #[inline(never)]
    fn add_answer(&mut self, answer: &Answer) {
        answer.frames().for_each(|frame| self.add_bytes(frame));
        for (address, node, others, bytes) in answer.datagrams() {
            self.add(address as u64);
            self.add(node as u64);
            others.iter().for_each(|it| self.add(*it as u64));
            self.add_bytes(bytes);
        }
        self.add(answer.notices.len() as u64);
    }
}

fn read_lines(file: &str) {
    let text = std::fs::read(file).expect("a file");
    let events = lines::events(&text).expect("lines of events");
    println!("{} {}", events.len(), lines::sum(&events[events.len() - 1..]));
    // The events are not given back, so that reading alone is counted.
    std::process::exit(0);
}

fn main() {
    let words: Vec<String> = std::env::args().skip(1).collect();
    if let [mode, file] = &words[..] {
        assert!(mode == "lines", "by_hand lines FILE");
        return read_lines(file);
    }
    let [mode, work, size, count] = &words[..] else {
        panic!("by_hand steady|sum WORK SIZE COUNT");
    };
    let (size, count) = (size.parse().expect("a size"), count.parse().expect("a count"));
    let mut taker = Taker { is_summing: mode == "sum", sum: 0 };
    if work.starts_with("slot-") {
        scanner_work::run(work, size, count, &mut taker);
    } else {
        adapter_work::run(work, size, count, &mut taker);
    }
    if taker.is_summing {
        println!("{}", taker.sum);
    }
}
