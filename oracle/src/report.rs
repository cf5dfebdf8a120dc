//! Counting what was compared.

use std::hint::black_box;
use std::time::Instant;

/// How a comparison ended.
#[derive(Clone, Copy, PartialEq, Eq, Debug)]
pub enum Verdict {
    Same,
    Differs,
    NotMade,
}

/// One comparison's counts; the first differences are printed as they come.
pub struct Tally {
    name: &'static str,
    started: Instant,
    cases: u64,
    /// How often each number was the answer that was wanted.
    answers: [u64; 21],
    differences: u64,
    /// How many numbers compared were +0, and -0.
    zeros: [u64; 2],
}

/// How many differences are shown of one comparison.
const SHOWN: u64 = 3;

impl Tally {
    pub fn new(name: &'static str) -> Self {
        Tally {
            name,
            started: Instant::now(),
            cases: 0,
            answers: [0; 21],
            differences: 0,
            zeros: [0; 2],
        }
    }

    /// Counts the zeros among the numbers of a case.
    pub fn zeros(&mut self, [plus, minus]: [u64; 2]) {
        self.zeros[0] += plus;
        self.zeros[1] += minus;
    }

    /// Counts a case: the answer that was wanted (0, or a refusal's number),
    /// and what differs, if anything does.
    pub fn case(&mut self, answer: u32, differs: Option<String>) {
        self.cases += 1;
        self.answers[answer as usize] += 1;
        if let Some(what) = differs {
            self.differences += 1;
            if self.differences <= SHOWN {
                println!("  {} case {}: {what}", self.name, self.cases);
            }
        }
    }

    fn refusals(&self) -> String {
        let refused = (1..21).filter(|n| self.answers[*n] > 0);
        let counts: Vec<String> = refused
            .map(|n| format!("{n}: {}", self.answers[n]))
            .collect();
        if counts.is_empty() {
            String::new()
        } else {
            format!("; refused {}", counts.join(", "))
        }
    }

    fn zeros_met(&self) -> String {
        match self.zeros {
            [0, 0] => String::new(),
            [plus, minus] => format!("; +0 wanted {plus} times, -0 {minus}"),
        }
    }

    /// Prints the counts.
    pub fn done(self) -> Verdict {
        println!(
            "{}: {} cases, {} differences{}{} ({:.1} s)",
            self.name,
            self.cases,
            self.differences,
            self.refusals(),
            self.zeros_met(),
            self.started.elapsed().as_secs_f64()
        );
        if self.differences == 0 {
            Verdict::Same
        } else {
            Verdict::Differs
        }
    }
}

/// Nanoseconds of one call on these numbers, back to back: the best of many
/// rounds. The answers go into a list: an answer that is put where the next
/// argument is read from would make the calls wait for each other.
pub fn nanoseconds(numbers: &[f32], f: impl Fn(f32) -> f32) -> f64 {
    let mut answers = vec![0.0; numbers.len()];
    best_round(numbers, || {
        for (answer, x) in answers.iter_mut().zip(numbers) {
            *answer = f(black_box(*x));
        }
        black_box(&mut answers);
    })
}

/// Nanoseconds of one call where each waits for the one before: it is given
/// the last answer plus the next number.
pub fn chained_nanoseconds(numbers: &[f32], f: impl Fn(f32) -> f32) -> f64 {
    best_round(numbers, || {
        black_box(numbers.iter().fold(0.0, |last, x| f(last + x)));
    })
}

fn best_round(numbers: &[f32], mut round: impl FnMut()) -> f64 {
    let mut time = || {
        let started = Instant::now();
        round();
        started.elapsed().as_secs_f64() * 1e9 / numbers.len() as f64
    };
    (0..1000).map(|_| time()).fold(f64::MAX, f64::min)
}

/// Words as eight hexadecimal digits each.
pub fn hex(words: &[u32]) -> String {
    let digits: Vec<String> = words.iter().map(|w| format!("{w:08x}")).collect();
    digits.join(" ")
}

/// A number on the command line, or the default.
pub fn argument(place: usize, default: u64) -> u64 {
    std::env::args()
        .nth(place)
        .map_or(default, |a| a.replace('_', "").parse().expect("a number"))
}

/// Ends the program: 0 where all was compared and nothing differed, 1 where
/// something differed, 2 where a comparison could not be made.
pub fn finish(verdicts: &[Verdict]) -> ! {
    let count = |v: Verdict| verdicts.iter().filter(|x| **x == v).count();
    let (same, differ) = (count(Verdict::Same), count(Verdict::Differs));
    let not_made = count(Verdict::NotMade);
    println!("comparisons: {same} without a difference, {differ} WITH, {not_made} NOT MADE");
    // No comparison at all, by a name that nothing has, is none made.
    std::process::exit(match (differ, not_made) {
        (0, 0) if same > 0 => 0,
        (0, _) => 2,
        _ => 1,
    })
}
