//! Counts a profiler's samples: `profile 4|8 little|big FILE SAMPLES`. The samples are addresses,
//! one a line. It prints each FDE that has some, most first: how many, and how many of them find
//! the CFA by each register.

mod input;

use dwframe::{CfaRule, Index, Register, Section};
use std::collections::{BTreeMap, HashMap};
use std::error::Error;
use std::process::ExitCode;
use std::thread;

/// How many samples an FDE has: all, and those whose CFA is found by a register.
#[derive(Default)]
struct Count {
    all: usize,
    by: BTreeMap<Register, usize>,
}

type Counts = HashMap<u64, Count>;

/// Counts a part of the batch. Samples often repeat, so each address is looked up once.
fn count(index: &Index, samples: &[u64]) -> Result<Counts, dwframe::Error> {
    let mut repeated: HashMap<u64, usize> = HashMap::new();
    for &address in samples {
        *repeated.entry(address).or_default() += 1;
    }
    let mut counts = Counts::new();
    for (address, times) in repeated {
        let Some(row) = index.row_at(address)? else {
            continue;
        };
        let count = counts.entry(*row.fde.start()).or_default();
        count.all += times;
        if let CfaRule::RegisterAndOffset { register, .. } = row.cfa {
            *count.by.entry(register).or_default() += times;
        }
    }
    Ok(counts)
}

/// Counts by several threads over one index, which nothing writes to.
fn count_by_threads(index: &Index, samples: &[u64]) -> Result<Counts, dwframe::Error> {
    let mut counts = Counts::new();
    thread::scope(|scope| {
        let part = |samples| scope.spawn(move || count(index, samples));
        let threads: Vec<_> = samples.chunks(samples.len().div_ceil(4).max(1)).map(part).collect();
        for thread in threads {
            for (begin, part) in thread.join().expect("a look-up does not panic")? {
                let count = counts.entry(begin).or_default();
                count.all += part.all;
                for (register, times) in part.by {
                    *count.by.entry(register).or_default() += times;
                }
            }
        }
        Ok(counts)
    })
}

fn run(words: &[String]) -> Result<(), Box<dyn Error>> {
    let (bytes, size, endian) = input::read(words)?;
    let index = Section::new(&bytes, size, endian).index()?;
    let samples = std::fs::read_to_string(words.get(3).ok_or("a file of samples")?)?;
    let samples = samples.lines().map(input::number).collect::<Result<Vec<u64>, _>>()?;
    let mut counts: Vec<_> = count_by_threads(&index, &samples)?.into_iter().collect();
    counts.sort_by_key(|(begin, count)| (usize::MAX - count.all, *begin));
    for (begin, count) in counts {
        let by: String =
            count.by.iter().map(|(register, times)| format!(" {register}:{times}")).collect();
        println!("{begin:#x} {}{by}", count.all);
    }
    Ok(())
}

fn main() -> ExitCode {
    let words: Vec<String> = std::env::args().skip(1).collect();
    input::end(run(&words))
}
