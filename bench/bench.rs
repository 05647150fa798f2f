//! Compares the proved labeller with one in plain Rust: first that they agree, and then how fast they are.
//!
//! bench [SEED [CASES [ROUNDS]]]

mod cases;
mod labeller;
mod oracle;

use cases::{Case, Random, FORMULAS, PROGRAMS};
use labeller::{GRAPH_BYTES, LABEL_BYTES, ROW_LIMIT};
use std::hint::black_box;
use std::process::ExitCode;
use std::time::Instant;

extern "C" {
    // In the archive of the crate label_export: each slice is a pointer and a length, and the allocator takes no bytes.
    fn label_rows_over_table(
        table: *const u8,
        table_len: usize,
        modes: u8,
        commands: u8,
        flags: u8,
        rows: *const u8,
        rows_len: usize,
        memory: *mut u8,
        memory_len: usize,
    ) -> u8;
}

/// The proved labeller. It has no precondition, so that the call is safe whatever the case is.
fn label_proved(case: &Case, memory: &mut [u8]) -> u8 {
    unsafe {
        label_rows_over_table(
            case.table.as_ptr(),
            case.table.len(),
            case.modes,
            case.commands,
            case.flags,
            case.rows.as_ptr(),
            case.rows.len(),
            memory.as_mut_ptr(),
            memory.len(),
        )
    }
}

fn label_plain(case: &Case, memory: &mut [u8]) -> u8 {
    labeller::label_rows_over_table(
        &case.table,
        case.modes,
        case.commands,
        case.flags,
        &case.rows,
        memory,
    )
}

/// What has to come out, by the oracle: the answer, and the memory.
fn expected(case: &Case) -> (u8, Vec<u8>) {
    let untouched = |number| (number, case.memory.clone());
    if case.table.len() < GRAPH_BYTES {
        return untouched(9);
    }
    if !(1..=64).contains(&case.modes) || !(1..=16).contains(&case.commands) || case.flags > 16 {
        return untouched(16);
    }
    let known = |row: &[u8]| FORMULAS.contains(&row[0]) || PROGRAMS.contains(&row[0]);
    let rows: Vec<_> = case
        .rows
        .chunks_exact(3)
        .map(|b| [b[0], b[1], b[2]])
        .collect();
    if case.rows.len() % 3 != 0 || rows.len() > ROW_LIMIT || !rows.iter().all(|row| known(row)) {
        return untouched(1);
    }
    if case.memory.len() < LABEL_BYTES {
        return untouched(9);
    }
    match oracle::table(&case.model, &rows) {
        None => untouched(14),
        Some(mut memory) => {
            memory.extend_from_slice(&case.memory[LABEL_BYTES..]);
            (0, memory)
        }
    }
}

/// Labels random cases both ways, and every eighth by the oracle too; stops at the first difference.
fn compare(random: &mut Random, count: usize) -> Result<(), String> {
    let mut answers = [0usize; 256];
    let mut judged = 0;
    for i in 0..count {
        let case = Case::random(random);
        let mut plain = case.memory.clone();
        let mut proved = case.memory.clone();
        let plain_answer = label_plain(&case, &mut plain);
        let proved_answer = label_proved(&case, &mut proved);
        if plain_answer != proved_answer {
            return Err(format!(
                "case {i}: Rust answers {plain_answer}, Rattle {proved_answer}"
            ));
        }
        if let Some(at) = (0..plain.len()).find(|&at| plain[at] != proved[at]) {
            return Err(format!(
                "case {i}: byte {at} is {} in Rust, {} in Rattle",
                plain[at], proved[at]
            ));
        }
        if i % 8 == 0 {
            let (answer, memory) = expected(&case);
            if answer != proved_answer {
                return Err(format!(
                    "case {i}: the oracle answers {answer}, Rattle {proved_answer}"
                ));
            }
            if memory != proved {
                return Err(format!("case {i}: the oracle's memory is another"));
            }
            judged += 1;
        }
        answers[usize::from(proved_answer)] += 1;
    }
    println!("{count} random cases agree byte by byte, {judged} of them with the oracle too");
    for (answer, times) in answers.iter().enumerate().filter(|(_, times)| **times > 0) {
        println!("  answer {answer}: {times}");
    }
    Ok(())
}

/// Microseconds that one call takes.
fn clock(label: fn(&Case, &mut [u8]) -> u8, case: &Case, memory: &mut [u8]) -> f64 {
    let start = Instant::now();
    let answer = label(black_box(case), black_box(memory));
    let time = start.elapsed();
    assert_eq!(black_box(answer), 0, "a timed case is labelled");
    black_box(memory);
    time.as_secs_f64() * 1e6
}

/// The best and the median of some times.
fn best_and_median(mut times: Vec<f64>) -> (f64, f64) {
    times.sort_by(f64::total_cmp);
    (times[0], times[times.len() / 2])
}

/// Times each large case in both ways by turns, and prints a line for each.
fn time(random: &mut Random, rounds: usize) {
    println!();
    println!("64 modes, 48 rows, {rounds} rounds; microseconds, best and median");
    println!();
    println!(
        "{:28} {:>9} {:>9}   {:>9} {:>9}   {:>6} {:>6}",
        "case", "Rust", "median", "Rattle", "median", "ratio", "median"
    );
    let mut worst: (f64, f64) = (0.0, 0.0);
    for (name, case) in cases::timed(random) {
        let mut memory = case.memory.clone();
        let mut plain = Vec::with_capacity(rounds);
        let mut proved = Vec::with_capacity(rounds);
        for _ in 0..rounds / 10 + 1 {
            clock(label_plain, &case, &mut memory);
            clock(label_proved, &case, &mut memory);
        }
        for round in 0..rounds {
            if round % 2 == 0 {
                plain.push(clock(label_plain, &case, &mut memory));
                proved.push(clock(label_proved, &case, &mut memory));
            } else {
                proved.push(clock(label_proved, &case, &mut memory));
                plain.push(clock(label_plain, &case, &mut memory));
            }
        }
        let (plain_best, plain_median) = best_and_median(plain);
        let (proved_best, proved_median) = best_and_median(proved);
        let ratios = (proved_best / plain_best, proved_median / plain_median);
        worst = (worst.0.max(ratios.0), worst.1.max(ratios.1));
        println!(
            "{name:28} {plain_best:9.1} {plain_median:9.1}   {proved_best:9.1} {proved_median:9.1}   {:6.2} {:6.2}",
            ratios.0, ratios.1
        );
    }
    println!();
    println!(
        "worst ratio: {:.2} of the best times, {:.2} of the medians",
        worst.0, worst.1
    );
}

fn main() -> ExitCode {
    let numbers: Vec<u64> = std::env::args()
        .skip(1)
        .filter_map(|word| word.parse().ok())
        .collect();
    let seed = numbers.first().copied().unwrap_or(1);
    let count = numbers.get(1).copied().unwrap_or(5000) as usize;
    let rounds = numbers.get(2).copied().unwrap_or(2000) as usize;
    println!("seed {seed}");
    let mut random = Random::new(seed);
    if let Err(difference) = compare(&mut random, count) {
        eprintln!("{difference}");
        return ExitCode::FAILURE;
    }
    time(&mut random, rounds.max(1));
    ExitCode::SUCCESS
}
