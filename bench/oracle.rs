//! The truth of rows by another way: plain lists of truths, no bits, and repetition by steps until nothing is new.

use crate::cases::{Model, RowBytes, FORMULAS, PROGRAMS};
use crate::labeller::LABEL_BYTES;

/// Where a row is true, or which modes it joins.
enum Truth {
    At(Vec<bool>),
    Pairs(Vec<Vec<bool>>),
}

/// The bytes of the label table of the rows, or none where they do not fit the graph.
pub fn table(model: &Model, rows: &[RowBytes]) -> Option<Vec<u8>> {
    let mut truths: Vec<Truth> = Vec::new();
    for row in rows {
        let truth = truth_of(model, &truths, *row)?;
        truths.push(truth);
    }
    let mut bytes = vec![0; LABEL_BYTES];
    for (r, truth) in truths.iter().enumerate() {
        match truth {
            Truth::At(at) => put(&mut bytes, 512 * r, at),
            Truth::Pairs(pairs) => {
                for (u, at) in pairs.iter().enumerate() {
                    put(&mut bytes, 512 * r + 8 * u, at);
                }
            }
        }
    }
    Some(bytes)
}

fn put(bytes: &mut [u8], start: usize, at: &[bool]) {
    for (v, truth) in at.iter().enumerate() {
        if *truth {
            bytes[start + v / 8] |= 1 << (v % 8);
        }
    }
}

fn truth_of(model: &Model, before: &[Truth], [letter, x, y]: RowBytes) -> Option<Truth> {
    let n = model.modes;
    let (x, y) = (usize::from(x), usize::from(y));
    let formula = |i: usize| match before.get(i) {
        Some(Truth::At(at)) => Some(at),
        _ => None,
    };
    let program = |i: usize| match before.get(i) {
        Some(Truth::Pairs(pairs)) => Some(pairs),
        _ => None,
    };
    if FORMULAS.contains(&letter) {
        let mut at = vec![false; n];
        for (u, truth) in at.iter_mut().enumerate() {
            *truth = match letter {
                b'O' => false,
                b'P' => model.stands.get(x)?[u],
                b'N' => !formula(x)?[u],
                b'K' => formula(x)?[u] & formula(y)?[u],
                b'A' => formula(x)?[u] | formula(y)?[u],
                b'C' => !formula(x)?[u] | formula(y)?[u],
                b'L' => {
                    let (r, f) = (program(x)?, formula(y)?);
                    (0..n).all(|v| !r[u][v] || f[v])
                }
                _ => {
                    let (r, f) = (program(x)?, formula(y)?);
                    (0..n).any(|v| r[u][v] && f[v])
                }
            };
        }
        return Some(Truth::At(at));
    }
    assert!(PROGRAMS.contains(&letter));
    let mut pairs = vec![vec![false; n]; n];
    for u in 0..n {
        for v in 0..n {
            pairs[u][v] = match letter {
                b'd' => model.arcs.get(x)?[u][v],
                b's' => {
                    let (r, s) = (program(x)?, program(y)?);
                    (0..n).any(|w| r[u][w] && s[w][v])
                }
                b'u' => program(x)?[u][v] | program(y)?[u][v],
                b'r' => {
                    program(x)?;
                    u == v
                }
                b'b' => program(x)?[v][u],
                _ => formula(x)?[u] && u == v,
            };
        }
    }
    if letter == b'r' {
        repeat(program(x)?, &mut pairs);
    }
    Some(Truth::Pairs(pairs))
}

/// Goes one step further from whatever is reached, until nothing more is.
fn repeat(step: &[Vec<bool>], reached: &mut [Vec<bool>]) {
    let n = step.len();
    for from in reached.iter_mut() {
        loop {
            let mut more = false;
            for w in 0..n {
                for v in 0..n {
                    if from[w] && step[w][v] && !from[v] {
                        from[v] = true;
                        more = true;
                    }
                }
            }
            if !more {
                break;
            }
        }
    }
}
