//! From an input on which the sides differ to a small one on which they still do.

use crate::check::Checker;
use crate::input::Input;

fn differs(input: &Input) -> bool {
    Checker::always().input(input).is_err()
}

/// Tries one simpler input: keeps it if the sides still differ.
fn attempt(best: &mut Input, simpler: impl FnOnce(&mut Input)) -> bool {
    let mut candidate = best.clone();
    simpler(&mut candidate);
    if candidate == *best || !differs(&candidate) {
        return false;
    }
    *best = candidate;
    true
}

pub fn smallest(input: &Input) -> Input {
    let mut best = input.clone();
    while pass(&mut best) {}
    best
}

fn pass(best: &mut Input) -> bool {
    let mut changed = false;
    for i in (0..best.segments.len()).rev() {
        changed |= attempt(best, |c| {
            c.segments.remove(i);
        });
    }
    for i in (0..best.targets.len()).rev() {
        changed |= attempt(best, |c| {
            c.targets.remove(i);
        });
    }
    changed |= attempt(best, |c| c.strings.clear());
    changed |= attempt(best, |c| c.fields.clear());
    changed |= best.fields.is_empty() && attempt(best, |c| c.fields_va = 0);
    changed |= attempt(best, |c| c.types.truncate(c.types.len() / 4 * 4));
    for i in (0..best.types.len() / 4).rev() {
        // A slot at the front is dropped with its address, so that the others keep theirs.
        changed |= attempt(best, |c| c.types.truncate(4 * i));
        changed |= attempt(best, |c| {
            c.types.drain(..4.min(c.types.len()));
            c.types_va = c.types_va.wrapping_add(4);
        });
    }
    let mut step = best.image.len();
    while step > 0 {
        while best.image.len() >= step && attempt(best, |c| c.image.truncate(c.image.len() - step))
        {
            changed = true;
        }
        step /= 2;
    }
    for i in 0..best.image.len() {
        for b in [0, b'A'] {
            if best.image[i] != 0 && best.image[i] != b'A' || b == 0 {
                changed |= attempt(best, |c| c.image[i] = b);
            }
        }
    }
    for i in 0..best.strings.len() {
        changed |=
            best.strings.get(i).is_some_and(|&b| b != 0) && attempt(best, |c| c.strings[i] = 0);
    }
    changed |= attempt(best, |c| {
        c.strings.pop();
    });
    let mut step = best.fields.len();
    while step > 0 {
        // From the end, and from the front with the address, so that the others keep theirs.
        changed |= attempt(best, |c| {
            c.fields.truncate(c.fields.len().saturating_sub(step))
        });
        changed |= attempt(best, |c| {
            let front = step.min(c.fields.len());
            c.fields.drain(..front);
            c.fields_va = c.fields_va.wrapping_add(front as u64);
        });
        step /= 2;
    }
    for i in 0..best.fields.len() {
        changed |= best.fields[i] != 0 && attempt(best, |c| c.fields[i] = 0);
    }
    changed
}
