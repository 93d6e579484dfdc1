//! Random layouts, lawful and not.

use reference::layout::{filled, need};
use reference::problem::*;

use crate::random::Random;

/// A layout that Bound judges up to the bytes needed. About every third leaves functions off, and many of these leave out a region below
/// one that they list, for the filling to find.
pub fn lawful(random: &mut Random, functions: usize) -> Vec<u8> {
    let length = match random.count(0..=8) {
        0 => 0,
        1..=3 => random.count(1..=functions),
        _ => functions,
    };
    match random.count(0..=5) {
        0 | 1 => vec![random.field(0..=31) as u8; length],
        2 => (0..length).map(|f| f as u8).collect(),
        3 => (0..length).map(|f| 31 - f as u8).collect(),
        _ => {
            let regions = random.field(0..=functions.min(31) as u32);
            (0..length).map(|_| random.field(0..=regions) as u8).collect()
        }
    }
}

/// Whether a region below the greatest that the layout lists is not listed.
pub fn has_gap(layout: &[u8]) -> bool {
    let greatest = layout.iter().copied().max().unwrap_or(0);
    (0..greatest).any(|region| !layout.contains(&region))
}

/// A layout that may be too long or name a region above 31.
pub fn any(random: &mut Random, functions: usize) -> Vec<u8> {
    let mut layout = lawful(random, functions);
    if random.percent(12) {
        layout.resize(functions + random.count(1..=40), 0);
    }
    if random.percent(12) && !layout.is_empty() {
        for _ in 0..random.count(1..=3) {
            let function = random.count(0..=layout.len() - 1);
            layout[function] = *random.pick(&[32, 33, 128, 254, 255]);
        }
    }
    layout
}

/// Sets the scratchpad near what the filled-in layout needs: as large as may be, exactly as large, or one byte short.
pub fn fit_scratchpad(random: &mut Random, problem: &mut Problem, layout: &[u8]) {
    let need = need(problem, &filled(layout, problem.functions.len()));
    let wanted = match random.count(0..=5) {
        0 => need,
        // no byte where the layout lists unknown regions alone
        1 => need.saturating_sub(1),
        _ => u64::from(MOST_SIZE),
    };
    problem.scratchpad = wanted.clamp(1, u64::from(MOST_SIZE)) as u32;
}
