//! Damaged files and records.

use reference::file::{spell, spell_in, MOST_BYTES};
use reference::problem::*;

use crate::padding::padded;
use crate::random::Random;

/// The numbers of a problem's file in order, in the edition that is written.
pub fn numbers(problem: &Problem) -> Vec<u32> {
    numbers_in(problem.edition(), problem)
}

/// The numbers of a problem in an edition: in 1 without its check costs, whatever they are.
pub fn numbers_in(edition: u32, problem: &Problem) -> Vec<u32> {
    let counts = problem.counts();
    let mut numbers = vec![edition, problem.scratchpad, counts.functions];
    let width = function_width(edition);
    numbers.extend(problem.functions.iter().flat_map(|f| [f.size, f.load, f.check].into_iter().take(width)));
    numbers.push(counts.vertices);
    numbers.extend(problem.vertices.iter().flat_map(|v| [v.function, v.cost]));
    numbers.push(counts.edges);
    numbers.extend(problem.edges.iter().flat_map(|e| [e.from, e.to]));
    numbers.push(counts.loops);
    numbers.extend(problem.loops.iter().flat_map(|l| [l.header, l.last, l.bound]));
    numbers
}

/// The numbers of a function in an edition.
pub fn function_width(edition: u32) -> usize {
    if edition == 1 {
        2
    } else {
        3
    }
}

/// The file of these numbers, whatever they are.
pub fn spelled(numbers: &[u32]) -> Vec<u8> {
    numbers.iter().flat_map(|&number| spell(number)).collect()
}

/// The file of a problem, whatever it holds.
pub fn file_of(problem: &Problem) -> Vec<u8> {
    spelled(&numbers(problem))
}

/// Values at and past the ends of the ranges of the field table.
pub const ODD_VALUES: [u32; 27] = [
    0,
    1,
    2,
    3,
    15,
    31,
    32,
    33,
    63,
    127,
    128,
    129,
    255,
    256,
    511,
    512,
    513,
    MOST_VISITS - 1,
    MOST_VISITS,
    MOST_VISITS + 1,
    65_535,
    65_536,
    MOST_SIZE,
    MOST_SIZE + 1,
    1 << 28,
    u32::MAX - 1,
    u32::MAX,
];

/// What [`damaged_file`] does to a file.
pub const FILE_DAMAGES: u32 = 11;

/// A file with one thing done to its bytes, by number below [`FILE_DAMAGES`]. What comes out need not be refused: padding is no fault.
pub fn damaged_file(random: &mut Random, problem: &Problem, damage: u32) -> Vec<u8> {
    let mut numbers = numbers(problem);
    let mut file = spelled(&numbers);
    let at = random.count(0..=file.len() - 1);
    let number = random.count(0..=numbers.len() - 1);
    // where the number starts, and how many bytes it has
    let start: usize = numbers[..number].iter().map(|&n| spell(n).len()).sum();
    let length = spell(numbers[number]).len();
    match damage {
        0 => file[at] ^= 1 << random.field(0..=7),
        1 => file[at] = random.any() as u8,
        2 => file.truncate(at),
        3 => {
            let more = random.count(1..=8);
            file.extend(random.bytes(more));
        }
        4 => {
            numbers[number] = *random.pick(&ODD_VALUES);
            file = spelled(&numbers);
        }
        5 => {
            numbers[number] = numbers[number].wrapping_add(random.field(0..=4)).wrapping_sub(2);
            file = spelled(&numbers);
        }
        // one number with up to five groups of zero behind it: padded, or misspelt in more than five bytes
        6 => {
            let padded = spell_in(numbers[number], length + random.count(1..=MOST_BYTES));
            file.splice(start..start + length, padded);
        }
        // five bytes, the fifth anything: padded where it is 0, misspelt above 0F
        7 => {
            let mut five = random.bytes(MOST_BYTES);
            five[..4].iter_mut().for_each(|byte| *byte |= 0x80);
            five[4] = *random.pick(&[0, 1, 7, 0x0F, 0x10, 0x1F, 0x7F, 0x80, 0xFF]);
            file.splice(start..start + length, five);
        }
        8 => file = padded(random, &numbers),
        9 => file = damaged_edition(random, problem),
        // the file ends inside a number
        _ => {
            file.truncate(start);
            let more = random.count(0..=5);
            file.extend(vec![0x80 | random.any() as u8; more]);
        }
    }
    file
}

/// A file in the other edition, with every check cost zero or without those that there are; one with its edition alone changed; or one with a
/// check cost changed.
fn damaged_edition(random: &mut Random, problem: &Problem) -> Vec<u8> {
    match random.count(0..=2) {
        0 => spelled(&numbers_in(3 - problem.edition(), problem)),
        1 => {
            let mut numbers = numbers(problem);
            numbers[0] = random.field(0..=3);
            spelled(&numbers)
        }
        _ => damaged_check(random, problem),
    }
}

/// A file of edition 2 with one of its check costs at the end of its range or past it, or spelt in another way.
fn damaged_check(random: &mut Random, problem: &Problem) -> Vec<u8> {
    let mut numbers = numbers_in(2, problem);
    let at = check_place(random.count(0..=problem.functions.len() - 1));
    numbers[at] = *random.pick(&[0, MOST_CHECK - 1, MOST_CHECK, MOST_CHECK + 1, u32::MAX]);
    let bytes = random.count(1..=MOST_BYTES + 1);
    [spelled(&numbers[..at]), spell_in(numbers[at], bytes), spelled(&numbers[at + 1..])].concat()
}

/// Which number of an edition 2 file is the check cost of a function.
pub fn check_place(function: usize) -> usize {
    3 + function_width(2) * function + 2
}

/// What [`damaged_problem`] does to a problem.
pub const PROBLEM_DAMAGES: u32 = 14;

/// A problem with one thing done to its items, by number below [`PROBLEM_DAMAGES`]. What comes out need not be unlawful.
pub fn damaged_problem(random: &mut Random, problem: &Problem, damage: u32) -> Problem {
    let mut problem = problem.clone();
    let last = problem.last_vertex();
    let edge = random.count(0..=problem.edges.len().max(1) - 1);
    let index = random.count(0..=problem.loops.len().max(1) - 1);
    let any_edge = Edge { from: random.field(0..=last), to: random.field(0..=last) };
    match damage {
        // out of order, or twice
        0 if problem.edges.len() > 1 => {
            let other = random.count(0..=problem.edges.len() - 1);
            problem.edges.swap(edge, other);
        }
        1 if !problem.edges.is_empty() => problem.edges.insert(edge, problem.edges[edge]),
        2 if problem.loops.len() > 1 => {
            let other = random.count(0..=problem.loops.len() - 1);
            problem.loops.swap(index, other);
        }
        3 if !problem.loops.is_empty() => {
            let mut twin = problem.loops[index];
            twin.last = random.field(twin.header..=last);
            problem.loops.insert(index, twin);
        }
        // an edge that a vertex or a loop needs
        4 if !problem.edges.is_empty() => {
            problem.edges.remove(edge);
        }
        5 => {
            let vertex = random.field(0..=last);
            problem.edges.retain(|e| e.from != vertex);
        }
        6 => {
            let vertex = random.field(0..=last);
            problem.edges.retain(|e| e.to != vertex || e.from >= vertex);
        }
        7 if !problem.loops.is_empty() => {
            let l = problem.loops[index];
            problem.edges.retain(|e| e.to != l.header || !l.holds(e.from));
            if !problem.edges.iter().any(|e| e.from == l.last) {
                problem.edges.push(Edge { from: l.last, to: last });
                problem.edges.sort_unstable();
            }
        }
        // a range that crosses another or holds the last vertex
        8 if !problem.loops.is_empty() => {
            let l = &mut problem.loops[index];
            l.last = random.field(l.header..=last);
        }
        9 if !problem.loops.is_empty() => problem.loops[index].last = last,
        10 => {
            let header = random.field(0..=last);
            problem.loops.push(Loop { header, last: random.field(header..=last), bound: 1 });
            problem.loops.sort_by_key(|l| l.header);
            problem.loops.dedup_by_key(|l| l.header);
        }
        // an edge that leads into a range, or back
        11 | 12 => {
            problem.edges.push(any_edge);
            problem.edges.sort_unstable();
            problem.edges.dedup();
        }
        _ if !problem.edges.is_empty() => {
            problem.edges[edge] = any_edge;
            problem.edges.sort_unstable();
            problem.edges.dedup();
        }
        _ => {}
    }
    problem
}

/// How many items each list of a record has room for, and how many numbers an item has.
const ITEMS: [(usize, usize); 4] = [(MOST_FUNCTIONS, 3), (MOST_VERTICES, 2), (MOST_EDGES, 2), (MOST_LOOPS, 3)];

/// Where the counts stand in a record: behind the scratchpad size, each before its list.
pub const COUNT_PLACES: [usize; 4] = {
    let functions = 1;
    let vertices = functions + 1 + ITEMS[0].0 * ITEMS[0].1;
    let edges = vertices + 1 + ITEMS[1].0 * ITEMS[1].1;
    let loops = edges + 1 + ITEMS[2].0 * ITEMS[2].1;
    [functions, vertices, edges, loops]
};

/// Gives the spare places of a record any values.
pub fn fill_spare_places(random: &mut Random, fields: &mut [u32; FIELDS]) {
    for (&place, (most, width)) in COUNT_PLACES.iter().zip(ITEMS) {
        let count = fields[place] as usize;
        for spare in count.min(most) * width..most * width {
            fields[place + 1 + spare] = if random.percent(50) { random.any() as u32 } else { *random.pick(&ODD_VALUES) };
        }
    }
}

/// Changes one number that counts in a record: a count, the scratchpad, or a number of an item.
pub fn damage_fields(random: &mut Random, fields: &mut [u32; FIELDS]) {
    let place = match random.count(0..=5) {
        0 => 0,
        1 => *random.pick(&COUNT_PLACES),
        _ => {
            let kind = random.count(0..=3);
            let (most, width) = ITEMS[kind];
            let count = (fields[COUNT_PLACES[kind]] as usize).min(most);
            COUNT_PLACES[kind] + random.count(0..=count * width)
        }
    };
    fields[place] = if random.percent(30) { fields[place].wrapping_add(1) } else { *random.pick(&ODD_VALUES) };
}
