//! Padded files: written back as the shortest file with their content, and answered by every operation as that one is.

use std::fmt::Debug;

use super::*;
use examiner::RefusalKind;
use examiner_tests::padding::{is_padded, same_number, spellings};
use reference::file::MOST_BYTES;

const SHORTEST: &str = "an accepted file with no padded number";
const PADDED: &str = "an accepted file with padded numbers";
const ALL_IN_FIVE: &str = "an accepted file with every number in five bytes";
const PADDED_RUN: &str = "an accepted file with a run of padded edges";
const PADDED_BETWEEN: &str = "an accepted file with a padded edge between two short ones";
const KEPT: &str = "a shortest file written back byte for byte";
const SHORTENED: &str = "a padded file written back as the shortest";
const INTO_FEWER: &str = "a padded file written back into fewer bytes than it has";
const TOO_SHORT: &str = "a padded file refused 10 by Write";
const ALIKE: &str = "a file and its padding, answered alike by every operation";
/// What both a file and its padding are refused for.
const BOTH_REFUSED: [(u32, &str); 8] = [
    (1, "a file and its padding, both refused 1"),
    (3, "a file and its padding, both refused 3"),
    (4, "a file and its padding, both refused 4"),
    (5, "a file and its padding, both refused 5"),
    (6, "a file and its padding, both refused 6"),
    (7, "a file and its padding, both refused 7"),
    (8, "a file and its padding, both refused 8"),
    (9, "a file and its padding, both refused 9"),
];

/// How often the cases of padded files are met at least.
pub fn least() -> Vec<(&'static str, usize)> {
    let counted = [
        (SHORTEST, 20_000),
        (PADDED, 8_000),
        (ALL_IN_FIVE, 3_000),
        (PADDED_RUN, 4_000),
        (PADDED_BETWEEN, 1_500),
        (KEPT, 10_000),
        (SHORTENED, 10_000),
        (INTO_FEWER, 7_000),
        (TOO_SHORT, 2_500),
        (ALIKE, 5_000),
    ];
    counted.into_iter().chain(BOTH_REFUSED.map(|(_, what)| (what, 100))).collect()
}

/// Two files that say the same: of the same numbers, lawful or not, or of the same lawful problem.
pub struct Pair {
    /// The shortest.
    pub short: Vec<u8>,
    /// One that is padded, or of edition 2 where 1 would do.
    pub longer: Vec<u8>,
}

impl Pair {
    fn of(random: &mut Random, numbers: &[u32]) -> Pair {
        Pair { short: spelled(numbers), longer: padded(random, numbers) }
    }

    /// What an operation answers of both, which must be the same and leave the same in what is lent to it; but 1 to 5 are placed at the same
    /// number of either.
    fn alike<T: PartialEq + Debug, L: PartialEq + Debug + Clone>(
        &self,
        lent: L,
        ask: impl Fn(&[u8], &mut L) -> Result<T, examiner::Refusal>,
    ) -> Result<T, examiner::Refusal> {
        let (mut left, mut left_of_longer) = (lent.clone(), lent);
        let answer = ask(&self.short, &mut left).map_err(|refusal| self.in_longer(refusal));
        let of_longer = ask(&self.longer, &mut left_of_longer);
        assert_eq!((&of_longer, left_of_longer), (&answer, left), "the left is of the longer file, the right of {:02X?}", self.short);
        of_longer
    }

    fn in_longer(&self, refusal: examiner::Refusal) -> examiner::Refusal {
        if refusal.number > RefusalKind::LeftOver {
            return refusal;
        }
        let place = same_number(&self.short, refusal.place as usize, &self.longer) as u64;
        examiner::Refusal { place, ..refusal }
    }
}

impl Comparison {
    /// Counts how the numbers of an accepted file are spelt.
    pub fn spelt(&mut self, file: &[u8], Counts { functions, vertices, edges, .. }: Counts) {
        let padded: Vec<bool> = spellings(file).map(is_padded).collect();
        let edition = u32::from(file[0] & 0x7F);
        let first_edge = 3 + function_width(edition) * functions as usize + 1 + 2 * vertices as usize + 1;
        let edges = &padded[first_edge..][..2 * edges as usize];
        let edges: Vec<bool> = edges.chunks(2).map(|edge| edge.contains(&true)).collect();
        let any = padded.contains(&true);
        self.saw(SHORTEST, !any);
        self.saw(PADDED, any);
        self.saw(ALL_IN_FIVE, spellings(file).all(|number| number.len() == MOST_BYTES));
        self.saw(PADDED_RUN, edges.windows(3).any(|run| run == [true, true, true]));
        self.saw(PADDED_BETWEEN, edges.windows(3).any(|run| run == [false, true, false]));
    }

    /// An accepted file comes back as the shortest with its content: byte for byte exactly where no number of it is padded and its edition is the
    /// one that is written.
    pub fn written_back(&mut self, file: &[u8], written: &[u8], room: usize) {
        let problem = reference::read(file).expect("accepted");
        assert_eq!(written, file_of(&problem), "the left was written, the right is the shortest file");
        let padded = spellings(file).any(is_padded);
        let longer = padded || u32::from(file[0] & 0x7F) != problem.edition();
        assert_eq!((written.len() < file.len(), written != file), (longer, longer), "whether it became shorter, and whether it changed");
        self.saw(KEPT, !longer);
        self.saw(SHORTENED, padded);
        self.saw(INTO_FEWER, room < file.len());
        self.edition_back(file, written, problem.functions.len());
    }

    /// Counts the refusals of Write itself.
    pub fn refused_to_write(&mut self, file: &[u8], refusal: Refusal) {
        self.saw(TOO_SHORT, refusal.number == 10 && spellings(file).any(is_padded));
    }

    /// Every operation on two files that say the same: what Read answers.
    pub fn alike(&mut self, pair: &Pair, layout: &[u8], walk: &[u32]) -> Result<examiner::Counts, examiner::Refusal> {
        self.asked = Asked { file: pair.longer.clone(), layout: layout.to_vec(), walk: walk.to_vec(), ..Asked::default() };
        let counts = pair.alike((), |file, ()| examiner::read(file));
        let room = self.random.count(0..=pair.longer.len());
        _ = pair.alike(vec![0xA5; room], |file, out| examiner::write(file, out));
        let words = counts.map_or(9, |counts| self.random.count(0..=counts.vertices * counts.functions + 9));
        _ = pair.alike(vec![0xA5; words], |file, words| examiner::interference(file, words));
        _ = pair.alike((), |file, ()| examiner::bound(file, layout));
        _ = pair.alike((), |file, ()| examiner::run(file, layout, walk));
        // the last is of no vertex
        for vertex in 0..=counts.map_or(0, |counts| counts.vertices as u64) {
            _ = pair.alike([0xA5; MOST_SHOWN], |file, shown| examiner::eviction(file, layout, vertex, shown));
        }
        counts
    }

    /// Every operation on two files of the same numbers, lawful or not.
    fn padded_alike(&mut self, pair: &Pair, layout: &[u8], walk: &[u32]) {
        let counts = self.alike(pair, layout, walk);
        let differ = pair.short != pair.longer;
        self.saw(ALIKE, differ);
        for (number, what) in BOTH_REFUSED {
            self.saw(what, differ && counts.is_err_and(|refusal| refusal.number.number() == number));
        }
    }
}

/// The numbers of a problem that breaks a rule; about every second time one of them is changed, the end is cut off, or there is one more.
fn spoilt(random: &mut Random, problem: &Problem) -> Vec<u32> {
    let damage = random.field(0..=PROBLEM_DAMAGES - 1);
    let mut numbers = numbers(&damaged_problem(random, problem, damage));
    let at = random.count(0..=numbers.len() - 1);
    match random.count(0..=5) {
        0 => numbers[at] = *random.pick(&ODD_VALUES),
        1 => numbers.truncate(at),
        2 => numbers.push(*random.pick(&ODD_VALUES)),
        _ => {}
    }
    numbers
}

/// A lawful problem of any size, and a layout that mostly fits it.
fn laid_out(c: &mut Comparison, case: usize) -> (Problem, Vec<u8>) {
    let plan = Plan::of_any_size(&mut c.random, case);
    let mut problem = lawful(&mut c.random, &plan);
    let layout = layouts::any(&mut c.random, plan.functions);
    layouts::fit_scratchpad(&mut c.random, &mut problem, &layout);
    (problem, layout)
}

/// Every operation on lawful problems by padded files, Write into buffers around the bytes needed and those given.
pub fn padded_files(c: &mut Comparison) {
    for case in 0..4_000 * effort() {
        let (problem, layout) = laid_out(c, case);
        let mut walk = walks::wandering(&mut c.random, &problem, 60, 300);
        if c.random.percent(30) {
            let damage = c.random.field(0..=walks::DAMAGES - 1);
            walk = walks::damaged(&mut c.random, &problem, &walk, damage);
        }
        let pair = Pair::of(&mut c.random, &numbers(&problem));
        c.padded_alike(&pair, &layout, &walk);
        c.file(&pair.longer);
        let (needed, given) = (pair.short.len(), pair.longer.len());
        for length in [needed - 1, needed, c.random.count(needed..=given), given - 1, given] {
            c.write(&pair.longer, length);
        }
        c.layout_and_walk(&pair.longer, &layout, &walk);
        c.every_eviction(&problem, &pair.longer, &layout);
    }
}

/// Padded files of broken problems, and of lawful ones with one byte changed.
pub fn spoilt_padded_files(c: &mut Comparison) {
    for case in 0..8_000 * effort() {
        let (problem, layout) = laid_out(c, case);
        let spoilt = spoilt(&mut c.random, &problem);
        let pair = Pair::of(&mut c.random, &spoilt);
        c.padded_alike(&pair, &layout, &[0]);
        c.file(&pair.longer);
        c.layout_and_walk(&pair.longer, &layout, &[0]);

        let mut changed = padded(&mut c.random, &numbers(&problem));
        let at = c.random.count(0..=changed.len() - 1);
        changed[at] = if c.random.percent(50) { c.random.any() as u8 } else { changed[at] ^ 0x80 };
        c.file(&changed);
    }
}
