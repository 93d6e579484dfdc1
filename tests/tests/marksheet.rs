//! The program marksheet as its users meet it: a problem file on standard input, `layout.bin` in the folder that it is started in.
//!
//! MARKSHEET in the environment names the program; else it is where `make program` puts it.

use std::fs::{self, File};
use std::io::{self, Write};
use std::path::PathBuf;
use std::process::{Command, Output, Stdio};
use std::time::Duration;
use std::{env, process, thread};

use examiner_tests::damage::{damaged_file, file_of, numbers, numbers_in, spelled, FILE_DAMAGES};
use examiner_tests::padding::in_five_bytes;
use examiner_tests::problems::{lawful, longest, with_total, Plan};
use examiner_tests::random::Random;
use examiner_tests::{effort, layouts};
use reference::examples::{p, samples, t, with_checks, M10, M10_CHECKED};
use reference::problem::{Problem, MOST_BOUND};

/// A folder of its own to start the program in, removed afterwards.
struct Desk(PathBuf);

impl Desk {
    fn new(name: &str) -> Desk {
        let folder = env::temp_dir().join(format!("marksheet-{}-{name}", process::id()));
        fs::create_dir_all(&folder).expect("a folder");
        Desk(folder)
    }

    fn with_layout(self, layout: &[u8]) -> Desk {
        fs::write(self.0.join("layout.bin"), layout).expect("a layout");
        self
    }

    /// A folder opens, and then cannot be read.
    fn with_folder_for_layout(self) -> Desk {
        fs::create_dir(self.0.join("layout.bin")).expect("a folder");
        self
    }

    fn start(&self, input: Stdio) -> process::Child {
        let program = env::var_os("MARKSHEET")
            .map_or_else(|| PathBuf::from(env!("CARGO_MANIFEST_DIR")).join("../target/bin/marksheet"), PathBuf::from);
        let program = program.canonicalize().expect("the program: `make program` builds it");
        Command::new(program)
            .current_dir(&self.0)
            .stdin(input)
            .stdout(Stdio::piped())
            .stderr(Stdio::piped())
            .spawn()
            .expect("the program starts")
    }

    /// The problem file comes in pieces, as through a slow pipe.
    fn mark_in_pieces(&self, file: &[u8], piece: usize, pause: Duration) -> Output {
        let mut child = self.start(Stdio::piped());
        let mut input = child.stdin.take().expect("a pipe");
        for part in file.chunks(piece) {
            // the program may have read all that it looks at, and ended
            if input.write_all(part).is_err() {
                break;
            }
            thread::sleep(pause);
        }
        drop(input);
        child.wait_with_output().expect("the program ends")
    }

    fn mark(&self, file: &[u8]) -> Output {
        self.mark_in_pieces(file, 1 << 16, Duration::ZERO)
    }
}

impl Drop for Desk {
    fn drop(&mut self) {
        _ = fs::remove_dir_all(&self.0);
    }
}

fn prints(output: &Output, slip: &str) {
    assert_eq!(String::from_utf8_lossy(&output.stdout), slip);
    assert_eq!(String::from_utf8_lossy(&output.stderr), "");
}

fn complains(output: &Output, of: &str) {
    assert_eq!(String::from_utf8_lossy(&output.stdout), "");
    let told = String::from_utf8_lossy(&output.stderr);
    assert!(told.starts_with(&format!("marksheet: cannot read {of}")), "{told:?}");
}

/// The slip by the independent implementation.
fn slip(file: &[u8], layout: &[u8]) -> String {
    match reference::bound(file, layout) {
        Ok(b) => format!("need {}\ncharged {}\nfirst {}\nbound {}\n", b.need, b.contested, b.first_loads, b.bound),
        Err(refusal) => format!("refused {} at {}\n", refusal.number, refusal.place),
    }
}

const OF_M10: &str = "need 8\ncharged 0\nfirst 5\nbound 15\n";
const OF_P: &str = "need 14\ncharged 2\nfirst 8\nbound 85\n";
const OF_P_CHECKED: &str = "need 14\ncharged 2\nfirst 8\nbound 96\n";

#[test]
fn a_missing_layout_is_an_empty_one() {
    prints(&Desk::new("missing").mark(&M10), OF_M10);
    prints(&Desk::new("empty").with_layout(&[]).mark(&M10), OF_M10);
    let file = file_of(&p());
    prints(&Desk::new("missing-p").mark(&file), "refused 13 at 18\n");
    prints(&Desk::new("empty-p").with_layout(&[]).mark(&file), "refused 13 at 18\n");
}

#[test]
fn a_layout_file_is_priced_or_refused() {
    let file = file_of(&p());
    prints(&Desk::new("p").with_layout(&[0, 1, 1]).mark(&file), OF_P);
    prints(&Desk::new("apart").with_layout(&[0, 1, 2]).mark(&file), "refused 13 at 18\n");
    prints(&Desk::new("short").with_layout(&[0, 0]).mark(&file), "need 14\ncharged 4\nfirst 9\nbound 95\n");
    prints(&Desk::new("unknown").with_layout(&[0, 32]).mark(&file), "refused 12 at 1\n");
    prints(&Desk::new("longer").with_layout(&[0, 1, 1, 0]).mark(&file), "refused 11 at 3\n");
    prints(&Desk::new("long").with_layout(&[0; 5_000]).mark(&file), "refused 11 at 3\n");
}

#[test]
fn one_of_two_helpers_is_a_first_load() {
    prints(&Desk::new("helpers").mark(&file_of(&t())), "need 3\ncharged 0\nfirst 9\nbound 12\n");
}

#[test]
fn check_costs_are_in_the_bound() {
    prints(&Desk::new("m10-checked").mark(&M10_CHECKED), "need 8\ncharged 0\nfirst 5\nbound 20\n");
    prints(&Desk::new("p-checked").with_layout(&[0, 1, 1]).mark(&file_of(&with_checks(p(), &[1, 2, 3]))), OF_P_CHECKED);
    // edition 2 with nothing to check
    prints(&Desk::new("p-unchecked").with_layout(&[0, 1, 1]).mark(&spelled(&numbers_in(2, &p()))), OF_P);
    prints(&Desk::new("edition-3").mark(&[&[3], &M10_CHECKED[1..]].concat()), "refused 3 at 0\n");
    prints(&Desk::new("check-65536").mark(&[&M10_CHECKED[..5], &[0x80, 0x80, 0x04], &M10_CHECKED[6..]].concat()), "refused 3 at 5\n");
}

/// As `samples/README.md` lists them.
#[test]
fn slips_of_the_bundled_samples() {
    let slips = [
        ("p", OF_P),
        ("p-checks", OF_P_CHECKED),
        ("q", "need 2\ncharged 0\nfirst 8\nbound 48\n"),
        ("r", "need 2\ncharged 0\nfirst 8\nbound 39\n"),
        ("r-0-0", "need 1\ncharged 2\nfirst 5\nbound 65\n"),
        ("m10", OF_M10),
    ];
    assert_eq!(samples().iter().map(|sample| sample.name).collect::<Vec<_>>(), slips.map(|(name, _)| name));
    for (sample, (_, slip)) in samples().iter().zip(slips) {
        prints(&Desk::new(sample.name).with_layout(&sample.layout).mark(&sample.problem), slip);
    }
}

#[test]
fn a_padded_file_has_the_slip_of_the_shortest() {
    let padded = |problem: &Problem| in_five_bytes(&numbers(problem));
    prints(&Desk::new("padded").with_layout(&[0, 1, 1]).mark(&padded(&p())), OF_P);
    prints(&Desk::new("five-bytes").mark(&in_five_bytes(&M10.map(u32::from))), OF_M10);
    let problem = longest(&mut Random::seeded(6));
    let layout = [0; 32];
    prints(&Desk::new("longest").with_layout(&layout).mark(&padded(&problem)), &slip(&file_of(&problem), &layout));
    prints(&Desk::new("left-over").mark(&[padded(&problem), vec![0]].concat()), "refused 5 at 7390\n");
}

#[test]
fn the_problem_file_is_judged_before_the_layout() {
    prints(&Desk::new("none").with_folder_for_layout().mark(&[]), "refused 1 at 0\n");
    prints(&Desk::new("bad").with_layout(&[99]).mark(&M10[..9]), "refused 1 at 9\n");
}

#[test]
fn input_of_any_length_comes_in_any_pieces() {
    let file = file_of(&p());
    prints(&Desk::new("pieces").with_layout(&[0, 1, 1]).mark_in_pieces(&file, 1, Duration::from_millis(1)), OF_P);
    let mut long = M10.to_vec();
    long.resize(100_000, 0);
    prints(&Desk::new("rest").mark(&long), "refused 5 at 10\n");
}

#[test]
fn what_cannot_be_read_is_told_and_nothing_is_printed() {
    complains(&Desk::new("folder").with_folder_for_layout().mark(&M10), "layout.bin");
    let desk = Desk::new("input");
    let folder = File::open(&desk.0).expect("a folder opens");
    complains(&desk.start(folder.into()).wait_with_output().expect("the program ends"), "standard input");
}

#[test]
fn slips_are_those_of_the_independent_implementation() {
    let mut random = Random::seeded(11);
    for case in 0..150 * effort() {
        let plan = if case % 5 == 0 { Plan::largest(&mut random) } else { Plan::small(&mut random, 12) };
        let mut problem = lawful(&mut random, &plan);
        let layout = layouts::any(&mut random, problem.functions.len());
        layouts::fit_scratchpad(&mut random, &mut problem, &layout);
        let damage = random.field(0..=FILE_DAMAGES - 1);
        let file = if case % 3 == 0 { damaged_file(&mut random, &problem, damage) } else { file_of(&problem) };
        prints(&Desk::new("seeded").with_layout(&layout).mark(&file), &slip(&file, &layout));
    }
    for total in [MOST_BOUND - 1, MOST_BOUND, MOST_BOUND + 1] {
        let file = file_of(&with_total(total, 7));
        prints(&Desk::new("limit").mark(&file), &slip(&file, &[]));
    }
}

/// The program of the gate that marks stored files, held to the independent implementation: what it has to print, and so what it is compared with.
#[test]
fn stored_slips_are_those_of_the_independent_implementation() {
    let crate_folder = PathBuf::from(env!("CARGO_MANIFEST_DIR")).join("../crates/sheet_cases");
    let arguments = fs::read_to_string(crate_folder.join("args")).expect("the program's arguments");
    let data = |name: &str| fs::read(crate_folder.join("data").join(name));
    let mut printed = String::new();
    let lines: Vec<&str> = arguments.lines().collect();
    let cases = lines.chunks_exact(3);
    assert!(cases.remainder().is_empty(), "three arguments a case: {:?} are left over", cases.remainder());
    assert!(cases.len() >= 44, "only {} cases are listed", cases.len());
    for case in cases {
        let &[title, problem, layout] = case else { unreachable!("chunks of three") };
        printed += &format!("{title}:\n");
        let Ok(file) = data(problem) else { continue };
        match data(layout) {
            Ok(layout) => printed += &slip(&file, &layout),
            // one that does not exist is empty, and a folder is not asked for where Read refuses
            Err(error) if error.kind() == io::ErrorKind::NotFound || reference::read(&file).is_err() => printed += &slip(&file, &[]),
            Err(_) => {}
        }
    }
    assert_eq!(printed, fs::read_to_string(crate_folder.join("stdout")).expect("the stored output"));
}
