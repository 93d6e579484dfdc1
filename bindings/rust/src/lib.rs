//! The overlay examiner for Rust programs.
//!
//! A controller runs code only from a small scratchpad, whose regions functions take turns in. A *problem* is a block graph with loop
//! bounds, function sizes, load costs and check costs; a *layout* says which function goes to which region. The examiner names the interference,
//! prices the reloads and gives a worst-case time, or it refuses with a number and a place.
//!
//! An operation on a problem takes it as its file, and judges that first; [`inline`] makes such a file from a program drawn function by
//! function. [`word`] and [`read_sentence`] take none: they turn a refusal, or the [`Reason`] why a vertex pays its load, into a sentence and
//! back. The code behind this wrapper is proved against its definitions for every input; the wrapper is the only Rust code in between.
//!
//! A number of a file may be padded with groups of zero, up to five bytes: 5 is 05, or 85 00, or 85 80 80 80 00 (hexadecimal). What an operation
//! answers does not depend on it, but for the places of [`EndsEarly`](RefusalKind::EndsEarly) to [`LeftOver`](RefusalKind::LeftOver). What is
//! written is always the shortest file with the problem's content.
//!
//! Edition 2 of the file has each function's check cost behind its load cost; edition 1 has none, and reads as if all were zero. The edition is
//! no part of the problem: edition 2 is written exactly where a check cost is above zero, whichever edition was read.
//!
//! With check costs the binary interface changed: [`Fields`] and [`Drawing`] are handed over as more numbers than before. The wrapper and the
//! library must both be from before that, or both from after it.
//!
//! ```
//! // one function of 8 bytes with load cost 5, one vertex of cost 10, scratchpad 8
//! let file = [0x01, 0x08, 0x01, 0x08, 0x05, 0x01, 0x00, 0x0A, 0x00, 0x00];
//! assert_eq!(examiner::read(&file)?.vertices, 1);
//!
//! let refusal = examiner::read(&[]).unwrap_err();
//! assert_eq!(refusal.number, examiner::RefusalKind::EndsEarly);
//! assert_eq!(refusal.to_string(), "Refused 1: the file ends before a number does; its length is 0.");
//! // the sentence says all of it
//! assert_eq!("Refused 1: the file ends before a number does; its length is 0.".parse(), Ok(refusal));
//! # Ok::<(), examiner::Refusal>(())
//! ```

mod drawing;
mod eviction;
mod fields;
pub mod raw;
mod refusal;
mod sentence;

pub use drawing::{Drawing, DrawnFunction, DrawnVertex};
pub use eviction::{Eviction, Reason, MOST_SHOWN};
pub use fields::{Edge, Fields, Function, Loop, Vertex, MOST_CHECK, MOST_EDGES, MOST_FUNCTIONS, MOST_LOOPS, MOST_VERTICES, MOST_VISITS};
pub use refusal::{Refusal, RefusalKind};
pub use sentence::{read_sentence, word, Remark, MOST_SENTENCE};

/// The numbers of items in a problem.
#[derive(Clone, Copy, Debug, PartialEq, Eq, Hash)]
pub struct Counts {
    /// Functions, 1 to 32.
    pub functions: usize,
    /// Vertices, 1 to 128.
    pub vertices: usize,
    /// Edges, 0 to 512.
    pub edges: usize,
    /// Loops, 0 to 32.
    pub loops: usize,
}

/// What a layout needs, and the worst-case time that it gives.
#[derive(Clone, Copy, Debug, PartialEq, Eq, Hash)]
pub struct Bound {
    /// The bytes needed: for each region used, the size of its largest function, all added.
    pub need: u64,
    /// The number of contested vertices.
    pub contested: u64,
    /// What first loads take of the bound, in cycles: the bound less the largest sum of visit charges over all lawful walks.
    pub first_loads: u64,
    /// The bound in cycles, the smaller of two totals. No lawful walk runs longer.
    pub bound: u64,
}

/// What the simulated run of a walk took, and what it left loaded.
#[derive(Clone, Copy, Debug, PartialEq, Eq, Hash)]
pub struct Run {
    /// The simulated cycles.
    pub cycles: u64,
    /// How often a function was loaded.
    pub loads: u64,
    /// The function held in each region afterwards.
    pub held: [Option<u8>; 32],
}

type Answer = [u64; 4];

/// The answer where the returned number is 0, or the refusal that it names.
fn judge(number: u32, answer: Answer) -> Result<Answer, Refusal> {
    if number == 0 {
        return Ok(answer);
    }
    let number = RefusalKind::from_number(number).expect("the library's refusals have the numbers 1 to 22");
    Err(Refusal { number, place: answer[0] })
}

/// Reads a problem file and judges it whole: its numbers, their ranges and order, and the rules of the graph.
///
/// # Errors
/// [`EndsEarly`](RefusalKind::EndsEarly) to [`LeftOver`](RefusalKind::LeftOver) field by field, then
/// [`MissingEdge`](RefusalKind::MissingEdge) to [`NoEdgeBack`](RefusalKind::NoEdgeBack), a whole rule at a time.
pub fn read(file: &[u8]) -> Result<Counts, Refusal> {
    let mut answer = [0; 4];
    // SAFETY: `file` and `answer` are valid for the call, and apart.
    let number = unsafe { raw::examiner_read(file.as_ptr(), file.len(), answer.as_mut_ptr()) };
    let [functions, vertices, edges, loops] = judge(number, answer)?.map(|count| count as usize);
    Ok(Counts { functions, vertices, edges, loops })
}

/// Writes the problem that `file` holds into `out`, as the shortest file with its content, and gives the number of bytes written. So an
/// edition 1 file with no padded number comes back byte for byte, and so does one of edition 2 with a check cost above zero; a padded file,
/// and one of edition 2 with none above zero, may go into fewer bytes than it has. Bytes of `out` past what is written keep their values, and
/// all of them on a refusal.
///
/// ```
/// use examiner::{write, Refusal, RefusalKind};
///
/// // scratchpad 8 in five bytes, one function of 8 bytes with load cost 5 in two bytes, one vertex of cost 10
/// let padded = [0x01, 0x88, 0x80, 0x80, 0x80, 0x00, 0x01, 0x08, 0x85, 0x00, 0x01, 0x00, 0x0A, 0x00, 0x00];
/// let mut out = [0; 10];
/// assert_eq!(write(&padded, &mut out)?, 10);
/// assert_eq!(out, [0x01, 0x08, 0x01, 0x08, 0x05, 0x01, 0x00, 0x0A, 0x00, 0x00]);
/// assert_eq!(write(&padded, &mut out[..9]), Err(Refusal { number: RefusalKind::BufferTooShort, place: 10 }));
///
/// // the same problem in edition 2, with check cost 0: it comes back as edition 1
/// let with_no_check = [0x02, 0x08, 0x01, 0x08, 0x05, 0x00, 0x01, 0x00, 0x0A, 0x00, 0x00];
/// assert_eq!(write(&with_no_check, &mut out)?, 10);
/// assert_eq!(out[0], 0x01);
/// # Ok::<(), examiner::Refusal>(())
/// ```
///
/// # Errors
/// As [`read`]; then [`BufferTooShort`](RefusalKind::BufferTooShort).
pub fn write(file: &[u8], out: &mut [u8]) -> Result<usize, Refusal> {
    let mut answer = [0; 4];
    // SAFETY: the slices and `answer` are valid for the call; what is written to is borrowed for it alone.
    let number = unsafe { raw::examiner_write(file.as_ptr(), file.len(), out.as_mut_ptr(), out.len(), answer.as_mut_ptr()) };
    Ok(judge(number, answer)?[0] as usize)
}

/// Writes a record as a problem file into `out`, and gives the number of bytes written. The record need not be lawful. Bytes of `out`
/// past the file keep their values, and all of them on a refusal.
///
/// The file is of edition 2 exactly where a function of the record has a check cost above zero, be it out of range.
///
/// # Errors
/// [`OutOfRange`](RefusalKind::OutOfRange) and [`NotAscending`](RefusalKind::NotAscending) in file order, placed by the bytes that would
/// be written; then [`MissingEdge`](RefusalKind::MissingEdge) to [`NoEdgeBack`](RefusalKind::NoEdgeBack); last
/// [`BufferTooShort`](RefusalKind::BufferTooShort).
pub fn write_fields(fields: &Fields, out: &mut [u8]) -> Result<usize, Refusal> {
    let mut answer = [0; 4];
    let places: *const Fields = fields;
    // SAFETY: `Fields` is laid out as its numbers, in order; it, `out` and `answer` are valid for the call; what is written to is borrowed
    // for it alone.
    let number = unsafe { raw::examiner_write_fields(places.cast(), out.as_mut_ptr(), out.len(), answer.as_mut_ptr()) };
    Ok(judge(number, answer)?[0] as usize)
}

/// Writes the one problem of a drawn program as a file into `out`, and gives the number of bytes written. The drawing need not be lawful.
/// Bytes of `out` past the file keep their values, and all of them on a refusal.
///
/// A copy of the callee follows its call vertex. Runs of the drawn program, which goes on behind a call from the call vertex without
/// visiting it again and counts loop bounds afresh in each call, are the problem's walks, one for one, with the same cycles. So the bound
/// of the problem holds for the drawn program. Functions keep their numbers, and a layout of the drawing is one of the problem.
///
/// ```
/// use examiner::{bound, inline, Drawing, DrawnFunction, DrawnVertex, Edge, Loop, RefusalKind};
///
/// // function 0 calls function 1 in a loop of at most three visits to its header, vertex 1
/// let vertex = |callee, cost| DrawnVertex { callee, cost };
/// let caller = DrawnFunction {
///     size: 1,
///     load: 5,
///     check: 0,
///     vertices: vec![vertex(None, 1), vertex(Some(1), 2), vertex(None, 1)],
///     edges: vec![Edge { from: 0, to: 1 }, Edge { from: 1, to: 1 }, Edge { from: 1, to: 2 }],
///     loops: vec![Loop { header: 1, last: 1, bound: 3 }],
/// };
/// let helper = DrawnFunction { size: 1, load: 3, check: 0, vertices: vec![vertex(None, 7)], edges: vec![], loops: vec![] };
/// let mut drawing = Drawing { scratchpad: 2, functions: vec![caller, helper] };
///
/// let mut out = [0; 2_155];
/// let written = inline(&drawing, &mut out)?;
/// let problem = &out[..written];
/// // vertices 0 and 1 of the caller, the helper's copy, vertex 2 of the caller; the loop holds the copy
/// assert_eq!(examiner::read(problem)?.vertices, 4);
/// // a region for each, and both in one region
/// assert_eq!(bound(problem, &[0, 1])?.bound, 37);
/// assert_eq!(bound(problem, &[0, 0])?.bound, 63);
///
/// // the helper calls its caller
/// drawing.functions[1].vertices = vec![vertex(Some(0), 7), vertex(None, 0)];
/// drawing.functions[1].edges = vec![Edge { from: 0, to: 1 }];
/// assert_eq!(inline(&drawing, &mut out).unwrap_err().number, RefusalKind::Recursive);
/// # Ok::<(), examiner::Refusal>(())
/// ```
///
/// # Errors
/// [`OutOfRange`](RefusalKind::OutOfRange) at 0 for the scratchpad size or the number of functions; then what the lowest function whose graph
/// is wrong breaks, [`OutOfRange`](RefusalKind::OutOfRange), [`NotAscending`](RefusalKind::NotAscending) or
/// [`MissingEdge`](RefusalKind::MissingEdge) to [`NoEdgeBack`](RefusalKind::NoEdgeBack), with the function as place; then
/// [`LastCalls`](RefusalKind::LastCalls), [`Recursive`](RefusalKind::Recursive), [`CountPassed`](RefusalKind::CountPassed); last
/// [`BufferTooShort`](RefusalKind::BufferTooShort). More items than there are places for, and a callee that is no function, are
/// [`OutOfRange`](RefusalKind::OutOfRange) like any number that is out of range.
pub fn inline(drawing: &Drawing, out: &mut [u8]) -> Result<usize, Refusal> {
    let mut answer = [0; 4];
    let numbers = drawing.numbers();
    // SAFETY: `numbers` has all places of a drawing; it, `out` and `answer` are valid for the call; what is written to is borrowed for it
    // alone.
    let number = unsafe { raw::examiner_inline(numbers.as_ptr(), out.as_mut_ptr(), out.len(), answer.as_mut_ptr()) };
    Ok(judge(number, answer)?[0] as usize)
}

/// Fills `words` with the interference sets, and gives the number of words filled, vertices × functions.
///
/// Word v × functions + f has bit g set for each function g, other than f, that some walk arriving at v has visited after its latest
/// visit to f, or at all if f was not visited before v. Later words keep their values, and all of them on a refusal.
///
/// # Errors
/// As [`read`]; then [`BufferTooShort`](RefusalKind::BufferTooShort).
pub fn interference(file: &[u8], words: &mut [u32]) -> Result<usize, Refusal> {
    let mut answer = [0; 4];
    // SAFETY: the slices and `answer` are valid for the call; what is written to is borrowed for it alone.
    let number = unsafe { raw::examiner_interference(file.as_ptr(), file.len(), words.as_mut_ptr(), words.len(), answer.as_mut_ptr()) };
    Ok(judge(number, answer)?[0] as usize)
}

/// Prices a layout: `layout[f]` is the region of function f, 0 to 31. A layout may be shorter than the function list: each function beyond
/// its end gets, in turn, the lowest region that no earlier function has.
///
/// A visit to a vertex is charged its own cost, its function's load cost if it is contested: if another function may have pushed its function
/// out of the region, and its function's check cost if it is entered: if it is vertex 0, or some edge leads to it from a vertex of another
/// function. A vertex is early if it is not contested and some walk reaches it with no earlier vertex of its function. The
/// bound is the smaller of two totals:
/// - the largest sum of visit charges over all lawful walks, plus once the load cost of each function that has an early vertex;
/// - the largest sum over all lawful walks of the visit charges, of the load cost too at each visit to an early vertex that no loop holds,
///   and, at each entry of an outermost loop, of the load cost, once each, of every function of which the loop holds an early vertex.
///
/// ```
/// use examiner::{bound, write_fields, Edge, Fields, Function, Vertex};
///
/// // vertex 0 goes on to a vertex of function 1 or to one of function 2: a walk loads one of the two
/// let functions = [5, 3, 4].map(|load| Function { size: 1, load, check: 0 });
/// let vertices = [0, 1, 2, 0].map(|function| Vertex { function, cost: 1 });
/// let edges = [(0, 1), (0, 2), (1, 3), (2, 3)].map(|(from, to)| Edge { from, to });
/// let fields = Fields::new(3, &functions, &vertices, &edges, &[]).expect("there are places for all");
/// let mut file = [0; 2_155];
/// let written = write_fields(&fields, &mut file)?;
///
/// let priced = bound(&file[..written], &[0, 1, 2])?;
/// // three visits, and the loads of functions 0 and 2
/// assert_eq!((priced.bound, priced.first_loads), (12, 9));
///
/// // each visit comes from another function, or is the first: with check cost 2 it costs 2 cycles more
/// let functions = functions.map(|function| Function { check: 2, ..function });
/// let checked = Fields::new(3, &functions, &vertices, &edges, &[]).expect("there are places for all");
/// let written = write_fields(&checked, &mut file)?;
/// assert_eq!(bound(&file[..written], &[0, 1, 2])?.bound, 12 + 3 * 2);
/// # Ok::<(), examiner::Refusal>(())
/// ```
///
/// # Errors
/// As [`read`]; then [`LayoutTooLong`](RefusalKind::LayoutTooLong), [`UnknownRegion`](RefusalKind::UnknownRegion),
/// [`ScratchpadTooSmall`](RefusalKind::ScratchpadTooSmall) and [`BoundTooLarge`](RefusalKind::BoundTooLarge).
pub fn bound(file: &[u8], layout: &[u8]) -> Result<Bound, Refusal> {
    let mut answer = [0; 4];
    // SAFETY: the slices and `answer` are valid for the call, and `answer` is apart.
    let number = unsafe { raw::examiner_bound(file.as_ptr(), file.len(), layout.as_ptr(), layout.len(), answer.as_mut_ptr()) };
    let [need, contested, first_loads, bound] = judge(number, answer)?;
    Ok(Bound { need, contested, first_loads, bound })
}

/// Runs a walk under a layout, from empty regions: `walk[i]` is the vertex visited at position i. A visit costs its vertex's own cost; the
/// function's load cost, if the function is not held in its region; and its check cost, if it is the first visit or the one before was to a
/// vertex of another function.
///
/// # Errors
/// As `bound` but for [`BoundTooLarge`](RefusalKind::BoundTooLarge); then [`WalkTooLong`](RefusalKind::WalkTooLong); then
/// [`WrongStep`](RefusalKind::WrongStep) or [`BeyondBound`](RefusalKind::BeyondBound) at the first bad position.
pub fn run(file: &[u8], layout: &[u8], walk: &[u32]) -> Result<Run, Refusal> {
    const NONE: u8 = 255;
    let mut answer = [0; 4];
    let mut held = [NONE; 32];
    // SAFETY: the slices, `held` and `answer` are valid for the call; the two that are written to are apart from all others.
    let number = unsafe {
        raw::examiner_run(
            file.as_ptr(),
            file.len(),
            layout.as_ptr(),
            layout.len(),
            walk.as_ptr(),
            walk.len(),
            held.as_mut_ptr(),
            answer.as_mut_ptr(),
        )
    };
    let [cycles, loads, ..] = judge(number, answer)?;
    Ok(Run { cycles, loads, held: held.map(|function| (function != NONE).then_some(function)) })
}

/// Tells why a vertex pays its load under a layout, and writes the shortest walk that shows it, from vertex 0 to the vertex, both counted.
///
/// Of all walks that show the [`Reason`] it is the one with the fewest entries, then with the smallest number at the first difference from
/// the start. Loop bounds play no part, and it ends at the vertex, so [`run`] may refuse it. No walk has more than [`MOST_SHOWN`] entries.
/// Later entries keep their values, and all of them on a refusal.
///
/// ```
/// use examiner::{eviction, write_fields, Edge, Fields, Function, Reason, RefusalKind, Vertex, MOST_SHOWN};
///
/// // seven vertices in a chain, of three functions; functions 1 and 2 take turns in region 1
/// let functions = [(8, 5), (4, 3), (6, 4)].map(|(size, load)| Function { size, load, check: 0 });
/// let vertices = [0, 1, 0, 2, 0, 1, 0].map(|function| Vertex { function, cost: 10 });
/// let edges = [0, 1, 2, 3, 4, 5].map(|from| Edge { from, to: from + 1 });
/// let fields = Fields::new(14, &functions, &vertices, &edges, &[]).expect("there are places for all");
/// let mut file = [0; 2_155];
/// let written = write_fields(&fields, &mut file)?;
/// let (problem, layout) = (&file[..written], [0, 1, 1]);
///
/// let mut walk = [0; MOST_SHOWN];
/// let shown = eviction(problem, &layout, 3, &mut walk)?;
/// // on the way to vertex 3 function 1 was loaded over function 2
/// assert_eq!(shown.reason, Reason::EveryVisit { function: 1 });
/// assert_eq!(walk[..shown.count], [0, 1, 2, 3]);
/// // vertex 1 loads function 1 once; vertex 2 finds function 0 loaded
/// assert_eq!(eviction(problem, &layout, 1, &mut walk)?.reason, Reason::FirstLoad);
/// assert_eq!(eviction(problem, &layout, 2, &mut walk)?.reason, Reason::Never);
///
/// assert_eq!(eviction(problem, &layout, 7, &mut walk).unwrap_err().number, RefusalKind::UnknownVertex);
/// # Ok::<(), examiner::Refusal>(())
/// ```
///
/// # Errors
/// As [`bound`] but for [`BoundTooLarge`](RefusalKind::BoundTooLarge); then [`UnknownVertex`](RefusalKind::UnknownVertex); last
/// [`BufferTooShort`](RefusalKind::BufferTooShort).
pub fn eviction(file: &[u8], layout: &[u8], vertex: u64, walk: &mut [u32]) -> Result<Eviction, Refusal> {
    let mut answer = [0; 4];
    // SAFETY: the slices and `answer` are valid for the call; what is written to is borrowed for it alone.
    let number = unsafe {
        raw::examiner_eviction(
            file.as_ptr(),
            file.len(),
            layout.as_ptr(),
            layout.len(),
            vertex,
            walk.as_mut_ptr(),
            walk.len(),
            answer.as_mut_ptr(),
        )
    };
    Ok(Eviction::told(judge(number, answer)?))
}
