/*
 * The overlay examiner as a static library (target/staticlib/libexaminer.a, built by `make staticlib`), for C and C++ on
 * x86-64 Linux.
 *
 * A problem is always given as its file: edition, scratchpad size, functions, vertices, edges and loops, each number in groups of
 * seven bits, lowest group first. Every function that takes a file judges it before anything else. examiner_inline and
 * examiner_write_fields make such a file: from a drawing, one graph a function, and from the problem's numbers. examiner_word_refusal,
 * examiner_word_reason and examiner_read_sentence take no problem and judge none: they turn refusals and reasons into sentences, and
 * back.
 *
 * A number may be padded with groups of zero, up to five bytes: 5 is 05, or 85 00, or 85 80 80 80 00 (hexadecimal). What a function
 * answers does not depend on it, but for the places of refusals 1 to 5. What is written is always the shortest file with the problem's
 * content.
 *
 * Edition 2 of the file has each function's check cost behind its load cost: the cycles that looking whether it is loaded takes. Edition 1
 * has none, and reads as if all were zero. The edition is no part of the problem: edition 2 is written exactly where a check cost is above
 * zero, whichever edition was read. So an edition 1 file keeps its edition, and its results are what they were before there was another.
 *
 * THE BINARY INTERFACE CHANGED with check costs: `fields` has 1,477 numbers, where it had 1,445, and `drawing` 44,226, where it had 44,194.
 * A program that hands over either must be compiled anew with this header.
 *
 * RESULTS
 *   Each function returns 0, or the number of a refusal with its place in answer[0]. Places of `answer` that a result does not use
 *   keep their values. On a refusal all other lent memory keeps its values too: `out`, `words`, `held`, `text`, examiner_eviction's
 *   `walk` and answer[1] to answer[3].
 *
 * POINTERS
 *   - A parameter NAME with NAME_length is a slice: a pointer to the first of NAME_length values. `answer`, `held`, `fields` and
 *     `drawing` have a fixed number of places, and are never null.
 *   - A pointer is aligned for its type. It is null only together with length 0.
 *   - No two parameters overlap where one of them is written to (`out`, `words`, `held`, `answer`, the `walk` of examiner_eviction, and
 *     the `text` of examiner_word_refusal and examiner_word_reason).
 *   - Nothing is kept after the return, and nothing is allocated. Calls from several threads need no lock as long as nothing writes
 *     to memory that is lent to a call.
 *
 * REFUSALS, by number and name
 *   in the file, field by field; places are positions of the bytes given, or, in writing a record, of the bytes it would write
 *     1  EndsEarly           the bytes end before a number does               place: the file's length
 *     2  Misspelt            a fifth byte above 0F (hexadecimal)              place: the number's first byte
 *     3  OutOfRange          a number out of range                            place: its first byte
 *     4  NotAscending        edges by (from, to), loops by header             place: the item's first byte
 *     5  LeftOver            bytes left over after the last loop              place: the first of them
 *   in the graph, a whole rule at a time; items count from 0
 *     6  MissingEdge         a vertex lacks an edge that it must have         place: the lowest vertex
 *     7  WrongLoop           a loop crosses an earlier one or holds the last
 *                            vertex                                           place: the lowest loop
 *     8  WrongEdge           a wrong edge                                     place: the lowest edge
 *     9  NoEdgeBack          a loop with no edge back to its header           place: the lowest loop
 *   in what is lent
 *    10  BufferTooShort      a buffer is too short                            place: bytes, words or entries needed
 *   in the layout
 *    11  LayoutTooLong       longer than the list of functions                place: the number of functions
 *    12  UnknownRegion       a region above 31                                place: the lowest function
 *    13  ScratchpadTooSmall  it needs more than the scratchpad                place: bytes needed
 *    14  BoundTooLarge       the bound passes EXAMINER_MOST_BOUND, so both
 *                            totals do                                        place: 0
 *   in the walk
 *    15  WrongStep           not vertex 0 at position 0, no edge from the
 *                            entry before, an unknown vertex, or the end is
 *                            not the last vertex (then the place is the
 *                            length)                                          place: the first bad position
 *    16  BeyondBound         a header is visited more often than its bound    place: the first bad position
 *    17  WalkTooLong         more than EXAMINER_MOST_ENTRIES entries          place: EXAMINER_MOST_ENTRIES
 *   in the drawing, where 3, 4 and 6 to 9 are of one graph                    place: the lowest function
 *    18  Recursive           a function can reach itself by calls             place: the lowest function
 *    19  CountPassed         the one problem has too many vertices, edges or
 *                            loops                                            place: 0
 *    20  LastCalls           a graph's last vertex calls                      place: the lowest function
 *   in the vertex asked for
 *    21  UnknownVertex       not below the number of vertices                 place: its number
 *   in the text that is read
 *    22  NoSentence          no sentence of a refusal or a reason             place: the first byte that does not fit, or
 *                                                                             the length
 */
#ifndef EXAMINER_H
#define EXAMINER_H

#include <stddef.h>
#include <stdint.h>

#ifdef __cplusplus
extern "C" {
#endif

/* The greatest counts of items in a problem. */
#define EXAMINER_MOST_FUNCTIONS 32
#define EXAMINER_MOST_VERTICES 128
#define EXAMINER_MOST_EDGES 512
#define EXAMINER_MOST_LOOPS 32

/* The greatest check cost of a function. */
#define EXAMINER_MOST_CHECK 65535

/* The greatest bound of a loop: the most visits to its header in one stay. */
#define EXAMINER_MOST_VISITS 4096

/* The places of `answer`, and of `held` (regions are 0 to 31). */
#define EXAMINER_ANSWERS 4
#define EXAMINER_REGIONS 32

/* The places of `fields`: of each count, of the first item of the list behind it, and how many there are. */
#define EXAMINER_SCRATCHPAD 0
#define EXAMINER_FUNCTION_COUNT (EXAMINER_SCRATCHPAD + 1)
#define EXAMINER_FUNCTIONS (EXAMINER_FUNCTION_COUNT + 1)
#define EXAMINER_VERTEX_COUNT (EXAMINER_FUNCTIONS + 3 * EXAMINER_MOST_FUNCTIONS)
#define EXAMINER_VERTICES (EXAMINER_VERTEX_COUNT + 1)
#define EXAMINER_EDGE_COUNT (EXAMINER_VERTICES + 2 * EXAMINER_MOST_VERTICES)
#define EXAMINER_EDGES (EXAMINER_EDGE_COUNT + 1)
#define EXAMINER_LOOP_COUNT (EXAMINER_EDGES + 2 * EXAMINER_MOST_EDGES)
#define EXAMINER_LOOPS (EXAMINER_LOOP_COUNT + 1)
#define EXAMINER_FIELDS (EXAMINER_LOOPS + 3 * EXAMINER_MOST_LOOPS)

/* The library takes so many. */
typedef char examiner_fields_are_those_of_the_library[EXAMINER_FIELDS == 1477 ? 1 : -1];

/* In `held`: no function was loaded into the region. In `drawing`: the vertex calls no function. */
#define EXAMINER_NONE 255

/* The places of `drawing`. */
#define EXAMINER_DRAWING 44226

/* The greatest bound that is given, and the greatest length of a walk that is run. */
#define EXAMINER_MOST_BOUND UINT64_C(1000000000000000000)
#define EXAMINER_MOST_ENTRIES 1000000

/* No walk that examiner_eviction writes has more entries: a buffer of so many is never too short. */
#define EXAMINER_MOST_SHOWN 256

/* No sentence has more bytes: a buffer of so many is never too short. */
#define EXAMINER_MOST_SENTENCE 128

/*
 * Read: judges a problem file.
 *
 * On 0: answer[0] the number of functions, answer[1] of vertices, answer[2] of edges, answer[3] of loops.
 * Refusals, in this order: 1 to 5 field by field, then 6, 7, 8, 9.
 */
uint32_t examiner_read(const uint8_t *file, size_t file_length, uint64_t *answer);

/*
 * Write: writes the problem back into `out`, as the shortest file with its content. So an edition 1 file with no padded number comes back
 * byte for byte, and so does one of edition 2 with a check cost above zero; a padded file, and one of edition 2 with none above zero, may
 * go into fewer bytes than it has. Bytes of `out` past what is written keep their values.
 *
 * On 0: answer[0] the bytes written.
 * Refusals: those of examiner_read, then 10 (bytes needed).
 */
uint32_t examiner_write(const uint8_t *file, size_t file_length, uint8_t *out, size_t out_length, uint64_t *answer);

/*
 * Interference: the interference sets of every vertex and function. The set of vertex v and function f holds each g, other than f,
 * that some walk arriving at v has visited after its latest visit to f, or at all if f was not visited before v. The arrival at v
 * itself counts neither for f nor for g; loop bounds play no part.
 *
 * On 0: words[v * functions + f] has bit g set for each member g, and no other bit; later words keep their values; answer[0] the
 * words filled, which is vertices * functions.
 * Refusals: those of examiner_read, then 10 (words needed).
 */
uint32_t examiner_interference(const uint8_t *file, size_t file_length, uint32_t *words, size_t words_length, uint64_t *answer);

/*
 * Bound: the worst-case time under a layout. layout[f] is the region of function f, 0 to 31. A layout may be shorter than the function
 * list: each function beyond its end gets, in turn, the lowest region that no earlier function has.
 *
 * A vertex is contested if the interference set of it and its function has a function in its function's region. It is entered if it is
 * vertex 0, or some edge leads to it from a vertex of another function. Its visit charge is its own cost, plus the function's load cost
 * if contested, plus the function's check cost if entered. It is early if it is uncontested and some walk reaches it with no earlier
 * vertex of its function. The bound is the smaller of two totals, and no lawful walk runs longer:
 *   - the largest sum of visit charges over all lawful walks, plus once the load cost of each function that has an early vertex;
 *   - the largest sum over all lawful walks of the visit charges, of the load cost too at each visit to an early vertex that no loop
 *     holds, and, at each entry of an outermost loop, of the load cost, once each, of every function of which the loop holds an early
 *     vertex.
 *
 * On 0: answer[0] the bytes needed, answer[1] the number of contested vertices, answer[2] the bound less the largest sum of visit
 * charges, which is what first loads take, answer[3] the bound; costs are in cycles.
 * Refusals: those of examiner_read, then 11, 12, 13, 14.
 */
uint32_t examiner_bound(const uint8_t *file, size_t file_length, const uint8_t *layout, size_t layout_length, uint64_t *answer);

/*
 * Run: the simulated cycles of a walk under a layout, from empty regions. A visit costs its vertex's own cost, plus the load cost if
 * the vertex's function is not the one held in its region; that function is held there afterwards. The first visit, and each that comes
 * from a vertex of another function, costs the function's check cost too. walk[i] is the vertex visited at position i.
 *
 * On 0: answer[0] the cycles, answer[1] the number of loads, held[r] the function held in region r afterwards, EXAMINER_NONE for none.
 * Refusals: those of examiner_read, then 11, 12, 13 as examiner_bound, then 17, then 15 or 16 at the first bad position; at one
 * position 15 goes first. An empty walk is 15 at 0.
 */
uint32_t examiner_run(const uint8_t *file, size_t file_length, const uint8_t *layout, size_t layout_length, const uint32_t *walk,
                      size_t walk_length, uint8_t *held, uint64_t *answer);

/*
 * Eviction: why a vertex pays its load under a layout, with the shortest walk that shows it. `vertex` is the number of a vertex, f its
 * function. The reason is the first of these that holds:
 *   1  on every visit: the vertex is contested. The function named is the lowest in f's region of the interference set of the vertex
 *      and f. The walk arrives at the vertex having visited that function after its latest visit to f, or at all if f was not visited.
 *   2  a first load only: some walk arrives with no earlier vertex of f, and the walk is one.
 *   3  never: every walk that arrives has visited f before. There is no walk.
 * The walk is written from vertex 0 to `vertex`, both counted: of all that arrive so the one with the fewest entries, then with the
 * smallest number at the first difference from the start. The arrival itself counts neither for f nor for the function named. Loop
 * bounds play no part, and the walk ends at `vertex`, so examiner_run may refuse it.
 *
 * On 0: answer[0] the entries written to `walk`, answer[1] the number of the reason, answer[2] the function named, for reason 1 alone;
 * later entries of `walk` keep their values.
 * Refusals: those of examiner_read, then 11, 12, 13 as examiner_bound, then 21, last 10 (entries needed). Reason 3 needs no entry.
 */
uint32_t examiner_eviction(const uint8_t *file, size_t file_length, const uint8_t *layout, size_t layout_length, uint64_t vertex,
                           uint32_t *walk, size_t walk_length, uint64_t *answer);

/*
 * Write on any record, lawful or not. `fields` are EXAMINER_FIELDS numbers:
 *
 *   place                     number
 *   EXAMINER_SCRATCHPAD       scratchpad size
 *   EXAMINER_FUNCTION_COUNT   number of functions
 *   EXAMINER_FUNCTIONS        EXAMINER_MOST_FUNCTIONS times: size, load cost, check cost
 *   EXAMINER_VERTEX_COUNT     number of vertices
 *   EXAMINER_VERTICES         EXAMINER_MOST_VERTICES times: function, own cost
 *   EXAMINER_EDGE_COUNT       number of edges
 *   EXAMINER_EDGES            EXAMINER_MOST_EDGES times: from, to
 *   EXAMINER_LOOP_COUNT       number of loops
 *   EXAMINER_LOOPS            EXAMINER_MOST_LOOPS times: header, last, bound
 *
 * Each number has 32 bits, the most that a number of the file may have: inside the library a record's numbers have 64 bits, and a
 * record with a larger number cannot be given here. Places past a count are spare: they may have any value and are no part of the
 * problem. Bytes of `out` past the file keep their values.
 *
 * The file is of edition 2 exactly where a function below the count has a check cost above 0, be it above EXAMINER_MOST_CHECK: then places
 * count the bytes of every check cost, and else of none.
 *
 * On 0: answer[0] the bytes written.
 * Refusals: 3 and 4 in file order, placed by the bytes it would write; then 6, 7, 8, 9; last 10 (bytes needed).
 */
uint32_t examiner_write_fields(const uint32_t *fields, uint8_t *out, size_t out_length, uint64_t *answer);

/* A drawn vertex: the function that it calls, EXAMINER_NONE for none, and its own cost. */
struct examiner_drawn_vertex {
    uint32_t callee;
    uint32_t cost;
};

/* A drawn edge, from one vertex of its graph to another. */
struct examiner_drawn_edge {
    uint32_t from;
    uint32_t to;
};

/* A drawn loop: the vertices `header` to `last` of its graph, both counted, and the most visits to the header in one stay. */
struct examiner_drawn_loop {
    uint32_t header;
    uint32_t last;
    uint32_t bound;
};

/* A function and its graph. Vertices are those of this graph, from 0 on; the highest is the last. */
struct examiner_graph {
    uint32_t size;
    uint32_t load;
    uint32_t check;
    uint32_t vertex_count;
    struct examiner_drawn_vertex vertices[EXAMINER_MOST_VERTICES];
    uint32_t edge_count;
    struct examiner_drawn_edge edges[EXAMINER_MOST_EDGES];
    uint32_t loop_count;
    struct examiner_drawn_loop loops[EXAMINER_MOST_LOOPS];
};

/* A drawn program. It starts at vertex 0 of function 0. */
struct examiner_drawing {
    uint32_t scratchpad;
    uint32_t function_count;
    struct examiner_graph functions[EXAMINER_MOST_FUNCTIONS];
};

/* A struct examiner_drawing is the EXAMINER_DRAWING numbers of `drawing`, in order. */
typedef char examiner_drawing_has_its_numbers[sizeof(struct examiner_drawing) == EXAMINER_DRAWING * sizeof(uint32_t) ? 1 : -1];

/*
 * Inline: one problem from a drawing, one graph a function, whose vertices may call other functions. `drawing` are EXAMINER_DRAWING
 * numbers, those of a struct examiner_drawing `d` as (const uint32_t *)&d. Places past a count are spare: they may have any value and
 * are no part of the drawing, and so are all of a function from the number of functions on.
 *
 * A copy of the callee follows its call vertex. The call vertex has an edge to the copy's first vertex and no other; the copy's last
 * vertex has the edges that were drawn from the call vertex. A loop that holds the call vertex holds the copy too. Scratchpad and
 * functions, with their numbers, are as drawn, so a layout of the drawing is one of the problem.
 *
 * A run of the drawn program goes from a call to vertex 0 of the callee, and from a graph's last vertex on along an edge of the call
 * vertex, which is not visited again. Each call counts the callee's loop bounds afresh, and a stay goes on through the calls made in
 * it. These runs are the problem's walks, one for one, with the same cycles: so the bound of the problem is one of the drawn program.
 *
 * On 0: answer[0] the bytes written, the problem's file in `out`; bytes of `out` past it keep their values.
 * Refusals, in this order: 3 at 0 for the scratchpad size or the number of functions; for the lowest function whose graph breaks 3, 4
 * or 6 to 9, judged as if it were to be written by itself, that number, a callee that is neither a function nor EXAMINER_NONE being 3;
 * 20; 18; 19; last 10 (bytes needed). Functions that nothing calls are judged too, but only what function 0 reaches counts towards 19.
 */
uint32_t examiner_inline(const uint32_t *drawing, uint8_t *out, size_t out_length, uint64_t *answer);

/*
 * Word, for a refusal: writes it as a sentence into `text`, its number first, then what is wrong and what the place is, then the place.
 * `number` is what a function returned, `place` what it put in answer[0]. 13 at 18 is
 *
 *   Refused 13: the layout needs more than the scratchpad; the bytes needed are 18.
 *
 * docs/SENTENCES.md has the words of every number. Any place goes with any number. The text is ASCII; no zero byte and no line end
 * follows it: bytes of `text` past the sentence keep their values.
 *
 * On 0: answer[0] the bytes written.
 * Refusals: 3 at 0 for a number that is no refusal's; then 10 (bytes needed).
 */
uint32_t examiner_word_refusal(uint32_t number, uint64_t place, uint8_t *text, size_t text_length, uint64_t *answer);

/*
 * Word, for a reason of examiner_eviction: writes it as a sentence into `text`. `reason` is its number, and `function`, which is looked
 * at for reason 1 alone, the function named. They are, with 5 for the function:
 *
 *   1  Every visit is charged the load, since its region may have been taken by function 5.
 *   2  Only a first load is charged, since no other function can have taken its region.
 *   3  No load is charged, since its function is always in its region.
 *
 * The text is ASCII; no zero byte and no line end follows it: bytes of `text` past the sentence keep their values.
 *
 * On 0: answer[0] the bytes written.
 * Refusals: 3 at 0 for a number that is no reason's, or a function above 31; then 10 (bytes needed).
 */
uint32_t examiner_word_reason(uint32_t reason, uint64_t function, uint8_t *text, size_t text_length, uint64_t *answer);

/*
 * Read-sentence: the refusal or the reason whose sentence `text` is, to the last byte. A zero byte or a line end behind the full stop is
 * one byte too many. Numbers are decimal, with no zero before other digits.
 *
 * On 0: answer[0] is 0 for a refusal, with its number in answer[1] and its place in answer[2]; else it is the number of the reason, 1 to
 * 3 as in examiner_eviction, with the function named in answer[1] for reason 1 alone.
 * Refusals: 22, placed at the length of the longest front of `text` that some sentence begins with. That is the first byte that fits no
 * sentence, or the length where all of `text` fits.
 */
uint32_t examiner_read_sentence(const uint8_t *text, size_t text_length, uint64_t *answer);

#ifdef __cplusplus
}
#endif

#endif
