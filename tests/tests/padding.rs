//! Padded numbers: the readings that were settled, asked of the library and of the independent implementation, by its plain methods and by its
//! quick ones.

use examiner_tests::asked::{bound, read, write, write_fields};
use examiner_tests::damage::{file_of, numbers, spelled};
use examiner_tests::padding::in_five_bytes;
use examiner_tests::problems::longest;
use examiner_tests::random::Random;
use reference::examples::{p, q, r, M10};
use reference::file::{spell, spell_in, MOST_BYTES};
use reference::problem::{Edge, Problem, MOST_SIZE};

fn m10() -> Problem {
    reference::read(&M10).expect("accepted")
}

/// M10 with other bytes for one of its numbers, each of which has one.
fn m10_with(number: usize, spelling: &[u8]) -> Vec<u8> {
    [&M10[..number], spelling, &M10[number + 1..]].concat()
}

/// Which numbers of M10 are put in other spellings. Its bound is 5 cycles and the own cost.
const SCRATCHPAD: usize = 1;
const OWN_COST: usize = 7;

#[test]
fn a_padded_number_is_what_it_is_without_padding() {
    let readings: [(u64, &[&[u8]]); 3] = [
        (5, &[&[0x05], &[0x85, 0x00], &[0x85, 0x80, 0x00], &[0x85, 0x80, 0x80, 0x80, 0x00]]),
        (0, &[&[0x00], &[0x80, 0x00], &[0x80, 0x80, 0x80, 0x80, 0x00]]),
        (300, &[&[0xAC, 0x02], &[0xAC, 0x82, 0x00], &[0xAC, 0x82, 0x80, 0x80, 0x00]]),
    ];
    for (value, spellings) in readings {
        for spelling in spellings {
            let file = m10_with(OWN_COST, spelling);
            assert_eq!(bound(&file, &[]), Ok(5 + value), "{spelling:02X?}");
            assert_eq!(write(&file, file.len()), Ok(m10_with(OWN_COST, spellings[0])), "{spelling:02X?}");
        }
    }
}

/// Values at the ends of what so many groups hold, in every number of bytes from those needed on.
#[test]
fn every_length_from_the_shortest_to_five_bytes() {
    for value in [0, 1, 127, 128, 16_383, 16_384, 2_097_151, 2_097_152, MOST_SIZE] {
        for bytes in spell(value).len()..=MOST_BYTES {
            assert_eq!(bound(&m10_with(OWN_COST, &spell_in(value, bytes)), &[]), Ok(5 + u64::from(value)), "{value} in {bytes} bytes");
        }
        assert_eq!(read(&m10_with(OWN_COST, &spell_in(value, MOST_BYTES + 1))), Err((2, 7)), "{value} in six bytes");
    }
}

/// No range reaches so far: that these are out of range shows that they are well spelt.
#[test]
fn a_fifth_byte_up_to_0f_is_judged_by_its_range() {
    for spelling in [[0x80, 0x80, 0x80, 0x80, 0x01], [0x80, 0x80, 0x80, 0x80, 0x0F], [0xFF, 0xFF, 0xFF, 0xFF, 0x0F]] {
        for number in [SCRATCHPAD, OWN_COST] {
            assert_eq!(read(&m10_with(number, &spelling)), Err((3, number as u64)), "{spelling:02X?}");
        }
    }
}

#[test]
fn a_fifth_byte_above_0f_is_misspelt() {
    let misspelt: [&[u8]; 4] =
        [&[0x80, 0x80, 0x80, 0x80, 0x10], &[0xFF, 0xFF, 0xFF, 0xFF, 0x1F], &[0x80; 5], &[0x85, 0x80, 0x80, 0x80, 0x80, 0x00]];
    for spelling in misspelt {
        for number in 0..M10.len() {
            assert_eq!(read(&m10_with(number, spelling)), Err((2, number as u64)), "{spelling:02X?}");
            // a sixth byte is not looked at
            assert_eq!(read(&m10_with(number, spelling)[..number + 5]), Err((2, number as u64)), "{spelling:02X?}");
        }
    }
}

#[test]
fn four_bytes_and_the_end_are_1_at_the_length() {
    for number in 0..M10.len() {
        for bytes in 0..=4 {
            let file = [&M10[..number], &vec![0x80; bytes]].concat();
            assert_eq!(read(&file), Err((1, file.len() as u64)));
        }
    }
}

#[test]
fn m10_in_five_bytes_a_number() {
    let padded = in_five_bytes(&numbers(&m10()));
    assert_eq!(padded.len(), 50);
    assert_eq!(bound(&padded, &[]), Ok(15));
    assert_eq!(write(&padded, 10), Ok(M10.to_vec()));
    assert_eq!(write(&padded, 50), Ok(M10.to_vec()));
    assert_eq!(write(&padded, 9), Err((10, 10)));
    assert_eq!(read(&padded[..49]), Err((1, 49)));
    assert_eq!(read(&[&padded[..], &[0]].concat()), Err((5, 50)));
}

/// In reading a place counts the bytes given, in writing those that would be written.
#[test]
fn m10_with_no_scratchpad() {
    let problem = Problem { scratchpad: 0, ..m10() };
    assert_eq!(read(&in_five_bytes(&numbers(&problem))), Err((3, 5)));
    assert_eq!(read(&m10_with(SCRATCHPAD, &[0x80, 0x80, 0x00])), Err((3, 1)));
    assert_eq!(read(&file_of(&problem)), Err((3, 1)));
    assert_eq!(write_fields(&problem), Err((3, 1)));
}

#[test]
fn an_edge_that_is_there_twice() {
    let problem = Problem { vertices: [m10().vertices, m10().vertices].concat(), edges: vec![Edge { from: 0, to: 1 }; 2], ..m10() };
    let file = [0x01, 0x08, 0x01, 0x08, 0x05, 0x02, 0x00, 0x0A, 0x00, 0x0A, 0x02, 0x00, 0x01, 0x00, 0x01, 0x00];
    assert_eq!(file_of(&problem), file);
    assert_eq!(read(&file), Err((4, 13)));
    assert_eq!(write_fields(&problem), Err((4, 13)));
    assert_eq!(read(&in_five_bytes(&numbers(&problem))), Err((4, 65)));
    let edge_count = 10;
    let padded_count = [&file[..edge_count], &spell_in(2, MOST_BYTES), &file[edge_count + 1..]].concat();
    assert_eq!(read(&padded_count), Err((4, 17)));
}

#[test]
fn p_q_and_r_in_five_bytes_a_number() {
    let cases = [(p(), 190, &[0, 1, 1][..], 85), (q(), 130, &[0, 1], 48), (r(), 145, &[0, 1], 39), (r(), 145, &[0, 0], 65)];
    for (problem, bytes, layout, cycles) in cases {
        let padded = in_five_bytes(&numbers(&problem));
        assert_eq!(padded.len(), bytes);
        assert_eq!(bound(&padded, layout), Ok(cycles));
        assert_eq!(write(&padded, bytes), Ok(file_of(&problem)));
    }
}

#[test]
fn the_longest_file_in_five_bytes_a_number() {
    let numbers = numbers(&longest(&mut Random::seeded(6)));
    let padded = in_five_bytes(&numbers);
    assert_eq!(padded.len(), 7_390);
    assert_eq!(read(&padded), Ok(128));
    assert_eq!(write(&padded, 2_155), Ok(spelled(&numbers)));
    assert_eq!(write(&padded, 2_154), Err((10, 2_155)));
    assert_eq!(read(&padded[..7_389]), Err((1, 7_389)));
    assert_eq!(read(&[padded, vec![0]].concat()), Err((5, 7_390)));
}
