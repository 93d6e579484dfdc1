//! The worked sentences, and texts that are none.

use crate::eviction::Reason;
use crate::problem::Refusal;
use crate::sentence::Remark;

/// Remarks with their sentences.
pub fn sentences() -> Vec<(Remark, &'static str)> {
    let refused = |number, place| Remark::Refused(Refusal { number, place });
    let every_visit = |function| Remark::Explained(Reason::EveryVisit(function));
    vec![
        (refused(13, 18), "Refused 13: the layout needs more than the scratchpad; the bytes needed are 18."),
        (refused(3, u64::MAX), "Refused 3: a number is out of range; its place is 18446744073709551615."),
        (refused(22, 0), "Refused 22: the text is no such sentence; the first byte that does not fit is at 0."),
        (every_visit(5), "Every visit is charged the load, since its region may have been taken by function 5."),
        (every_visit(31), "Every visit is charged the load, since its region may have been taken by function 31."),
        (Remark::Explained(Reason::FirstLoad), "Only a first load is charged, since no other function can have taken its region."),
        (Remark::Explained(Reason::Never), "No load is charged, since its function is always in its region."),
    ]
}

/// Texts that are no sentence, with the place of 22.
pub const NO_SENTENCES: [(&str, u64); 20] = [
    ("", 0),
    ("refused 1", 0),
    (" Refused 1", 0),
    ("Refused", 7),
    ("Refused 0", 8),
    ("Refused 01", 8),
    ("Refused 3", 9),
    ("Refused 23", 9),
    ("Refused 3; ", 9),
    ("Refused 13: the layout is longer", 23),
    ("Refused 13: the layout needs more than the scratchpad; the bytes needed are 18.\n", 79),
    ("Refused 13: the layout needs more than the scratchpad; the bytes needed are .", 76),
    ("Refused 3: a number is out of range; its place is 18446744073709551616.", 69),
    ("Refused 3: a number is out of range; its place is 0", 51),
    ("Refused 14: the bound passes its limit; its place is 00.", 54),
    ("Every visit is charged the load, since its region may have been taken by function 32.", 83),
    ("Every visit is charged the load, since its region may have been taken by function 4", 83),
    ("Every visit is charged the load, since its region may have been taken by function 40.", 83),
    ("Only a first load is charged, since no other function can have taken its region", 79),
    ("No load is charged, since its function is always in its region. ", 63),
];
