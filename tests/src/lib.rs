//! What the tests and the benchmark share: seeded problems, files, drawings, layouts, walks and sentences, lawful and damaged, what they are
//! like, and operations asked of both implementations.

pub mod asked;
pub mod checks;
pub mod damage;
pub mod drawings;
pub mod evictions;
pub mod layouts;
pub mod lent;
pub mod padding;
pub mod problems;
pub mod random;
pub mod sentences;
pub mod totals;
pub mod walks;

/// How many times the usual number of cases to try: the variable CASES, or 1.
pub fn effort() -> usize {
    std::env::var("CASES").ok().and_then(|text| text.parse().ok()).unwrap_or(1)
}
