//! crates/rust_answers replays the sample that is kept there, which must be the one that the Rust answers now.

use claspotter_harness::sample;

const KEPT: &str = concat!(env!("CLASPOTTER_REPOSITORY"), "/crates/rust_answers/stdin");

#[test]
fn the_kept_sample_is_what_the_rust_answers() {
    let kept = std::fs::read_to_string(KEPT).expect(KEPT);
    let now = sample::text();
    let first = kept.lines().zip(now.lines()).position(|(kept, now)| kept != now);
    assert!(first.is_none(), "{KEPT}: line {} is another now; harness/run sample writes the file", first.unwrap() + 1);
    assert!(kept == now, "{KEPT}: {} lines are kept, {} are written now", kept.lines().count(), now.lines().count());
}
