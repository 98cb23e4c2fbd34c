//! The command itself: what it prints and how it ends.

use std::process::{Command, Output};

fn compare(words: &str) -> Output {
    Command::new(env!("CARGO_BIN_EXE_compare"))
        .args(words.split_whitespace())
        .output()
        .expect("the command runs")
}

fn printed(output: &Output) -> String {
    String::from_utf8(output.stdout.clone()).expect("text")
}

#[test]
fn two_sides_that_agree_end_well() {
    let output = compare("300 --oracle --short 1");
    let text = printed(&output);
    assert!(output.status.success(), "{text}");
    assert!(
        text.starts_with("compare: the oracle beside itself"),
        "{text}"
    );
    let last = text.lines().last().unwrap();
    let count = last
        .strip_prefix("compare: ")
        .and_then(|rest| rest.strip_suffix(" requests, no difference"))
        .unwrap_or_else(|| panic!("{last}"));
    assert!(count.parse::<u64>().unwrap() > 14 * 300);
    for operation in [
        "is_nested ",
        "try_from_fields ",
        "merge ",
        "merge_parked_first ",
        "onto a saved answer ",
        "containment: ",
    ] {
        assert!(text.contains(operation), "{text}");
    }
}

#[test]
fn every_fault_ends_with_the_first_difference_and_status_1() {
    for fault in ["answer", "place", "work", "number", "length"] {
        let output = compare(&format!("300 --short 1 --oracle --fault {fault}"));
        let text = printed(&output);
        assert_eq!(output.status.code(), Some(1), "{fault}\n{text}");
        for part in [
            "the first difference:",
            "operation: ",
            "expected: ",
            "found: ",
        ] {
            assert!(text.contains(part), "{fault}\n{text}");
        }
        assert!(!text.contains("no difference"), "{fault}\n{text}");
        assert!(
            text.ends_with("compare: the sides differ\n"),
            "{fault}\n{text}"
        );
    }
}

#[test]
fn the_same_run_prints_the_same() {
    let [one, other] = [(); 2].map(|()| printed(&compare("200 --short 0 --oracle")));
    assert_eq!(one, other);
}

#[cfg(not(feature = "linked"))]
#[test]
fn without_the_library_nothing_is_claimed() {
    let output = compare("10 --short 0");
    assert_eq!(output.status.code(), Some(2));
    assert_eq!(printed(&output), "");
}

#[cfg(feature = "linked")]
#[test]
fn the_library_agrees_on_a_short_run() {
    let output = compare("300 --short 1");
    let text = printed(&output);
    assert!(output.status.success(), "{text}");
    for operation in [
        "is_nested ",
        "equal ",
        "index_of ",
        "try_new ",
        "try_from_fields ",
        "flattened_fields ",
        "filter ",
        "contains ",
        "project ",
        "normalize ",
        "merge ",
        "merge_parked_first ",
    ] {
        let compared = text.lines().any(|line| line.starts_with(operation));
        assert!(compared, "{operation}\n{text}");
    }
}

#[cfg(feature = "linked")]
#[test]
fn a_fault_of_the_library_is_seen() {
    for fault in ["answer", "place", "work", "number", "length"] {
        let output = compare(&format!("300 --short 1 --fault {fault}"));
        assert_eq!(output.status.code(), Some(1), "{fault}");
    }
}

#[test]
fn a_wrong_command_line_is_status_2() {
    assert_eq!(compare("--fault sheet").status.code(), Some(2));
    assert_eq!(compare("many").status.code(), Some(2));
}
