//! The binary's commands, run as a user would.

use std::io::Write;
use std::process::{Command, Output, Stdio};

fn run(arguments: &[&str], input: &[u8]) -> Output {
    let mut child = Command::new(env!("CARGO_BIN_EXE_second"))
        .args(arguments)
        .stdin(Stdio::piped())
        .stdout(Stdio::piped())
        .stderr(Stdio::piped())
        .spawn()
        .unwrap();
    // The command may end without reading all of its input.
    let _ = child.stdin.take().unwrap().write_all(input);
    child.wait_with_output().unwrap()
}

fn message(output: &Output) -> &str {
    std::str::from_utf8(&output.stderr).unwrap()
}

#[test]
fn text_to_file_to_tree_lines() {
    let file = run(&["encode", "sinks"], b"0 0\n4 0\n7 0\n11 0\n");
    assert!(file.status.success());
    assert_eq!(file.stdout.len(), 39);
    let lines = run(&["tree"], &file.stdout);
    assert!(lines.status.success());
    let start = b"sinks 4 wire 30 proven\n((0 1) (2 3))\n0 0 0 4 4\n";
    assert!(lines.stdout.starts_with(start));
    let text = run(&["decode", "sinks"], &file.stdout);
    assert_eq!(text.stdout, b"0 0\n4 0\n7 0\n11 0\n");
}

#[test]
fn two_pins_on_one_place_go_all_the_way() {
    let file = run(&["encode", "sinks"], b"0 0\n0 0\n");
    assert!(file.status.success());
    let lines = run(&["tree"], &file.stdout);
    let text = b"sinks 2 wire 0 proven\n(0 1)\n0 0 0 0 2\n1 0 0 0 2\n2 0 0 0 -\n";
    assert_eq!(lines.stdout, text);
    let back = run(&["decode", "sinks"], &file.stdout);
    assert_eq!(back.stdout, b"0 0\n0 0\n");
}

#[test]
fn joined_and_tree_files_come_back_as_text() {
    let text = b"0 0\n2 0\n10 0\n\n0 1\n3 2\n";
    for kind in ["joined", "tree"] {
        let file = run(&["encode", kind], text);
        let back = run(&["decode", kind], &file.stdout);
        assert_eq!(back.stdout, text);
        let wrong = run(&["decode", "sinks"], &file.stdout);
        assert_eq!(wrong.status.code(), Some(1));
        assert_eq!(message(&wrong), "refused 8 31\n");
    }
}

#[test]
fn troubles_go_to_standard_error() {
    let malformed = run(&["encode", "sinks"], b"0 0\nfour 0\n");
    assert_eq!(malformed.status.code(), Some(1));
    assert!(malformed.stdout.is_empty());
    assert!(message(&malformed).starts_with("line 2: "));
    let refused = run(&["encode", "sinks"], b"0 0\n0 1000001\n");
    assert_eq!(refused.status.code(), Some(1));
    assert_eq!(message(&refused), "refused 4 1\n");
}

#[test]
fn the_tree_command_answers_refusals_on_standard_output() {
    let empty = run(&["tree"], b"");
    assert_eq!(empty.stdout, b"refused 8 0\n");
    assert!(empty.status.success());
    let long = run(&["tree"], &[1; 40_000]);
    assert_eq!(long.stdout, b"refused input\n");
}

#[test]
fn anything_else_prints_the_usage() {
    for arguments in [&[][..], &["bake"], &["encode"], &["encode", "bread"]] {
        let output = run(arguments, b"");
        assert_eq!(output.status.code(), Some(2));
        assert!(message(&output).starts_with("usage: second tree"));
    }
}

#[cfg(not(feature = "proved"))]
#[test]
fn comparing_wants_the_feature() {
    let output = run(&["compare"], b"");
    assert_eq!(output.status.code(), Some(2));
    let wanted = "compare wants a build with the feature proved\n";
    assert_eq!(message(&output), wanted);
}

#[cfg(not(feature = "bench"))]
#[test]
fn timing_wants_the_feature() {
    let output = run(&["bench"], b"");
    assert_eq!(output.status.code(), Some(2));
    let wanted = "bench wants a build with the feature bench\n";
    assert_eq!(message(&output), wanted);
}

#[cfg(feature = "bench")]
#[test]
fn timing_takes_no_other_words() {
    let wrong = run(&["bench", "--bread"], b"");
    assert_eq!(wrong.status.code(), Some(2));
    assert!(message(&wrong).starts_with("bench takes only --seed S\nusage: second tree"));
}
