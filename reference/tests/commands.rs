//! The program as it is called.

use std::io::Write;
use std::process::{Command, Stdio};

/// Runs the program; its exit code and what it wrote.
fn run(words: &[&str], input: &[u8]) -> (Option<i32>, String) {
    let mut child = Command::new(env!("CARGO_BIN_EXE_reference"))
        .args(words)
        .stdin(Stdio::piped())
        .stdout(Stdio::piped())
        .stderr(Stdio::null())
        .spawn()
        .unwrap();
    // A program that reads nothing may have ended already.
    let _ = child.stdin.take().unwrap().write_all(input);
    let done = child.wait_with_output().unwrap();
    (
        done.status.code(),
        String::from_utf8_lossy(&done.stdout).into_owned(),
    )
}

#[test]
fn play_and_linecount() {
    let (code, out) = run(&["play"], b"build 00 07\nnothing\nread 01 03 00 07 FB");
    assert_eq!(code, Some(0));
    assert_eq!(
        out,
        "build ok 01030007FB\nerror\nread ok type=00 command=07 parameters=-\n"
    );
    let (code, out) = run(&["linecount"], &[0x15, 0x01, 0x03]);
    assert_eq!(code, Some(0));
    assert_eq!(
        out,
        "ack=0\nnak=1\ncan=0\nframes=0\nbadsum=0\nbadlen=0\nreserved=0\nskipped=0\nopen=2\ncut=0\n"
    );
}

#[test]
fn kinds_and_random() {
    let (code, kinds) = run(&["kinds"], b"");
    assert_eq!(code, Some(0));
    let kinds: Vec<&str> = kinds.lines().collect();
    assert!(kinds.contains(&"mixed") && kinds.len() >= 17);
    assert!(kinds.contains(&"module") && kinds.contains(&"writers"));
    assert!(kinds.contains(&"wire") && kinds.last() == Some(&"modes"));
    for kind in kinds {
        let (code, text) = run(&["random", "5", kind, "50"], b"");
        assert_eq!(code, Some(0));
        assert!(text.lines().count() >= 50);
        assert_eq!(run(&["random", "5", kind, "50"], b"").1, text);
    }
}

#[test]
fn stream_has_the_size_asked_for() {
    let (code, bytes) = run(&["stream", "5", "noise", "0"], b"");
    assert_eq!((code, bytes.len()), (Some(0), 0));
    let (code, kinds) = run(&["streams"], b"");
    assert_eq!(
        (code, kinds.as_str()),
        (Some(0), "mixA\nmixB\nnoise\nall\n")
    );
}

#[test]
fn other_words_are_refused() {
    let calls: [&[&str]; 8] = [
        &[],
        &["other"],
        &["play", "more"],
        &["random"],
        &["random", "x", "mixed", "9"],
        &["random", "1", "other", "9"],
        &["random", "1", "mixed", "-9"],
        &["stream", "1", "other", "9"],
    ];
    for words in calls {
        assert_eq!(run(words, b""), (Some(2), String::new()), "{words:?}");
    }
}
