//! The program itself: its arguments and its streams.

use std::io::Write;
use std::process::{Command, Output, Stdio};

fn program(arguments: &[&str], input: &str) -> Output {
    let mut child = Command::new(env!("CARGO_BIN_EXE_second"))
        .args(arguments)
        .stdin(Stdio::piped())
        .stdout(Stdio::piped())
        .stderr(Stdio::piped())
        .spawn()
        .expect("the program starts");
    let mut stdin = child.stdin.take().expect("piped");
    // A program that does not read its input may have gone already.
    let _ = stdin.write_all(input.as_bytes());
    drop(stdin);
    child.wait_with_output().expect("the program ends")
}

#[test]
fn answers_standard_input() {
    let output = program(&[], "show 1\nbad\n");
    assert!(output.status.success());
    assert_eq!(output.stdout, b"pair 1 closed\nunread 2\n");
    assert_eq!(output.stderr, b"");
}

#[test]
fn answers_a_file() {
    let file = std::env::temp_dir().join(format!("second-{}.trace", std::process::id()));
    std::fs::write(&file, "fresh\nshow 2").expect("written");
    let output = program(&[file.to_str().expect("plain text")], "bad\n");
    std::fs::remove_file(&file).expect("removed");
    assert!(output.status.success());
    assert_eq!(output.stdout, b"done\npair 2 closed\n");
}

#[test]
fn writes_random_traces() {
    let output = program(&["--random", "9", "200"], "");
    let mut expected = Vec::new();
    second::random::write(9, 200, &mut expected).expect("memory does not fail");
    assert!(output.status.success() && output.stdout == expected);
    let output = program(&["--wide", "9", "200"], "");
    expected.clear();
    second::random::write_wide(9, 200, &mut expected).expect("memory does not fail");
    assert!(output.status.success() && output.stdout == expected);
}

#[test]
fn tells_wrong_arguments() {
    for arguments in
        [&["--random"][..], &["--random", "x", "1"], &["--random", "1"], &["a", "b"], &["no such file"]]
    {
        let output = program(arguments, "");
        assert!(!output.status.success(), "{arguments:?}");
        assert!(output.stdout.is_empty() && !output.stderr.is_empty(), "{arguments:?}");
    }
}
