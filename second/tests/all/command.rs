//! The command as it is called: what it prints and its exit status.

use crate::help;
use std::process::{Command, Output};

const DATA: &str = concat!(env!("CARGO_MANIFEST_DIR"), "/tests/data");

fn call(arguments: &[&str]) -> Output {
    Command::new(env!("CARGO_BIN_EXE_second"))
        .args(arguments)
        .output()
        .unwrap()
}

fn said(output: &Output) -> &str {
    std::str::from_utf8(&output.stdout).unwrap()
}

#[test]
fn vectors_that_agree() {
    let output = call(&["vectors", DATA, "abc.txt", "short.txt"]);
    let expected = "abc.txt\tmessages 1\twords 68\tprimed 64\trows 65\tchained 1\t\
         padded 16\tdigests 1\tdiffer 0\n\
         short.txt\tmessages 2\twords 0\tprimed 0\trows 0\tchained 0\t\
         padded 33\tdigests 2\tdiffer 0\n";
    assert_eq!(said(&output), expected);
    assert_eq!(output.status.code(), Some(0));
}

#[test]
fn vectors_that_differ() {
    let output = call(&["vectors", DATA, "wrong.txt", "short.txt"]);
    assert!(said(&output).starts_with("differ wrong.txt line 3\ndiffer wrong.txt line 5\n"));
    assert!(said(&output).contains("\tdigests 1\tdiffer 14\nshort.txt\t"));
    assert_eq!(output.status.code(), Some(1));
}

#[test]
fn vectors_that_are_missing() {
    let output = call(&["vectors", DATA, "nowhere.txt"]);
    assert_eq!(said(&output), "missing nowhere.txt\n");
    assert_eq!(output.status.code(), Some(1));
}

#[test]
fn load_prints_what_the_program_prints() {
    let folder = help::folder("command");
    let text = help::sheet(&["RANK 1 1", "3 4 0 1 Z"]);
    std::fs::write(folder.join("rank.txt"), text).unwrap();
    let output = call(&["load", folder.to_str().unwrap()]);
    assert_eq!(said(&output), "3\twaiting\t0\n");
    assert_eq!(output.status.code(), Some(0));
}

#[test]
fn the_small_examples_are_as_printed() {
    let output = call(&["examples"]);
    assert_eq!(
        said(&output),
        "abc: 66c7f0f4 62eeedd9 d1f2d46b dc10e4e2 4167c487 5cf2f7a2 297da02b 8f4ba8e0\n\
         total 2^61 - 1, an empty piece: number 0, total afterwards 2305843009213693951\n\
         total 2^61 - 1, one byte: number 10, total afterwards 2305843009213693951\n"
    );
    assert_eq!(output.status.code(), Some(0));
}

#[test]
fn the_code_of_a_file_is_printed_under_the_key_in_another() {
    let folder = help::folder("command-code");
    let path = |name: &str| folder.join(name).to_str().unwrap().to_string();
    std::fs::write(folder.join("key"), b"\0key\n").unwrap();
    std::fs::write(folder.join("file"), help::message(5000)).unwrap();
    let output = call(&["code", &path("key"), &path("file")]);
    let right = second::code::code_of(b"\0key\n", &help::message(5000)).code;
    assert_eq!(said(&output), help::hex(&right) + "\n");
    assert_eq!(output.status.code(), Some(0));
    let missing = call(&["code", &path("key"), &path("nowhere")]);
    assert!(missing.stdout.is_empty());
    assert_eq!(missing.status.code(), Some(1));
}

#[test]
fn code_vectors_are_lengths_and_codes() {
    let output = call(&["code-vectors"]);
    let lines: Vec<&str> = said(&output).lines().collect();
    assert_eq!(lines.len(), 7 * 11);
    let key: Vec<u8> = (0..65).map(|i| (7 * i + 65) as u8).collect();
    let message: Vec<u8> = (0..200).map(|i| (13 * i + 200) as u8).collect();
    let right = help::hex(&second::code::code_of(&key, &message).code);
    assert!(lines.contains(&format!("65 200 {right}").as_str()));
    assert!(lines[0].starts_with("0 0 ") && lines[76].starts_with("200 4096 "));
    assert_eq!(output.status.code(), Some(0));
}

#[test]
fn wrong_use_is_one_line_and_status_2() {
    for arguments in [
        &[][..],
        &["load"],
        &["load", "a", "b"],
        &["vectors"],
        &["vectors", "a"],
        &["other", "a", "b"],
        &["examples", "a"],
        &["answer-calls", "a"],
        &["code", "a"],
        &["code", "a", "b", "c"],
        &["code-vectors", "a"],
        &["folders"],
        &["folders", "10", "1"],
        &["folders", "0", "1", "true"],
        &["calls", "10", "x", "true"],
        &["orders", "10", "1"],
        &["calls", "10", "1", "--slip"],
        &["print-calls", "10"],
    ] {
        let output = call(arguments);
        assert_eq!(output.status.code(), Some(2), "{arguments:?}");
        assert!(output.stdout.is_empty());
        let complaint = String::from_utf8(output.stderr).unwrap();
        assert_eq!(complaint.lines().count(), 1, "{complaint}");
        assert!(complaint.contains("second vectors DIR FILE..."));
    }
}
