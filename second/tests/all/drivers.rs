//! The two drivers, driving this very program: nothing differs, every slip is
//! found, and a program that is wrong, silent or gone is seen.

use crate::help;
use std::collections::BTreeMap;
use std::path::Path;
use std::process::{Command, Output};

const SECOND: &str = env!("CARGO_BIN_EXE_second");

/// Calls the driver, which keeps what it keeps in the test's own folder.
fn drive(folder: &Path, arguments: &[&str]) -> Output {
    Command::new(SECOND)
        .args(arguments)
        .env("TMPDIR", folder)
        .output()
        .unwrap()
}

fn said(output: &Output) -> String {
    String::from_utf8(output.stdout.clone()).unwrap()
}

fn last_line(output: &Output) -> String {
    said(output).lines().last().unwrap_or_default().to_string()
}

fn entries(folder: &Path) -> usize {
    std::fs::read_dir(folder).unwrap().count()
}

#[test]
fn calls_answered_by_this_program_do_not_differ() {
    let folder = help::folder("calls-same");
    let output = drive(&folder, &["calls", "1500", "3", SECOND, "answer-calls"]);
    assert!(said(&output).starts_with("seed 3\n"));
    assert!(last_line(&output).starts_with("calls\task "));
    assert!(last_line(&output).ends_with("\tdiffer 0"));
    assert_eq!(output.status.code(), Some(0));
}

#[test]
fn every_slip_in_calls_is_found() {
    let folder = help::folder("calls-slips");
    let arguments = [
        "calls",
        "--slip",
        "all",
        "60000",
        "3",
        SECOND,
        "answer-calls",
    ];
    let output = drive(&folder, &arguments);
    let all = said(&output);
    assert_eq!(all.matches(" found by call ").count(), 160, "{all}");
    assert!(!all.contains("not found"));
    assert_eq!(output.status.code(), Some(0));
}

#[test]
fn a_slip_that_is_not_found_is_a_failure() {
    let folder = help::folder("calls-unfound");
    let slip = ["--slip", "hash-limit-refused"];
    let output = drive(
        &folder,
        &[&["calls"], &slip[..], &["1", "3", SECOND, "answer-calls"]].concat(),
    );
    assert!(said(&output).contains("slip hash-limit-refused not found\n"));
    assert_eq!(output.status.code(), Some(1));
}

#[test]
fn a_call_program_that_is_wrong_or_ends_is_seen() {
    let folder = help::folder("calls-wrong");
    let echo = drive(&folder, &["calls", "100", "3", "cat"]);
    assert!(last_line(&echo).ends_with("\tdiffer 10"));
    assert!(said(&echo).contains("differ call 0 (fresh)\n  call    fresh\n  program fresh\n"));
    assert_eq!(echo.status.code(), Some(1));
    let silent = drive(&folder, &["calls", "100", "3", "true"]);
    assert!(last_line(&silent).ends_with("\tdiffer 10"));
    assert!(said(&silent).contains("no answer: the program ended"));
    assert_eq!(silent.status.code(), Some(1));
    let failing = format!("{SECOND} answer-calls; exit 3");
    let failing = drive(&folder, &["calls", "100", "3", "sh", "-c", &failing]);
    assert!(said(&failing).contains("all answered, then exit status: 3"));
    assert_eq!(failing.status.code(), Some(1));
    let missing = drive(&folder, &["calls", "100", "3", "./no-such-program"]);
    assert_eq!(missing.status.code(), Some(2));
}

/// The program stops at deliveries of absent bytes, and what it had answered
/// before is lost with it: only those calls differ.
#[test]
fn the_call_that_ends_the_program_is_found() {
    let folder = help::folder("calls-end");
    let program = format!("sed '/^deliver\t.*@/,$d' | {SECOND} answer-calls");
    let output = drive(&folder, &["calls", "690", "3", "sh", "-c", &program]);
    let all = said(&output);
    assert!(last_line(&output).ends_with("\tdiffer 2"), "{all}");
    assert_eq!(all.matches("(deliver@)\n").count(), 2, "{all}");
    let without = ["calls", "--without", "deliver@"];
    let rest = ["690", "3", "sh", "-c", &program];
    let output = drive(&folder, &[&without[..], &rest[..]].concat());
    assert!(last_line(&output).ends_with("\tdiffer 0"));
}

#[test]
fn orders_answered_by_this_program_do_not_differ() {
    let folder = help::folder("orders-same");
    let output = drive(&folder, &["orders", "200", "3", SECOND, "answer-calls"]);
    assert!(said(&output).starts_with("seed 3\n"));
    let counts = "orders\tsheet 50\tsheet_in_place 50\tstored 50\tstored_in_place 50\tdiffer 0";
    assert_eq!(last_line(&output), counts);
    assert_eq!(output.status.code(), Some(0));
}

#[test]
fn every_slip_in_orders_is_found() {
    let folder = help::folder("orders-slips");
    let slips = ["orders", "--slip", "all"];
    let rest = ["200", "3", SECOND, "answer-calls"];
    let output = drive(&folder, &[&slips[..], &rest[..]].concat());
    let all = said(&output);
    assert_eq!(all.matches(" found by sequence ").count(), 5, "{all}");
    assert_eq!(output.status.code(), Some(0));
}

/// The program answers another count where any note is open: by that it is
/// seen to differ from this one, and to differ between the orders.
#[test]
fn a_program_that_peeks_at_other_slots_is_seen() {
    let folder = help::folder("orders-peeking");
    let open = "[0-9a-f]\\{128\\}:2,";
    let peek = format!("s/^0\\t1\\t[0-9]*\\(\\t.*{open}.*\\)$/0\\t1\\t99\\1/");
    let program = format!("{SECOND} answer-calls | sed -u '{peek}'");
    let output = drive(&folder, &["orders", "200", "3", "sh", "-c", &program]);
    assert!(said(&output).contains(": the two orders\n"));
    assert!(said(&output).contains("0\t1\t99\t"));
    assert_eq!(output.status.code(), Some(1));
}

/// The program says no to whether all is ready, or does not count open notes:
/// both are seen by the walk over the slots too, which needs no second program.
#[test]
fn a_program_whose_light_is_not_what_the_slots_say_is_seen() {
    let folder = help::folder("orders-light");
    let never = "s/^1$/0/";
    let uncounted = "s/^\\(0\\t2\\t[0-9]*\\t[0-9]*\\):[0-9]*/\\1:0/";
    for (wrong, fault) in [
        (never, ": ready is not what the walk over the slots says\n"),
        (uncounted, ": the open count is not that of the slots\n"),
    ] {
        let program = format!("{SECOND} answer-calls | sed -u '{wrong}'");
        let output = drive(&folder, &["orders", "200", "3", "sh", "-c", &program]);
        assert!(said(&output).contains(fault), "{}", said(&output));
        assert!(last_line(&output).ends_with("\tdiffer 10"));
        assert_eq!(output.status.code(), Some(1));
    }
}

/// The program writes a loop from frame 1 where it should write one from 0, and
/// reads what it wrote rightly: the chain of both is seen to be wrong.
#[test]
fn a_program_that_writes_another_sheet_than_it_was_given_is_seen() {
    let folder = help::folder("orders-writing");
    let other_start = "/^0\\t[0-9]*\\t52414e4b09/s/093009/093109/";
    let program = format!("{SECOND} answer-calls | sed -u '{other_start}'");
    let output = drive(&folder, &["orders", "200", "3", "sh", "-c", &program]);
    let again = ": the sheet that was written, read again\n";
    assert!(said(&output).contains(again));
    assert_eq!(output.status.code(), Some(1));
}

#[test]
fn a_program_of_orders_that_ends_or_fails_is_seen() {
    let folder = help::folder("orders-wrong");
    let silent = drive(&folder, &["orders", "20", "3", "true"]);
    assert!(last_line(&silent).ends_with("\tdiffer 10"));
    assert!(said(&silent).contains("no answer: the program ended"));
    assert_eq!(silent.status.code(), Some(1));
    let failing = format!("{SECOND} answer-calls; exit 3");
    let failing = drive(&folder, &["orders", "20", "3", "sh", "-c", &failing]);
    assert!(last_line(&failing).ends_with("\tdiffer 1"));
    assert_eq!(failing.status.code(), Some(1));
    let missing = drive(&folder, &["orders", "20", "3", "./no-such-program"]);
    assert_eq!(missing.status.code(), Some(2));
}

#[test]
fn printed_calls_are_those_that_are_made() {
    let folder = help::folder("calls-printed");
    let output = drive(&folder, &["print-calls", "500", "3"]);
    assert_eq!(said(&output).lines().count(), 500);
    let kept = folder.join("calls.txt");
    let program = format!("tee {} | {SECOND} answer-calls", kept.display());
    drive(&folder, &["calls", "500", "3", "sh", "-c", &program]);
    assert_eq!(std::fs::read(kept).unwrap(), output.stdout);
}

#[test]
fn folders_loaded_by_this_program_do_not_differ() {
    let folder = help::folder("folders-same");
    let output = drive(&folder, &["folders", "400", "3", SECOND, "load", "."]);
    assert!(said(&output).starts_with("seed 3\n"));
    assert!(last_line(&output).starts_with("folders\tdamage "));
    assert!(last_line(&output).ends_with("\tdiffer 0"));
    assert_eq!(output.status.code(), Some(0));
    assert_eq!(entries(&folder), 0, "nothing is left behind");
}

#[test]
fn every_slip_in_folders_is_found() {
    let folder = help::folder("folders-slips");
    let arguments = ["folders", "--slip", "all", "2000", "3", SECOND, "load", "."];
    let output = drive(&folder, &arguments);
    let all = said(&output);
    assert_eq!(all.matches(" found by folder ").count(), 15, "{all}");
    assert!(last_line(&output).ends_with("\tdiffer 0"));
    assert_eq!(output.status.code(), Some(0));
    assert_eq!(entries(&folder), 0, "nothing is left behind");
}

#[test]
fn failing_folders_are_kept_and_named() {
    let folder = help::folder("folders-kept");
    let output = drive(&folder, &["folders", "100", "3", "true"]);
    assert!(last_line(&output).ends_with("\tdiffer 10"));
    assert_eq!(output.status.code(), Some(1));
    let all = said(&output);
    let first = all.split(": kept ").nth(1).unwrap();
    let kept = Path::new(first.split(',').next().unwrap());
    assert!(kept.is_dir());
    let loaded = Command::new(SECOND).arg("load").arg(kept).output().unwrap();
    let beside = std::fs::read(kept.with_extension("second")).unwrap();
    assert_eq!(loaded.stdout, beside);
    assert_eq!(std::fs::read(kept.with_extension("program")).unwrap(), b"");
}

#[test]
fn a_program_ended_by_a_signal_differs_whatever_it_printed() {
    let folder = help::folder("folders-signal");
    let program = format!("{SECOND} load .; kill -9 $$");
    let output = drive(&folder, &["folders", "12", "3", "sh", "-c", &program]);
    assert!(last_line(&output).ends_with("\tdiffer 10"));
    assert_eq!(output.status.code(), Some(1));
}

/// Two parts of a run are that run: the same kinds, as often.
#[test]
fn folders_go_on_from_where_they_are_told() {
    let folder = help::folder("folders-from");
    let kinds = |options: &[&str]| {
        let program = ["3", SECOND, "load", "."];
        let output = drive(&folder, &[&["folders"], options, &program].concat());
        assert_eq!(output.status.code(), Some(0));
        let counted = |field: &str| {
            let (kind, times) = field.split_once(' ').unwrap();
            (kind.to_string(), times.parse::<u64>().unwrap())
        };
        let last = last_line(&output);
        let fields = last.split('\t').skip(1).map(counted);
        fields.collect::<BTreeMap<String, u64>>()
    };
    let mut parts = kinds(&["30"]);
    for (kind, times) in kinds(&["--from", "30", "30"]) {
        *parts.entry(kind).or_default() += times;
    }
    assert_eq!(parts, kinds(&["60"]));
    assert_ne!(kinds(&["30"]), kinds(&["--from", "30", "30"]));
}

#[test]
fn options_of_the_other_driver_are_wrong_use() {
    let folder = help::folder("options-wrong");
    for arguments in [
        &["folders", "--without", "ask", "5", "3", "true"][..],
        &["orders", "--without", "ask", "5", "3", "true"],
        &["print-calls", "--slip", "all", "5", "3"],
        &["print-calls", "5", "3", "true"],
        &["calls", "--from", "5", "5", "3", "true"],
        &["orders", "--from", "5", "5", "3", "true"],
        &["print-calls", "--from", "5", "5", "3"],
    ] {
        let output = drive(&folder, arguments);
        assert_eq!(output.status.code(), Some(2), "{arguments:?}");
        assert!(output.stdout.is_empty());
    }
}

#[test]
fn a_slip_that_is_not_there_is_wrong_use() {
    let folder = help::folder("slips-unknown");
    for driver in ["folders", "calls", "orders"] {
        let output = drive(&folder, &[driver, "--slip", "none", "5", "3", "true"]);
        assert_eq!(output.status.code(), Some(2));
        assert!(output.stdout.is_empty());
    }
}
