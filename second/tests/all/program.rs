//! The program over folders.

use crate::help;
use second::program;
use std::path::PathBuf;

/// A folder whose sheet lists note 7 alone, for this sample.
fn folder_for(name: &str, sample: &[u8]) -> PathBuf {
    let folder = help::folder(name);
    let length = sample.len();
    let digest = help::digest_of(sample);
    let end = help::record(length as u64, digest).loop_end;
    let line = format!("7 {length} 0 {end} {}", help::hex(&digest));
    write(&folder, "rank.txt", help::sheet(&["RANK 1 1", &line]));
    folder
}

fn write(folder: &std::path::Path, name: &str, bytes: impl AsRef<[u8]>) {
    std::fs::write(folder.join(name), bytes).unwrap();
}

fn printed(folder: &std::path::Path) -> String {
    String::from_utf8(program::load(folder)).unwrap()
}

#[test]
fn a_missing_sheet_or_folder_is_an_empty_text() {
    let folder = help::folder("no-sheet");
    assert_eq!(printed(&folder), "refused\t1\t1\n");
    assert_eq!(printed(&folder.join("nowhere")), "refused\t1\t1\n");
}

#[test]
fn a_sheet_that_is_a_folder_is_an_empty_text() {
    let folder = help::folder("sheet-is-folder");
    std::fs::create_dir(folder.join("rank.txt")).unwrap();
    assert_eq!(printed(&folder), "refused\t1\t1\n");
}

#[test]
fn a_refused_sheet_prints_number_and_line_alone() {
    let folder = help::folder("refused-sheet");
    let text = help::sheet(&["RANK 1 2", "1 4 0 1 Z", "2 3 0 1 Z"]);
    write(&folder, "rank.txt", text);
    write(&folder, "01.raw", b"ab");
    assert_eq!(printed(&folder), "refused\t3\t3\n");
}

#[test]
fn only_the_first_4096_bytes_are_the_text() {
    let folder = help::folder("long-sheet");
    let mut text = help::sheet(&["RANK 1 1", "1 4 0 1 Z"]);
    text.push_str(&"x".repeat(5000));
    write(&folder, "rank.txt", text);
    assert_eq!(printed(&folder), "refused\t1\t3\n");
}

#[test]
fn missing_empty_and_unreadable_files_deliver_nothing() {
    let folder = folder_for("no-bytes", b"sample");
    assert_eq!(printed(&folder), "7\twaiting\t0\n");
    write(&folder, "07.raw", b"");
    assert_eq!(printed(&folder), "7\twaiting\t0\n");
    std::fs::remove_file(folder.join("07.raw")).unwrap();
    std::fs::create_dir(folder.join("07.raw")).unwrap();
    assert_eq!(printed(&folder), "7\twaiting\t0\n");
}

#[test]
fn names_have_two_digits() {
    let folder = folder_for("names", b"sample");
    write(&folder, "7.raw", b"sample");
    write(&folder, "007.raw", b"sample");
    assert_eq!(printed(&folder), "7\twaiting\t0\n");
    write(&folder, "07.raw", b"sample");
    assert_eq!(printed(&folder), "7\topen\t6\n");
}

#[test]
fn lengths_around_the_piece_size_open_and_shut() {
    for length in [2, 4094, 4096, 4098, 8190, 8192, 8194] {
        let sample = help::message(length);
        let folder = folder_for("piece-sizes", &sample);
        write(&folder, "07.raw", &sample);
        assert_eq!(printed(&folder), format!("7\topen\t{length}\n"));
        let mut other = sample.clone();
        other[length - 1] ^= 1;
        write(&folder, "07.raw", &other);
        assert_eq!(printed(&folder), format!("7\tshut\t{length}\n"));
        write(&folder, "07.raw", &sample[..length - 1]);
        assert_eq!(printed(&folder), format!("7\twaiting\t{}\n", length - 1));
    }
}

#[test]
fn a_file_stops_at_its_first_refusal() {
    // 4096 taken, 4096 refused, and the last 2 would fit.
    let folder = folder_for("refusal", &help::message(4098));
    write(&folder, "07.raw", help::message(8194));
    assert_eq!(printed(&folder), "7\twaiting\t4096\n");
}

#[test]
fn a_file_too_long_keeps_the_pieces_before() {
    for (length, taken) in [(2, 0), (4094, 0), (4098, 4096), (8190, 4096)] {
        let sample = help::message(length);
        let folder = folder_for("too-long", &sample);
        let mut longer = sample.clone();
        longer.push(0);
        write(&folder, "07.raw", &longer);
        assert_eq!(printed(&folder), format!("7\twaiting\t{taken}\n"));
    }
}

#[test]
fn bytes_past_a_length_of_whole_pieces_come_too_late() {
    for (length, size) in [(4096, 5000), (8192, 8193), (8192, 12288)] {
        let folder = folder_for("past-whole", &help::message(length));
        let mut file = help::message(size);
        write(&folder, "07.raw", &file);
        assert_eq!(printed(&folder), format!("7\topen\t{length}\n"));
        file[length - 1] ^= 1;
        write(&folder, "07.raw", &file);
        assert_eq!(printed(&folder), format!("7\tshut\t{length}\n"));
    }
}

#[test]
fn a_file_has_as_many_pieces_as_it_has() {
    let sample = help::message(3000 * 4096 + 2);
    let folder = folder_for("many-pieces", &sample);
    write(&folder, "07.raw", &sample);
    assert_eq!(printed(&folder), format!("7\topen\t{}\n", sample.len()));
    write(&folder, "07.raw", &sample[..sample.len() - 4]);
    assert_eq!(
        printed(&folder),
        format!("7\twaiting\t{}\n", sample.len() - 4)
    );
}

#[test]
fn listed_notes_are_printed_rising_with_their_own_files() {
    let folder = help::folder("several");
    let digest = help::hex(&help::digest_of(b"abcd"));
    let last = format!("32 4 0 1 {digest}");
    let lines = ["RANK 1 3", "1 4 0 1 Z", "10 6 0 1 Z", &last];
    write(&folder, "rank.txt", help::sheet(&lines));
    for name in ["01.raw", "02.raw", "10.raw", "32.raw"] {
        write(&folder, name, b"abcd");
    }
    let expected = "1\tshut\t4\n10\twaiting\t4\n32\topen\t4\n";
    assert_eq!(printed(&folder), expected);
}
