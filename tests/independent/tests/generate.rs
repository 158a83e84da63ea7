//! The program `generate`: its options, and how many records it writes.

use std::process::{Command, Output};

fn generate(arguments: &[&str]) -> Output {
    Command::new(env!("CARGO_BIN_EXE_generate"))
        .args(arguments)
        .output()
        .expect("the program starts")
}

/// The bytes of a run that ends well.
fn records(arguments: &[&str]) -> Vec<u8> {
    let output = generate(arguments);
    assert!(output.status.success(), "{arguments:?}");
    assert_eq!(output.stderr, b"");
    output.stdout
}

/// The record that asks for the part is one of them, and the first.
#[test]
fn a_part_is_asked_for_within_the_count() {
    for (part, byte) in [("94", 0x94), ("96", 0x96)] {
        for count in [1, 100] {
            let bytes = records(&["3", &count.to_string(), "--part", part]);
            assert_eq!(bytes.len(), 8 * count);
            assert_eq!(bytes[..2], [9, byte]);
        }
        assert_eq!(records(&["3", "0", "--part", part]), b"");
    }
    let bytes = records(&["3", "100"]);
    assert_ne!(bytes[0], 9);
}

#[test]
fn options_in_any_order() {
    let orders: [&[&str]; 3] = [
        &["--part", "94", "--written", "--tail"],
        &["--tail", "--part", "94", "--written"],
        &["--written", "--tail", "--part", "94"],
    ];
    let all = orders.map(|options| records(&[&["5", "300"], options].concat()));
    assert_eq!(all[0].len(), 8 * 300 + 7);
    assert!(all.iter().all(|bytes| *bytes == all[0]));
    assert_ne!(all[0], records(&["5", "300", "--part", "94", "--tail"]));
}

#[test]
fn other_arguments_get_the_usage() {
    let unexpected: [&[&str]; 9] = [
        &[],
        &["1"],
        &["one", "2"],
        &["1", "2", "3"],
        &["1", "2", "--part"],
        &["1", "2", "--part", "95"],
        &["1", "2", "--part", "LAN91C94"],
        &["1", "2", "--part", "94", "--part", "94"],
        &["1", "2", "--tail", "--tail"],
    ];
    for arguments in unexpected {
        let output = generate(arguments);
        assert_eq!(output.status.code(), Some(2), "{arguments:?}");
        assert_eq!(output.stdout, b"");
        assert_eq!(
            output.stderr,
            b"usage: generate SEED COUNT [--part 94|96] [--written] [--tail] > file\n"
        );
    }
}
