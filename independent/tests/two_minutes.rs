//! The listing program itself on document 01's example, byte for byte, with the three numbers of
//! document 02, Item 6, which are 0 in its groups.

use std::io::Write;
use std::process::{Command, Stdio};

const INPUT: &str = "\
B\t74008001120005000474757677
B\t73008000120005000700000140038000
B\t7400000012000500106162636465666768696a6b6c6d6e6f70
B\t74008001120005000474757677
B\t7500
G\t00
D\t0005
";

const OUTPUT: &str = "\
1 STORED 0005 B 1 0 0 0
2 STORED 0005 H 0 0 0 0
3 COMPLETE 0005 B 0 0 0 0
4 REPEAT 0005 B 1 0 0 0
5 KIND - - - - - -
6 LENGTH - - - - - -
7 DROPPED 0005 - - - - -
T 3 1 2 1 1
";

fn output_for(input: &str) -> String {
    let mut program = Command::new(env!("CARGO_BIN_EXE_listing"))
        .stdin(Stdio::piped())
        .stdout(Stdio::piped())
        .spawn()
        .unwrap();
    let mut stdin = program.stdin.take().unwrap();
    stdin.write_all(input.as_bytes()).unwrap();
    drop(stdin);
    let output = program.wait_with_output().unwrap();
    assert!(output.status.success());
    String::from_utf8(output.stdout).unwrap()
}

#[test]
fn the_example_of_document_01() {
    assert_eq!(output_for(INPUT), OUTPUT);
}

#[test]
fn the_example_without_its_last_newline() {
    assert_eq!(output_for(INPUT.trim_end()), OUTPUT);
}
