//! Tests of `phd classes` on the sample dumps, with the expected output in files.

use crate::harness::{Ran, PHD};
use std::path::Path;
use std::process::Command;

/// The arguments after `classes`, the exit status, and the file with the expected output.
const RUNS: [(&[&str], i32, &str); 6] = [
    (&["heap.phd"], 0, "heap.txt"),
    (&["heap-cut.phd"], 1, "heap-cut.txt"),
    (&["heap-late-cut.phd"], 1, "heap-late-cut.txt"),
    (
        &["--raw", "--sort", "name", "--top", "3", "heap.phd"],
        0,
        "heap-raw.txt",
    ),
    (&["--csv", "heap-late-cut.phd"], 1, "heap-late-cut.csv"),
    (&["--json", "heap.phd"], 0, "heap.json"),
];

#[test]
fn classes_of_the_samples() {
    let here = Path::new(env!("CARGO_MANIFEST_DIR"));
    for (arguments, status, file) in RUNS {
        let mut command = Command::new(PHD);
        command.current_dir(here.join("../samples"));
        let ran = Ran::of(command.arg("classes").args(arguments).output().unwrap());
        let ran = ran.exits(status);
        let expected = std::fs::read_to_string(here.join("tests/command/expected").join(file));
        assert_eq!(ran.out(), expected.expect("the file is there"), "{file}");
    }
}
