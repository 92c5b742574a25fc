//! The program over a folder: what it prints, and its refusal 14.

mod common;

use std::path::PathBuf;
use std::process::Command;

use common::bytes;

/// A folder of this name with these files.
fn folder(name: &str, circuit: Option<&[u8]>, script: Option<&[u8]>) -> PathBuf {
    let dir = PathBuf::from(env!("CARGO_TARGET_TMPDIR")).join(name);
    let _ = std::fs::remove_dir_all(&dir);
    std::fs::create_dir_all(&dir).unwrap();
    for (file, bytes) in [("circuit.bin", circuit), ("script.bin", script)] {
        if let Some(bytes) = bytes {
            std::fs::write(dir.join(file), bytes).unwrap();
        }
    }
    dir
}

fn printed(dir: &PathBuf, options: &[&str]) -> String {
    let output = Command::new(env!("CARGO_BIN_EXE_oracle")).arg("play").arg(dir).args(options).output();
    String::from_utf8(output.unwrap().stdout).unwrap()
}

fn example() -> (Vec<u8>, Vec<u8>) {
    let circuit = bytes(&[2, 1, 1, 1, 1, 7, 28, 22, 0, 1, -1, 0, 0, 0]);
    let script = bytes(&[1, 1, 4598175219545276416, 1, 0, 1]);
    (circuit, script)
}

#[test]
fn the_first_example() {
    let (circuit, script) = example();
    let dir = folder("first", Some(&circuit), Some(&script));
    assert_eq!(printed(&dir, &[]), "1 1 1 0 0 0 0 0 2 0 1 0 3 0 7 0 1\nend 0 1\n");
    assert_eq!(printed(&dir, &["--log", "135"]), "end 13 0\n");
    assert_eq!(printed(&dir, &["--values", "65535"]), "refused 7\n");
}

#[test]
fn a_missing_file_is_refused_14() {
    let (circuit, script) = example();
    assert_eq!(printed(&folder("no-script", Some(&circuit), None), &[]), "refused 14\n");
    assert_eq!(printed(&folder("no-circuit", None, Some(&script)), &[]), "refused 14\n");
}

#[test]
fn a_file_above_65536_bytes_is_refused_14_before_all_else() {
    let (circuit, script) = example();
    let (most, above) = (vec![0; 65_536], vec![0; 65_537]);
    assert_eq!(printed(&folder("most", Some(&most), Some(&script)), &[]), "refused 1\n");
    assert_eq!(printed(&folder("above", Some(&above), Some(&script)), &[]), "refused 14\n");
    let dir = folder("both", Some(&[1]), Some(&above));
    assert_eq!(printed(&dir, &[]), "refused 14\n");
    let dir = folder("long", Some(&circuit), Some(&above));
    assert_eq!(printed(&dir, &["--any-size"]), "refused 8\n");
}

/// Two Queues want a delays area of twice the size.
#[test]
fn a_second_queue_meets_question_7() {
    let inputs = [vec![-1; 20], vec![0; 20]].concat();
    let circuit = bytes(&[vec![2, 0, 20, 0, 16, 17, 0, 0], inputs].concat());
    let dir = folder("queues", Some(&circuit), Some(&bytes(&[0, 0])));
    assert_eq!(printed(&dir, &[]), "refused 7\n");
    assert_eq!(printed(&dir, &["--delays", "131072"]), "end 0 0\n");
}
