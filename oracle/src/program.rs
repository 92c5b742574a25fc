//! Document 01's program over a folder.

use std::path::Path;

use oracle::{Answer, Lent, play, print, questions};

/// The most bytes of a file.
const FILE: usize = 65_536;

/// What the program prints for `dir`'s circuit.bin and script.bin.
pub fn play(dir: &Path, lent: &Lent, any_size: bool) -> String {
    let Some((circuit, script)) = read(dir, any_size) else {
        return print::lines(&Answer::Refused(14), 0);
    };
    match questions::ask(&circuit, &script, Some(lent)) {
        Err(number) => print::lines(&Answer::Refused(number), 0),
        Ok((circuit, script)) => {
            let answer = play::play(&circuit, &script, lent.log);
            print::lines(&answer, circuit.outputs.len())
        }
    }
}

/// The two files, unless one is missing or too long.
pub fn read(dir: &Path, any_size: bool) -> Option<(Vec<u8>, Vec<u8>)> {
    let file = |name| std::fs::read(dir.join(name)).ok().filter(|b| any_size || b.len() <= FILE);
    Some((file("circuit.bin")?, file("script.bin")?))
}
