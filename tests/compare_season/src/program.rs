//! A program's standard input and output.

use std::io::{Read, Write};
use std::path::Path;
use std::process::{Command, Stdio};

/// How the program gets its input.
#[derive(Clone, Copy)]
pub enum Way {
    /// From a file.
    File,
    /// Through a pipe, in pieces of so many bytes.
    Pieces(usize),
}

/// What a program prints that is started in a folder; it may stop reading early.
pub fn run(program: &Path, folder: &Path, input: &[u8], way: Way) -> Vec<u8> {
    let mut command = Command::new(program);
    command.current_dir(folder).stdout(Stdio::piped());
    let file = std::env::temp_dir().join(format!("sheets-{}.in", std::process::id()));
    let mut child = match way {
        Way::File => {
            std::fs::write(&file, input).expect("a file for the names");
            command.stdin(std::fs::File::open(&file).expect("the names")).spawn()
        }
        Way::Pieces(_) => command.stdin(Stdio::piped()).spawn(),
    }
    .expect("the program starts");
    if let (Way::Pieces(length), Some(mut pipe)) = (way, child.stdin.take()) {
        for piece in input.chunks(length) {
            if pipe.write_all(piece).is_err() {
                break;
            }
        }
    }
    let mut printed = Vec::new();
    child.stdout.take().expect("a pipe").read_to_end(&mut printed).expect("what is printed");
    let status = child.wait().expect("the program ends");
    if let Way::File = way {
        std::fs::remove_file(&file).expect("the file of the names");
    }
    assert!(status.code().is_some(), "the program was ended by a signal");
    printed
}
