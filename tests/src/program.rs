//! A built program that is run, and how what it reads and writes is shown.

use std::io::{self, Write};
use std::path::Path;
use std::process::{ChildStdin, Command, Output, Stdio};
use std::thread;
use std::time::Duration;

/// Between two pieces of an input. A program that has read the first waits for the second in that time.
const PAUSE: Duration = Duration::from_millis(2);

/// What the program writes for an input, which comes in one piece or in several.
pub fn run(program: &Path, pieces: &[&[u8]]) -> Output {
    let mut command = Command::new(program);
    let command = command.stdin(Stdio::piped());
    let command = command.stdout(Stdio::piped()).stderr(Stdio::piped());
    let mut child = command.spawn().expect("the program runs");
    let stdin = child.stdin.take().expect("it has a standard input");
    thread::scope(|scope| {
        // a program that ends early closes its input, and its answers then differ
        scope.spawn(|| write(stdin, pieces).ok());
        child.wait_with_output().expect("the program ends")
    })
}

fn write(mut stdin: ChildStdin, pieces: &[&[u8]]) -> io::Result<()> {
    for (at, piece) in pieces.iter().enumerate() {
        if at > 0 {
            thread::sleep(PAUSE);
        }
        stdin.write_all(piece)?;
    }
    Ok(())
}

/// Its lines, with the bytes escaped that cannot be seen, line feeds among them.
pub fn text(bytes: &[u8]) -> String {
    let escaped = bytes.escape_ascii().to_string();
    escaped.replace("\\n", "\\n\n")
}

#[cfg(test)]
mod tests {
    use super::*;

    #[test]
    fn an_input_comes_whole_in_one_piece_or_in_several() {
        let long = vec![b'x'; 100_000];
        for pieces in [&[&b"n=5\n"[..], b"", b"d"][..], &[&long], &[]] {
            let output = run(Path::new("cat"), pieces);
            assert!(output.status.success());
            assert_eq!(output.stdout, pieces.concat());
        }
    }

    #[test]
    fn what_is_shown_can_be_seen() {
        assert_eq!(text(b"n=5\nd\r\n\xff"), "n=5\\n\nd\\r\\n\n\\xff");
    }
}
