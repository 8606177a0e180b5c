//! The second program at work beside the fuzzer: cases with their results go to its standard input.

use std::io::{BufWriter, Write};
use std::process::{Child, ChildStdin, Command, Stdio};

pub struct Second {
    child: Child,
    input: BufWriter<ChildStdin>,
}

impl Second {
    pub fn begin() -> std::io::Result<Second> {
        let script = concat!(env!("CARGO_MANIFEST_DIR"), "/second.py");
        let mut child = Command::new("python3").arg(script).stdin(Stdio::piped()).spawn()?;
        let input = child.stdin.take().expect("its standard input is a pipe");
        Ok(Second { child, input: BufWriter::new(input) })
    }

    /// It takes no more lines once it has found something that differs.
    pub fn tell(&mut self, line: &str) -> bool {
        self.input.write_all(line.as_bytes()).is_ok()
    }

    /// Whether it agreed with all that it was told.
    pub fn end(mut self) -> bool {
        let told = self.input.flush().is_ok();
        drop(self.input);
        let agreed = self.child.wait().is_ok_and(|status| status.success());
        told && agreed
    }
}
