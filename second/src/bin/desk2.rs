//! Reads a script on standard input and writes its answers on standard output, `end` last.

use second::desk::Desk;
use std::io::{self, BufRead, Write};

fn main() -> io::Result<()> {
    let mut input = io::stdin().lock();
    let mut output = io::stdout().lock();
    let mut desk = Desk::default();
    loop {
        let part = input.fill_buf()?;
        if part.is_empty() {
            break;
        }
        let length = part.len();
        output.write_all(desk.read(part).as_bytes())?;
        output.flush()?;
        input.consume(length);
    }
    output.write_all(desk.end().as_bytes())?;
    output.write_all(b"end\n")?;
    output.flush()
}
