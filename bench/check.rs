//! The job of `vozhkell check` in plain Rust, written by hand. bench/run.sh measures the proved program beside it.

use crate::canonical::{write_name, write_number};
use crate::commands::{Failure, Input, Output};
use std::io::Write;

pub fn check(input: &mut Input, out: &mut Output) -> Result<u8, Failure> {
    let header = input.header()?;
    header.write_header(&mut out.held)?;
    let tally = input.body(&header, out, |out, number, judged| {
        let out = &mut out.held;
        match judged {
            Ok(line) => header.write_line(out, line),
            Err(cause) => {
                write_number(out, b"# line ", number);
                write_name(out, b": refused: ", cause.name());
                out.text(b"\n");
            }
        }
        Ok(())
    })?;
    write!(out.held, "# ")?;
    tally.write(&mut out.held)?;
    Ok(tally.status())
}
