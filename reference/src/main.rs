//! Reads a call script on standard input and answers on standard output.

use std::io::{self, BufRead, Read, Write};
use std::process::ExitCode;

use reference::faults::{turn_on, FAULTS};
use reference::script::{Host, LINE};

fn main() -> ExitCode {
    let arguments: Vec<String> = std::env::args().skip(1).collect();
    match arguments.iter().map(String::as_str).collect::<Vec<_>>()[..] {
        [] => {}
        ["--faults"] => {
            for (_, name, _) in FAULTS {
                println!("{name}");
            }
            return ExitCode::SUCCESS;
        }
        _ => {
            eprintln!("usage: reference [--faults] < script > answers");
            return ExitCode::from(2);
        }
    }
    if let Ok(name) = std::env::var("REFERENCE_FAULT") {
        if !name.is_empty() && !turn_on(&name) {
            eprintln!("reference: no fault is called {name}");
            return ExitCode::from(2);
        }
    }
    match run() {
        Ok(()) => ExitCode::SUCCESS,
        Err(error) => {
            eprintln!("reference: {error}");
            ExitCode::from(1)
        }
    }
}

fn run() -> io::Result<()> {
    let mut input = io::stdin().lock();
    let mut output = io::stdout().lock();
    let mut host = Host::default();
    let mut line = Vec::new();
    let mut out = Vec::new();
    loop {
        line.clear();
        // One byte more than the longest line and its LF shows that it is too long.
        if input.by_ref().take(LINE as u64 + 2).read_until(b'\n', &mut line)? == 0 {
            break;
        }
        if line.last() == Some(&b'\n') {
            line.pop();
        } else if line.len() > LINE {
            input.skip_until(b'\n')?;
        }
        host.line(&line, &mut out);
        if out.len() >= LINE {
            output.write_all(&out)?;
            out.clear();
        }
    }
    output.write_all(&out)?;
    output.flush()
}
