//! `generate [--stats] KIND SEED LINES`: a random call script on standard output, the same for the
//! same arguments; with `--stats` the counts of its answers instead.

use std::io::Write;
use std::process::ExitCode;

use reference::generate::{script, Kind};

fn main() -> ExitCode {
    let mut arguments: Vec<String> = std::env::args().skip(1).collect();
    let stats = arguments.first().is_some_and(|word| word == "--stats");
    if stats {
        arguments.remove(0);
    }
    let parsed = match &arguments[..] {
        [kind, seed, lines] => {
            let kind = match kind.as_str() {
                "line" => Some(Kind::Line),
                "station" => Some(Kind::Station),
                "readings" => Some(Kind::Readings),
                "fragments" => Some(Kind::Fragments),
                "all" => Some(Kind::All),
                _ => None,
            };
            kind.zip(seed.parse::<u64>().ok().zip(lines.parse::<usize>().ok()))
        }
        _ => None,
    };
    let Some((kind, (seed, lines))) = parsed else {
        eprintln!("usage: generate [--stats] line|station|readings|fragments|all SEED LINES");
        return ExitCode::from(2);
    };
    let (script, answers) = script(kind, seed, lines);
    if stats {
        for (what, count) in &answers {
            println!("{count:8} {what}");
        }
        return ExitCode::SUCCESS;
    }
    match std::io::stdout().write_all(&script) {
        Ok(()) => ExitCode::SUCCESS,
        Err(_) => ExitCode::from(1),
    }
}
