//! `second` answers a trace on standard input, `second FILE` one in a file;
//! `second --random SEED LINES` writes a trace, `second --wide SEED LINES` one of a wider range.

use std::fs::File;
use std::io::{self, BufReader, BufWriter};
use std::process::ExitCode;

use second::{random, trace};

fn main() -> ExitCode {
    let arguments: Vec<String> = std::env::args().skip(1).collect();
    let words: Vec<&str> = arguments.iter().map(String::as_str).collect();
    let output = BufWriter::new(io::stdout().lock());
    let result = match words[..] {
        [] => trace::run(io::stdin().lock(), output),
        [file] if !file.starts_with("--") => {
            File::open(file).and_then(|file| trace::run(BufReader::new(file), output))
        }
        [range @ ("--random" | "--wide"), seed, lines] => match (seed.parse(), lines.parse()) {
            (Ok(seed), Ok(lines)) if range == "--wide" => random::write_wide(seed, lines, output),
            (Ok(seed), Ok(lines)) => random::write(seed, lines, output),
            _ => Err(io::Error::other("SEED and LINES are numbers")),
        },
        _ => Err(io::Error::other("usage: second [FILE | --random SEED LINES | --wide SEED LINES]")),
    };
    match result {
        Ok(()) => ExitCode::SUCCESS,
        // Whoever read the answers has had enough of them.
        Err(error) if error.kind() == io::ErrorKind::BrokenPipe => ExitCode::SUCCESS,
        Err(error) => {
            eprintln!("second: {error}");
            ExitCode::FAILURE
        }
    }
}
