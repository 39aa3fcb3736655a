//! Makes jobs and tries programs on them.
//!
//!   trial job SEED INDEX               writes the bytes of one job
//!   trial compare SEED COUNT [PROGRAM] compares PROGRAM's prints of the first
//!                                      COUNT jobs with the independent ones
//!   trial tapes STDIN STDOUT           writes the stored tapes, their prints
//!   trial speed PROGRAM INDEPENDENT    times both on the longest jobs

mod compare;
mod draft;
mod draw;
mod job;
mod machine;
mod run;
mod speed;
mod stored;
mod tapes;

use std::io::Write;
use std::process::ExitCode;

fn main() -> ExitCode {
    let arguments: Vec<String> = std::env::args().skip(1).collect();
    let number = |text: &str| text.parse::<u64>().unwrap_or_else(|_| usage());
    let good = match arguments.iter().map(String::as_str).collect::<Vec<_>>()[..] {
        ["job", seed, index] => {
            let job = draw::Jobs::new(number(seed)).job(number(index) as usize);
            std::io::stdout().write_all(&job).expect("standard output can be written");
            true
        }
        ["compare", seed, count] => compare::compare(number(seed), number(count) as usize, None),
        ["compare", seed, count, program] => {
            compare::compare(number(seed), number(count) as usize, Some(program))
        }
        ["tapes", stdin, stdout] => stored::write(stdin, stdout),
        ["speed", program, independent] => match speed::speed(program, independent) {
            Some(good) => good,
            None => return ExitCode::from(3),
        },
        _ => usage(),
    };
    if good {
        ExitCode::SUCCESS
    } else {
        ExitCode::FAILURE
    }
}

fn usage() -> ! {
    eprintln!("usage: trial job SEED INDEX");
    eprintln!("       trial compare SEED COUNT [PROGRAM]");
    eprintln!("       trial tapes STDIN STDOUT");
    eprintln!("       trial speed PROGRAM INDEPENDENT");
    std::process::exit(2)
}
