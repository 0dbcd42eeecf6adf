//! The rival's commands.
use std::io::{Error, Read, Write};

const USAGE: &str = "\
usage: rival driver                                  a driver session on standard input
       rival benchplan                               a plan text on standard input
       rival margins                                 a plan text on standard input
       rival propose                                 a plan text on standard input
       rival generate SEED SESSIONS [DIR]            sessions to DIR/NNN.in, or to standard output
       rival compare DIR COMMAND SEED SESSIONS       this driver against another
       rival compare-texts DIR COMMAND SEED TEXTS    this benchplan against another
       rival compare-margins DIR COMMAND SEED TEXTS  this margins program against another
       rival compare-propose DIR COMMAND SEED TEXTS  this propose program against another
";

fn main() {
    let words: Vec<String> = std::env::args().skip(1).collect();
    let words: Vec<&str> = words.iter().map(String::as_str).collect();
    match obey(&words) {
        Ok(true) => {}
        Ok(false) => std::process::exit(1),
        Err(error) => {
            eprintln!("rival: {error}");
            std::process::exit(2);
        }
    }
}

fn obey(words: &[&str]) -> Result<bool, Error> {
    match words {
        ["driver"] => write(&rival::driver::session(&input()?).out),
        ["benchplan"] => write(&rival::timetable::program(&input()?)),
        ["margins"] => write(&rival::margins::program(&input()?)),
        ["propose"] => write(&rival::propose::program(&input()?)),
        ["generate", seed, count] => generate(number(seed)?, number(count)?, None),
        ["generate", seed, count, dir] => generate(number(seed)?, number(count)?, Some(dir)),
        ["compare", dir, command, seed, count] => {
            rival::compare::sessions(dir, command, number(seed)?, number(count)?)
        }
        ["compare-texts", dir, command, seed, count] => {
            rival::compare::texts(dir, command, number(seed)?, number(count)?)
        }
        ["compare-margins", dir, command, seed, count] => {
            rival::compare::margins(dir, command, number(seed)?, number(count)?)
        }
        ["compare-propose", dir, command, seed, count] => {
            rival::compare::propose(dir, command, number(seed)?, number(count)?)
        }
        _ => Err(Error::other(USAGE)),
    }
}

fn number(word: &str) -> Result<u64, Error> {
    word.parse().map_err(|_| Error::other(format!("not a number: {word}")))
}

fn input() -> Result<Vec<u8>, Error> {
    let mut bytes = Vec::new();
    std::io::stdin().read_to_end(&mut bytes)?;
    Ok(bytes)
}

fn write(bytes: &[u8]) -> Result<bool, Error> {
    std::io::stdout().write_all(bytes)?;
    Ok(true)
}

fn generate(seed: u64, count: u64, dir: Option<&str>) -> Result<bool, Error> {
    for session in 0..count {
        let (bytes, _) = rival::generate::session(seed, session);
        match dir {
            None => write(&bytes)?,
            Some(dir) => {
                std::fs::create_dir_all(dir)?;
                std::fs::write(format!("{dir}/{session:03}.in"), bytes)?;
                true
            }
        };
    }
    Ok(true)
}
