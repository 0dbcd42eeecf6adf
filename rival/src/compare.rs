//! Holds another driver, or another program, against this one, byte for byte.
use crate::driver;
use crate::generate;
use crate::margins;
use crate::propose;
use crate::random::Random;
use crate::reached::Reached;
use crate::texts;
use crate::timetable;
use std::io::{Read, Write};
use std::process::{Command, Stdio};

/// Runs a command with this input and gives its standard output.
fn output_of(command: &str, input: &[u8]) -> std::io::Result<Vec<u8>> {
    let mut words = command.split_whitespace();
    let mut child = Command::new(words.next().unwrap_or_default())
        .args(words)
        .stdin(Stdio::piped())
        .stdout(Stdio::piped())
        .spawn()?;
    let mut stdin = child.stdin.take().ok_or(std::io::ErrorKind::BrokenPipe)?;
    let mut stdout = child.stdout.take().ok_or(std::io::ErrorKind::BrokenPipe)?;
    let mut output = Vec::new();
    std::thread::scope(|scope| {
        // A child that stops reading early shows by its output.
        scope.spawn(move || stdin.write_all(input).ok());
        stdout.read_to_end(&mut output)
    })?;
    let status = child.wait()?;
    if !status.success() {
        output.extend_from_slice(format!("(ended with {status})\n").as_bytes());
    }
    Ok(output)
}

/// The first line in which two outputs differ, counted from 1.
fn first_difference(ours: &[u8], theirs: &[u8]) -> String {
    let (a, b) = (String::from_utf8_lossy(ours), String::from_utf8_lossy(theirs));
    let (mut a, mut b) = (a.split('\n'), b.split('\n'));
    for line in 1.. {
        let (x, y) = (a.next(), b.next());
        if x != y {
            let show = |s: Option<&str>| s.map_or("(nothing)".to_string(), |s| format!("{s:?}"));
            return format!("line {line}\n  rival: {}\n  other: {}", show(x), show(y));
        }
        if x.is_none() {
            break;
        }
    }
    "no line".to_string()
}

/// Compares sessions; gives what to print, and whether all is well.
pub fn sessions(dir: &str, command: &str, seed: u64, count: u64) -> std::io::Result<bool> {
    std::fs::create_dir_all(dir)?;
    let mut reached = Reached::default();
    let mut commands = 0;
    for number in 0..count {
        let (input, given) = generate::session(seed, number);
        commands += given;
        let ours = driver::session(&input);
        reached.add(&ours.reached);
        let theirs = output_of(command, &input)?;
        if ours.out != theirs {
            let file = format!("{dir}/{number:03}");
            std::fs::write(format!("{file}.in"), &input)?;
            std::fs::write(format!("{file}.rival"), &ours.out)?;
            std::fs::write(format!("{file}.other"), &theirs)?;
            println!("difference: seed {seed}, session {number}, input in {file}.in");
            println!("{}", first_difference(&ours.out, &theirs));
            return Ok(false);
        }
    }
    println!("{count} sessions, {commands} commands, no difference");
    reached.print_numbers();
    Ok(verdict(&reached, &reached.faults()))
}

/// Prints how often the commands reached what, and the faults in that; says whether there are none.
fn verdict(reached: &Reached, faults: &[String]) -> bool {
    reached.print_commands();
    for fault in faults {
        println!("{fault}");
    }
    faults.is_empty()
}

/// Compares the program of document 01 on random texts.
pub fn texts(dir: &str, command: &str, seed: u64, count: u64) -> std::io::Result<bool> {
    programs(&of_check(timetable::program), dir, command, seed, count)
}

/// Compares the program of the margins on the same texts.
pub fn margins(dir: &str, command: &str, seed: u64, count: u64) -> std::io::Result<bool> {
    programs(&of_check(margins::program), dir, command, seed, count)
}

/// Compares the program of the proposal on the same texts.
pub fn propose(dir: &str, command: &str, seed: u64, count: u64) -> std::io::Result<bool> {
    let program = Program {
        answer: propose::program,
        note: Reached::note_program_of_proposal,
        faults: Reached::faults_of_proposals,
    };
    programs(&program, dir, command, seed, count)
}

/// A plan text in, an answer out; what is noted of a text, and what is faulty in all that was noted.
struct Program {
    answer: fn(&[u8]) -> Vec<u8>,
    note: fn(&mut Reached, &[u8]),
    faults: fn(&Reached) -> Vec<String>,
}

/// A program that begins with the check.
fn of_check(answer: fn(&[u8]) -> Vec<u8>) -> Program {
    Program { answer, note: Reached::note_program, faults: Reached::faults_of_texts }
}

fn programs(
    program: &Program,
    dir: &str,
    command: &str,
    seed: u64,
    count: u64,
) -> std::io::Result<bool> {
    std::fs::create_dir_all(dir)?;
    let mut reached = Reached::default();
    let mut random = Random::new(seed);
    for number in 0..count {
        let text = texts::text(&mut random);
        (program.note)(&mut reached, &text);
        let (ours, theirs) = ((program.answer)(&text), output_of(command, &text)?);
        if ours != theirs {
            let file = format!("{dir}/{number:03}.txt");
            std::fs::write(&file, &text)?;
            println!("difference: seed {seed}, text {number}, kept in {file}");
            println!("{}", first_difference(&ours, &theirs));
            return Ok(false);
        }
    }
    println!("{count} texts, no difference");
    Ok(verdict(&reached, &(program.faults)(&reached)))
}
