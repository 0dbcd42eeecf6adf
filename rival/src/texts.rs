//! Random plan texts: sound, refused for one fault, damaged, and as long as may be.
use crate::edges::{self, SIXTEEN_BITS};
use crate::inputs;
use crate::limits::*;
use crate::plan::{pair, Constraint, Plan};
use crate::proposals;
use crate::random::Random;
use crate::reader::read;
use crate::run::Times;
use crate::simulate::bound;

/// A text: about half are sound, the others are refused for one fault or damaged; now and then one
/// is about as long as may be, has a margin as far from zero as may be, or is for a proposal.
pub fn text(random: &mut Random) -> Vec<u8> {
    if random.once_in(30) {
        return long_text(random);
    }
    if random.once_in(25) {
        return join(&extreme_lines(random));
    }
    if random.once_in(6) {
        return join(&proposals::lines(random));
    }
    let mut lines = sound_lines(random);
    match random.below(29) {
        0..=2 => refused_instant(random, &mut lines, 'D'),
        3..=5 => refused_instant(random, &mut lines, 'N'),
        6..=8 => refused_plan(random, &mut lines),
        9..=13 => refused_field(random, &mut lines),
        14..=17 => return damaged_text(random, lines),
        _ => {}
    }
    join(&lines)
}

fn damaged_text(random: &mut Random, mut lines: Vec<String>) -> Vec<u8> {
    for _ in 0..random.from(1, 2) {
        damage_lines(random, &mut lines);
    }
    let mut bytes = join(&lines);
    if random.once_in(6) {
        damage_bytes(random, &mut bytes);
    }
    bytes
}

pub fn join(lines: &[String]) -> Vec<u8> {
    let mut text = lines.join("\n");
    if !lines.is_empty() {
        text.push('\n');
    }
    text.into_bytes()
}

/// Best and worst, often small so that runs come to their end.
fn times(random: &mut Random, greatest: u64) -> (u64, u64) {
    let worst = time(random, greatest);
    let best = if random.once_in(4) { worst } else { time(random, worst) };
    (best, worst)
}

/// A time up to the greatest; where that is long, perhaps an edge.
fn time(random: &mut Random, greatest: u64) -> u64 {
    if greatest >= SIXTEEN_BITS.into() && random.once_in(3) {
        return u64::from(random.pick(&edges::TIMES)).min(greatest);
    }
    random.from(1, greatest)
}

/// A plan and constraint that the check takes.
pub fn sound_plan(random: &mut Random) -> (Plan, Constraint) {
    read(&join(&sound_lines(random))).expect("a text that is read")
}

/// Lines that are read and that the check takes.
pub fn sound_lines(random: &mut Random) -> Vec<String> {
    let types = random.pick(&[1, 2, 2, 3, 3, 4, TYPES as u64]);
    let most_tasks = TASKS as u64;
    let tasks = random.pick(&[1, 2, 3, 4, 5, 6, 7, 8, 10, 12, 20, 40, most_tasks - 1, most_tasks]);
    let long = random.pick(&[SIXTEEN_BITS, LONGEST_TIME, LONGEST_TIME]);
    let greatest = random.pick(&[1, 2, 3, 4, 5, 8, 30, long.into()]);
    let most_units = random.pick(&[1, 2, 3, UNITS as u64]);
    let mut lines: Vec<String> =
        (0..types).map(|y| format!("U\t{y}\t{}", random.from(1, most_units))).collect();
    let mut order: Vec<u64> = (0..tasks).collect();
    random.shuffle(&mut order);
    let (mut pairs, mut chosen) = (Vec::new(), vec![0; tasks as usize]);
    for t in 0..tasks {
        chosen[t as usize] = random.below(types);
        for y in 0..types {
            if y == chosen[t as usize] || random.once_in(3) {
                let (best, worst) = times(random, greatest);
                pairs.push(format!("T\t{t}\t{y}\t{best}\t{worst}"));
            }
        }
    }
    let mut arrows = arrows(random, &order);
    if random.once_in(2) {
        random.shuffle(&mut pairs);
        random.shuffle(&mut arrows);
    }
    lines.extend(pairs);
    lines.extend(arrows);
    let choices = order.iter().map(|t| format!("C\t{t}\t{}", chosen[*t as usize]));
    let choices: Vec<String> = choices.collect();
    let releases = releases(random, &[&lines[..], &choices].concat());
    let deadlines = deadlines(random, &[&lines[..], &releases, &choices].concat());
    lines.extend(deadlines);
    lines.extend(releases);
    lines.extend(choices);
    lines
}

/// The run with worst times of lines that the check takes, and the number of their tasks.
fn worst_run(lines: &[String]) -> (Times, usize) {
    let run = read(&join(lines)).and_then(|(plan, constraint)| {
        Ok((bound(&plan, &constraint)?, plan.tasks as usize))
    });
    run.expect("a plan that is accepted")
}

/// N lines for sound lines without any: mostly of none, otherwise of some or of all tasks.
fn releases(random: &mut Random, lines: &[String]) -> Vec<String> {
    let rarity = random.pick(&[u64::MAX, u64::MAX, u64::MAX, 8, 3, 1]);
    let (run, tasks) = worst_run(lines);
    let releases = inputs::releases(random, &run.starts[..tasks]);
    some_lines(random, 'N', &releases, rarity)
}

/// D lines for sound lines without any: of all tasks, of some or of none.
fn deadlines(random: &mut Random, lines: &[String]) -> Vec<String> {
    let rarity = random.pick(&[1, 1, 2, 2, 5, u64::MAX]);
    let (run, tasks) = worst_run(lines);
    let deadlines = inputs::deadlines(random, &run.finishes[..tasks]);
    some_lines(random, 'D', &deadlines, rarity)
}

/// Lines of task and instant for some tasks.
fn some_lines(random: &mut Random, letter: char, instants: &[u64], rarity: u64) -> Vec<String> {
    let line = |(t, instant): (usize, &u64)| format!("{letter}\t{t}\t{instant}");
    let mut lines: Vec<String> = instants.iter().enumerate().map(line).collect();
    lines.retain(|_| random.once_in(rarity));
    if random.once_in(2) {
        random.shuffle(&mut lines);
    }
    lines
}

/// As many tasks as may be, one after the other: the last as late as may be with the earliest
/// deadline, or the first as early as may be with the latest. The first of the order may start
/// only when the latest not-before instant comes, or at once.
fn extreme_lines(random: &mut Random) -> Vec<String> {
    let mut order: Vec<usize> = (0..TASKS).collect();
    random.shuffle(&mut order);
    let (worst, task, deadline) = match random.once_in(2) {
        true => (LONGEST_TIME, order[TASKS - 1], 1),
        false => (1, order[0], LATEST_DEADLINE),
    };
    let mut lines = vec!["U\t0\t1".to_string()];
    lines.extend((0..TASKS).map(|t| format!("T\t{t}\t0\t1\t{worst}")));
    lines.push(format!("D\t{task}\t{deadline}"));
    if deadline == 1 && !random.once_in(4) {
        lines.push(format!("N\t{}\t{LATEST_RELEASE}", order[0]));
    }
    lines.extend(order.iter().map(|t| format!("C\t{t}\t0")));
    lines
}

fn arrows(random: &mut Random, order: &[u64]) -> Vec<String> {
    let rarity = random.pick(&[2, 4, 8, 20, 100]);
    let mut arrows = Vec::new();
    for (p, to) in order.iter().enumerate() {
        for from in &order[..p] {
            if random.once_in(rarity) {
                arrows.push(format!("A\t{from}\t{to}"));
            }
        }
    }
    arrows
}

/// Makes sound lines faulty by one D or N line, mostly where such lines stand.
fn refused_instant(random: &mut Random, lines: &mut Vec<String>, letter: char) {
    let Ok((plan, _)) = read(&join(lines)) else { return };
    let first_of = |letters: &[char]| lines.iter().position(|line| line.starts_with(letters));
    let end = first_of(if letter == 'D' { &['N', 'C'] } else { &['C'] }).unwrap_or(lines.len());
    let others = first_of(&[letter]).unwrap_or(end);
    let task = random.below(plan.tasks);
    let [line, again] = [0; 2].map(|_| format!("{letter}\t{task}\t{}", instant(random, letter)));
    match random.below(8) {
        // Two of one task.
        0 => drop(lines.splice(end..end, [line, again])),
        // After a line of a later kind.
        1 => lines.insert(random.from(end as u64 + 1, lines.len() as u64) as usize, line),
        // Before a line of an earlier kind, often of the one just before.
        2 => {
            let any = random.below(others as u64) as usize;
            let other = lines[random.pick(&[any, others - 1])].clone();
            let first = (others == end).then_some(line);
            drop(lines.splice(end..end, first.into_iter().chain([other])));
        }
        _ => {
            let anywhere = random.below(lines.len() as u64) as usize;
            let at = random.pick(&[end, end, end, end, anywhere]);
            lines.insert(at, faulty_instant(random, letter, plan.tasks));
            if random.once_in(3) {
                lines.insert(plan.types as usize, last_task());
            }
        }
    }
}

/// One that a line with the letter D or N may have; often 0 if it may be.
fn instant(random: &mut Random, letter: char) -> u64 {
    match letter {
        'D' => inputs::deadline(random, 1),
        _ if random.once_in(2) => 0,
        _ => inputs::release(random, 0),
    }
}

/// A T line after which every absent task is below one with times.
pub fn last_task() -> String {
    format!("T\t{}\t0\t1\t1", TASKS - 1)
}

/// A D or N line with another form, a number out of range or an absent task.
fn faulty_instant(random: &mut Random, letter: char, tasks: u64) -> String {
    let most_tasks = TASKS as u64;
    let last = u64::from(if letter == 'D' { LATEST_DEADLINE } else { LATEST_RELEASE });
    let (task, good) = (random.below(tasks), instant(random, letter));
    let greatest = "9".repeat(DIGITS).parse().unwrap_or(last + 1);
    let line = |task: u64, instant: u64| format!("{letter}\t{task}\t{instant}");
    match random.below(5) {
        0 => odd_instant(random, letter),
        1 => line(random.pick(&[most_tasks, most_tasks + 1, greatest]), good),
        2 if letter == 'D' => line(task, 0),
        2 | 3 => line(task, random.pick(&[last + 1, last + 2, greatest])),
        _ => line(random.from(tasks.min(most_tasks - 1), most_tasks - 1), good),
    }
}

/// A line with the letter D or N that has not the form of such a line.
fn odd_instant(random: &mut Random, letter: char) -> String {
    let rests = [
        "", "\t", "\t0", "\t0\t", "\t\t1", "\t0\t1\t", "\t0\t1\t1", "\t00\t1", "\t0\t01", "\t0\t00",
        "\t0\t-1", "\t0\t+1", "\t0\t1 ", "\t0\t1\r", " 0 1", "\t0 1", "0\t1",
    ];
    let (twice, long) = (format!("{letter}\t0\t1"), format!("\t0\t1{}", "0".repeat(DIGITS)));
    let others = [twice.as_str(), &long];
    let rests: Vec<&str> = rests.into_iter().chain(others).collect();
    format!("{letter}{}", random.pick(&rests))
}

/// Makes sound lines faulty by a line of any kind in which one field has a digit too many, begins
/// with 0 or is too great.
fn refused_field(random: &mut Random, lines: &mut Vec<String>) {
    let line = if random.once_in(6) { one_above(random) } else { wide_field(random) };
    lines.insert(random.from(0, lines.len() as u64) as usize, line);
}

/// A line in which best, worst or instant is one above what it may be.
fn one_above(random: &mut Random) -> String {
    let (longest, above) = (LONGEST_TIME, LONGEST_TIME + 1);
    let pairs = [(above, longest), (above, 1), (1, above), (longest, above)];
    let (best, worst) = random.pick(&pairs);
    match random.below(4) {
        0 => format!("D\t0\t{}", LATEST_DEADLINE + 1),
        1 => format!("N\t0\t{}", LATEST_RELEASE + 1),
        _ => format!("T\t0\t0\t{best}\t{worst}"),
    }
}

/// A line in which one field has all digits that a field may have, or one more.
fn wide_field(random: &mut Random) -> String {
    let lines = ["U\t0\t1", "T\t0\t0\t1\t1", "A\t0\t1", "D\t0\t1", "N\t0\t0", "C\t0\t0"];
    let line = random.pick(&lines);
    let mut parts: Vec<String> = line.split('\t').map(str::to_string).collect();
    let at = random.from(1, parts.len() as u64 - 1) as usize;
    let (above, wider) = (u64::from(LONGEST_TIME) + 1, 10u64.pow(DIGITS as u32));
    parts[at] = match random.below(6) {
        0 => random.pick(&[above, wider - 1]).to_string(),
        1 => random.from(above, wider - 1).to_string(),
        2 => random.pick(&[wider, 10 * wider - 1]).to_string(),
        3 => random.from(wider, 10 * wider - 1).to_string(),
        _ => format!("{:0>DIGITS$}", parts[at]),
    };
    parts.join("\t")
}

/// Makes sound lines such that they are read and the check refuses: some tasks have no times, one
/// is left out of the order, has a type that it cannot use, or has a predecessor later on.
fn refused_plan(random: &mut Random, lines: &mut Vec<String>) {
    let Ok((plan, constraint)) = read(&join(lines)) else { return };
    let start = lines.len() - plan.tasks as usize;
    let p = random.below(plan.tasks) as usize;
    let task = constraint.task[p];
    match random.below(4) {
        0 => lines.insert(plan.types as usize, last_task()),
        1 => drop(lines.remove(start + p)),
        2 => {
            let unusable = (0..TYPES).find(|&y| plan.best[pair(task as usize, y)] == 0);
            lines[start + p] = format!("C\t{task}\t{}", unusable.unwrap_or(0));
        }
        // The last of the order is its own predecessor: that is not read.
        _ => {
            let later = constraint.task[random.from(p as u64, plan.tasks - 1) as usize];
            let end = lines.iter().position(|line| line.starts_with(['D', 'N', 'C']));
            lines.insert(end.unwrap_or(start), format!("A\t{later}\t{task}"));
        }
    }
}

fn damage_lines(random: &mut Random, lines: &mut Vec<String>) {
    if lines.is_empty() {
        return;
    }
    let (first, end) = random_block(random, lines);
    let at = random.from(first as u64, end as u64 - 1) as usize;
    let other = random.from(first as u64, end as u64 - 1) as usize;
    let anywhere = random.below(lines.len() as u64) as usize;
    match random.below(17) {
        0 | 1 => lines.swap(at, other),
        2 => lines.swap(at, anywhere),
        3 => drop(lines.remove(at)),
        4 => lines.insert(anywhere, lines[at].clone()),
        5 => lines.insert(end, lines[at].clone()),
        6 => lines.push(lines[at].clone()),
        7 => {
            lines.push(lines[at].clone());
            damage_field(random, lines.last_mut());
        }
        8 => {
            let more = random.pick(&["\t0", "\t", " ", "\t1\t1", "\r"]);
            lines[at].push_str(more);
        }
        9 if random.once_in(4) => lines.clear(),
        10..=12 => swap_fields(&mut lines[at]),
        13 => lines.truncate(at),
        _ => damage_field(random, lines.get_mut(at)),
    }
}

/// The lines of one kind: the first, and the one after the last.
fn random_block(random: &mut Random, lines: &[String]) -> (usize, usize) {
    let letter = random.pick(&["U", "T", "A", "D", "N", "C"]);
    let of_kind = |line: &String| line.starts_with(letter);
    match lines.iter().position(of_kind) {
        Some(first) => (first, lines.iter().rposition(of_kind).unwrap_or(first) + 1),
        None => (0, lines.len()),
    }
}

/// Changes the last two fields for each other; makes an arrow one to itself.
fn swap_fields(line: &mut String) {
    let mut parts: Vec<&str> = line.split('\t').collect();
    let n = parts.len();
    if parts[0] == "A" && n > 2 {
        parts[2] = parts[1];
    } else if n > 2 {
        parts.swap(n - 1, n - 2);
    }
    *line = parts.join("\t");
}

/// Puts another number in place of one field.
fn damage_field(random: &mut Random, line: Option<&mut String>) {
    let Some(line) = line else { return };
    let mut parts: Vec<String> = line.split('\t').map(str::to_string).collect();
    let at = random.below(parts.len() as u64) as usize;
    parts[at] = match random.below(4) {
        0 | 1 => odd_field(random),
        2 if at == 0 => random.pick(&["U", "T", "A", "D", "N", "C", "R", "u", "TT"]).to_string(),
        _ => random.below(9).to_string(),
    };
    *line = parts.join("\t");
}

/// A field on the edge of what a field may be, or a little beyond.
fn odd_field(random: &mut Random) -> String {
    let edge = random.pick(&[TYPES, UNITS, TASKS, TASKS, LONGEST_TIME as usize]);
    match random.below(8) {
        0 => random.pick(&["07", "", "-1", "0"]).to_string(),
        1 => "9".repeat(DIGITS),
        2 => format!("1{}", "0".repeat(DIGITS)),
        _ => (edge - 1 + random.below(3) as usize).to_string(),
    }
}

fn damage_bytes(random: &mut Random, bytes: &mut Vec<u8>) {
    if bytes.is_empty() {
        return;
    }
    let at = random.below(bytes.len() as u64) as usize;
    let byte = random.pick(b"0123456789\t\n\rUTADNC x#\x00\xff");
    match random.below(5) {
        0 => bytes[at] = byte,
        1 => bytes.insert(at, byte),
        2 => drop(bytes.remove(at)),
        3 => drop(bytes.pop()),
        _ => bytes.truncate(at),
    }
}

/// A text as long as may be, or a byte less or up to two more, in which every line can be read.
fn long_text(random: &mut Random) -> Vec<u8> {
    let length = LONGEST_TEXT - 1 + random.below(4) as usize;
    if random.once_in(2) {
        return text_of_length(length);
    }
    let mut lines = |letter: char| -> String {
        (0..TASKS).map(|t| format!("{letter}\t{t}\t{}\n", instant(random, letter))).collect()
    };
    let lines = lines('D') + &lines('N');
    let mut text = text_of_length(length - lines.len());
    text.extend(lines.bytes());
    text
}

/// All pairs, then arrows (round in circles too) up to this length.
pub fn text_of_length(length: usize) -> Vec<u8> {
    let mut text: String = (0..TYPES).map(|y| format!("U\t{y}\t1\n")).collect();
    for t in 0..TASKS {
        for y in 0..TYPES {
            text += &format!("T\t{t}\t{y}\t{}\t{LONGEST_TIME}\n", LONGEST_TIME - t as u32);
        }
    }
    // Arrows of 6, 7 and 8 bytes, by the digits of their tasks.
    let mut arrows: [Vec<String>; 3] = Default::default();
    let ends = (0..TASKS).flat_map(|from| (0..TASKS).map(move |to| (from, to)));
    for (from, to) in ends.filter(|(from, to)| from != to) {
        let digits = (from > 9) as usize + (to > 9) as usize;
        arrows[digits].push(format!("A\t{from}\t{to}\n"));
    }
    while length - text.len() > 25 {
        // Some of each length are left for the end.
        let digits = if arrows[2].len() > 4 { 2 } else { 1 };
        text += &arrows[digits].pop().unwrap_or_default();
    }
    let left = length - text.len();
    let lines = left.div_ceil(8).max(1);
    let mut more = left - 6 * lines;
    for _ in 0..lines {
        let digits = more.min(2);
        more -= digits;
        text += &arrows[digits].pop().unwrap_or_default();
    }
    text.into_bytes()
}
