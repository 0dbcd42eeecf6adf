//! The cases of refused lines.
use crate::cases::{those_that_are, Case};
use crate::limits::*;
use crate::reader::{self, form, in_range, FORMS};

/// The refused line has the letter D.
pub const D_LINE_FORM: Case = (2, "at a D line");
pub const D_LINE_TASK: Case = (3, "for the task of a D line");
pub const D_LINE_OF_0: Case = (3, "for instant 0 of a D line");
pub const D_LINE_ABOVE: Case = (3, "for an instant above of a D line");
pub const D_LINE_KIND: Case = (5, "at a D line");
pub const D_LINE_UNKNOWN: Case = (6, "at a D line");
pub const D_LINE_AGAIN: Case = (7, "at a D line");
/// The refused line has the letter N.
pub const N_LINE_FORM: Case = (2, "at an N line");
pub const N_LINE_TASK: Case = (3, "for the task of an N line");
pub const N_LINE_ABOVE: Case = (3, "for an instant above of an N line");
pub const N_LINE_KIND: Case = (5, "at an N line");
pub const N_LINE_UNKNOWN: Case = (6, "at an N line");
pub const N_LINE_AGAIN: Case = (7, "at an N line");
/// The N line of its task that stands before says 0.
pub const N_LINE_AFTER_0: Case = (7, "at an N line after one of 0");
/// The refused line has another letter and comes right after a D line, or an N line.
pub const AFTER_D_LINE: Case = (5, "after a D line");
pub const AFTER_N_LINE: Case = (5, "after an N line");
/// It has the letter D.
pub const D_AFTER_N_LINE: Case = (5, "for a D line after an N line");
/// Nothing else is out of range.
pub const D_LINE_ONE_ABOVE: Case = (3, "for an instant one above of a D line");
pub const N_LINE_ONE_ABOVE: Case = (3, "for an instant one above of an N line");
pub const T_LINE_BEST_ABOVE: Case = (3, "for a best one above of a T line");
pub const T_LINE_WORST_ABOVE: Case = (3, "for a worst one above of a T line");

/// Of a text with D lines, with N lines, or with T lines.
pub const LINES: [Case; 21] = [
    D_LINE_FORM, D_LINE_TASK, D_LINE_OF_0, D_LINE_ABOVE, D_LINE_KIND, D_LINE_UNKNOWN, D_LINE_AGAIN,
    AFTER_D_LINE, D_LINE_ONE_ABOVE, N_LINE_FORM, N_LINE_TASK, N_LINE_ABOVE, N_LINE_KIND,
    N_LINE_UNKNOWN, N_LINE_AGAIN, N_LINE_AFTER_0, AFTER_N_LINE, D_AFTER_N_LINE, N_LINE_ONE_ABOVE,
    T_LINE_BEST_ABOVE, T_LINE_WORST_ABOVE,
];

/// For each letter: some field has as many digits as may be; one field has a digit more; one field
/// has as many digits as may be and begins with 0. Nothing else is wrong with the form of the line.
macro_rules! cases_of_fields {
    ($($letter:literal)*) => {
        [$([
            (3, concat!("with all digits at ", $letter, " line")),
            (2, concat!("for a digit more at ", $letter, " line")),
            (2, concat!("for leading zeros at ", $letter, " line")),
        ]),*]
    };
}

/// In the order of the line forms.
pub const FIELDS: [[Case; 3]; FORMS.len()] =
    cases_of_fields!("a U" "a T" "an A" "a D" "an N" "a C");

/// The cases of a line, counted from 1, that is refused with this number.
pub fn cases_of_line(text: &[u8], number: u64, place: usize) -> Vec<Case> {
    let lines: Vec<&[u8]> = text.split(|&b| b == b'\n').collect();
    let Some(line) = lines.get(place - 1) else { return Vec::new() };
    let before = &lines[..place - 1];
    let has_end = place < lines.len();
    let of_field = case_of_field(line, number).filter(|_| has_end);
    let of_letter = case_of_letter(line, before, number);
    let cases = [of_letter, case_of_one_above(line, number), of_field];
    let after = cases_after(line, before.last().unwrap_or(&&b""[..]), number);
    cases.into_iter().flatten().chain(after).collect()
}

/// For a line with the letter D or N.
fn case_of_letter(line: &[u8], before: &[&[u8]], number: u64) -> Option<Case> {
    match line.first()? {
        b'D' => Some(match number {
            2 => D_LINE_FORM,
            3 => case_of_range(line, D_LINE_TASK, D_LINE_OF_0, D_LINE_ABOVE),
            5 => D_LINE_KIND,
            6 => D_LINE_UNKNOWN,
            _ => D_LINE_AGAIN,
        }),
        b'N' => Some(match number {
            2 => N_LINE_FORM,
            3 => case_of_range(line, N_LINE_TASK, N_LINE_ABOVE, N_LINE_ABOVE),
            5 => N_LINE_KIND,
            6 => N_LINE_UNKNOWN,
            _ if before.iter().any(|other| says_0(other) && same_task(other, line)) => {
                N_LINE_AFTER_0
            }
            _ => N_LINE_AGAIN,
        }),
        _ => None,
    }
}

/// For a line that has another letter than the one before it.
fn cases_after(line: &[u8], before: &[u8], number: u64) -> Vec<Case> {
    let after = |letter| number == 5 && before.starts_with(letter) && !line.starts_with(letter);
    those_that_are(&[
        (after(b"D"), AFTER_D_LINE),
        (after(b"N"), AFTER_N_LINE),
        (after(b"N") && line.starts_with(b"D"), D_AFTER_N_LINE),
    ])
}

/// An N line with the instant 0.
pub fn says_0(line: &[u8]) -> bool {
    form(line).is_some_and(|(kind, fields)| FORMS[kind].0 == b'N' && fields[1] == 0)
}

/// The first fields are equal.
fn same_task(line: &[u8], other: &[u8]) -> bool {
    let task = |line: &[u8]| form(line).map(|(_, fields)| fields[0]);
    task(line) == task(other)
}

/// For a line of task and instant: which of them is out of range, and at which end.
fn case_of_range(line: &[u8], task: Case, of_0: Case, above: Case) -> Case {
    match form(line).map(|(_, fields)| (fields[0], fields[1])) {
        Some((0..TASKS, 0)) => of_0,
        Some((0..TASKS, _)) => above,
        _ => task,
    }
}

/// The time or instant that brings the line into range when it is one less.
fn case_of_one_above(line: &[u8], number: u64) -> Option<Case> {
    let (kind, fields) = form(line).filter(|_| number == 3)?;
    let cases: &[(usize, Case)] = match FORMS[kind].0 {
        b'T' => &[(2, T_LINE_BEST_ABOVE), (3, T_LINE_WORST_ABOVE)],
        b'D' => &[(1, D_LINE_ONE_ABOVE)],
        b'N' => &[(1, N_LINE_ONE_ABOVE)],
        _ => &[],
    };
    let in_range_if_less = |at: usize| {
        let mut fields = fields.clone();
        fields[at] = fields[at].saturating_sub(1);
        in_range(kind, &fields)
    };
    cases.iter().find(|(at, _)| in_range_if_less(*at)).map(|(_, case)| *case)
}

fn case_of_field(line: &[u8], number: u64) -> Option<Case> {
    let mut parts = line.split(|&b| b == b'\t');
    let letter = parts.next()?;
    let kind = FORMS.iter().position(|form| letter == [form.0])?;
    let (proper, faulty): (Vec<&[u8]>, Vec<&[u8]>) =
        parts.partition(|field| reader::field(field).is_some());
    if proper.len() + faulty.len() != FORMS[kind].1 {
        return None;
    }
    let [all_digits, digit_more, leading_zeros] = FIELDS[kind];
    match (number, &faulty[..]) {
        (3, []) => proper.iter().any(|field| field.len() == DIGITS).then_some(all_digits),
        (2, [field]) if field.iter().all(u8::is_ascii_digit) => {
            match (field.len(), field.starts_with(b"0")) {
                (DIGITS, true) => Some(leading_zeros),
                (length, false) if length == DIGITS + 1 => Some(digit_more),
                _ => None,
            }
        }
        _ => None,
    }
}
