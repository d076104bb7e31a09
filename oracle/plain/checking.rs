//! What `check` answers of a job, its output and its certificate, in plain Rust over std alone. Written from docs/OUTPUT.md and
//! docs/CERTIFICATE.md; the least length of a row's data, for certificates of the first format, is that of linear.rs.

use crate::bitmap::Bitmap;
use crate::certificates::{self, Claim, Malformed, numbers_of};
use crate::commands::Profile;
use crate::linear;
use crate::performing::{Task, perform};
use crate::plan::{Rows, digits};
use crate::refusals::Refusal;
use crate::texts::Text;
use std::collections::VecDeque;
use std::fmt;

const RESET: &[u8] = b"\x1bE";

/// A verdict; it prints as its line.
pub enum Verdict {
    Proved,
    Certificate(Malformed),
    PageCount,
    Frame,
    Page(usize, Untrue),
}

/// The first test of a page that fails.
pub enum Untrue {
    NotGrammar,
    OtherPage,
    Rows,
    Place { row: usize, method: usize, place: usize },
    Edge { row: usize, method: usize, is_open: bool },
    Length,
}

impl fmt::Display for Verdict {
    fn fmt(&self, out: &mut fmt::Formatter) -> fmt::Result {
        match self {
            Verdict::Proved => writeln!(out, "proved"),
            Verdict::Certificate(fault) => writeln!(out, "not proved: certificate {fault:?}"),
            Verdict::PageCount => writeln!(out, "not proved: page count"),
            Verdict::Frame => writeln!(out, "not proved: frame"),
            Verdict::Page(page, fault) => writeln!(out, "not proved: page {page}: {fault}"),
        }
    }
}

impl fmt::Display for Untrue {
    fn fmt(&self, out: &mut fmt::Formatter) -> fmt::Result {
        match self {
            Untrue::NotGrammar => write!(out, "NotGrammar"),
            Untrue::OtherPage => write!(out, "OtherPage"),
            Untrue::Rows => write!(out, "Rows"),
            Untrue::Place { row, method, place } => write!(out, "Place row {row} method {method} place {place}"),
            Untrue::Edge { row, method, is_open } => {
                let side = if *is_open { "open" } else { "closed" };
                write!(out, "Edge row {row} method {method} {side}")
            }
            Untrue::Length => write!(out, "Length"),
        }
    }
}

/// Checks a job's output by a certificate. A page is checked when it is ejected, and its answer counts where all before it holds.
pub fn check(job: &[u8], output: &[u8], certificate: &[u8], dpi: u32) -> Result<Verdict, Refusal> {
    let read = certificates::read(certificate, dpi);
    let claims = read.as_deref().unwrap_or_default();
    let (mut seen, mut wrong) = (0, None);
    let mut see = |bitmap: &Bitmap, copies| {
        let text = text_of(output, claims, seen).filter(|_| wrong.is_none());
        if let Some(text) = text {
            wrong = untrue(text, &claims[seen], bitmap, copies, dpi).map(|fault| (seen + 1, fault));
        }
        seen += 1;
    };
    perform(job, Task::Visit(&mut see), dpi, Profile::Stated)?;
    Ok(match (read, wrong) {
        (Err(fault), _) => Verdict::Certificate(fault),
        (Ok(claims), _) if claims.len() != seen => Verdict::PageCount,
        (Ok(claims), _) if !is_framed(output, &claims) => Verdict::Frame,
        (Ok(_), Some((page, fault))) => Verdict::Page(page, fault),
        (Ok(_), None) => Verdict::Proved,
    })
}

/// Whether an output is as many bytes as texts have, between two resets.
fn is_framed(output: &[u8], claims: &[Claim]) -> bool {
    let texts: usize = claims.iter().map(|claim| claim.text_length).sum();
    output.len() == texts + 2 * RESET.len() && output.starts_with(RESET) && output.ends_with(RESET)
}

/// The text of a page, where the certificate has one and the output this many bytes.
fn text_of<'a>(output: &'a [u8], claims: &[Claim], page: usize) -> Option<&'a [u8]> {
    let start = RESET.len() + claims.get(..page)?.iter().map(|claim| claim.text_length).sum::<usize>();
    output.get(start..start + claims.get(page)?.text_length)
}

fn untrue(text: &[u8], claim: &Claim, page: &Bitmap, copies: u32, dpi: u32) -> Option<Untrue> {
    let Some(text) = Text::read(text, dpi) else {
        return Some(Untrue::NotGrammar);
    };
    let rows = page.rows();
    if text.size != page.size || text.copies != copies || text.dots != rows.dots {
        return Some(Untrue::OtherPage);
    }
    if claim.height != rows.count() {
        return Some(Untrue::Rows);
    }
    let length = || (text.body_length != claim.node(0, 0, false)).then_some(Untrue::Length);
    wrong_place(claim, &rows).or_else(|| wrong_edge(claim, &rows)).or_else(length)
}

// ---- the numbers of places

fn wrong_place(claim: &Claim, rows: &Rows) -> Option<Untrue> {
    for (at, list) in claim.lists.iter().flatten().enumerate() {
        let (row, method) = (at / 4, at % 4);
        // What was good of a row is good of the next one too, where all is as it was.
        let is_again = |above| rows.row(above) == rows.row(row) && rows.old(method, above) == rows.old(method, row);
        if list.is_empty() || row > 0 && claim.lists.as_ref()?[at - 4] == *list && is_again(row - 1) {
            continue;
        }
        if let Some(place) = wrong_number(method, rows.old(method, row), rows.row(row), list) {
            return Some(Untrue::Place { row, method, place });
        }
    }
    None
}

/// The first place whose number is above what is left of the row may cost.
fn wrong_number(method: usize, old: &[u8], row: &[u8], list: &[u8]) -> Option<usize> {
    let mut numbers: Vec<usize> = numbers_of(list).map(|number| number as usize).collect();
    let count = numbers.len();
    numbers.resize(row.len() + 1, 0);
    // The least of the new bytes of an element of method 3 and the number behind them, by the place where they start.
    let least_new = |start: usize| (1..=8.min(row.len() - start)).map(|new| new + numbers[start + new]).min();
    let fresh: Vec<usize> = (0..row.len()).filter_map(least_new).collect();
    (0..count).find(|&place| {
        let (row, old, behind) = (&row[place..], &old[place..], &numbers[place..]);
        let is_done = row == old;
        numbers[place] > 0 && (is_done || numbers[place] > least_step(method, old, row, behind, &fresh[place..]))
    })
}

/// The least of an element's bytes and the number where it stops, of the elements that agree with the rest of a row. The control 128
/// stops where it began, so it is never less than the number there.
fn least_step(method: usize, old: &[u8], row: &[u8], behind: &[usize], fresh: &[usize]) -> usize {
    let run = row.iter().take_while(|byte| **byte == row[0]).count();
    let repeat = |first, most: usize| behind[first..=run.min(most).max(first - 1)].iter().min().map(|number| number + 2);
    let literal = |count| count + 1 + behind[count];
    let least = match method {
        0 => Some(1 + behind[1]),
        1 => repeat(1, 256),
        2 => (1..=row.len().min(128)).map(literal).chain(repeat(2, 128)).min(),
        _ => {
            let offset = row.iter().zip(old).take_while(|(new, old)| new == old).count();
            (0..=offset).map(|offset| head_length(offset) + fresh[offset]).min()
        }
    };
    least.unwrap()
}

/// The bytes that say an offset of method 3, with the command byte.
fn head_length(offset: usize) -> usize {
    if offset < 31 { 1 } else { 2 + (offset - 31) / 255 }
}

// ---- the numbers of nodes

fn wrong_edge(claim: &Claim, rows: &Rows) -> Option<Untrue> {
    let height = rows.count();
    let lengths = lengths_of(claim, rows);
    let rest = |row, method| claim.node(row, method, false).min(claim.node(row, method, true));
    // For each method and each number of digits, the nodes that skips of as many lead to.
    let mut skips: [[Window; 4]; 4] = Default::default();
    let mut is_white_below = true;
    let mut found = None;
    // The last that is found is the first in the certificate.
    for row in (0..=height).rev() {
        let is_white = row < height && rows.is_white(row);
        is_white_below &= is_white || row == height;
        let switch = (0..4).map(|method| rest(row, method) + u64::from(digits(method as u32)) + 1).min().unwrap();
        for method in (0..4).rev() {
            let mut least = switch;
            for (place, window) in skips[method].iter_mut().enumerate() {
                let digits = place as u32 + 1;
                if is_white {
                    window.add(row + 1, rest(row + 1, method), 10_usize.pow(digits) - 1);
                    least = least.min(u64::from(digits) + 1 + window.least());
                } else {
                    window.0.clear();
                }
            }
            if row < height {
                let length = lengths[row][method];
                least = least.min(u64::from(digits(length) + 1 + length) + claim.node(row + 1, method, false));
            }
            let outside = if is_white_below { 0 } else { 3 + claim.node(row, method, true) };
            for (is_open, least) in [(true, least), (false, outside)] {
                if claim.node(row, method, is_open) > least {
                    found = Some(Untrue::Edge { row, method, is_open });
                }
            }
        }
    }
    found
}

/// The nodes that a skip leads to from a row, nearest first, without those that a nearer one undercuts.
#[derive(Default)]
struct Window(VecDeque<(usize, u64)>);

impl Window {
    /// Adds the node of a row, from which this many rows up can be skipped, and drops those that are further from the row above it.
    fn add(&mut self, row: usize, number: u64, reach: usize) {
        while self.0.front().is_some_and(|(_, nearer)| *nearer >= number) {
            self.0.pop_front();
        }
        self.0.push_front((row, number));
        while self.0.back().is_some_and(|(further, _)| *further >= row + reach) {
            self.0.pop_back();
        }
    }

    fn least(&self) -> u64 {
        self.0[self.0.len() - 1].1
    }
}

/// How many bytes of data each row is counted with, by method.
fn lengths_of(claim: &Claim, rows: &Rows) -> Vec<[u32; 4]> {
    let mut lengths: Vec<[u32; 4]> = Vec::with_capacity(rows.count());
    for row in 0..rows.count() {
        lengths.push(match &claim.lists {
            Some(lists) => std::array::from_fn(|method| numbers_of(lists[4 * row + method]).next().unwrap_or(0)),
            // No data of method 3 repeats the row above.
            None if row > 0 && rows.row(row) == rows.row(row - 1) => {
                let [plain, runs, packed, _] = lengths[row - 1];
                [plain, runs, packed, 0]
            }
            None => std::array::from_fn(|method| linear::least(method as u32, rows.old(method, row), rows.row(row)) as u32),
        });
    }
    lengths
}
