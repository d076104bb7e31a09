//! What `pclmin pbm`, `pclmin min` and `pclmin check` do, written plainly over std alone: to compare their speed and memory with,
//! and their answers.
//!
//!     plain pbm --page N [--dpi 300|600] [--drivers] < job.pcl > page.pbm
//!     plain min [--dpi 300|600] [--drivers] < job.pcl > written.pcl
//!     plain cert [--format 1|2] [--dpi 300|600] < job.pcl > certificate
//!     plain check [--dpi 300|600] IN OUT CERT
//!     plain names [--drivers] < job.pcl
//!     plain jobs < requests > answers
//!
//! Status 0: the page, the job or its certificate was written, or the output is proved. 1: it isn't, the job is refused, or has no
//! such page. 2: usage. 3: reading or writing failed. A fault is the line that `pclmin` has for it. What a job means is in
//! docs/LANGUAGE.md, how it is written again in docs/OUTPUT.md, and what a certificate is in docs/CERTIFICATE.md. With
//! `--drivers` a job is read by the drivers' profile. `names` writes the names of the commands that are read, each on a line, and
//! doesn't perform them.
//!
//! `jobs` answers one request after the other. A request is a line of the words of a command line, as above, and the
//! number of the job's bytes, with the job behind it; of `check` it has the numbers of bytes of all three in place of their names.
//! Its answer is a line of the status, the number of the job's pages for `pbm` and `min`, the numbers of bytes for standard
//! output, of zeros that are left out at their end, and of bytes for standard error, with both behind it. Requests may be sent
//! before earlier ones are answered.

mod bitmap;
mod certificates;
mod checking;
mod commands;
mod fonts;
mod linear;
mod macros;
mod performing;
mod plan;
mod raster;
mod reading;
mod refusals;
mod rows;
mod settings;
mod texts;

use checking::Verdict;
use commands::Profile;
use performing::{Done, Task, perform};
use refusals::Refusal;
use std::fmt;
use std::io::{self, BufRead, Read, Write};
use std::process::ExitCode;

const USAGE: &str = "usage: plain pbm --page N [--dpi 300|600] [--drivers], plain min [--dpi 300|600] [--drivers], \
                     plain cert [--format 1|2] [--dpi 300|600], plain check [--dpi 300|600] IN OUT CERT, plain names [--drivers], or plain jobs";
const USAGE_STATUS: u8 = 2;

fn main() -> ExitCode {
    let words: Vec<String> = std::env::args().skip(1).collect();
    if words == ["jobs"] {
        return match answer_requests(&mut io::stdin().lock(), &mut io::stdout().lock()) {
            Ok(()) => ExitCode::SUCCESS,
            Err(error) => {
                eprintln!("{error}");
                ExitCode::from(3)
            }
        };
    }
    let words: Vec<&str> = words.iter().map(String::as_str).collect();
    let Some((order, files)) = Order::of(&words).filter(|(order, files)| files.len() == order.files()) else {
        eprintln!("{USAGE}");
        return ExitCode::from(USAGE_STATUS);
    };
    match run(order, files) {
        Ok(()) => ExitCode::SUCCESS,
        Err(fault) => {
            eprint!("{fault}");
            ExitCode::from(fault.status())
        }
    }
}

/// What is to be done with a job.
#[derive(Clone, Copy)]
enum Order {
    Preview { page: usize, dpi: u32, profile: Profile },
    Rewrite { dpi: u32, profile: Profile },
    Certify { has_lists: bool, dpi: u32 },
    Check { dpi: u32 },
    Name { profile: Profile },
}

/// What came of a job that isn't refused.
enum Made<'a> {
    Pages(Done<'a>),
    Bytes(Vec<u8>),
    Verdict(Verdict),
}

impl Order {
    /// The order of some words, and the words behind it.
    fn of<'a, 'b>(words: &'b [&'a str]) -> Option<(Order, &'b [&'a str])> {
        let (name, mut words) = words.split_first()?;
        let (mut page, mut format, mut dpi, mut profile) = (None, 1, 300, Profile::Stated);
        while let [option, behind @ ..] = words
            && option.starts_with("--")
        {
            if let ("--drivers", "pbm" | "min" | "names") = (*option, *name) {
                (profile, words) = (Profile::Drivers, behind);
                continue;
            }
            let (number, behind) = behind.split_first()?;
            words = behind;
            match (*option, number.parse().ok()?, *name) {
                ("--page", number @ 1..=256, "pbm") => page = Some(number as usize),
                ("--format", number @ 1..=2, "cert") => format = number,
                ("--dpi", number @ (300 | 600), "pbm" | "min" | "cert" | "check") => dpi = number,
                _ => return None,
            }
        }
        let order = match *name {
            "pbm" => {
                let page = page?;
                Order::Preview { page, dpi, profile }
            }
            "min" => Order::Rewrite { dpi, profile },
            "cert" => {
                let has_lists = format == 2;
                Order::Certify { has_lists, dpi }
            }
            "check" => Order::Check { dpi },
            "names" => Order::Name { profile },
            _ => return None,
        };
        Some((order, words))
    }

    /// How many files are named; a job that isn't comes from standard input.
    fn files(self) -> usize {
        if let Order::Check { .. } = self { 3 } else { 0 }
    }

    fn follow(self, inputs: &[Vec<u8>]) -> Result<Made<'_>, Refusal> {
        let job = &inputs[0];
        Ok(match self {
            Order::Preview { page: wanted, dpi, profile } => {
                let task = Task::Preview { wanted, kept: None };
                Made::Pages(perform(job, task, dpi, profile)?)
            }
            Order::Rewrite { dpi, profile } => Made::Pages(perform(job, Task::Rewrite(b"\x1bE".to_vec()), dpi, profile)?),
            Order::Certify { has_lists, dpi } => Made::Bytes(certificates::write(job, has_lists, dpi)?),
            Order::Check { dpi } => Made::Verdict(checking::check(job, &inputs[1], &inputs[2], dpi)?),
            Order::Name { profile } => Made::Bytes(reading::names(job, profile)?.into_bytes()),
        })
    }
}

/// Why nothing is written, or why what is written is a no; it prints as a line, or as nothing where all is said.
enum Fault {
    Refused(Refusal),
    NoPage(usize),
    NotProved,
    CannotRead,
    CannotWrite,
}

impl Fault {
    fn status(&self) -> u8 {
        match self {
            Fault::Refused(_) | Fault::NoPage(_) | Fault::NotProved => 1,
            Fault::CannotRead | Fault::CannotWrite => 3,
        }
    }
}

impl fmt::Display for Fault {
    fn fmt(&self, out: &mut fmt::Formatter) -> fmt::Result {
        match self {
            Fault::Refused(refusal) => writeln!(out, "pclmin: refused: {refusal}"),
            Fault::NoPage(page) => writeln!(out, "pclmin: no page {page}"),
            Fault::NotProved => Ok(()),
            Fault::CannotRead => writeln!(out, "pclmin: cannot read"),
            Fault::CannotWrite => writeln!(out, "pclmin: cannot write"),
        }
    }
}

fn run(order: Order, files: &[&str]) -> Result<(), Fault> {
    let read: io::Result<Vec<Vec<u8>>> = if files.is_empty() {
        let mut job = Vec::new();
        io::stdin().lock().read_to_end(&mut job).map(|_| vec![job])
    } else {
        files.iter().map(std::fs::read).collect()
    };
    let inputs = read.map_err(|_| Fault::CannotRead)?;
    let made = order.follow(&inputs).map_err(Fault::Refused)?;
    write(made, &mut io::stdout().lock())
}

/// Writes what was made.
fn write(made: Made, out: &mut impl Write) -> Result<(), Fault> {
    let verdict = match made {
        Made::Pages(done) => return write_pages(done.task, out),
        Made::Bytes(bytes) => return out.write_all(&bytes).and_then(|()| out.flush()).map_err(|_| Fault::CannotWrite),
        Made::Verdict(verdict) => verdict,
    };
    write!(out, "{verdict}").map_err(|_| Fault::CannotWrite)?;
    match verdict {
        Verdict::Proved => Ok(()),
        _ => Err(Fault::NotProved),
    }
}

/// Writes the page that was asked for, or the job.
fn write_pages(task: Task, out: &mut impl Write) -> Result<(), Fault> {
    let written = match task {
        Task::Preview { wanted, kept: None } => return Err(Fault::NoPage(wanted)),
        Task::Preview { kept: Some(bitmap), .. } => bitmap.write(out),
        Task::Rewrite(mut text) => {
            text.extend_from_slice(b"\x1bE");
            out.write_all(&text).and_then(|()| out.flush())
        }
        Task::Visit(_) => Ok(()),
    };
    written.map_err(|_| Fault::CannotWrite)
}

/// Answers requests up to the end of the input.
fn answer_requests(requests: &mut impl BufRead, answers: &mut impl Write) -> io::Result<()> {
    let mut line = String::new();
    while requests.read_line(&mut line)? > 0 {
        let wrong = || io::Error::new(io::ErrorKind::InvalidData, format!("{line:?} is no request"));
        let words: Vec<&str> = line.split_whitespace().collect();
        let (order, lengths) = Order::of(&words).ok_or_else(wrong)?;
        if lengths.len() != order.files().max(1) {
            return Err(wrong());
        }
        let mut inputs = Vec::new();
        for length in lengths {
            let mut input = vec![0; length.parse().map_err(|_| wrong())?];
            requests.read_exact(&mut input)?;
            inputs.push(input);
        }
        answer(order, &inputs, answers)?;
        line.clear();
    }
    Ok(())
}

fn answer(order: Order, inputs: &[Vec<u8>], answers: &mut impl Write) -> io::Result<()> {
    let mut out = Vec::new();
    let (pages, outcome) = match order.follow(inputs) {
        Ok(made) => {
            let pages = if let Made::Pages(done) = &made { done.pages } else { 0 };
            (pages, write(made, &mut out))
        }
        Err(refusal) => (0, Err(Fault::Refused(refusal))),
    };
    let (status, said) = match outcome {
        Ok(()) => (0, String::new()),
        Err(fault) => (fault.status(), fault.to_string()),
    };
    let zeros = out.iter().rev().take_while(|byte| **byte == 0).count();
    out.truncate(out.len() - zeros);
    writeln!(answers, "{status} {pages} {} {zeros} {}", out.len(), said.len())?;
    answers.write_all(&out)?;
    answers.write_all(said.as_bytes())?;
    answers.flush()
}
