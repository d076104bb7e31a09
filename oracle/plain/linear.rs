//! The least data of rows by each method, in time linear in the row, in plain Rust over std alone and without lanes:
//! what the coders and the whole program are timed beside. `old` is the row before its data comes, zeros but for method
//! 3, which has the row above.

use std::collections::VecDeque;

pub const MOST_BYTES: usize = 600;

/// The first place from which no more data is needed.
pub fn needed_len(method: u32, old: &[u8], row: &[u8]) -> usize {
    let kept = if method == 3 {
        if old == row {
            return 0;
        }
        row.iter().rev().zip(old.iter().rev()).take_while(|(a, b)| a == b).count()
    } else {
        row.iter().rev().take_while(|byte| **byte == 0).count()
    };
    row.len() - kept
}

/// How many bytes the least data has.
pub fn least(method: u32, old: &[u8], row: &[u8]) -> usize {
    let end = needed_len(method, old, row);
    if end == 0 || method == 0 {
        return end;
    }
    let mut numbers = [0u16; MOST_BYTES + 1];
    fill_before(method, old, row, end, &mut numbers);
    numbers[0] as usize
}

/// How many bytes the least data has from each place on, up to the first that needs none.
pub fn numbers(method: u32, old: &[u8], row: &[u8]) -> Vec<u16> {
    if old == row {
        return Vec::new();
    }
    let end = needed_len(method, old, row);
    let mut numbers = vec![0; row.len() + 1];
    fill_before(method, old, row, end, &mut numbers);
    numbers.truncate(end);
    numbers
}

/// Appends the least data: of methods 1 and 2 by the longest elements, of method 3 by the latest starts.
pub fn write(method: u32, old: &[u8], row: &[u8], out: &mut Vec<u8>) {
    let end = needed_len(method, old, row);
    if end == 0 || method == 0 {
        out.extend_from_slice(&row[..end]);
        return;
    }
    let mut numbers = [0u16; MOST_BYTES + 1];
    fill_before(method, old, row, end, &mut numbers);
    let mut place = 0;
    while numbers[place] > 0 {
        place += match method {
            1 => write_run(&row[place..], out),
            2 => write_packed(&row[place..], &numbers[place..], out),
            _ => write_delta(&old[place..], &row[place..], &numbers[place..], out),
        };
    }
}

fn run_len(row: &[u8], most: usize) -> usize {
    row.iter().take(most).take_while(|byte| **byte == row[0]).count()
}

fn write_run(row: &[u8], out: &mut Vec<u8>) -> usize {
    let len = run_len(row, 256);
    out.extend([(len - 1) as u8, row[0]]);
    len
}

fn write_packed(row: &[u8], numbers: &[u16], out: &mut Vec<u8>) -> usize {
    let run = run_len(row, 128);
    let is_repeat = run >= 2 && numbers[run] + 2 == numbers[0];
    let literal = (1..=row.len().min(128)).rev().find(|len| numbers[*len] as usize + 1 + len == numbers[0] as usize);
    match literal {
        Some(len) if !is_repeat || run < len => {
            out.push((len - 1) as u8);
            out.extend_from_slice(&row[..len]);
            len
        }
        _ => {
            out.extend([(257 - run) as u8, row[0]]);
            run
        }
    }
}

fn write_delta(old: &[u8], row: &[u8], numbers: &[u16], out: &mut Vec<u8>) -> usize {
    let offset = old.iter().zip(row).take_while(|(a, b)| a == b).count();
    let most = (row.len() - offset).min(8);
    let len = (1..=most).min_by_key(|len| len + numbers[offset + len] as usize).unwrap();
    let count = 32 * (len - 1) as u8;
    if offset < 31 {
        out.push(count + offset as u8);
    } else {
        out.push(count + 31);
        out.extend(std::iter::repeat_n(255, (offset - 31) / 255));
        out.push(((offset - 31) % 255) as u8);
    }
    out.extend_from_slice(&row[offset..offset + len]);
    offset + len
}

fn fill_before(method: u32, old: &[u8], row: &[u8], end: usize, numbers: &mut [u16]) {
    numbers[end..].fill(0);
    match method {
        0 => (0..end).rev().for_each(|place| numbers[place] = numbers[place + 1] + 1),
        1 => fill_runs(row, end, numbers),
        2 => fill_packed(row, end, numbers),
        _ => fill_delta(old, row, end, numbers),
    }
}

fn fill_runs(row: &[u8], end: usize, numbers: &mut [u16]) {
    let mut run_end = end;
    for place in (0..end).rev() {
        if place + 1 < end && row[place] != row[place + 1] {
            run_end = place + 1;
        }
        numbers[place] = numbers[run_end.min(place + 256)] + 2;
    }
}

fn fill_packed(row: &[u8], end: usize, numbers: &mut [u16]) {
    let mut window: VecDeque<(usize, usize)> = VecDeque::with_capacity(129);
    let mut run_end = end;
    for place in (0..end).rev() {
        let number = place + 1 + numbers[place + 1] as usize;
        while window.back().is_some_and(|(_, last)| *last >= number) {
            window.pop_back();
        }
        window.push_back((place + 1, number));
        if window[0].0 > place + 128 {
            window.pop_front();
        }
        if place + 1 < end && row[place] != row[place + 1] {
            run_end = place + 1;
        }
        let mut number = window[0].1 + 1 - place;
        if run_end > place + 1 {
            number = number.min(numbers[run_end.min(place + 128)] as usize + 2);
        }
        numbers[place] = number as u16;
    }
}

fn fill_delta(old: &[u8], row: &[u8], end: usize, numbers: &mut [u16]) {
    let mut start = end;
    let mut best = 0;
    for place in (0..end).rev() {
        if old[place] != row[place] {
            start = place;
            let most = (row.len() - place).min(8);
            best = (1..=most).map(|len| len + numbers[place + len] as usize).min().unwrap();
        }
        let offset = start - place;
        let head = if offset < 31 { 1 } else { 2 + (offset - 31) / 255 };
        numbers[place] = (head + best) as u16;
    }
}
