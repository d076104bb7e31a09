// The least data of rows by each method, in plain Rust over std alone: what bench/coder_bench is timed beside. Its
// arguments are the tables (linear: those that pcl_coders fills, without lanes; tried: each length and each offset
// tried at each place), what is asked (length or data), the method's number, the kind of rows (blank, text, dithered,
// noisy or random) and how often the rows of a page are gone through; it prints how many bytes all rows take.

const ROW_BYTES: usize = 300;
const ROWS: usize = 500;

struct Generator {
    state: u32,
}

impl Generator {
    fn next(&mut self) -> u32 {
        self.state = self.state.wrapping_mul(1_664_525).wrapping_add(1_013_904_223);
        self.state >> 16
    }
}

#[path = "../oracle/plain/linear.rs"]
mod linear;

enum Step {
    Byte,
    Run(usize),
    Literal(usize),
    Repeat(usize),
    Replace(usize, usize),
}

fn run_len(row: &[u8]) -> usize {
    row.iter().take_while(|byte| **byte == row[0]).count()
}

// The length with the least sum of `head` bytes, `each` more a byte, and the number after; the longest or the
// shortest of several.
fn best_len(numbers: &[u16], from: usize, to: usize, head: usize, each: usize, longest: bool) -> (usize, usize) {
    let mut best = (from, head + each * from + numbers[from] as usize);
    for len in from + 1..=to {
        let sum = head + each * len + numbers[len] as usize;
        if sum < best.1 || sum == best.1 && longest {
            best = (len, sum);
        }
    }
    best
}

fn choose(method: u32, old: &[u8], wanted: &[u8], numbers: &[u16]) -> (Step, usize) {
    match method {
        0 => (Step::Byte, 1 + numbers[1] as usize),
        1 => {
            let (len, sum) = best_len(numbers, 1, run_len(wanted).min(256), 2, 0, true);
            (Step::Run(len), sum)
        }
        2 => {
            let literal = best_len(numbers, 1, wanted.len().min(128), 1, 1, true);
            let longest = run_len(wanted).min(128);
            if longest >= 2 {
                let repeat = best_len(numbers, 2, longest, 2, 0, true);
                if repeat.1 < literal.1 || repeat.1 == literal.1 && repeat.0 >= literal.0 {
                    return (Step::Repeat(repeat.0), repeat.1);
                }
            }
            (Step::Literal(literal.0), literal.1)
        }
        _ => {
            let same = old.iter().zip(wanted).take_while(|(a, b)| a == b).count().min(wanted.len() - 1);
            let mut best = (Step::Byte, usize::MAX);
            for offset in 0..=same {
                let head = if offset < 31 { 1 } else { 2 + (offset - 31) / 255 };
                let most = (wanted.len() - offset).min(8);
                let (len, sum) = best_len(&numbers[offset..], 1, most, head, 1, false);
                if sum <= best.1 {
                    best = (Step::Replace(offset, len), sum);
                }
            }
            best
        }
    }
}

fn fill(method: u32, old: &[u8], row: &[u8], numbers: &mut [u16]) {
    numbers[row.len()] = 0;
    let mut is_end = true;
    for place in (0..row.len()).rev() {
        is_end = is_end && row[place] == old[place];
        numbers[place] = if is_end {
            0
        } else {
            choose(method, &old[place..], &row[place..], &numbers[place..]).1 as u16
        };
    }
}

fn write(linear: bool, method: u32, seed: &[u8], row: &[u8], out: &mut Vec<u8>) {
    let zeros = [0u8; ROW_BYTES];
    let old = if method == 3 { seed } else { &zeros[..] };
    if linear {
        return linear::write(method, old, row, out);
    }
    let mut numbers = [0u16; ROW_BYTES + 1];
    fill(method, old, row, &mut numbers);
    let mut place = 0;
    while numbers[place] > 0 {
        let wanted = &row[place..];
        match choose(method, &old[place..], wanted, &numbers[place..]).0 {
            Step::Byte => {
                out.push(wanted[0]);
                place += 1;
            }
            Step::Run(len) => {
                out.extend([(len - 1) as u8, wanted[0]]);
                place += len;
            }
            Step::Literal(len) => {
                out.push((len - 1) as u8);
                out.extend_from_slice(&wanted[..len]);
                place += len;
            }
            Step::Repeat(len) => {
                out.extend([(257 - len) as u8, wanted[0]]);
                place += len;
            }
            Step::Replace(offset, len) => {
                let count = 32 * (len - 1) as u8;
                if offset < 31 {
                    out.push(count + offset as u8);
                } else {
                    out.push(count + 31);
                    out.extend(std::iter::repeat_n(255, (offset - 31) / 255));
                    out.push(((offset - 31) % 255) as u8);
                }
                out.extend_from_slice(&wanted[offset..offset + len]);
                place += offset + len;
            }
        }
    }
}

fn next_row(kind: &str, generator: &mut Generator, y: usize, row: &mut [u8]) {
    match kind {
        "blank" => {}
        "text" => {
            for _ in 0..4 {
                let start = generator.next() as usize % ROW_BYTES;
                let ink = if generator.next() % 2 == 0 { 0 } else { 0x3C };
                row.iter_mut().skip(start).take(3).for_each(|byte| *byte = ink);
            }
        }
        "dithered" => row.iter_mut().enumerate().for_each(|(x, byte)| *byte = dithered_byte(x, y)),
        "noisy" => row
            .iter_mut()
            .for_each(|byte| *byte = if generator.next() % 8 == 0 { 0x55 } else { 0xAA }),
        _ => row.iter_mut().for_each(|byte| *byte = generator.next() as u8),
    }
}

// A byte of an ordered dither of eight by eight dots.
fn dithered_byte(x: usize, y: usize) -> u8 {
    const THRESHOLDS: [[u8; 8]; 8] = [
        [0, 32, 8, 40, 2, 34, 10, 42],
        [48, 16, 56, 24, 50, 18, 58, 26],
        [12, 44, 4, 36, 14, 46, 6, 38],
        [60, 28, 52, 20, 62, 30, 54, 22],
        [3, 35, 11, 43, 1, 33, 9, 41],
        [51, 19, 59, 27, 49, 17, 57, 25],
        [15, 47, 7, 39, 13, 45, 5, 37],
        [63, 31, 55, 23, 61, 29, 53, 21],
    ];
    let gray = ((x + y) / 5 % 64) as u8;
    THRESHOLDS[y % 8].iter().fold(0, |byte, threshold| byte << 1 | u8::from(gray > *threshold))
}

fn main() {
    let words: Vec<String> = std::env::args().collect();
    let linear = words[1] == "linear";
    let method: u32 = words[3].parse().unwrap();
    let times: u32 = words[5].parse().unwrap();
    let mut generator = Generator { state: 1 };
    let mut page = Vec::new();
    let mut row = [0u8; ROW_BYTES];
    for y in 0..ROWS {
        next_row(&words[4], &mut generator, y, &mut row);
        page.extend_from_slice(&row);
    }
    let zeros = [0u8; ROW_BYTES];
    let mut data = Vec::new();
    let mut total = 0u64;
    for _ in 0..times {
        let mut seed = &zeros[..];
        for row in page.chunks_exact(ROW_BYTES) {
            let bytes = if words[2] == "length" {
                let old = if method == 3 { seed } else { &zeros[..] };
                if linear {
                    linear::least(method, old, row)
                } else {
                    let mut numbers = [0u16; ROW_BYTES + 1];
                    fill(method, old, row, &mut numbers);
                    numbers[0] as usize
                }
            } else {
                data.clear();
                write(linear, method, seed, row, &mut data);
                data.len()
            };
            total += bytes as u64;
            seed = row;
        }
    }
    println!("{total}");
}
