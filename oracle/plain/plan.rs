//! The least body of a page, by the plan that docs/OUTPUT.md tells of, in plain Rust over std alone.

use crate::linear;

/// The numbers of the nodes behind the same rows, by method: outside a sequence, and inside one.
#[derive(Clone, Copy)]
pub struct Numbers {
    pub outside: [u32; 4],
    pub inside: [u32; 4],
}

impl Numbers {
    const END: Numbers = Numbers {
        outside: [0; 4],
        inside: [1; 4],
    };

    fn rest(&self, method: usize) -> u32 {
        self.outside[method].min(self.inside[method])
    }
}

/// The rows of a page, with zeros above the topmost one.
pub struct Rows<'a> {
    pub dots: &'a [u8],
    width: usize,
    zeros: Vec<u8>,
}

impl<'a> Rows<'a> {
    /// Rows of this many bytes.
    pub fn new(dots: &'a [u8], width: usize) -> Rows<'a> {
        let zeros = vec![0; width];
        Rows { dots, width, zeros }
    }

    pub fn count(&self) -> usize {
        self.dots.len() / self.width
    }

    pub fn row(&self, y: usize) -> &[u8] {
        &self.dots[y * self.width..][..self.width]
    }

    /// The row before its data comes.
    pub fn old(&self, method: usize, y: usize) -> &[u8] {
        if method == 3 && y > 0 {
            self.row(y - 1)
        } else {
            &self.zeros
        }
    }

    pub fn is_white(&self, y: usize) -> bool {
        self.row(y) == self.zeros
    }

    fn least(&self, method: usize, y: usize) -> u32 {
        linear::least(method as u32, self.old(method, y), self.row(y)) as u32
    }
}

pub fn digits(number: u32) -> u32 {
    match number {
        0 => 0,
        1..=9 => 1,
        10..=99 => 2,
        100..=999 => 3,
        1000..=9999 => 4,
        _ => 5,
    }
}

/// Appends the body of a page.
pub fn append_body(rows: &Rows, text: &mut Vec<u8>) {
    let table = table_of(rows);
    let (mut y, mut method, mut is_open) = (0, 0, false);
    while table[y].outside[method] > 0 {
        if !is_open {
            text.extend_from_slice(b"\x1b*b");
        }
        let least = table[y].inside[method];
        let run = (y..rows.count()).take_while(|row| rows.is_white(*row)).count();
        let (number, letter) = if let Some((_, skipped)) = least_skip(&table, y, method, run).filter(|skip| skip.0 == least) {
            y += skipped;
            (skipped as u32, b'Y')
        } else {
            let bytes = rows.least(method, y);
            if digits(bytes) + 1 + bytes + table[y + 1].outside[method] == least {
                append_number(bytes, text);
                text.push(b'W');
                linear::write(method as u32, rows.old(method, y), rows.row(y), text);
                y += 1;
                is_open = false;
                continue;
            }
            method = (0..4).find(|next| digits(*next as u32) + 1 + table[y].rest(*next) == least).unwrap();
            (method as u32, b'M')
        };
        append_number(number, text);
        is_open = table[y].outside[method] > 0;
        text.push(if is_open { letter + 32 } else { letter });
    }
}

fn append_number(number: u32, text: &mut Vec<u8>) {
    if number > 0 {
        text.extend_from_slice(number.to_string().as_bytes());
    }
}

/// The numbers of all nodes, from behind the last row upwards.
pub fn table_of(rows: &Rows) -> Vec<Numbers> {
    let count = rows.count();
    let mut table = vec![Numbers::END; count + 1];
    let mut run = 0;
    for y in (0..count).rev() {
        run = if rows.is_white(y) { run + 1 } else { 0 };
        if y + run == count {
            continue;
        }
        let direct: [u32; 4] = std::array::from_fn(|method| {
            let bytes = rows.least(method, y);
            let sent = digits(bytes) + 1 + bytes + table[y + 1].outside[method];
            least_skip(&table, y, method, run).map_or(sent, |skip| skip.0.min(sent))
        });
        let switched = (direct[0] + 1).min(direct[1].min(direct[2]).min(direct[3]) + 2);
        let inside = direct.map(|number| number.min(switched));
        table[y] = Numbers {
            outside: inside.map(|number| number + 3),
            inside,
        };
    }
    table
}

/// The skip of some of `run` rows that costs least, the longest of several: its cost with all behind it, and the rows.
fn least_skip(table: &[Numbers], y: usize, method: usize, run: usize) -> Option<(u32, usize)> {
    [run, 999, 99, 9]
        .into_iter()
        .map(|most| run.min(most))
        .filter(|count| *count > 0)
        .map(|count| (digits(count as u32) + 1 + table[y + count].rest(method), count))
        .min_by_key(|skip| skip.0)
}
