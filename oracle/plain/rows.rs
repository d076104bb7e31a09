//! Row data: the methods 0 to 3.

/// Writes the row of some data over a seed row; both have the same length.
///
/// It isn't inlined, since its loops are slower among all that performing does.
#[inline(never)]
pub fn decode(method: u32, bytes: &[u8], seed: &[u8], row: &mut [u8]) {
    if method == 3 {
        row.copy_from_slice(seed);
        decode_delta(bytes, row);
        return;
    }
    let used = match method {
        0 => put(row, 0, bytes),
        1 => decode_runs(bytes, row),
        _ => decode_packed(bytes, row),
    };
    row[used..].fill(0);
}

/// Writes bytes at a place; what would go past the row is dropped. Gives the place behind them.
fn put(row: &mut [u8], place: usize, bytes: &[u8]) -> usize {
    let end = (place + bytes.len()).min(row.len());
    row[place..end].copy_from_slice(&bytes[..end - place]);
    end
}

/// Writes a byte this many times.
fn put_run(row: &mut [u8], place: usize, count: usize, byte: u8) -> usize {
    let end = (place + count).min(row.len());
    row[place..end].fill(byte);
    end
}

fn decode_runs(bytes: &[u8], row: &mut [u8]) -> usize {
    let mut place = 0;
    for pair in bytes.chunks_exact(2) {
        place = put_run(row, place, usize::from(pair[0]) + 1, pair[1]);
    }
    place
}

fn decode_packed(mut bytes: &[u8], row: &mut [u8]) -> usize {
    let mut place = 0;
    while let Some((&control, rest)) = bytes.split_first() {
        bytes = rest;
        match control {
            0..=127 => {
                let (literal, behind) = rest.split_at(rest.len().min(usize::from(control) + 1));
                place = put(row, place, literal);
                bytes = behind;
            }
            128 => {}
            129..=255 => {
                let Some((&byte, behind)) = rest.split_first() else {
                    break;
                };
                place = put_run(row, place, 257 - usize::from(control), byte);
                bytes = behind;
            }
        }
    }
    place
}

fn decode_delta(mut bytes: &[u8], row: &mut [u8]) {
    let mut place = 0;
    while let Some((&command, rest)) = bytes.split_first() {
        bytes = rest;
        let mut offset = usize::from(command % 32);
        let mut goes_on = offset == 31;
        while goes_on {
            let Some((&more, behind)) = bytes.split_first() else {
                return;
            };
            offset += usize::from(more);
            goes_on = more == 255;
            bytes = behind;
        }
        place = (place + offset).min(row.len());
        let (fresh, behind) = bytes.split_at(bytes.len().min(usize::from(command / 32) + 1));
        place = put(row, place, fresh);
        bytes = behind;
    }
}
