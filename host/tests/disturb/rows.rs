//! Rows of a store's list disturbed after reading, so that the writer meets what no reader lists.

use crate::inputs::Random;

/// The numbers of a row.
const ROW: usize = 6;

pub fn disturbed_rows(rows: &[u64], body: &[u8], random: &mut Random) -> (Vec<u64>, Vec<u8>) {
    let (mut rows, mut body) = (rows.to_vec(), body.to_vec());
    for _ in 0..random.from_to(1, 2) {
        once(&mut rows, &mut body, random);
    }
    (rows, body)
}

fn once(rows: &mut Vec<u64>, body: &mut Vec<u8>, random: &mut Random) {
    let count = rows.len() / ROW;
    if count == 0 {
        let row = [random.below(4) as u64, random.next() >> 30, 0, random.below(3) as u64, 0, 16];
        return rows.extend(&row[..random.from_to(0, ROW)]);
    }
    let row = ROW * random.below(count);
    let length = body.len() as u64;
    match random.below(12) {
        0 => rows[row] = random.pick(&[0, 1, 2, 3, 256, u64::MAX]),
        1 => rows[row + 1] = random.pick(&[0, 0xFFFF_FFFF, 1 << 32, u64::MAX]),
        2 => rows[row + random.pick(&[2, 4])] = random.pick(&[length, length + 1, u64::MAX, 1 << 63, 0]),
        3 => rows[row + random.pick(&[3, 5])] = random.pick(&[0, 15, 16, 17, length, u64::MAX]),
        4 => {
            let place = rows[row + 4];
            rows[row + 5] = random.pick(&[length.wrapping_sub(place), length.wrapping_sub(place).wrapping_add(1)]);
        }
        5 => drop(rows.drain(row..row + ROW)),
        6 => drop(rows.drain(..ROW)),
        7 => rows.truncate(rows.len() - random.from_to(1, ROW)),
        8 => rows.extend(vec![0; random.from_to(1, ROW)]),
        9 => {
            let other = ROW * random.below(count);
            (0..ROW).for_each(|at| rows.swap(row + at, other + at));
        }
        10 => body.truncate(random.below(body.len() + 1)),
        // A body that makes the store just too long, or the longest.
        _ => {
            let more = 65_448_u64.saturating_sub(4 + 37 * count as u64) + random.below(40) as u64;
            rows[row + 4] = length;
            rows[row + 5] = more;
            body.resize(body.len() + 66_000, 0x41);
        }
    }
}
