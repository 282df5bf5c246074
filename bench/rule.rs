// The rule, place by place: where each place that is written takes its sample from. Written from docs/RULES.md alone, by
// another road than the plans of the C loops, so that the two can be compared.

use crate::sheet::Row;
use crate::sheet::Sheet;
use crate::sheet::Sides;

// What stands for a place that is not written.
pub const NOWHERE: u32 = u32::MAX;

// The field's place (k, m) of a body's place (x, y).
fn turned(turn: u8, w: u64, h: u64, x: u64, y: u64) -> (u64, u64) {
    match turn {
        0 => (x, y),
        1 => (w - 1 - x, y),
        2 => (w - 1 - x, h - 1 - y),
        3 => (x, h - 1 - y),
        4 => (y, x),
        5 => (y, w - 1 - x),
        6 => (h - 1 - y, w - 1 - x),
        _ => (h - 1 - y, x),
    }
}

// The body's place (x, y) of a field's place (k, m).
fn unturned(turn: u8, w: u64, h: u64, k: u64, m: u64) -> (u64, u64) {
    match turn {
        0 => (k, m),
        1 => (w - 1 - k, m),
        2 => (w - 1 - k, h - 1 - m),
        3 => (k, h - 1 - m),
        4 => (m, k),
        5 => (w - 1 - m, k),
        6 => (w - 1 - m, h - 1 - k),
        _ => (m, h - 1 - k),
    }
}

// How far the field goes across and down.
fn field(row: &Row) -> (u64, u64) {
    let (w, h) = (row.body.width as u64, row.body.height as u64);
    if row.turn < 4 { (w, h) } else { (h, w) }
}

// The centre sample, in the projected picture, of a place of the row's body: the whole parts of its position.
fn centre_sample(row: &Row, x: u32, y: u32) -> (u64, u64) {
    let (a, d) = field(row);
    let (k, m) = turned(row.turn, row.body.width as u64, row.body.height as u64, x as u64, y as u64);
    let p = row.projected;
    (
        (2 * a * p.left as u64 + (2 * k + 1) * p.width as u64) / (2 * a),
        (2 * d * p.top as u64 + (2 * m + 1) * p.height as u64) / (2 * d),
    )
}

// The place of the row's body that serves a projected place, in the packed picture. The turn is undone last.
fn served(row: &Row, x: u32, y: u32) -> (u64, u64) {
    let (a, d) = field(row);
    let p = row.projected;
    let k = (2 * (x - p.left) as u64 + 1) * a / (2 * p.width as u64);
    let m = (2 * (y - p.top) as u64 + 1) * d / (2 * p.height as u64);
    let (bx, by) = unturned(row.turn, row.body.width as u64, row.body.height as u64, k, m);
    (row.body.left as u64 + bx, row.body.top as u64 + by)
}

fn spot(sides: Sides, x: u64, y: u64) -> u32 {
    u32::try_from(y * sides.width as u64 + x).unwrap()
}

// For each packed place, row by row, the projected place that pack reads for it.
pub fn pack_origins(sheet: &Sheet) -> Vec<u32> {
    let mut origins = vec![NOWHERE; sheet.packed.samples()];
    for row in &sheet.rows {
        for y in 0..row.body.height {
            for x in 0..row.body.width {
                let (px, py) = centre_sample(row, x, y);
                let to = spot(sheet.packed, (row.body.left + x) as u64, (row.body.top + y) as u64);
                origins[to as usize] = spot(sheet.projected, px, py);
            }
        }
    }
    origins
}

// For each projected place, row by row, the packed place that unpack reads for it: that of the lowest-numbered row that
// covers it.
pub fn unpack_origins(sheet: &Sheet) -> Vec<u32> {
    let mut origins = vec![NOWHERE; sheet.projected.samples()];
    for y in 0..sheet.projected.height {
        for x in 0..sheet.projected.width {
            if let Some(row) = sheet.rows.iter().find(|r| r.projected.has(x, y)) {
                let (px, py) = served(row, x, y);
                origins[spot(sheet.projected, x as u64, y as u64) as usize] = spot(sheet.packed, px, py);
            }
        }
    }
    origins
}

// The highest free spot, and the leftmost of those, for a claim this wide and one high, where every claim of the sheet
// begins at the top: column by column, below the longest claim that it would meet.
pub fn first_free_below(sheet: &Sheet, wide: u32) -> Option<(u32, u32)> {
    let mut bottoms = vec![0; sheet.packed.width as usize];
    for row in &sheet.rows {
        assert!(row.body.top == 0 && row.bands.is_none());
        for x in row.body.left..row.body.left + row.body.width {
            bottoms[x as usize] = row.body.height;
        }
    }
    let lefts = bottoms.windows(wide as usize).enumerate();
    let spots = lefts.map(|(left, under)| (*under.iter().max().unwrap(), left as u32));
    spots.filter(|(top, _)| *top < sheet.packed.height).min()
}
