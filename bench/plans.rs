// What the C loops are given: each row of a sheet as one rectangle that is carried onto another.

use crate::sheet::Row;
use crate::sheet::Sheet;

// As in loops.c.
#[repr(C)]
#[derive(Clone, Copy)]
pub struct Course {
    parts: u32,
    side: u32,
    before: u32,
    after: u32,
}

// As in loops.c.
#[repr(C)]
#[derive(Clone, Copy)]
pub struct Plan {
    from_wide: u32,
    from_high: u32,
    to_wide: u32,
    from_x: u32,
    from_y: u32,
    to_x: u32,
    to_y: u32,
    across: Course,
    down: Course,
    crossed: u32,
}

impl Plan {
    // How many samples it writes.
    pub fn samples(&self) -> u64 {
        self.across.parts as u64 * self.down.parts as u64
    }
}

fn exchanged_if<T>(on: bool, (first, second): (T, T)) -> (T, T) {
    if on { (second, first) } else { (first, second) }
}

// Whether a turn mirrors, flips and transposes.
fn motions(turn: u8) -> (bool, bool, bool) {
    (matches!(turn % 4, 1 | 2), matches!(turn % 4, 2 | 3), turn >= 4)
}

fn pack_plan(sheet: &Sheet, row: &Row) -> Plan {
    let (mirrored, flipped, crossed) = motions(row.turn);
    let (along, beside) = exchanged_if(crossed, (row.projected.width, row.projected.height));
    Plan {
        from_wide: sheet.projected.width,
        from_high: sheet.projected.height,
        to_wide: sheet.packed.width,
        from_x: row.projected.left,
        from_y: row.projected.top,
        to_x: row.body.left,
        to_y: row.body.top,
        across: Course { parts: row.body.width, side: along, before: mirrored as u32, after: 0 },
        down: Course { parts: row.body.height, side: beside, before: flipped as u32, after: 0 },
        crossed: crossed as u32,
    }
}

fn unpack_plan(sheet: &Sheet, row: &Row) -> Plan {
    let (mirrored, flipped, crossed) = motions(row.turn);
    let (along, beside) = exchanged_if(crossed, (row.body.width, row.body.height));
    let (along_far, beside_far) = exchanged_if(crossed, (mirrored, flipped));
    Plan {
        from_wide: sheet.packed.width,
        from_high: sheet.packed.height,
        to_wide: sheet.projected.width,
        from_x: row.body.left,
        from_y: row.body.top,
        to_x: row.projected.left,
        to_y: row.projected.top,
        across: Course { parts: row.projected.width, side: along, before: 0, after: along_far as u32 },
        down: Course { parts: row.projected.height, side: beside, before: 0, after: beside_far as u32 },
        crossed: crossed as u32,
    }
}

pub fn pack_plans(sheet: &Sheet) -> Vec<Plan> {
    sheet.rows.iter().map(|row| pack_plan(sheet, row)).collect()
}

pub fn unpack_plans(sheet: &Sheet) -> Vec<Plan> {
    sheet.rows.iter().map(|row| unpack_plan(sheet, row)).collect()
}
