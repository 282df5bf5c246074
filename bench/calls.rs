// What is timed: the loops of loops.c and the calls of the crate bench_calls. With --cfg c_only the latter are left out.

use crate::plans::Plan;

// Reads the one run and writes the other: all rows of a sheet.
pub type Loop = unsafe extern "C" fn(src: *const u16, dst: *mut u16, plans: *const Plan, rows: usize);

// A slice crosses as a pointer and then a length. Answers 0, or the number of a refusal.
pub type Proved = unsafe extern "C" fn(
    table: *const u8,
    table_len: usize,
    src: *mut u16,
    src_len: usize,
    dst: *mut u16,
    dst_len: usize,
) -> u8;

unsafe extern "C" {
    fn c_divide(src: *const u16, dst: *mut u16, plans: *const Plan, rows: usize);
    fn c_strips(src: *const u16, dst: *mut u16, plans: *const Plan, rows: usize);
    fn c_to_tiles(src: *const u16, dst: *mut u16, plans: *const Plan, rows: usize);
    fn c_from_tiles(src: *const u16, dst: *mut u16, plans: *const Plan, rows: usize);
    fn c_copy(src: *const u16, dst: *mut u16, plans: *const Plan, rows: usize);
    fn clock_gettime(clock: i32, time: *mut [i64; 2]) -> i32;
}

// The spot that a place found, as in the crate bench_calls.
#[repr(C)]
#[derive(Default)]
pub struct Found {
    pub top: u32,
    pub left: u32,
}

#[cfg(not(c_only))]
mod proved {
    use super::Found;

    macro_rules! moving {
        ($($name:ident)*) => {
            unsafe extern "C" {
                $(pub fn $name(t: *const u8, tn: usize, s: *mut u16, sn: usize, d: *mut u16, dn: usize) -> u8;)*
            }
        };
    }
    moving! {
        wichroeb_pack_rows_rows wichroeb_pack_rows_tiles wichroeb_pack_tiles_rows wichroeb_pack_pile_rows
        wichroeb_unpack_rows_rows wichroeb_unpack_rows_tiles wichroeb_unpack_tiles_rows
    }
    unsafe extern "C" {
        pub fn wichroeb_place(table: *const u8, len: usize, rounds: u32, found: *mut Found) -> u8;
        pub fn wichroeb_load(table: *const u8, len: usize, rounds: u32) -> usize;
    }
}

#[derive(Clone, Copy, PartialEq)]
pub enum Way {
    Pack,
    Unpack,
}

// How a run keeps its picture. The half-turned one shows it through a pile that turns it back.
#[derive(Clone, Copy, PartialEq)]
pub enum Kept {
    Rows,
    Tiles,
    HalfTurned,
}

#[derive(Clone, Copy)]
pub enum Call {
    Loop(Loop),
    Proved(Proved),
}

#[derive(Clone, Copy, PartialEq, Debug)]
pub enum Subject {
    Copy,
    Divide,
    Strips,
    Rows,
    ToTilesInC,
    ToTiles,
    FromTilesInC,
    FromTiles,
    Pile,
}

impl Subject {
    pub const ALL: [Subject; 9] = [
        Subject::Copy,
        Subject::Divide,
        Subject::Strips,
        Subject::Rows,
        Subject::ToTilesInC,
        Subject::ToTiles,
        Subject::FromTilesInC,
        Subject::FromTiles,
        Subject::Pile,
    ];

    pub fn name(self) -> &'static str {
        match self {
            Subject::Copy => "memcpy",
            Subject::Divide => "C, two divisions",
            Subject::Strips => "C, table in strips",
            Subject::Rows => "proved, rows to rows",
            Subject::ToTilesInC => "C, rows to tiles",
            Subject::ToTiles => "proved, rows to tiles",
            Subject::FromTilesInC => "C, tiles to rows",
            Subject::FromTiles => "proved, tiles to rows",
            Subject::Pile => "proved, pile to rows",
        }
    }

    pub fn source(self) -> Kept {
        match self {
            Subject::FromTilesInC | Subject::FromTiles => Kept::Tiles,
            Subject::Pile => Kept::HalfTurned,
            _ => Kept::Rows,
        }
    }

    pub fn target(self) -> Kept {
        match self {
            Subject::ToTilesInC | Subject::ToTiles => Kept::Tiles,
            _ => Kept::Rows,
        }
    }

    // None where there is no such call.
    pub fn call(self, way: Way) -> Option<Call> {
        match self {
            Subject::Copy => Some(Call::Loop(c_copy)),
            Subject::Divide => Some(Call::Loop(c_divide)),
            Subject::Strips => Some(Call::Loop(c_strips)),
            Subject::ToTilesInC => Some(Call::Loop(c_to_tiles)),
            Subject::FromTilesInC => Some(Call::Loop(c_from_tiles)),
            _ => self.proved(way).map(Call::Proved),
        }
    }

    #[cfg(not(c_only))]
    fn proved(self, way: Way) -> Option<Proved> {
        use proved::*;
        let (pack, unpack): (Option<Proved>, Option<Proved>) = match self {
            Subject::Rows => (Some(wichroeb_pack_rows_rows), Some(wichroeb_unpack_rows_rows)),
            Subject::ToTiles => (Some(wichroeb_pack_rows_tiles), Some(wichroeb_unpack_rows_tiles)),
            Subject::FromTiles => (Some(wichroeb_pack_tiles_rows), Some(wichroeb_unpack_tiles_rows)),
            Subject::Pile => (Some(wichroeb_pack_pile_rows), None),
            _ => (None, None),
        };
        if way == Way::Pack { pack } else { unpack }
    }

    #[cfg(c_only)]
    fn proved(self, _: Way) -> Option<Proved> {
        None
    }
}

// Loads the box and places a row of 4 by 1 so many times, lifting it each time. None where this is left out.
#[cfg(not(c_only))]
pub fn place(table: &[u8], rounds: u32) -> Option<(u8, Found)> {
    let mut found = Found::default();
    let answer = unsafe { proved::wichroeb_place(table.as_ptr(), table.len(), rounds, &mut found) };
    Some((answer, found))
}

// Loads the box so many times, and answers how many rows the sheet then has. None where this is left out.
#[cfg(not(c_only))]
pub fn load(table: &[u8], rounds: u32) -> Option<usize> {
    Some(unsafe { proved::wichroeb_load(table.as_ptr(), table.len(), rounds) })
}

#[cfg(c_only)]
pub fn place(_: &[u8], _: u32) -> Option<(u8, Found)> {
    None
}

#[cfg(c_only)]
pub fn load(_: &[u8], _: u32) -> Option<usize> {
    None
}

// The CPU time of this thread, in nanoseconds: what other processes do in the meantime does not count.
pub fn cpu_time() -> f64 {
    const THREAD: i32 = 3;
    let mut time = [0; 2];
    assert_eq!(0, unsafe { clock_gettime(THREAD, &mut time) });
    time[0] as f64 * 1e9 + time[1] as f64
}
