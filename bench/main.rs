// Times pack and unpack of whole sheets against loops in C, and compares every output with the rule.
//
//     bench [ROUNDS]
//
// In each round every subject runs once, one after the other, over the same buffers; the best round counts. It ends with an
// error at the first output that is not what the rule gives.

mod calls;
mod cases;
mod plans;
mod rule;
mod sheet;

use calls::Call;
use calls::Kept;
use calls::Subject;
use calls::Way;
use calls::cpu_time;
use cases::Case;
use plans::Plan;
use sheet::Sides;
use std::process::ExitCode;

// What the written run holds before each call: a sample that is not written has to stay this.
const MARK: u16 = 0xA5A5;

// A sheet to be moved one way, with its source in each way of keeping it, and what has to come out.
struct Job {
    name: String,
    table: Vec<u8>,
    plans: Vec<Plan>,
    rows: Vec<u16>,
    tiles: Vec<u16>,
    half_turned: Vec<u16>,
    wanted_rows: Vec<u16>,
    wanted_tiles: Vec<u16>,
    written: Vec<u16>,
}

// Samples that look random, and are the same in each run.
fn picture(sides: Sides) -> Vec<u16> {
    let numbers = 0..sides.samples() as u32;
    numbers.map(|i| i.wrapping_mul(2654435761).rotate_left(7) as u16).collect()
}

// The same picture in blocks of 8 by 8.
fn tiled(sides: Sides, rows: &[u16]) -> Vec<u16> {
    let (width, height) = (sides.width as usize, sides.height as usize);
    let mut tiles = vec![MARK; width.div_ceil(8) * height.div_ceil(8) * 64];
    for y in 0..height {
        for x in 0..width {
            let block = y / 8 * width.div_ceil(8) + x / 8;
            tiles[block * 64 + y % 8 * 8 + x % 8] = rows[y * width + x];
        }
    }
    tiles
}

impl Job {
    fn new(case: &Case, way: Way) -> Job {
        let sheet = &case.sheet;
        let (word, from, to, origins, plans) = match way {
            Way::Pack => ("pack", sheet.projected, sheet.packed, rule::pack_origins(sheet), plans::pack_plans(sheet)),
            Way::Unpack => ("unpack", sheet.packed, sheet.projected, rule::unpack_origins(sheet), plans::unpack_plans(sheet)),
        };
        let rows = picture(from);
        let taken = |i: &u32| if *i == rule::NOWHERE { MARK } else { rows[*i as usize] };
        let wanted_rows: Vec<u16> = origins.iter().map(taken).collect();
        let wanted_tiles = tiled(to, &wanted_rows);
        Job {
            name: format!("{}: {word}", case.name),
            table: sheet.to_box(),
            plans,
            tiles: tiled(from, &rows),
            // turned by half, a picture has its samples from the last to the first
            half_turned: rows.iter().rev().copied().collect(),
            rows,
            written: vec![MARK; wanted_tiles.len()],
            wanted_rows,
            wanted_tiles,
        }
    }

    // How many samples a call writes.
    fn samples(&self) -> u64 {
        self.plans.iter().map(Plan::samples).sum()
    }

    // A mere copy gives what the rule gives only where the sheet changes nothing.
    fn is_compared(&self, subject: Subject) -> bool {
        subject != Subject::Copy || self.rows == self.wanted_rows
    }

    // Runs a subject, compares what it wrote, and answers its time in nanoseconds.
    fn run(&mut self, subject: Subject, call: Call) -> Result<f64, String> {
        let src = match subject.source() {
            Kept::Rows => &mut self.rows,
            Kept::Tiles => &mut self.tiles,
            Kept::HalfTurned => &mut self.half_turned,
        };
        let wanted = if subject.target() == Kept::Tiles { &self.wanted_tiles } else { &self.wanted_rows };
        let dst = &mut self.written[..wanted.len()];
        dst.fill(MARK);
        let start = cpu_time();
        let answer = match call {
            Call::Loop(f) => {
                unsafe { f(src.as_ptr(), dst.as_mut_ptr(), self.plans.as_ptr(), self.plans.len()) };
                0
            }
            Call::Proved(f) => unsafe {
                let (table, src_at, dst_at) = (&self.table, src.as_mut_ptr(), dst.as_mut_ptr());
                f(table.as_ptr(), table.len(), src_at, src.len(), dst_at, dst.len())
            },
        };
        let took = cpu_time() - start;
        if answer != 0 {
            return Err(format!("{}: {} is refused with {answer}", self.name, subject.name()));
        }
        let dst = &self.written[..wanted.len()];
        if self.is_compared(subject) && dst != wanted.as_slice() {
            let at = dst.iter().zip(wanted).position(|(a, b)| a != b).unwrap();
            return Err(format!("{}: {} wrote a wrong sample at spot {at}", self.name, subject.name()));
        }
        Ok(took)
    }
}

// The best times of a job, in nanoseconds for each sample written, in the order of Subject::ALL.
struct Line {
    name: String,
    samples: u64,
    best: [Option<f64>; Subject::ALL.len()],
}

impl Line {
    fn of(&self, subject: Subject) -> Option<f64> {
        self.best[subject as usize]
    }
}

fn measure(case: &Case, way: Way, rounds: u32) -> Result<Line, String> {
    let mut job = Job::new(case, way);
    let mut best = [None; Subject::ALL.len()];
    for _ in 0..rounds {
        for (subject, best) in Subject::ALL.iter().zip(&mut best) {
            if let Some(call) = subject.call(way) {
                let each = job.run(*subject, call)? / job.samples() as f64;
                *best = Some(best.map_or(each, |b: f64| b.min(each)));
            }
        }
    }
    eprintln!("{}: done", job.name);
    Ok(Line { samples: job.samples(), name: job.name, best })
}

// Small sheets: compared and not timed. A copy would have no line long enough to read.
fn compare_small() -> Result<usize, String> {
    let cases = cases::small();
    for case in &cases {
        for way in [Way::Pack, Way::Unpack] {
            let mut job = Job::new(case, way);
            for subject in Subject::ALL.iter().filter(|s| **s != Subject::Copy) {
                if let Some(call) = subject.call(way) {
                    job.run(*subject, call)?;
                }
            }
        }
    }
    Ok(cases.len())
}

enum Column {
    Time(Subject),
    Ratio(Subject, Subject),
}

impl Column {
    fn cell(&self, line: &Line) -> String {
        let cell = match *self {
            Column::Time(s) => line.of(s).map(|t| format!("{t:.3}")),
            Column::Ratio(s, t) => line.of(s).zip(line.of(t)).map(|(s, t)| format!("{:.2}", s / t)),
        };
        cell.unwrap_or("-".into())
    }
}

const ROWS: &[(&str, Column)] = &[
    ("memcpy", Column::Time(Subject::Copy)),
    ("C, two divisions", Column::Time(Subject::Divide)),
    ("C, table in strips", Column::Time(Subject::Strips)),
    ("proved, rows to rows", Column::Time(Subject::Rows)),
    ("proved / memcpy", Column::Ratio(Subject::Rows, Subject::Copy)),
    ("proved / divisions", Column::Ratio(Subject::Rows, Subject::Divide)),
    ("proved / strips", Column::Ratio(Subject::Rows, Subject::Strips)),
];

const TILES_AND_PILES: &[(&str, Column)] = &[
    ("C, rows to tiles", Column::Time(Subject::ToTilesInC)),
    ("proved, rows to tiles", Column::Time(Subject::ToTiles)),
    ("proved / C", Column::Ratio(Subject::ToTiles, Subject::ToTilesInC)),
    ("C, tiles to rows", Column::Time(Subject::FromTilesInC)),
    ("proved, tiles to rows", Column::Time(Subject::FromTiles)),
    ("proved / C", Column::Ratio(Subject::FromTiles, Subject::FromTilesInC)),
    ("proved, pile to rows", Column::Time(Subject::Pile)),
    ("pile / rows to rows", Column::Ratio(Subject::Pile, Subject::Rows)),
];

fn print_table(lines: &[Line], columns: &[(&str, Column)]) {
    let headings: Vec<&str> = columns.iter().map(|(heading, _)| *heading).collect();
    println!("| ns per sample | samples | {} |", headings.join(" | "));
    println!("|---|---:|{}", "---:|".repeat(columns.len()));
    for line in lines {
        let cells: Vec<String> = columns.iter().map(|(_, column)| column.cell(line)).collect();
        println!("| {} | {} | {} |", line.name, line.samples, cells.join(" | "));
    }
    println!();
}

// The best time of so many repeats, without what the call does before and after them, in microseconds for each.
fn each_repeat(rounds: u32, repeats: u32, mut call: impl FnMut(u32) -> Result<(), String>) -> Result<f64, String> {
    let mut best = [f64::MAX; 2];
    for _ in 0..rounds {
        for (n, best) in [0, repeats].into_iter().zip(&mut best) {
            let start = cpu_time();
            call(n)?;
            *best = best.min(cpu_time() - start);
        }
    }
    Ok((best[1] - best[0]) / repeats as f64 / 1000.0)
}

fn print_place(rounds: u32) -> Result<(), String> {
    let sheet = cases::for_place();
    let table = sheet.to_box();
    let wanted = rule::first_free_below(&sheet, 4);
    if calls::place(&table, 0).is_none() {
        return Ok(());
    }
    let each = each_repeat(rounds, 100, |repeats| match calls::place(&table, repeats) {
        Some((0, found)) if repeats == 0 || wanted == Some((found.top, found.left)) => Ok(()),
        Some((0, found)) => Err(format!("place: found {} {}, and not {wanted:?}", found.top, found.left)),
        answer => Err(format!("place: refused with {:?}", answer.map(|(number, _)| number))),
    })?;
    println!("place on 254 rows, packed picture 65535 x 65535: {each:.1} microseconds");
    Ok(())
}

fn print_load(rounds: u32) -> Result<(), String> {
    let table = cases::for_load().to_box();
    if calls::load(&table, 0).is_none() {
        return Ok(());
    }
    let each = each_repeat(rounds, 100, |repeats| match calls::load(&table, repeats) {
        Some(255) => Ok(()),
        Some(0) if repeats == 0 => Ok(()),
        rows => Err(format!("load: the sheet has {rows:?} rows, and not 255")),
    })?;
    println!("load of a box of 255 rows, {} bytes: {each:.1} microseconds", table.len());
    Ok(())
}

fn bench(rounds: u32) -> Result<(), String> {
    eprintln!("{} small sheets: every output is as the rule says", compare_small()?);
    let mut lines = Vec::new();
    for way in [Way::Pack, Way::Unpack] {
        for case in cases::timed() {
            lines.push(measure(&case, way, rounds)?);
        }
    }
    print_table(&lines, ROWS);
    print_table(&lines, TILES_AND_PILES);
    print_place(rounds)?;
    print_load(rounds)
}

fn main() -> ExitCode {
    let rounds = match std::env::args().nth(1).map_or(Ok(9), |word| word.parse()) {
        Ok(rounds) if rounds > 0 => rounds,
        _ => {
            eprintln!("usage: bench [ROUNDS]");
            return ExitCode::from(2);
        }
    };
    match bench(rounds) {
        Ok(()) => ExitCode::SUCCESS,
        Err(what) => {
            eprintln!("{what}");
            ExitCode::FAILURE
        }
    }
}
