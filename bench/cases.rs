// The sheets that are timed, small ones that are only compared, and the two full ones for place and load.

use crate::sheet::Rectangle;
use crate::sheet::Row;
use crate::sheet::Sheet;
use crate::sheet::Sides;

pub struct Case {
    pub name: String,
    pub sheet: Sheet,
}

fn by(width: u32, height: u32) -> Sides {
    Sides { width, height }
}

fn rectangle(width: u32, height: u32, top: u32, left: u32) -> Rectangle {
    Rectangle { width, height, top, left }
}

fn row(projected: Rectangle, turn: u8, body: Rectangle) -> Row {
    Row { projected, turn, body, bands: None }
}

// The whole projected picture as one row that fills the packed picture.
fn single(name: &str, projected: Sides, turn: u8, packed: Sides) -> Case {
    let whole = |s: Sides| rectangle(s.width, s.height, 0, 0);
    Case {
        name: format!("{} x {}, {name}", projected.width, projected.height),
        sheet: Sheet { projected, packed, rows: vec![row(whole(projected), turn, whole(packed))] },
    }
}

// The middle at full size, and pieces of the top and the bottom at half width, with the codes 0 to 5.
fn six_rows() -> Case {
    let piece = |top, left| rectangle(2560, 960, top, left);
    let rows = vec![
        row(rectangle(7680, 1920, 960, 0), 0, rectangle(7680, 1920, 0, 0)),
        row(piece(0, 0), 1, rectangle(1280, 960, 1920, 0)),
        row(piece(0, 2560), 2, rectangle(1280, 960, 1920, 1280)),
        row(piece(0, 5120), 3, rectangle(1280, 960, 1920, 2560)),
        row(piece(2880, 0), 4, rectangle(960, 1280, 1920, 3840)),
        row(piece(2880, 2560), 5, rectangle(960, 1280, 1920, 4800)),
    ];
    Case {
        name: "7680 x 3840, six rows, codes 0 to 5".into(),
        sheet: Sheet { projected: by(7680, 3840), packed: by(7680, 3200), rows },
    }
}

// What is timed.
pub fn timed() -> Vec<Case> {
    let (common, wide) = (by(7680, 3840), by(16384, 2048));
    vec![
        single("plain", common, 0, common),
        single("scaled 5:4 and 4:3", common, 0, by(6144, 2880)),
        single("scaled and mirrored, code 1", common, 1, by(6144, 2880)),
        single("quarter turn, code 5", common, 5, by(3840, 7680)),
        six_rows(),
        single("plain", wide, 0, wide),
        single("scaled 4:3", wide, 0, by(12288, 1536)),
    ]
}

// Numbers that are the same in each run.
struct Dice(u64);

impl Dice {
    // A number from low to high, both included.
    fn roll(&mut self, low: u32, high: u32) -> u32 {
        self.0 ^= self.0 << 13;
        self.0 ^= self.0 >> 7;
        self.0 ^= self.0 << 17;
        low + (self.0 >> 33) as u32 % (high - low + 1)
    }

    // A rectangle inside one of these sides that begins at this corner.
    fn inside(&mut self, sides: Sides, top: u32, left: u32) -> Rectangle {
        let (width, height) = (self.roll(1, sides.width), self.roll(1, sides.height));
        let (down, across) = (self.roll(0, sides.height - height), self.roll(0, sides.width - width));
        rectangle(width, height, top + down, left + across)
    }
}

// Small sheets of nine rows of any turn and size, stretched or shrunk, whose projected rectangles share samples: only here
// does it count in which order the rows are unpacked. A body lies anywhere in a square of its own.
pub fn small() -> Vec<Case> {
    let mut dice = Dice(0x9E37_79B9_7F4A_7C15);
    let mut sheet = |n| {
        let projected = by(dice.roll(1, 60), dice.roll(1, 60));
        let square = by(17, 17);
        let rows = (0..9).map(|i| {
            let body = dice.inside(square, i / 3 * 17, i % 3 * 17);
            row(dice.inside(projected, 0, 0), dice.roll(0, 7) as u8, body)
        });
        let rows = rows.collect();
        Case { name: format!("small sheet {n}"), sheet: Sheet { projected, packed: by(51, 51), rows } }
    };
    (0..200).map(|n| sheet(n)).collect()
}

const LONGEST: u32 = 65535;

// 254 rows side by side on the largest packed picture, each a line shorter than the one before, so that a place has to jump
// past all of them.
pub fn for_place() -> Sheet {
    let rows = (0..254).map(|i| row(rectangle(1, 1, 0, 0), 0, rectangle(258, LONGEST - i, 0, 258 * i)));
    Sheet { projected: by(LONGEST, LONGEST), packed: by(LONGEST, LONGEST), rows: rows.collect() }
}

// 255 rows with bands side by side: the longest box that there is, and every claim is held against every other.
pub fn for_load() -> Sheet {
    let rows = (0..255).map(|i| Row {
        projected: rectangle(1, 1, 0, 0),
        turn: 0,
        body: rectangle(255, LONGEST, 0, 257 * i + 1),
        bands: Some([1, 1, 0, 0]),
    });
    Sheet { projected: by(LONGEST, LONGEST), packed: by(LONGEST, LONGEST), rows: rows.collect() }
}
