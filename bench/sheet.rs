// A sheet as the harness writes it down: sides and rows, and the bytes of its box.

#[derive(Clone, Copy)]
pub struct Sides {
    pub width: u32,
    pub height: u32,
}

#[derive(Clone, Copy)]
pub struct Rectangle {
    pub width: u32,
    pub height: u32,
    pub top: u32,
    pub left: u32,
}

#[derive(Clone, Copy)]
pub struct Row {
    pub projected: Rectangle,
    pub turn: u8,
    pub body: Rectangle,
    // left, right, top and bottom size
    pub bands: Option<[u8; 4]>,
}

pub struct Sheet {
    pub projected: Sides,
    pub packed: Sides,
    pub rows: Vec<Row>,
}

impl Sides {
    pub fn samples(self) -> usize {
        self.width as usize * self.height as usize
    }
}

impl Rectangle {
    pub fn has(self, x: u32, y: u32) -> bool {
        self.left <= x && x - self.left < self.width && self.top <= y && y - self.top < self.height
    }
}

impl Sheet {
    // The box of the sheet, field by field as docs/FORMAT.md has it.
    pub fn to_box(&self) -> Vec<u8> {
        let mut out = vec![0, 0, 0, 0];
        out.extend(b"rwpk");
        out.extend([0, 0, 0, 0]);
        out.extend([0, u8::try_from(self.rows.len()).unwrap()]);
        put_wide(&mut out, &[self.projected.width, self.projected.height]);
        put_narrow(&mut out, &[self.packed.width, self.packed.height]);
        for row in &self.rows {
            put_row(&mut out, row);
        }
        let size = u32::try_from(out.len()).unwrap();
        out[..4].copy_from_slice(&size.to_be_bytes());
        out
    }
}

fn put_row(out: &mut Vec<u8>, row: &Row) {
    out.push(if row.bands.is_some() { 0x10 } else { 0 });
    let Rectangle { width, height, top, left } = row.projected;
    put_wide(out, &[width, height, top, left]);
    out.push(row.turn * 32);
    let Rectangle { width, height, top, left } = row.body;
    put_narrow(out, &[width, height, top, left]);
    if let Some(sizes) = row.bands {
        out.extend(sizes);
        // prediction flag and kinds
        out.extend([0, 0]);
    }
}

// Fields of four bytes, highest byte first.
fn put_wide(out: &mut Vec<u8>, numbers: &[u32]) {
    for n in numbers {
        out.extend(n.to_be_bytes());
    }
}

// Fields of two bytes, highest byte first.
fn put_narrow(out: &mut Vec<u8>, numbers: &[u32]) {
    for n in numbers {
        out.extend(u16::try_from(*n).unwrap().to_be_bytes());
    }
}
