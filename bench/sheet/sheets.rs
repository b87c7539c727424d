//! Sheets of 16 MiB.

pub const MOST: usize = 16_777_216;
const MOST_CELLS: u32 = 4_096;

/// How often the root lists the last text: a look-up each.
pub const LISTED: usize = 31;

pub struct Sheet {
    pub name: &'static str,
    pub bytes: Vec<u8>,
    pub finder: Vec<u32>,
    pub root: u32,
}

// ---- records

fn record(kind: u16, body: &[u8]) -> Vec<u8> {
    let mut bytes = ((body.len() + 6) as u32).to_le_bytes().to_vec();
    bytes.extend(kind.to_le_bytes());
    bytes.extend(body);
    bytes
}

fn floats(body: &mut Vec<u8>, values: &[f64]) {
    for value in values {
        body.extend(value.to_le_bytes());
    }
}

pub fn text(n: u32, value: usize) -> Vec<u8> {
    let mut body = vec![1, 0, (n % 7) as u8, 0];
    floats(&mut body, &[n as f64, 0.5 * n as f64]);
    body.resize(body.len() + value, b'a');
    record(2, &body)
}

fn node(n: u32, points: usize) -> Vec<u8> {
    let mut body = vec![2, 0, 0, 0];
    for i in 0..points {
        floats(&mut body, &[n as f64, i as f64]);
    }
    record(3, &body)
}

fn batch(n: u32) -> Vec<u8> {
    let mut body = vec![3, 0, 0, 0];
    body.extend((n % 100).to_le_bytes());
    floats(&mut body, &[0.0, 0.0, n as f64, 1.0]);
    record(1, &body)
}

fn reference(kind: u16, number: u32) -> Vec<u8> {
    let mut body = vec![2, 0, 3, 0, 2, 0];
    body.extend(kind.to_le_bytes());
    body.extend(number.to_le_bytes());
    floats(&mut body, &[1.0, 2.0, 10.0, 0.0, 0.0, 10.0, 1.0, 1.0, 0.0, 0.0, 0.0, 5.0, 5.0]);
    record(4, &body)
}

fn cell(texts: &[u32]) -> Vec<u8> {
    let mut body = vec![1, 0];
    body.extend(7u64.to_le_bytes());
    floats(&mut body, &[0.0, 0.0, 100.0, 100.0]);
    body.extend([0, 0]);
    body.extend((texts.len() as u16).to_le_bytes());
    body.extend([0, 0, 0, 0]);
    for number in texts {
        body.extend(number.to_le_bytes());
    }
    record(5, &body)
}

// ---- sheets

/// Records of one form until the next would pass so many bytes.
pub fn filled(most: usize, mut sheet: Vec<u8>, mut next: impl FnMut(u32) -> Vec<u8>) -> Vec<u8> {
    for n in 0.. {
        let bytes = next(n);
        if sheet.len() + bytes.len() > most {
            break;
        }
        sheet.extend(bytes);
    }
    sheet
}

/// Records of every kind in no regular order, by a fixed sequence of pseudo-random numbers.
fn mixed(most: usize, most_cells: u32) -> Vec<u8> {
    let mut state = 1u64;
    let mut random = move |below: u64| {
        state = state.wrapping_mul(6364136223846793005).wrapping_add(1442695040888963407);
        (state >> 33) % below
    };
    let (mut texts, mut cells) = (0u32, 0u32);
    filled(most, Vec::new(), move |n| match random(100) {
        0..=39 => {
            texts += 1;
            text(n, random(8) as usize)
        }
        40..=64 => node(n, 1 + random(3) as usize),
        65..=89 => batch(n),
        90..=97 if texts > 0 => reference(2, random(texts as u64) as u32),
        _ if cells < most_cells && texts > 0 => {
            cells += 1;
            cell(&[random(texts as u64) as u32, 0])
        }
        _ => batch(n),
    })
}

/// Cells of 1,000 numbers, as many as may be, and texts behind them.
fn long_cells(most: usize, most_cells: u32) -> Vec<u8> {
    let numbers = vec![0; 1000];
    filled(most, text(0, 0), move |n| if n < most_cells { cell(&numbers) } else { text(n, 0) })
}

/// One sheet for each form of records, of at most so many bytes and cells.
fn of_each_form(most: usize, most_cells: u32) -> [(&'static str, Vec<u8>); 6] {
    [
        ("texts of 26 bytes", filled(most, Vec::new(), |n| text(n, 0))),
        ("nodes of 26 bytes", filled(most, Vec::new(), |n| node(n, 1))),
        ("batches of 46 bytes", filled(most, Vec::new(), batch)),
        ("references of 122 bytes", filled(most, text(0, 0), |_| reference(2, 0))),
        ("all kinds mixed", mixed(most, most_cells)),
        ("4,096 cells of 1,000 numbers", long_cells(most, most_cells)),
    ]
}

fn sheet(name: &'static str, bytes: Vec<u8>, root: u32) -> Sheet {
    Sheet { name, finder: vec![0; bytes.len() / 26], bytes, root }
}

pub fn all() -> [Sheet; 6] {
    of_each_form(MOST, MOST_CELLS).map(|(name, bytes)| sheet(name, bytes, 0))
}

/// How many records of a kind a sheet has.
fn count(bytes: &[u8], kind: u16) -> u32 {
    let (mut at, mut found) = (0, 0);
    while at < bytes.len() {
        found += u32::from(bytes[at + 4..at + 6] == kind.to_le_bytes());
        at += u32::from_le_bytes(bytes[at..at + 4].try_into().unwrap()) as usize;
    }
    found
}

/// The same sheets, which end with a text and then a cell that lists it, the root.
pub fn with_the_root_last() -> [Sheet; 6] {
    let end = text(0, 0).len() + cell(&[0; LISTED]).len();
    of_each_form(MOST - end, MOST_CELLS - 1).map(|(name, mut bytes)| {
        let (last_text, root) = (count(&bytes, 2), count(&bytes, 5));
        bytes.extend(text(0, 0));
        bytes.extend(cell(&[last_text; LISTED]));
        sheet(name, bytes, root)
    })
}
