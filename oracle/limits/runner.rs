//! Runs one change of the translated code against everything that is stored, and prints the kind and the name of the first case
//! that sees it, or `none`.
//!
//!     trial REPOSITORY LARGE CHANGE CALL [quick]
//!         LARGE: the folder of the large cases' inputs; CALL: the call for which the change is made, 0 for every one;
//!         quick: without the large cases
//!     trial REPOSITORY LARGE inputs FOLDER
//!         writes the inputs for the built `plan` to a folder, and of each what it shows and the text that it must print
//!
//! A fault in a case (an overflow, a place outside of a slice) is seen. What takes long comes last.

use std::collections::BTreeSet;
use std::fs;
use std::panic::{AssertUnwindSafe, catch_unwind};
use std::sync::atomic::Ordering::Relaxed;
use stdio::HostRuntime;
use system::{Faults, NO_FAULTS};

/// What is lent where it is to suffice.
const TAPE: usize = 5_360_062;
const HIDDEN: usize = 1 << 20;
const COUNTS: usize = 196_608;
const MARKS: usize = 204_800;
const TEXT: usize = 65_536;
const FINDER: usize = 645_277;

/// The finder that `plan_vectors` lends, which is enough for two thirds of its planned cases.
const FINDER_OF_VECTORS: usize = 8;

struct Room {
    finder: Vec<u32>,
    hidden: Vec<u32>,
    tape: Vec<u8>,
    counts: Vec<u64>,
    marks: Vec<u8>,
    text: Vec<u8>,
}

impl Room {
    fn new(places: usize) -> Room {
        let (finder, hidden) = (vec![0; places], vec![0; HIDDEN]);
        Room { finder, hidden, tape: vec![0; TAPE], counts: vec![0; COUNTS], marks: vec![0; MARKS], text: vec![0; TEXT] }
    }

    /// The text that `plan` prints for an input, with room enough.
    fn text_of(&mut self, input: &[u8]) -> Vec<u8> {
        let Room { finder, hidden, tape, counts, marks, text } = self;
        let mut lent = plan_answer::Lent { finder, hidden, tape, counts, marks };
        let answer = plan_answer::answer(input, &mut lent);
        system::printed(Vec::new(), NO_FAULTS, NO_FAULTS, || {
            let mut to = streams::Printer::new(HostRuntime, HostRuntime);
            let _ = plan_answer::print_answer(&mut to, text, answer, lent.tape);
        })
    }
}

/// Whether a case sees the change: its run answers `false`, or ends in a fault.
fn sees(run: impl FnOnce() -> bool) -> bool {
    !catch_unwind(AssertUnwindSafe(run)).unwrap_or(false)
}

fn u32_of(bytes: &[u8], at: usize) -> usize {
    u32::from_le_bytes(bytes[at..at + 4].try_into().unwrap()) as usize
}

struct Small {
    label: String,
    input: Vec<u8>,
    text: Vec<u8>,
}

fn small_cases(repository: &str) -> Vec<Small> {
    let bytes = fs::read(format!("{repository}/crates/plan_vectors/stdin")).unwrap();
    let names = fs::read_to_string(format!("{repository}/oracle/stored/cases.txt")).unwrap();
    let mut at = 0;
    names.lines().map(|line| {
        let words: Vec<&str> = line.split('\t').collect();
        let (input, text) = (at + 8, at + 8 + u32_of(&bytes, at));
        at = text + u32_of(&bytes, at + 4);
        let label = format!("{} {}: {}", words[0], words[1], words[2]);
        Small { label, input: bytes[input..text].to_vec(), text: bytes[text..at].to_vec() }
    }).collect()
}

fn run_small(cases: &[Small]) -> Option<String> {
    let mut room = Room::new(FINDER_OF_VECTORS);
    let seen = cases.iter().find(|case| sees(|| room.text_of(&case.input) == case.text));
    seen.map(|case| case.label.clone())
}

/// Whether a look-up without a finder, a kind and a number, finds the offset; FFFFFFFF stands for nothing, and kind 0 asks for none.
fn finds(sheet: &[u8], [kind, number, offset]: [usize; 3]) -> bool {
    kind == 0
        || match walk::find(sheet, kind as u16, number as u32) {
            Some(at) => at == offset,
            None => offset == u32::MAX as usize,
        }
}

/// The cases of crates/sheet_vectors: a head of 84 bytes, a prefix, a block that is repeated, a suffix.
fn run_sheets(repository: &str) -> Option<String> {
    let bytes = fs::read(format!("{repository}/crates/sheet_vectors/stdin")).unwrap();
    let mut at = 0;
    while at < bytes.len() {
        let field = |i: usize| u32_of(&bytes, at + 4 * i);
        let label = String::from_utf8_lossy(&bytes[at + 36..at + 84]).trim_matches(['\0', ' ']).to_string();
        let block = at + 84 + field(2);
        let suffix = block + field(3);
        let end = suffix + field(5);
        let sheet = [&bytes[at + 84..block], &bytes[block..suffix].repeat(field(4)), &bytes[suffix..end]].concat();
        let (number, offset) = (field(0), field(1));
        let look_up = [field(6), field(7), field(8)];
        let run = || {
            let mut place = 0;
            let answer = check_sheet_c::sheet_check(&sheet, &mut place);
            (answer as usize, place) == (number, offset) && finds(&sheet, look_up)
        };
        if sees(run) {
            return Some(label);
        }
        at = end;
    }
    None
}

/// The answer of an operation of crates/floats_vectors, by the name of its file.
fn computed(file: &str, x: u64, y: u64, z: u64) -> u64 {
    let float = floats::pattern::f64_from_bits;
    let bits = floats::pattern::f64_to_bits;
    let single = |n: u64| f32::from_bits(n as u32);
    let single_bits = |x: f32| if x.is_nan() { 0x7fc0_0000 } else { u64::from(x.to_bits()) };
    match file {
        "published-fused.txt" | "document-fused.txt" | "hardware-fused.txt" => bits(fused::mul_add(float(x), float(y), float(z))),
        "published-narrow.txt" | "hardware-narrow.txt" => single_bits(rounding::f64_to_f32(float(x))),
        "document-count.txt" | "hardware-count.txt" => single_bits(rounding::u64_to_f32(x)),
        "least.txt" => bits(floats::order::min(float(x), float(y))),
        "greatest.txt" => bits(floats::order::max(float(x), float(y))),
        "greatest-f32.txt" => single_bits(floats::order::max(single(x), single(y))),
        "absolute.txt" => bits(float(x).abs()),
        "finite.txt" => u64::from(float(x).is_finite()),
        "finite-f32.txt" => u64::from(single(x).is_finite()),
        "pattern.txt" => bits(float(x)),
        _ => panic!("{file}: no operation is known for it"),
    }
}

fn run_floats(repository: &str) -> Option<String> {
    let folder = format!("{repository}/crates/floats_vectors/data");
    let mut names: Vec<String> = fs::read_dir(&folder).unwrap().map(|file| file.unwrap().file_name().into_string().unwrap()).collect();
    names.sort();
    for name in names {
        let text = fs::read_to_string(format!("{folder}/{name}")).unwrap();
        if let Some(line) = text.lines().find(|line| !line.starts_with('#') && sees_vector(&name, line)) {
            return Some(format!("{name}: {line}"));
        }
    }
    None
}

/// Whether a vector, operands and the answer, sees the change.
fn sees_vector(name: &str, line: &str) -> bool {
    let words: Vec<u64> = line.split_whitespace().map(|word| u64::from_str_radix(word, 16).unwrap()).collect();
    let (answer, operands) = words.split_last().unwrap();
    let operand = |i: usize| operands.get(i).copied().unwrap_or(0);
    sees(|| computed(name, operand(0), operand(1), operand(2)) == *answer)
}

/// Vectors that those files lack, with the machine's answer, and what each shows.
const MORE_FLOATS: [(&str, &str, &str); 2] = [
    ("a negative value of the second normal exponent, narrowed", "hardware-narrow.txt", "b828000000000000 81400000"),
    (
        "a sum of 2^127 or more, a tie but for its lowest digit",
        "hardware-fused.txt",
        "415e861ecae651e5 415bb032c38683ed 441fffff2cb61f7c 4420000000000001",
    ),
];

fn run_more_floats() -> Option<String> {
    MORE_FLOATS.iter().find(|(_, name, line)| sees_vector(name, line)).map(|(shown, _, _)| shown.to_string())
}

/// What a call of the library answers and leaves: number, offset, length, and a sum over every lent place.
type Left = (u32, usize, usize, u64);

fn sum_of(places: impl Iterator<Item = u64>) -> u64 {
    places.fold(0, |sum, place| sum.wrapping_mul(0x100_0000_01b3) ^ place)
}

#[derive(Clone, Copy)]
struct Lent {
    out: usize,
    counts: usize,
    marks: usize,
}

/// A call of the library on memory that holds sevens: a sheet is opened, or planned with a finder or without.
enum Call {
    Open(usize), // in a list of so many places
    Plan(Lent),
    With(Finder, Lent),
}

/// A lent finder, and how it differs from the sheet's own.
struct Finder {
    name: String,
    list: Vec<u32>,
}

fn sheet_of(input: &[u8]) -> &[u8] {
    &input[u32_of(input, 0)..]
}

/// Opens a sheet in the list, and says what is left of it.
fn call_open(sheet: &[u8], finder: &mut [u32]) -> Left {
    let (mut offset, mut places) = (7, 7);
    let number = planner_c::open::scene_open(sheet, finder, &mut offset, &mut places);
    (number, offset, places, sum_of(finder.iter().map(|place| u64::from(*place))))
}

fn call_plan(input: &[u8], finder: Option<&[u32]>, lent: Lent) -> Left {
    let float = |at: usize| f64::from_bits(u64::from_le_bytes(input[at..at + 8].try_into().unwrap()));
    let (sheet, root, depth) = (sheet_of(input), u32_of(input, 6) as u32, u32_of(input, 10) as u32);
    let (min_x, min_y, max_x, max_y, zoom) = (float(14), float(22), float(30), float(38), float(46));
    let hidden: Vec<u32> = (54..u32_of(input, 0)).step_by(4).map(|at| u32_of(input, at) as u32).collect();
    let (mut out, mut counts, mut marks) = (vec![7u8; lent.out], vec![7u64; lent.counts], vec![7u8; lent.marks]);
    let (mut offset, mut length) = (7, 7);
    let number = match finder {
        None => planner_c::plans::scene_plan(
            sheet, root, depth, min_x, min_y, max_x, max_y, zoom, &hidden, &mut out, &mut counts, &mut marks, &mut offset, &mut length,
        ),
        Some(finder) => planner_c::plans::scene_plan_with_finder(
            sheet, finder, root, depth, min_x, min_y, max_x, max_y, zoom, &hidden, &mut out, &mut counts, &mut marks, &mut offset,
            &mut length,
        ),
    };
    (number, offset, length, sum_of(out.iter().chain(&marks).map(|byte| u64::from(*byte)).chain(counts)))
}

impl Call {
    fn run(&self, input: &[u8]) -> Left {
        match self {
            Call::Open(places) => call_open(sheet_of(input), &mut vec![7; *places]),
            Call::Plan(lent) => call_plan(input, None, *lent),
            Call::With(finder, lent) => call_plan(input, Some(&finder.list), *lent),
        }
    }

    fn name(&self) -> String {
        let sizes = |lent: &Lent| format!("output {}, counts {}, marks {}", lent.out, lent.counts, lent.marks);
        match self {
            Call::Open(places) => format!("opened in a list of {places}"),
            Call::Plan(lent) => sizes(lent),
            Call::With(finder, lent) => format!("{}, {}", finder.name, sizes(lent)),
        }
    }
}

/// How many bytes the tape of a text has: by the length of the records of each kind.
fn tape_of(text: &str) -> usize {
    let size = |line: &str| match line.split(' ').next() {
        Some("batch") => 58,
        Some("text" | "point") => 26,
        Some("proxy") => 42,
        _ => 62,
    };
    text.lines().map(size).sum()
}

/// What the plan of a case needs.
fn need(case: &Small, cells: usize) -> Lent {
    let depth = u32_of(&case.input, 10);
    Lent { out: tape_of(std::str::from_utf8(&case.text).unwrap()), counts: cells * depth, marks: cells * (depth + 2) }
}

/// Lengths of lent memory around what is needed.
fn lengths(need: Lent) -> Vec<Lent> {
    let Lent { out, counts, marks } = need;
    let mut lents: Vec<Lent> =
        [out, out + 1, out - 1, out - 61, out - 62, out.saturating_sub(63), 0].map(|out| Lent { out, counts, marks }).into();
    for more in [1, 9] {
        lents.push(Lent { out, counts: counts + more, marks: marks + more });
    }
    for less in [1, 2] {
        lents.push(Lent { out, counts: counts.saturating_sub(less), marks });
        lents.push(Lent { out, counts, marks: marks.saturating_sub(less) });
    }
    lents
}

/// Finders around the sheet's own: itself, one place longer and one short, and with one place altered by one: the first of a kind,
/// or the last. What stands behind the sheet's places is the offset of a record, which a wrong look-up takes for one.
fn finders(own: &[u32], firsts: [usize; 6]) -> Vec<Finder> {
    let named = |name: String, list: &[u32]| Finder { name, list: list.to_vec() };
    let mut found = vec![named("own finder".into(), own)];
    let Some(last) = own.len().checked_sub(1) else {
        found.push(named("finder of one place".into(), &[0]));
        return found;
    };
    found.push(named("own finder and its last place again".into(), &[own, &own[last..]].concat()));
    found.push(named("own finder without the last place".into(), &own[..last]));
    let places: BTreeSet<usize> = firsts.into_iter().chain([last]).filter(|place| *place <= last).collect();
    for place in places {
        for (word, by) in [("more", 1), ("less", u32::MAX)] {
            let mut other = named(format!("own finder with one {word} at place {place}"), own);
            other.list[place] = own[place].wrapping_add(by);
            found.push(other);
        }
    }
    found
}

/// The calls on a case that is planned: none on the others.
fn calls(case: &Small) -> Vec<Call> {
    if !std::str::from_utf8(&case.text).unwrap().contains("totals") {
        return Vec::new();
    }
    let sheet = sheet_of(&case.input);
    let Ok(counts) = check_sheet::check_sheet(sheet) else {
        panic!("{}: a planned case is refused", case.label);
    };
    let need = need(case, counts.cells as usize);
    let mut calls: Vec<Call> = lengths(need).into_iter().map(Call::Plan).collect();
    let (_, _, places, _) = call_open(sheet, &mut []);
    calls.extend([places, places + 1, places.saturating_sub(1), 0].map(Call::Open));
    let mut own = vec![0; places];
    call_open(sheet, &mut own);
    let lent = Lent { out: need.out + 1, counts: need.counts + 1, marks: need.marks + 1 };
    calls.extend(finders(&own, finder::starts(counts)).into_iter().map(|finder| Call::With(finder, lent)));
    calls
}

/// A case of depth 0 with the first root that the sheet lacks.
fn without_root(case: &Small) -> Option<Small> {
    let counts = check_sheet::check_sheet(sheet_of(&case.input)).ok()?;
    let mut input = case.input.clone();
    input[6..10].copy_from_slice(&counts.cells.to_le_bytes());
    Some(Small { label: format!("{}, root {}", case.label, counts.cells), input, text: b"totals 0 0 0 0 0 0 0\n".to_vec() })
}

/// Calls of the library on the small cases, against the unchanged code's.
fn run_lent(cases: &[Small], change: u32) -> Option<String> {
    switch::CHANGE.store(0, Relaxed);
    let at_depth_0 = |case: &&Small| case.text.starts_with(b"proxy") && u32_of(&case.input, 10) == 0;
    let rootless: Vec<Small> = cases.iter().filter(at_depth_0).filter_map(without_root).collect();
    for case in cases.iter().chain(&rootless).filter(|case| case.text.len() < 10_000) {
        switch::CHANGE.store(0, Relaxed);
        for call in calls(case) {
            switch::CHANGE.store(0, Relaxed);
            let expected = call.run(&case.input);
            switch::CHANGE.store(change, Relaxed);
            if sees(|| call.run(&case.input) == expected) {
                return Some(format!("{}, {}", case.label, call.name()));
            }
        }
    }
    switch::CHANGE.store(change, Relaxed);
    None
}

fn fnv1a(bytes: &[u8]) -> u64 {
    bytes.iter().fold(0xcbf2_9ce4_8422_2325, |sum, byte| (sum ^ u64::from(*byte)).wrapping_mul(0x100_0000_01b3))
}

struct Large {
    name: String,
    value: usize,
    file: String,
    text: u64, // the checksum of its text
}

impl Large {
    fn input(&self) -> Vec<u8> {
        fs::read(&self.file).unwrap()
    }
}

fn large_cases(repository: &str, folder: &str) -> Vec<Large> {
    let lines = fs::read_to_string(format!("{repository}/oracle/stored/large.txt")).unwrap();
    lines.lines().map(|line| {
        let words: Vec<&str> = line.split('\t').collect();
        let (file, text) = (format!("{folder}/{}", words[0]), u64::from_str_radix(words[6], 16).unwrap());
        Large { name: words[1].to_string(), value: words[2].parse().unwrap(), file, text }
    }).collect()
}

/// The large case that is planned without a finder too: its look-ups walk through 16,777,216 bytes.
const WALKED: &str = "full sheet, its last records listed";

fn run_large<'a>(places: usize, cases: impl IntoIterator<Item = &'a Large>) -> Option<String> {
    let mut room = Room::new(places);
    let seen = cases.into_iter().find(|case| sees(|| fnv1a(&room.text_of(&case.input())) == case.text));
    seen.map(|case| format!("{}, {}", case.name, case.value))
}

/// With a finder, and then the one without.
fn run_all_large(cases: &[Large]) -> Option<String> {
    run_large(FINDER, cases).or_else(|| run_large(0, cases.iter().filter(|case| case.name == WALKED)))
}

/// The kinds of runs in their order, and what the first that sees the change says.
fn seen(repository: &str, folder: &str, change: u32, quick: bool) -> Option<(&'static str, String)> {
    let (cases, large) = (small_cases(repository), large_cases(repository, folder));
    run_small(&cases).map(|case| ("small", case))
        .or_else(|| run_sheets(repository).map(|case| ("sheets", case)))
        .or_else(|| run_floats(repository).map(|case| ("floats", case)))
        .or_else(|| run_more_floats().map(|case| ("more", case)))
        .or_else(|| run_lent(&cases, change).map(|case| ("lent", case)))
        .or_else(|| run_programs(with_faults()).map(|case| ("program", case)))
        .or_else(|| run_programs(of_depths()).map(|case| ("program", case)))
        .or_else(|| run_programs(at_buffers()).map(|case| ("program", case)))
        .or_else(|| if quick { None } else { run_all_large(&large).map(|case| ("large", case)) })
        .or_else(|| run_programs(at_lent(&large)).map(|case| ("program", case)))
}

fn main() {
    let words: Vec<String> = std::env::args().collect();
    if words[3] == "inputs" {
        return write_programs(&large_cases(&words[1], &words[2]), &words[4]);
    }
    std::panic::set_hook(Box::new(|_| {}));
    let run = move || {
        let change: u32 = words[3].parse().unwrap();
        switch::CHANGE.store(change, Relaxed);
        switch::CALL.store(words[4].parse().unwrap(), Relaxed);
        match seen(&words[1], &words[2], change, words.len() > 5) {
            Some((kind, case)) => println!("{kind}\t{case}"),
            None => println!("none\t"),
        }
    };
    std::thread::Builder::new().stack_size(1 << 28).spawn(run).unwrap().join().unwrap();
}
