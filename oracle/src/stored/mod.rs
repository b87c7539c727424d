//! The stored answers: which cases they hold, how they are made, and how they are read again.
//! The cases stand where `plan_vectors` replays them, in crates/plan_vectors/stdin: for each the input's length and the
//! text's length (4 bytes each, little-endian), then both.

mod chosen;

use std::fs;
use std::path::Path;

use crate::answer::Outcome;
use crate::checksum::fnv1a;
use crate::coverage::{Coverage, MostDropped, TAGS, tags};
use crate::generator::{FAMILIES, edges, family, faults, large, make, make_edge, make_large};
use crate::variants::{JUDGE, checked};

/// The small cases, seen from the folder of the store.
const CASES: &str = "../../crates/plan_vectors/stdin";
/// Every stored input is shorter than this: a deep sheet takes so much.
const MOST_INPUT: usize = 16_384;
/// Every random one is shorter than this.
const MOST_RANDOM_INPUT: usize = 4_096;
/// Every stored text is at most this, so that a program without a heap can hold it.
const MOST_TEXT: usize = 65_536;
/// All of them together take at most this: the buffer of `plan_vectors`, which has 4,097 cells of 56 bytes and a query behind them.
const MOST_STORED: usize = 2_097_152 - 229_486;
/// So many random cases of each family.
const EACH: usize = 12;

/// A small case before it is answered.
pub struct Entry {
    pub family: &'static str,
    pub label: String,
    pub input: Vec<u8>,
}

/// A case as it is stored.
pub struct Case {
    pub input: Vec<u8>,
    pub text: Vec<u8>,
}

pub fn answer(input: &[u8]) -> Outcome {
    (JUDGE.program)(checked, input, usize::MAX)
}

/// The small cases in their order.
pub fn entries() -> Vec<Entry> {
    let mut entries = Vec::new();
    for edge in edges::all() {
        let input = make_edge(&edge);
        entries.push(Entry { family: "edges", label: edge.label, input });
    }
    for fault in faults::all() {
        entries.push(Entry { family: "faults", label: fault.label, input: fault.input });
    }
    for family in FAMILIES {
        let seeds = (0..).map(|seed| (seed, make(family, seed)));
        let small = seeds.filter(|(_, input)| is_small(input)).take(EACH);
        entries.extend(small.map(|(seed, input)| Entry {
            family: family.name,
            label: format!("seed {seed}"),
            input,
        }));
    }
    for &(name, seed) in chosen::CHOSEN {
        let input = make(family(name).expect("a family"), seed);
        entries.push(Entry { family: family(name).unwrap().name, label: format!("seed {seed}, chosen"), input });
    }
    entries
}

pub fn is_small(input: &[u8]) -> bool {
    input.len() < MOST_RANDOM_INPUT && answer(input).text.len() <= MOST_TEXT
}

/// The three files of the store, as bytes: the cases, their names, the large cases; and lines on what their plans drop at most.
pub fn make_files() -> ([(&'static str, Vec<u8>); 3], String) {
    let (mut packed, mut names) = (Vec::new(), String::new());
    let (mut most, mut most_of_large) = (MostDropped::default(), MostDropped::default());
    for (number, entry) in entries().into_iter().enumerate() {
        let outcome = answer(&entry.input);
        assert!(entry.input.len() < MOST_INPUT, "{}: input too long", entry.label);
        assert!(outcome.text.len() <= MOST_TEXT, "{}: text too long", entry.label);
        let tags = tags(&outcome);
        most.see(outcome.dropped(), || entry.label.clone());
        packed.extend((entry.input.len() as u32).to_le_bytes());
        packed.extend((outcome.text.len() as u32).to_le_bytes());
        packed.extend(&entry.input);
        packed.extend(&outcome.text);
        let tags: Vec<&str> = tags.into_iter().collect();
        names += &format!("{number}\t{}\t{}\t{}\n", entry.family, entry.label, tags.join(" "));
    }
    assert!(packed.len() <= MOST_STORED, "the buffer of plan_vectors has no room for the small cases");
    let mut large = String::new();
    for (number, case) in large::all().iter().enumerate() {
        let input = make_large(case);
        let outcome = answer(&input);
        let tags: Vec<&str> = tags(&outcome).into_iter().collect();
        most_of_large.see(outcome.dropped(), || format!("{} {}", case.name, case.seed));
        large += &format!(
            "{number}\t{}\t{}\t{}\t{:016x}\t{}\t{:016x}\t{}\n",
            case.name,
            case.seed,
            input.len(),
            fnv1a(&input),
            outcome.text.len(),
            fnv1a(&outcome.text),
            tags.join(" ")
        );
    }
    let files = [(CASES, packed), ("cases.txt", names.into_bytes()), ("large.txt", large.into_bytes())];
    (files, most.line("small") + &most_of_large.line("large"))
}

/// Number of stored cases by tag, small and large, as their lines say.
pub fn coverage(folder: &Path) -> Coverage {
    let mut coverage = Coverage::default();
    for name in ["cases.txt", "large.txt"] {
        let text = fs::read_to_string(folder.join(name)).expect("the stored cases' names");
        for line in text.lines() {
            let tags = line.rsplit('\t').next().unwrap_or("");
            for tag in TAGS.iter().filter(|tag| tags.split(' ').any(|word| word == **tag)) {
                coverage.add_tag(tag);
            }
        }
    }
    coverage
}

/// Writes the store.
pub fn store(folder: &Path) {
    fs::create_dir_all(folder).unwrap();
    let (files, most_dropped) = make_files();
    for (name, bytes) in files {
        println!("{name}: {} bytes", bytes.len());
        fs::write(folder.join(name), bytes).unwrap();
    }
    print!("{}{most_dropped}", coverage(folder).table());
}

/// Makes the store again and compares it byte by byte; the number of files that differ.
pub fn verify(folder: &Path) -> usize {
    let mut different = 0;
    for (name, bytes) in make_files().0 {
        let same = fs::read(folder.join(name)).is_ok_and(|kept| kept == bytes);
        println!("{name}: {}", if same { "the same bytes" } else { "DIFFERENT" });
        different += usize::from(!same);
    }
    different
}

pub fn read_cases(folder: &Path) -> Vec<Case> {
    let bytes = fs::read(folder.join(CASES)).expect("crates/plan_vectors/stdin");
    let length = |at: usize| u32::from_le_bytes(bytes[at..at + 4].try_into().unwrap()) as usize;
    let mut cases = Vec::new();
    let mut at = 0;
    while at < bytes.len() {
        let (input, text) = (length(at), length(at + 4));
        let start = at + 8;
        cases.push(Case {
            input: bytes[start..start + input].to_vec(),
            text: bytes[start + input..start + input + text].to_vec(),
        });
        at = start + input + text;
    }
    cases
}

/// The large cases' checksums of the expected text, in order.
pub fn read_large(folder: &Path) -> Vec<u64> {
    let text = fs::read_to_string(folder.join("large.txt")).expect("stored/large.txt");
    text.lines()
        .map(|line| u64::from_str_radix(line.split('\t').nth(6).unwrap(), 16).unwrap())
        .collect()
}
