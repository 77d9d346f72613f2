//! The letters and receives of `ulfm_bench match` over a hash map of queues of Rust's standard library: on standard error, in
//! nanoseconds a letter, a line for each round but the first. A receive that leaves its source or its tag open asks the map by
//! the key of the letter that it gets.
use std::collections::{HashMap, VecDeque};
use std::env;
use std::hint::black_box;
use std::time::Instant;

const COUNTS: [u16; 3] = [100, 1_000, 10_000];

const LETTERS: u16 = 20_000;

#[derive(Clone, Copy, PartialEq, Eq, Hash)]
struct Key {
    context: u8,
    source: u8,
    tag: u16,
}

/// As a letter of the matcher: its bytes stand in one block of the heap, and are moved, and not read.
struct Letter {
    key: Key,
    bytes: Vec<u8>,
}

/// A case: whether all letters come from one source, whether they have one tag, whether the sources take turns, and whether the
/// letters come before the receives.
#[derive(Clone, Copy)]
struct Case {
    name: &'static str,
    one_source: bool,
    one_tag: bool,
    by_turns: bool,
    kept: bool,
}

const fn case(name: &'static str, one_source: bool, one_tag: bool, by_turns: bool, kept: bool) -> Case {
    Case { name, one_source, one_tag, by_turns, kept }
}

const CASES: [Case; 8] = [
    case("distinct tags, kept", true, false, false, true),
    case("eight sources, kept", false, true, false, true),
    case("any tag, kept", false, false, false, true),
    case("any source, kept", false, false, true, true),
    case("distinct tags, posted", true, false, false, false),
    case("eight sources, posted", false, true, false, false),
    case("any tag, posted", false, false, false, false),
    case("any source, posted", false, false, true, false),
];

/// The key of the letter of a place.
fn key(case: Case, count: u16, place: u16) -> Key {
    let block = (place / (count / 8).max(1)).min(7);
    let source = if case.one_source { 0 } else if case.by_turns { place % 8 } else { block };
    Key { context: 0, source: source as u8, tag: if case.one_tag { 0 } else { place } }
}

/// Each key's entries, in the order in which they came. A queue that got empty stays.
struct Queues<T>(HashMap<Key, VecDeque<T>>);

impl<T> Queues<T> {
    fn put(&mut self, key: Key, entry: T) {
        self.0.entry(key).or_default().push_back(entry);
    }

    fn take(&mut self, key: Key) -> Option<T> {
        self.0.get_mut(&key)?.pop_front()
    }
}

/// The letters that are kept, and the numbers of the receives that wait.
struct Map {
    kept: Queues<Letter>,
    waiting: Queues<u64>,
    count: u64,
}

impl Map {
    /// The letter, where a receive waited for it.
    fn arrive(&mut self, letter: Letter) -> Option<Letter> {
        self.count += 1;
        if self.waiting.take(letter.key).is_some() {
            return Some(letter);
        }
        self.kept.put(letter.key, letter);
        None
    }

    /// The letter that the receive gets.
    fn post(&mut self, key: Key) -> Option<Letter> {
        self.count += 1;
        let letter = self.kept.take(key);
        if letter.is_none() {
            self.waiting.put(key, self.count);
        }
        letter
    }
}

/// Whether a letter and a receive found one another.
fn step(map: &mut Map, arrives: bool, key: Key) -> bool {
    let found = if arrives {
        map.arrive(Letter { key, bytes: [b'x'; 1024].to_vec() })
    } else {
        map.post(key)
    };
    found.is_some_and(|letter| black_box(&letter.bytes).len() == 1024)
}

fn round(map: &mut Map, case: Case, count: u16) {
    for k in 0..count {
        assert!(!step(map, case.kept, key(case, count, k)));
    }
    for k in (0..count).rev() {
        assert!(step(map, !case.kept, key(case, count, k)));
    }
}

fn measure(case: Case, count: u16) {
    let mut map = Map { kept: Queues(HashMap::new()), waiting: Queues(HashMap::new()), count: 0 };
    for number in 0..LETTERS / count + 2 {
        let start = Instant::now();
        round(&mut map, case, count);
        let time = start.elapsed().as_nanos() / u128::from(count);
        if number > 0 {
            eprintln!("map, {}, {count}: {time} ns a letter", case.name);
        }
    }
}

fn main() {
    let most = env::args().nth(1).and_then(|word| word.parse().ok()).unwrap_or(10_000);
    for case in CASES {
        for count in COUNTS.into_iter().filter(|count| *count <= most) {
            measure(case, count);
        }
    }
}
