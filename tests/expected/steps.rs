//! steps.bin: the records that quay is given, part by part.

use crate::calls::{Call, Said};
use crate::choices;
use crate::operations::{self, Tally, NO_FRAME, NO_GEOMETRY, TOO_MANY_FRAMES};
use crate::quay::{self, Quay, RECORD, TABLE_WORDS};
use crate::random::Random;
use crate::runs::some_losses;
use crate::saves::{Save, NOTHING_LEFT, NO_HOME};
use crate::tables::{self, geometry_word, Geometry};

/// A part: what it has, its seed, and the function that makes it. Each part draws from its own seed.
type Part = (&'static str, u64, fn(&mut Steps));

const PARTS: [Part; 12] = [
    ("before any format is accepted", 101, unformatted),
    ("the listing of document 01", 102, listing),
    ("the other cases of document 01", 103, documented),
    ("a frame each, and nodes lost until no home is left", 111, one_frame),
    ("as many frames as places, and one more", 110, places),
    ("formats refused after one that was accepted", 104, refused_formats),
    ("every kind of malformed record", 105, every_malformed),
    ("geometries in turn", 106, geometries_in_turn),
    ("nodes lost until too few are left", 107, losses),
    ("saves with few frames, none refused until two nodes are dead", 112, saves),
    ("runs at random", 108, runs),
    ("a cut-off record", 109, cut_off),
];

/// As many whole records as the file has: more than any program reads at a time.
const RECORDS: u64 = 9500;

/// The bytes of the cut-off record. What is missing of it is zero, so that a program that fills it up is seen.
const CUT_OFF: usize = 9;

/// Makes all parts, and prints how many records each has.
pub fn all() -> Steps {
    let mut steps = Steps::new();
    for (name, seed, make) in PARTS {
        let before = steps.tally.total();
        steps.random = Random::new(seed);
        make(&mut steps);
        println!("  {:5} {name}", steps.tally.total() - before);
    }
    steps
}

pub struct Steps {
    pub tally: Tally,
    pub bytes: Vec<u8>,
    random: Random,
    /// Serves each record when it is made, so that the next one can be chosen by the table.
    quay: Quay,
}

impl Steps {
    fn new() -> Steps {
        Steps { tally: Tally::default(), bytes: Vec::new(), random: Random::new(0), quay: Quay::new() }
    }

    fn add(&mut self, bytes: &[u8]) -> Said {
        let said = self.quay.serve(bytes);
        self.tally.note(bytes[0] as u64 >> 4, said.0, &self.quay.table);
        self.bytes.extend(bytes);
        said
    }

    fn record(&mut self, words: Words) -> Said {
        self.add(&bytes_of(words))
    }

    fn call(&mut self, call: Call) -> Said {
        self.record(words_of(call).expect("a call that a record can ask for"))
    }

    fn format(&mut self, nodes: u64, items: u64, frames: u64) -> Said {
        self.call(Call::Format { nodes, items, frames })
    }
}

/// The two words of a record.
type Words = (u64, u64);

fn bytes_of((first, second): Words) -> [u8; RECORD] {
    ((first as u128) << 64 | second as u128).to_be_bytes()
}

fn first_word(operation: u64, node: u64, item: u64, place: u64) -> u64 {
    operation << 60 | node << 56 | item << 48 | place << 47
}

/// The record that asks for a call; nothing where there is none.
fn words_of(call: Call) -> Option<Words> {
    let (node, item, place, value) = match call {
        Call::Format { nodes, items, frames } => return format_words(nodes, items, frames),
        Call::Read { node, item } => (node, item, 0, 0),
        Call::Write { node, item, value } => (node, item, 0, value),
        Call::Evict { node, item, place } => (node, item, place, 0),
        Call::Open | Call::Create | Call::Commit | Call::Abandon => (0, 0, 0, 0),
        Call::Recover { none: 1, .. } => (0, 0, 1, 0),
        Call::Recover { none, lost, .. } => (lost, 0, none, 0),
        Call::Words { .. } | Call::Check | Call::Stretch { .. } | Call::CommitLength => return None,
    };
    let fits = node < 1 << 4 && item < 1 << 8 && place < 1 << 1;
    fits.then(|| (first_word(operations::number(&call), node, item, place), value))
}

fn format_words(nodes: u64, items: u64, frames: u64) -> Option<Words> {
    let fits = nodes < 1 << 5 && items < 1 << 9 && frames < 1 << 10;
    fits.then(|| (geometry_word(nodes, items, frames), 0))
}

fn recover(lost: Option<u64>) -> Call {
    Call::Recover { none: lost.is_none() as u64, lost: lost.unwrap_or(0), scratch: 0 }
}

// Before any format is accepted.

fn unformatted(steps: &mut Steps) {
    one_of_each(steps);
    for (index, words) in malformed().into_iter().enumerate() {
        if index % 15 == 0 {
            steps.record(words);
        }
    }
    for (nodes, items, frames) in REFUSED {
        assert_ne!(steps.format(nodes, items, frames).0, 0);
        let call = any_call(&mut steps.random);
        assert_eq!(steps.call(call).0, 1);
    }
    one_of_each(steps);
    assert!(!steps.quay.formatted);
}

/// A record in form for each operation but format.
fn one_of_each(steps: &mut Steps) {
    for (node, item) in [(0, 0), (2, 0), (15, 255)] {
        steps.call(Call::Read { node, item });
        steps.call(Call::Write { node, item, value: 7 });
        steps.call(Call::Evict { node, item, place: 0 });
        steps.call(Call::Evict { node, item, place: 1 });
        steps.call(recover(Some(node)));
    }
    for call in [Call::Open, Call::Create, Call::Commit, Call::Abandon, recover(None)] {
        steps.call(call);
    }
}

/// Formats that are refused: no allowed geometry, more frames than places, or more than 8,000 words needed.
const REFUSED: [(u64, u64, u64); 36] = [
    (0, 0, 0),
    (2, 1, 2),
    (17, 1, 2),
    (31, 511, 1023),
    (3, 0, 2),
    (4, 257, 512),
    (3, 1, 0),
    (3, 1, 513),
    (3, 1, 1),
    (3, 2, 2),
    (3, 2, 5),
    (3, 2, 6),
    (3, 256, 511),
    (4, 2, 3),
    (4, 256, 255),
    (4, 256, 256),
    (4, 256, 511),
    (5, 2, 2),
    (16, 18, 2),
    (16, 18, 3),
    (16, 18, 5),
    (3, 1, 3),
    (3, 1, 512),
    (3, 2, 7),
    (4, 2, 5),
    (3, 128, 512),
    (16, 166, 333),
    (16, 167, 335),
    (16, 167, 512),
    (15, 255, 511),
    (16, 167, 334),
    (16, 256, 512),
    (14, 191, 382),
    (13, 205, 400),
    (12, 222, 300),
    (11, 243, 486),
];

/// Any call with fields that a record has.
fn any_call(random: &mut Random) -> Call {
    let (node, item, value) = (random.below(16), random.below(256), random.word());
    match random.below(8) {
        0 => Call::Read { node, item },
        1 => Call::Write { node, item, value },
        2 => Call::Evict { node, item, place: random.below(2) },
        3 => Call::Open,
        4 => Call::Create,
        5 => Call::Commit,
        6 => Call::Abandon,
        _ => recover(random.percent(50).then_some(node)),
    }
}

// The listing of document 01.

const LISTED_LINES: &str = "\
0 0 0 13
1 0 0 6
2 0 7 3
3 0 0 3
4 0 0 2
5 0 0 9
6 0 0 6
7 0 0 8
8 0 7 0
9 6 0 0
";

fn listing(steps: &mut Steps) {
    let start = steps.bytes.len();
    steps.format(3, 1, 2);
    steps.call(Call::Write { node: 2, item: 0, value: 7 });
    steps.call(Call::Read { node: 0, item: 0 });
    steps.call(Call::Open);
    steps.call(Call::Create);
    steps.call(Call::Commit);
    steps.call(Call::Write { node: 0, item: 0, value: 9 });
    steps.call(recover(Some(2)));
    steps.call(Call::Read { node: 1, item: 0 });
    steps.call(Call::Read { node: 2, item: 0 });
    assert_eq!(quay::lines(&steps.bytes[start..]), LISTED_LINES, "the listing's output");
}

// The other cases of document 01.

fn documented(steps: &mut Steps) {
    steps.format(3, 1, 2);
    steps.call(Call::Write { node: 2, item: 0, value: 7 });
    assert_eq!(steps.call(Call::Evict { node: 2, item: 0, place: 0 }), (0, 0, 3));
    assert_eq!(steps.call(Call::Read { node: 1, item: 0 }), (0, 7, 3), "the owner is found and was Modified");
    for frames in [255, 256, 511] {
        assert_eq!(steps.format(4, 256, frames).0, NO_GEOMETRY);
    }
    assert_eq!(steps.format(4, 256, 512).0, 0);
    for frames in [2, 3, 5] {
        assert_eq!(steps.format(16, 18, frames).0, NO_GEOMETRY);
    }
    assert_eq!(steps.format(16, 18, 6).0, 0);
    assert_eq!(steps.format(3, 1, 1).0, NO_GEOMETRY);
    assert_eq!(steps.call(Call::Read { node: 15, item: 17 }), (0, 0, 2), "the old table stays");
}

// A frame each, and nodes lost until no home is left.

fn one_frame(steps: &mut Steps) {
    let write = |node| Call::Write { node, item: 0, value: 7 };
    let mut call = |call, answer| assert_eq!(steps.call(call).0, answer, "{call:?}");
    call(Call::Format { nodes: 5, items: 1, frames: 1 }, 0);
    call(write(0), NO_FRAME);
    call(write(2), 0);
    for lost in [3, 4] {
        call(Call::Open, 0);
        call(Call::Create, 0);
        call(recover(Some(lost)), 0);
        call(write(2), 0);
    }
    call(Call::Evict { node: 2, item: 0, place: 0 }, NO_HOME);
    call(Call::Evict { node: 0, item: 0, place: 1 }, NO_HOME);
    call(Call::Open, 0);
    call(Call::Create, NO_HOME);
    call(Call::Commit, NOT_ALL_CREATED);
    call(Call::Abandon, 0);
}

const NOT_ALL_CREATED: u64 = 12;

// As many frames as places, and one more.

fn places(steps: &mut Steps) {
    for (nodes, items) in [(3, 1), (4, 2), (16, 3), (3, 60), (16, 166), (3, 255)] {
        assert_eq!(steps.format(nodes, items, 2 * items).0, 0);
        steps.call(Call::Write { node: 2, item: items - 1, value: items });
        for frames in [2 * items + 1, 512] {
            let allowed = tables::allowed_frames(nodes, items, frames) == frames;
            let answer = if allowed { TOO_MANY_FRAMES } else { NO_GEOMETRY };
            assert_eq!(steps.format(nodes, items, frames).0, answer);
            assert_eq!(steps.call(Call::Read { node: 0, item: items - 1 }).1, items, "the old table stays");
        }
    }
    assert_eq!(steps.format(3, 256, 512).0, 0);
    assert_eq!(steps.format(3, 256, 513).0, 3);
    assert_eq!(steps.format(16, 167, 334).0, 1);
    assert_eq!(steps.format(16, 167, 335).0, TOO_MANY_FRAMES, "before the table is found too short");
}

// Formats refused after one that was accepted.

fn refused_formats(steps: &mut Steps) {
    steps.format(4, 3, 6);
    for (index, (nodes, items, frames)) in REFUSED.into_iter().enumerate() {
        let (item, value) = (index as u64 % 3, steps.random.word());
        steps.call(Call::Write { node: 3, item, value });
        assert_ne!(steps.format(nodes, items, frames).0, 0);
        assert_eq!(steps.call(Call::Read { node: 0, item }).1, value, "the old table stays");
    }
}

// Every kind of malformed record.

fn every_malformed(steps: &mut Steps) {
    steps.format(3, 1, 2);
    for words in malformed() {
        assert_eq!(steps.record(words), (operations::MALFORMED, 0, 0));
    }
    steps.call(Call::Read { node: 2, item: 0 });
}

fn malformed() -> Vec<Words> {
    let mut records = unused_fields();
    for operation in 1..=8 {
        records.extend((0..47).map(|bit| (first_word(operation, 0, 0, 0) | 1 << bit, 0)));
    }
    let format = geometry_word(3, 1, 2);
    records.extend((0..36).map(|bit| (format | 1 << bit, 0)));
    records.extend((0..64).map(|bit| (format, 1 << bit)));
    records.extend((9..=15).flat_map(unknown));
    records
}

/// Records with one field set that their operation does not use.
fn unused_fields() -> Vec<Words> {
    let node = [(1, 0, 0, 0), (15, 0, 0, 0)];
    let item = [(0, 1, 0, 0), (0, 255, 0, 0)];
    let place = [(0, 0, 1, 0)];
    let value = [(0, 0, 0, 1), (0, 0, 0, 1 << 63)];
    let mut records = Vec::new();
    let mut add = |operation, none, fields: &[(u64, u64, u64, u64)]| {
        let words = |&(node, item, place, value)| (first_word(operation, node, item, place | none), value);
        records.extend(fields.iter().map(words))
    };
    add(1, 0, &[place.as_slice(), &value].concat());
    add(2, 0, &place);
    add(3, 0, &value);
    for operation in 4..=7 {
        add(operation, 0, &[node.as_slice(), &item, &place, &value].concat());
    }
    add(8, 0, &[item.as_slice(), &value].concat());
    add(8, 1, &[node.as_slice(), &item, &value].concat());
    records
}

fn unknown(operation: u64) -> [Words; 4] {
    let first = |node, item, place| first_word(operation, node, item, place);
    [(first(0, 0, 0), 0), (first(1, 0, 0), 0), (first(0, 1, 1), 0), (first(2, 0, 0), 7)]
}

// Geometries in turn.

/// Smaller after larger and larger after smaller; the largest have as many words as a table of 8,000 has room for.
const IN_TURN: [(u64, u64, u64); 10] = [
    (16, 166, 48),
    (3, 1, 2),
    (11, 242, 108),
    (4, 2, 4),
    (3, 256, 512),
    (5, 1, 1),
    (16, 18, 6),
    (4, 256, 512),
    (5, 3, 4),
    (16, 166, 332),
];

fn geometries_in_turn(steps: &mut Steps) {
    for (nodes, items, frames) in IN_TURN {
        assert_eq!(steps.format(nodes, items, frames).0, 0);
        corners(steps, nodes, items);
        for _ in 0..20 {
            likely(steps);
        }
    }
}

/// Calls at the first and last node and item, and one beyond each.
fn corners(steps: &mut Steps, nodes: u64, items: u64) {
    for node in [0, nodes - 1, nodes] {
        for item in [0, items - 1, items] {
            let value = choices::any_value(&mut steps.random);
            for call in [Call::Read { node, item }, Call::Write { node, item, value }, Call::Read { node: 1, item }] {
                if let Some(words) = words_of(call) {
                    steps.record(words);
                }
            }
        }
    }
}

// Nodes lost until too few are left.

fn losses(steps: &mut Steps) {
    for (nodes, items, frames) in [(5, 2, 4), (8, 3, 2), (16, 18, 6)] {
        steps.format(nodes, items, frames);
        lose_each(steps, nodes);
    }
}

/// Each node in turn, live and then dead, with calls between; at last a recovery names a node that may be beyond.
fn lose_each(steps: &mut Steps, nodes: u64) {
    for node in 0..nodes {
        for _ in 0..10 {
            likely(steps);
        }
        for lost in [None, Some(node), Some(node), None, Some(0)] {
            steps.call(recover(lost));
            steps.call(Call::Read { node, item: 0 });
        }
    }
    steps.call(recover(Some(nodes.min(15))));
}

// Saves with few frames, none refused until two nodes are dead.

fn saves(steps: &mut Steps) {
    for (nodes, items, frames) in [(3, 2, 4), (4, 1, 2), (5, 1, 1), (5, 3, 4), (6, 2, 2), (8, 3, 2)] {
        assert_eq!(steps.format(nodes, items, frames).0, 0);
        for lost in [1, 0, nodes - 1, 2] {
            for _ in 0..3 {
                write_some(steps, nodes, items);
                save(steps);
                crowd(steps, nodes, items);
                save(steps);
            }
            steps.call(recover(Some(lost)));
        }
    }
}

/// Items written and read where there are frames, and copies sent elsewhere.
fn write_some(steps: &mut Steps, nodes: u64, items: u64) {
    for _ in 0..2 * items {
        let (node, item) = (steps.random.below(nodes), steps.random.below(items));
        let value = steps.random.word();
        steps.call(Call::Write { node, item, value });
        let (node, place) = (steps.random.below(nodes), steps.random.below(2));
        steps.call(Call::Evict { node, item, place });
        steps.call(Call::Read { node: (node + 1) % nodes, item });
    }
}

/// An item is written, and all others are read everywhere: Shared copies fill the frames.
fn crowd(steps: &mut Steps, nodes: u64, items: u64) {
    let (node, written, value) = (steps.random.below(nodes), steps.random.below(items), steps.random.word());
    steps.call(Call::Write { node, item: written, value });
    for node in 0..nodes {
        for item in (0..items).filter(|item| *item != written) {
            steps.call(Call::Read { node, item });
        }
    }
}

/// A save of which nothing is refused; where two or more nodes are dead, one that may find no home and is abandoned.
fn save(steps: &mut Steps) {
    let Some(save) = Save::of(&steps.quay.table) else { return try_save(steps) };
    assert_eq!(steps.call(Call::Open).0, 0);
    for _ in 0..save.dirty {
        assert_eq!(steps.call(Call::Create).0, 0);
    }
    assert_eq!(steps.call(Call::Create).0, NOTHING_LEFT);
    assert_eq!(steps.call(Call::Commit).0, 0);
    assert!(save.stands_in(&steps.quay.table), "all items are clean, with their values");
}

fn try_save(steps: &mut Steps) {
    steps.call(Call::Open);
    while steps.call(Call::Create).0 == 0 {}
    steps.call(Call::Commit);
    steps.call(Call::Abandon);
}

// Runs at random.

fn runs(steps: &mut Steps) {
    while steps.tally.total() < RECORDS {
        let geometry = tables::allowed_geometry(&mut steps.random).usable();
        if geometry.words() <= TABLE_WORDS {
            run(steps, geometry);
        }
    }
}

fn run(steps: &mut Steps, geometry: Geometry) {
    steps.format(geometry.nodes, geometry.items, geometry.frames);
    let end = RECORDS.min(steps.tally.total() + steps.random.between(20, 300));
    if steps.random.percent(40) {
        lose_some(steps, end);
    }
    while steps.tally.total() < end {
        match steps.random.below(100) {
            0..=3 => {
                let call = any_call(&mut steps.random);
                steps.call(call);
            }
            4..=6 => any_malformed(steps),
            7 => {
                let (nodes, items, frames) = REFUSED[steps.random.index(REFUSED.len())];
                steps.format(nodes, items, frames);
            }
            8 => {
                let words = (steps.random.word(), steps.random.word());
                steps.record(words);
            }
            9 => save_until(steps, end),
            _ => likely(steps),
        }
    }
}

/// A save, if there is room for its records; a checkpoint that is open is abandoned before.
fn save_until(steps: &mut Steps, end: u64) {
    let most = Geometry::of_table(&steps.quay.table).items + 5;
    if steps.tally.total() + most <= end {
        steps.call(Call::Abandon);
        save(steps);
    }
}

/// Nodes are lost, so that those left have few frames.
fn lose_some(steps: &mut Steps, end: u64) {
    for lost in some_losses(&mut steps.random, &steps.quay.table) {
        if steps.tally.total() < end {
            steps.call(lost);
        }
    }
}

/// A call that the table will mostly carry out.
fn likely(steps: &mut Steps) {
    loop {
        let call = choices::likely_call(&mut steps.random, &steps.quay.table);
        if let Some(words) = words_of(call) {
            steps.record(words);
            return;
        }
    }
}

fn any_malformed(steps: &mut Steps) {
    let records = malformed();
    let words = records[steps.random.index(records.len())];
    steps.record(words);
}

// A cut-off record.

fn cut_off(steps: &mut Steps) {
    let read = words_of(Call::Read { node: 0, item: 0 }).expect("a record");
    steps.add(&bytes_of(read)[..CUT_OFF]);
}
