//! The engine of document 01 tuned for speed, with the same checks on every call, in safe Rust.
//!
//! A call goes once over the state words of the live nodes, in memory order. The entries that hold a
//! copy are gathered without a branch, and only these are tallied by item and have their values
//! looked at. Everything else a call needs (phase, frames in use, dirty and created items) is what
//! that pass found.

/// What a call says: the answer's number (0 carried out, 17 nothing left to create, else a refusal),
/// the value and the number of stores made.
#[derive(Clone, Copy, PartialEq, Eq, Debug)]
pub struct Outcome {
    pub answer: u64,
    pub value: u64,
    pub stores: u64,
}

const TOO_SHORT: u64 = 1;
const NOT_SOUND: u64 = 2;
const NO_GEOMETRY: u64 = 3;
const NO_SUCH_NODE: u64 = 4;
const NO_SUCH_ITEM: u64 = 5;
const NODE_DEAD: u64 = 6;
const CHECKPOINT_OPEN: u64 = 7;
const NO_CHECKPOINT_OPEN: u64 = 8;
const NO_FRAME: u64 = 9;
const PLACE_INVALID: u64 = 10;
const NO_HOME: u64 = 11;
const NOT_ALL_CREATED: u64 = 12;
const LAST_NUMBER: u64 = 13;
const TOO_FEW_SURVIVORS: u64 = 14;
const NO_RECOVERY_COPY: u64 = 15;
const SHORT_SCRATCH: u64 = 16;
const NOTHING_LEFT: u64 = 17;
const NO_SUCH_PLACE: u64 = 18;
const TOO_MANY_FRAMES: u64 = 20;

const MAX_NODES: usize = 16;
const LARGEST_NUMBER: u64 = (1 << 32) - 1;

// Codes of the current place; those of the kept place are 0, 1 and 2.
const INVALID: u64 = 0;
const SHARED: u64 = 1;
const OWNER: u64 = 2;
const MODIFIED: u64 = 3;
const SHARED_CK1: u64 = 4;
const SHARED_CK2: u64 = 5;
const PRECOMMIT1: u64 = 6;
const PRECOMMIT2: u64 = 7;

const RUNNING: u64 = 0;
const CREATING: u64 = 1;
const COMMITTING: u64 = 2;

// Words.

const fn state(current: u64, kept: u64) -> u64 {
    current << 60 | kept << 58
}

const fn current(word: u64) -> u64 {
    word >> 60
}

const fn kept(word: u64) -> u64 {
    word >> 58 & 3
}

/// The six bits of a state word that may be set.
const fn code(word: u64) -> usize {
    (word >> 58) as usize
}

const fn mark(phase: u64, number: u64) -> u64 {
    1 << 63 | phase << 61 | number << 29
}

const fn phase(mark: u64) -> u64 {
    mark >> 61 & 3
}

const fn number(mark: u64) -> u64 {
    mark >> 29 & LARGEST_NUMBER
}

const fn mark_formed(mark: u64) -> bool {
    mark >> 63 == 1 && mark << 35 == 0 && phase(mark) <= COMMITTING
}

// Tallies: five bits for each of the places that an item's copies can be in and for words out of
// form; above them, ten bits for the frames that the copies use.

const ONE_SHARED: u64 = 1;
const ONE_OWNER: u64 = 1 << 5;
const ONE_MODIFIED: u64 = 1 << 10;
const ONE_CK1: u64 = 1 << 15;
const ONE_CK2: u64 = 1 << 20;
const ONE_PRECOMMIT1: u64 = 1 << 25;
const ONE_PRECOMMIT2: u64 = 1 << 30;
const ONE_KEPT1: u64 = 1 << 35;
const ONE_KEPT2: u64 = 1 << 40;
const ONE_BAD: u64 = 1 << 45;
const FRAMES_FROM: u32 = 54;

const ANY_SHARED: u64 = 31 * ONE_SHARED;
const PLACES: u64 = (1 << FRAMES_FROM) - 1;
const KEPT_PAIR: u64 = ONE_KEPT1 + ONE_KEPT2;
const CLEAN: u64 = ONE_CK1 + ONE_CK2;
const EXCLUSIVE: u64 = ONE_MODIFIED + KEPT_PAIR;
const NONEXCLUSIVE: u64 = ONE_OWNER + KEPT_PAIR;
const CREATED: u64 = ONE_PRECOMMIT1 + ONE_PRECOMMIT2 + KEPT_PAIR;
/// A tally that no item has.
const NEVER: u64 = !0;

const CURRENT_TALLIES: [u64; 8] =
    [0, ONE_SHARED, ONE_OWNER, ONE_MODIFIED, ONE_CK1, ONE_CK2, ONE_PRECOMMIT1, ONE_PRECOMMIT2];
const KEPT_TALLIES: [u64; 3] = [0, ONE_KEPT1, ONE_KEPT2];

/// What an entry adds to its item's tally, by code.
static TALLIES: [u64; 64] = tallies();

const fn code_formed(code: usize) -> bool {
    let current = (code >> 2) as u64;
    let recovery_copy = current == SHARED_CK1 || current == SHARED_CK2;
    current <= PRECOMMIT2 && code & 3 <= 2 && !(recovery_copy && code & 3 != 0)
}

const fn tallies() -> [u64; 64] {
    let mut table = [ONE_BAD; 64];
    let mut code = 0;
    while code < 64 {
        if code_formed(code) {
            let frames = (code >> 2 != 0) as u64 + (code & 3 != 0) as u64;
            table[code] = CURRENT_TALLIES[code >> 2] + KEPT_TALLIES[code & 3] + (frames << FRAMES_FROM);
        }
        code += 1;
    }
    table
}

// Geometry.

#[derive(Clone, Copy)]
struct Geometry {
    nodes: usize,
    items: usize,
    frames: usize,
}

impl Geometry {
    /// Besides the ranges: a frame for every place of a node, or frames for four copies of every item while a node is
    /// dead.
    #[inline]
    fn new(nodes: u64, items: u64, frames: u64) -> Option<Geometry> {
        let within = nodes.wrapping_sub(3) < 14 && items.wrapping_sub(1) < 256 && frames.wrapping_sub(1) < 512;
        if !within || (frames != 2 * items && (nodes - 2) * frames < 4 * items - 1) {
            return None;
        }
        Some(Geometry { nodes: nodes as usize, items: items as usize, frames: frames as usize })
    }

    fn words(self) -> usize {
        1 + self.nodes + 3 * self.nodes * self.items
    }

    #[inline]
    fn entry(self, node: usize, item: usize) -> usize {
        1 + self.nodes + 3 * (node * self.items + item)
    }

    /// The node's entries: state, current value, kept value.
    #[inline]
    fn entries(self, table: &[u64], node: usize) -> &[[u64; 3]] {
        let start = self.entry(node, 0);
        table[start..start + 3 * self.items].as_chunks().0
    }
}

const fn size_word(nodes: u64, items: u64, frames: u64) -> u64 {
    nodes << 55 | items << 46 | frames << 36
}

#[inline]
fn geometry_of(table: &[u64]) -> Result<Geometry, u64> {
    let first = *table.first().ok_or(TOO_SHORT)?;
    if first >> 60 != 0 || first << 28 != 0 {
        return Err(NO_GEOMETRY);
    }
    let geometry = Geometry::new(first >> 55, first >> 46 & 511, first >> 36 & 1023).ok_or(NO_GEOMETRY)?;
    if table.len() < geometry.words() {
        return Err(TOO_SHORT);
    }
    Ok(geometry)
}

// The pass over the table.

/// A set of items.
#[derive(Clone, Copy)]
struct Items([u64; 4]);

impl Items {
    const NONE: Items = Items([0; 4]);

    fn first(&self) -> Option<usize> {
        self.iter().next()
    }

    fn iter(&self) -> impl Iterator<Item = usize> + '_ {
        self.0.iter().enumerate().flat_map(|(place, &bits)| Bits(bits).map(move |bit| 64 * place + bit))
    }
}

/// The numbers of the bits set, ascending.
struct Bits(u64);

impl Iterator for Bits {
    type Item = usize;

    #[inline]
    fn next(&mut self) -> Option<usize> {
        if self.0 == 0 {
            return None;
        }
        let bit = self.0.trailing_zeros() as usize;
        self.0 &= self.0 - 1;
        Some(bit)
    }
}

/// What the pass over a sound table found.
struct Found {
    geometry: Geometry,
    /// A bit for each live node.
    live: u64,
    phase: u64,
    number: u64,
    used: [usize; MAX_NODES],
    dirty: Items,
    created: Items,
}

/// The items of one node that hold a copy.
struct Occupied<const SIZE: usize> {
    items: [u16; SIZE],
    count: usize,
    formed: bool,
}

impl<const SIZE: usize> Occupied<SIZE> {
    fn new() -> Self {
        Occupied { items: [0; SIZE], count: 0, formed: true }
    }

    /// Gathers them from the node's entries, eight at a time, and tests the bits that no state word
    /// has.
    #[inline]
    fn gather(&mut self, entries: &[[u64; 3]]) {
        let (groups, rest) = entries.as_chunks::<8>();
        let mut all = 0;
        let mut count = 0;
        let mut item = 0;
        let mut note = |state: u64| {
            all |= state;
            self.items[count & (SIZE - 1)] = item;
            item += 1;
            count += (state != 0) as usize;
        };
        for group in groups {
            group.iter().for_each(|entry| note(entry[0]));
        }
        rest.iter().for_each(|entry| note(entry[0]));
        self.count = count;
        self.formed &= all << 6 == 0;
    }

    #[inline]
    fn list(&self) -> &[u16] {
        &self.items[..self.count.min(SIZE)]
    }
}

/// The table checks: 1, 3, 1, 2. The arrays of the pass are as long as the items ask for.
#[inline]
fn checked(table: &[u64]) -> Result<Found, u64> {
    let geometry = geometry_of(table)?;
    match geometry.items {
        0..=16 => survey::<16>(table, geometry),
        17..=64 => survey::<64>(table, geometry),
        _ => survey::<256>(table, geometry),
    }
}

/// The live nodes and the mark that all of them have.
#[inline]
fn agreed_mark(marks: &[u64]) -> Result<(u64, u64), u64> {
    let mut live = 0;
    let mut common = 0;
    let mut differ = false;
    for (node, &mark) in marks.iter().enumerate() {
        if mark != 0 {
            live |= 1 << node;
            differ |= common != 0 && mark != common;
            common = mark;
        }
    }
    let last = number(common) == LARGEST_NUMBER && phase(common) == CREATING;
    if differ || !mark_formed(common) || phase(common) == COMMITTING || last {
        return Err(NOT_SOUND);
    }
    Ok((live, common))
}

/// What the pass notes of each item: its tally; the bits that any, and that all, of the current
/// copies' values have; the kept copies' values, added bit by bit, which is 0 for two that are equal.
struct Notes<const SIZE: usize> {
    tallies: [u64; SIZE],
    any: [u64; SIZE],
    all: [u64; SIZE],
    kept: [u64; SIZE],
    /// The items of the node at hand that have a kept copy.
    with_kept: [u16; SIZE],
}

impl<const SIZE: usize> Notes<SIZE> {
    fn new() -> Self {
        Notes { tallies: [0; SIZE], any: [0; SIZE], all: [!0; SIZE], kept: [0; SIZE], with_kept: [0; SIZE] }
    }

    /// Notes a node's copies; the frames that they use.
    #[inline]
    fn add(&mut self, entries: &[[u64; 3]], occupied: &[u16]) -> usize {
        let mut kept_count = 0;
        let mut sum = 0;
        for &item in occupied {
            let item = item as usize & (SIZE - 1);
            let [state, current_value, _] = entries[item];
            let tally = TALLIES[code(state)];
            let held = if current(state) != INVALID { !0 } else { 0 };
            self.tallies[item] += tally;
            self.any[item] |= current_value & held;
            self.all[item] &= current_value | !held;
            sum += tally;
            self.with_kept[kept_count & (SIZE - 1)] = item as u16;
            kept_count += (kept(state) != 0) as usize;
        }
        for &item in &self.with_kept[..kept_count.min(SIZE)] {
            let item = item as usize & (SIZE - 1);
            self.kept[item] ^= entries[item][2];
        }
        (sum >> FRAMES_FROM) as usize
    }

    /// Whether each item is clean, dirty or created, with equal values, and which are dirty and
    /// created.
    #[inline]
    fn kinds(&self, items: usize, creating: bool) -> (bool, Items, Items) {
        let mut all_sound = true;
        let mut differ = 0;
        let mut dirty = Items::NONE;
        let mut created = Items::NONE;
        let created_tally = if creating { CREATED } else { NEVER };
        for first in (0..items.min(SIZE)).step_by(64) {
            let (mut dirty_bits, mut created_bits) = (0, 0);
            for item in first..items.min(SIZE).min(first + 64) {
                let tally = self.tallies[item] & PLACES;
                let apart = tally & !ANY_SHARED;
                let is_dirty = (tally == EXCLUSIVE) | (apart == NONEXCLUSIVE);
                let is_created = apart == created_tally;
                dirty_bits |= (is_dirty as u64) << (item & 63);
                created_bits |= (is_created as u64) << (item & 63);
                all_sound &= (apart == CLEAN) | is_dirty | is_created;
                differ |= (self.any[item] ^ self.all[item]) | self.kept[item];
            }
            dirty.0[first >> 6] = dirty_bits;
            created.0[first >> 6] = created_bits;
        }
        (all_sound & (differ == 0), dirty, created)
    }
}

fn survey<const SIZE: usize>(table: &[u64], geometry: Geometry) -> Result<Found, u64> {
    let (live, common) = agreed_mark(&table[1..1 + geometry.nodes])?;
    let mut used = [0; MAX_NODES];
    let mut notes = Notes::<SIZE>::new();
    let mut occupied = Occupied::<SIZE>::new();
    let mut over = false;
    for node in Bits(live) {
        let entries = geometry.entries(table, node);
        occupied.gather(entries);
        used[node] = notes.add(entries, occupied.list());
        over |= used[node] > geometry.frames;
    }
    let (all_sound, dirty, created) = notes.kinds(geometry.items, phase(common) == CREATING);
    if over || !occupied.formed || !all_sound {
        return Err(NOT_SOUND);
    }
    Ok(Found { geometry, live, phase: phase(common), number: number(common), used, dirty, created })
}

impl Found {
    #[inline]
    fn is_live(&self, node: usize) -> bool {
        self.live >> node & 1 == 1
    }

    /// Refusals 4, 5, 6 and 7.
    #[inline]
    fn addressed(&self, node: u64, item: u64) -> Result<(usize, usize), u64> {
        if node >= self.geometry.nodes as u64 {
            return Err(NO_SUCH_NODE);
        }
        if item >= self.geometry.items as u64 {
            return Err(NO_SUCH_ITEM);
        }
        if !self.is_live(node as usize) {
            return Err(NODE_DEAD);
        }
        if self.phase == CREATING {
            return Err(CHECKPOINT_OPEN);
        }
        Ok((node as usize, item as usize))
    }

    fn live_after(&self, node: usize) -> impl Iterator<Item = usize> + '_ {
        let after = self.live & (!0 << node << 1);
        let before = self.live & !(!0 << node);
        Bits(after).chain(Bits(before))
    }
}

fn checked_open(table: &[u64]) -> Result<Found, u64> {
    let found = checked(table)?;
    if found.phase != CREATING {
        return Err(NO_CHECKPOINT_OPEN);
    }
    Ok(found)
}

// Stores.

/// Makes the first `limit` of the stores that it is given.
struct Pen<'a> {
    table: &'a mut [u64],
    limit: u64,
    made: u64,
}

impl<'a> Pen<'a> {
    #[inline]
    fn new(table: &'a mut [u64], limit: u64) -> Pen<'a> {
        Pen { table, limit, made: 0 }
    }

    #[inline]
    fn store(&mut self, place: usize, word: u64) {
        if self.made < self.limit {
            self.table[place] = word;
            self.made += 1;
        }
    }

    fn mark_all(&mut self, live: u64, word: u64) {
        for node in Bits(live) {
            self.store(1 + node, word);
        }
    }

    fn done(&self, value: u64) -> Result<Outcome, u64> {
        Ok(Outcome { answer: 0, value, stores: self.made })
    }
}

#[inline]
fn outcome(result: Result<Outcome, u64>) -> Outcome {
    result.unwrap_or_else(|answer| Outcome { answer, value: 0, stores: 0 })
}

// The calls. Each stays a function of its own, as the library's are, wherever it is called.

#[inline(never)]
pub fn words(nodes: u64, items: u64) -> u64 {
    Geometry::new(nodes, items, items.saturating_mul(2)).map_or(0, |geometry| geometry.words() as u64)
}

#[inline(never)]
pub fn check(table: &[u64]) -> u64 {
    checked(table).err().unwrap_or(0)
}

#[inline(never)]
pub fn stretch(table: &[u64], node: u64) -> (u64, u64, u64) {
    match geometry_of(table) {
        Err(refusal) => (refusal, 0, 0),
        Ok(geometry) if node >= geometry.nodes as u64 => (NO_SUCH_NODE, 0, 0),
        Ok(geometry) => (0, geometry.entry(node as usize, 0) as u64, 3 * geometry.items as u64),
    }
}

/// A geometry in which a node has no more frames than places.
fn formattable(nodes: u64, items: u64, frames: u64) -> Result<Geometry, u64> {
    let geometry = Geometry::new(nodes, items, frames).ok_or(NO_GEOMETRY)?;
    if geometry.frames > 2 * geometry.items {
        return Err(TOO_MANY_FRAMES);
    }
    Ok(geometry)
}

#[inline(never)]
pub fn format(table: &mut [u64], nodes: u64, items: u64, frames: u64, limit: u64) -> Outcome {
    outcome(try_format(table, nodes, items, frames, limit))
}

/// All stores go to ascending places, each once, so the first `limit` of them are a prefix.
fn try_format(table: &mut [u64], nodes: u64, items: u64, frames: u64, limit: u64) -> Result<Outcome, u64> {
    let geometry = formattable(nodes, items, frames)?;
    let table = table.get_mut(..geometry.words()).ok_or(TOO_SHORT)?;
    let mut pen = Pen::new(table, limit);
    pen.store(0, size_word(nodes, items, frames));
    for node in 0..geometry.nodes {
        pen.store(1 + node, mark(RUNNING, 0));
    }
    let mut place = 1 + geometry.nodes;
    for node in 0..geometry.nodes {
        let mut first = 0;
        for _ in 0..geometry.items {
            let second = wrapped(first + 1, geometry.nodes);
            let current = match node {
                _ if node == first => SHARED_CK1,
                _ if node == second => SHARED_CK2,
                _ => INVALID,
            };
            pen.store(place, state(current, 0));
            pen.store(place + 1, 0);
            pen.store(place + 2, 0);
            place += 3;
            first = wrapped(first + 2, geometry.nodes);
        }
    }
    pen.done(0)
}

/// Format in fewer instructions, but not in document 01's order of stores: zeros everywhere, and the
/// words that are not 0 put over them.
#[inline(never)]
pub fn format_filled(table: &mut [u64], nodes: u64, items: u64, frames: u64, limit: u64) -> Outcome {
    outcome(try_format_filled(table, nodes, items, frames, limit))
}

fn try_format_filled(table: &mut [u64], nodes: u64, items: u64, frames: u64, limit: u64) -> Result<Outcome, u64> {
    let geometry = formattable(nodes, items, frames)?;
    if table.len() < geometry.words() {
        return Err(TOO_SHORT);
    }
    let made = limit.min(geometry.words() as u64);
    let prefix = &mut table[..made as usize];
    prefix.fill(0);
    if let Some((first, rest)) = prefix.split_first_mut() {
        *first = size_word(nodes, items, frames);
        rest.iter_mut().take(geometry.nodes).for_each(|word| *word = mark(RUNNING, 0));
    }
    let (mut first, mut second) = (0, 1);
    for item in 0..geometry.items {
        set_within(prefix, geometry.entry(first, item), state(SHARED_CK1, 0));
        set_within(prefix, geometry.entry(second, item), state(SHARED_CK2, 0));
        first = wrapped(first + 2, geometry.nodes);
        second = wrapped(second + 2, geometry.nodes);
    }
    Ok(Outcome { answer: 0, value: 0, stores: made })
}

fn set_within(prefix: &mut [u64], place: usize, word: u64) {
    if let Some(slot) = prefix.get_mut(place) {
        *slot = word;
    }
}

fn wrapped(node: usize, nodes: usize) -> usize {
    if node >= nodes {
        node - nodes
    } else {
        node
    }
}

#[inline(never)]
pub fn read(table: &mut [u64], node: u64, item: u64, limit: u64) -> Outcome {
    outcome(try_read(table, node, item, limit))
}

fn try_read(table: &mut [u64], node: u64, item: u64, limit: u64) -> Result<Outcome, u64> {
    let found = checked(table)?;
    let (node, item) = found.addressed(node, item)?;
    let at = found.geometry.entry(node, item);
    let mine = table[at];
    if current(mine) != INVALID {
        return Ok(Outcome { answer: 0, value: table[at + 1], stores: 0 });
    }
    if found.used[node] >= found.geometry.frames {
        return Err(NO_FRAME);
    }
    let server = server_of(table, &found, item);
    let serving = table[server];
    let value = table[server + 1];
    let mut pen = Pen::new(table, limit);
    if current(serving) == MODIFIED {
        pen.store(server, state(OWNER, kept(serving)));
    }
    pen.store(at + 1, value);
    pen.store(at, state(SHARED, kept(mine)));
    pen.done(value)
}

/// The entry that serves a read.
fn server_of(table: &[u64], found: &Found, item: usize) -> usize {
    let serves = |at: &usize| matches!(current(table[*at]), SHARED_CK1 | OWNER | MODIFIED);
    let mut entries = Bits(found.live).map(|node| found.geometry.entry(node, item));
    entries.find(serves).expect("a sound item has a server")
}

#[inline(never)]
pub fn write(table: &mut [u64], node: u64, item: u64, new_value: u64, limit: u64) -> Outcome {
    outcome(try_write(table, node, item, new_value, limit))
}

fn try_write(table: &mut [u64], node: u64, item: u64, new_value: u64, limit: u64) -> Result<Outcome, u64> {
    let found = checked(table)?;
    let (node, item) = found.addressed(node, item)?;
    let at = found.geometry.entry(node, item);
    let mine = table[at];
    let needs_frame = matches!(current(mine), INVALID | SHARED_CK1 | SHARED_CK2);
    if needs_frame && found.used[node] >= found.geometry.frames {
        return Err(NO_FRAME);
    }
    let mut pen = Pen::new(table, limit);
    for other in Bits(found.live & !(1 << node)) {
        other_writes(&mut pen, found.geometry.entry(other, item));
    }
    let kept_after = keep(&mut pen, at, mine);
    pen.store(at + 1, new_value);
    pen.store(at, state(MODIFIED, kept_after));
    pen.done(0)
}

/// A recovery copy in the current place moves to the kept place; the code of the kept place then.
#[inline]
fn keep(pen: &mut Pen, at: usize, word: u64) -> u64 {
    match current(word) {
        SHARED_CK1 | SHARED_CK2 => {
            let number = current(word) - SHARED_CK1 + 1;
            let value = pen.table[at + 1];
            pen.store(at + 2, value);
            pen.store(at, state(INVALID, number));
            number
        }
        _ => kept(word),
    }
}

#[inline]
fn other_writes(pen: &mut Pen, at: usize) {
    let word = pen.table[at];
    match current(word) {
        INVALID => (),
        SHARED | OWNER | MODIFIED => pen.store(at, state(INVALID, kept(word))),
        _ => {
            keep(pen, at, word);
        }
    }
}

/// The entry that a copy goes to, its state word as it will be found there, and the entry dropped
/// before, if any; a takeover stores no value.
struct Home {
    at: usize,
    word: u64,
    takeover: bool,
    dropped: Option<usize>,
}

fn home(table: &[u64], found: &Found, source: usize, item: usize, kept_place: bool) -> Result<Home, u64> {
    for node in found.live_after(source) {
        let at = found.geometry.entry(node, item);
        let word = table[at];
        if !kept_place && current(word) == SHARED {
            return Ok(Home { at, word, takeover: true, dropped: None });
        }
        let empty = if kept_place { kept(word) == 0 } else { current(word) == INVALID };
        if !empty {
            continue;
        }
        if found.used[node] < found.geometry.frames {
            return Ok(Home { at, word, takeover: false, dropped: None });
        }
        if let Some(dropped) = lowest_shared(table, found.geometry, node) {
            let word = if dropped == at { state(INVALID, kept(word)) } else { word };
            return Ok(Home { at, word, takeover: false, dropped: Some(dropped) });
        }
    }
    Err(NO_HOME)
}

/// The entry of the node's Shared copy of the lowest-numbered item.
fn lowest_shared(table: &[u64], geometry: Geometry, node: usize) -> Option<usize> {
    let shared = |entry: &[u64; 3]| current(entry[0]) == SHARED;
    geometry.entries(table, node).iter().position(shared).map(|item| geometry.entry(node, item))
}

fn goes_home(pen: &mut Pen, home: &Home, value_place: usize, value: u64, word: u64) {
    if let Some(dropped) = home.dropped {
        let word = pen.table[dropped];
        pen.store(dropped, state(INVALID, kept(word)));
    }
    if !home.takeover {
        pen.store(home.at + value_place, value);
    }
    pen.store(home.at, word);
}

#[inline(never)]
pub fn evict(table: &mut [u64], node: u64, item: u64, place: u64, limit: u64) -> Outcome {
    outcome(match place {
        0 => evict_current(table, node, item, limit),
        1 => evict_kept(table, node, item, limit),
        _ => Err(NO_SUCH_PLACE),
    })
}

fn evict_current(table: &mut [u64], node: u64, item: u64, limit: u64) -> Result<Outcome, u64> {
    let found = checked(table)?;
    let (node, item) = found.addressed(node, item)?;
    let at = found.geometry.entry(node, item);
    let word = table[at];
    if current(word) == INVALID {
        return Err(PLACE_INVALID);
    }
    let home = if current(word) == SHARED { None } else { Some(home(table, &found, node, item, false)?) };
    let value = table[at + 1];
    let mut pen = Pen::new(table, limit);
    if let Some(home) = home {
        goes_home(&mut pen, &home, 1, value, state(current(word), kept(home.word)));
    }
    pen.store(at, state(INVALID, kept(word)));
    pen.done(0)
}

fn evict_kept(table: &mut [u64], node: u64, item: u64, limit: u64) -> Result<Outcome, u64> {
    let found = checked(table)?;
    let (node, item) = found.addressed(node, item)?;
    let at = found.geometry.entry(node, item);
    let word = table[at];
    if kept(word) == 0 {
        return Err(PLACE_INVALID);
    }
    let home = home(table, &found, node, item, true)?;
    let value = table[at + 2];
    let mut pen = Pen::new(table, limit);
    goes_home(&mut pen, &home, 2, value, state(current(home.word), kept(word)));
    pen.store(at, state(current(word), 0));
    pen.done(0)
}

#[inline(never)]
pub fn open(table: &mut [u64], limit: u64) -> Outcome {
    outcome(try_open(table, limit))
}

fn try_open(table: &mut [u64], limit: u64) -> Result<Outcome, u64> {
    let found = checked(table)?;
    if found.phase == CREATING {
        return Err(CHECKPOINT_OPEN);
    }
    if found.number == LARGEST_NUMBER {
        return Err(LAST_NUMBER);
    }
    let mut pen = Pen::new(table, limit);
    pen.mark_all(found.live, mark(CREATING, found.number));
    pen.done(0)
}

#[inline(never)]
pub fn create(table: &mut [u64], limit: u64) -> Outcome {
    outcome(try_create(table, limit))
}

fn try_create(table: &mut [u64], limit: u64) -> Result<Outcome, u64> {
    let found = checked_open(table)?;
    let item = found.dirty.first().ok_or(NOTHING_LEFT)?;
    let (mut owner, mut sharer) = (None, None);
    for node in Bits(found.live) {
        match current(table[found.geometry.entry(node, item)]) {
            OWNER | MODIFIED => owner = Some(node),
            SHARED if sharer.is_none() => sharer = Some(node),
            _ => (),
        }
    }
    let owner = owner.expect("a dirty item has an owner");
    let home = match sharer {
        Some(node) => {
            let at = found.geometry.entry(node, item);
            Home { at, word: table[at], takeover: true, dropped: None }
        }
        None => home(table, &found, owner, item, false)?,
    };
    let at = found.geometry.entry(owner, item);
    let (word, value) = (table[at], table[at + 1]);
    let mut pen = Pen::new(table, limit);
    pen.store(at, state(PRECOMMIT1, kept(word)));
    goes_home(&mut pen, &home, 1, value, state(PRECOMMIT2, kept(home.word)));
    pen.done(0)
}

#[inline(never)]
pub fn commit(table: &mut [u64], limit: u64) -> Outcome {
    outcome(try_commit(table, limit))
}

fn try_commit(table: &mut [u64], limit: u64) -> Result<Outcome, u64> {
    let found = checked_open(table)?;
    if found.dirty.first().is_some() {
        return Err(NOT_ALL_CREATED);
    }
    let mut pen = Pen::new(table, limit);
    pen.mark_all(found.live, mark(COMMITTING, found.number + 1));
    turn_created(&mut pen, &found, &COMMITTED);
    pen.mark_all(found.live, mark(RUNNING, found.number + 1));
    pen.done(0)
}

/// How many stores a whole commit makes, as the value: two marks of each live node, and four entries of each created
/// item, less one where two of the four are one.
#[inline(never)]
pub fn commit_length(table: &[u64]) -> Outcome {
    outcome(try_commit_length(table))
}

fn try_commit_length(table: &[u64]) -> Result<Outcome, u64> {
    let found = checked_open(table)?;
    if found.dirty.first().is_some() {
        return Err(NOT_ALL_CREATED);
    }
    let created: u32 = found.created.0.iter().map(|bits| bits.count_ones()).sum();
    let mut length = 2 * found.live.count_ones() as u64 + 4 * created as u64;
    for item in found.created.iter() {
        for node in Bits(found.live) {
            let code = code(table[found.geometry.entry(node, item)]);
            length -= (code >> 2 >= PRECOMMIT1 as usize && code & 3 != 0) as u64;
        }
    }
    Ok(Outcome { answer: 0, value: length, stores: 0 })
}

/// The state word that an entry of a created item has after a commit, and after the checkpoint is
/// abandoned, by code.
static COMMITTED: [u64; 64] = turned(SHARED_CK1, SHARED_CK2, false);
static ABANDONED: [u64; 64] = turned(OWNER, SHARED, true);

const fn turned(precommit1: u64, precommit2: u64, keeps: bool) -> [u64; 64] {
    let mut table = [0; 64];
    let mut code = 0;
    while code < 64 {
        let current = match (code >> 2) as u64 {
            PRECOMMIT1 => precommit1,
            PRECOMMIT2 => precommit2,
            other => other,
        };
        table[code] = state(current, if keeps { (code & 3) as u64 } else { 0 });
        code += 1;
    }
    table
}

/// Turns the entries of the created items, by node, then item. Those that change are gathered first.
fn turn_created(pen: &mut Pen, found: &Found, turned: &[u64; 64]) {
    let mut items = [0u16; 256];
    let mut places = [0u16; 256];
    let mut length = 0;
    for item in found.created.iter() {
        items[length] = item as u16;
        length += 1;
    }
    for node in Bits(found.live) {
        let mut count = 0;
        for &item in &items[..length] {
            let at = found.geometry.entry(node, item as usize);
            let word = pen.table[at];
            places[count & 255] = at as u16;
            count += (turned[code(word)] != word) as usize;
        }
        for &at in &places[..count.min(256)] {
            let word = pen.table[at as usize];
            pen.store(at as usize, turned[code(word)]);
        }
    }
}

#[inline(never)]
pub fn abandon(table: &mut [u64], limit: u64) -> Outcome {
    outcome(try_abandon(table, limit))
}

fn try_abandon(table: &mut [u64], limit: u64) -> Result<Outcome, u64> {
    let found = checked_open(table)?;
    let mut pen = Pen::new(table, limit);
    turn_created(&mut pen, &found, &ABANDONED);
    pen.mark_all(found.live, mark(RUNNING, found.number));
    pen.done(0)
}

// Recovery.

/// What the pass over the survivors found: for each item, who will hold the first and who the second
/// recovery copy once the table is rolled (a bit for each node), and the copies' value.
struct Rolled<const SIZE: usize> {
    first: [u16; SIZE],
    second: [u16; SIZE],
    values: [u64; SIZE],
    formed: bool,
    equal: bool,
}

#[inline(never)]
pub fn recover(table: &mut [u64], lost: Option<u64>, scratch: &mut [u64], limit: u64) -> Outcome {
    outcome(try_recover(table, lost, scratch, limit))
}

fn try_recover(table: &mut [u64], lost: Option<u64>, scratch: &mut [u64], limit: u64) -> Result<Outcome, u64> {
    let geometry = geometry_of(table)?;
    if lost.is_some_and(|node| node >= geometry.nodes as u64) {
        return Err(NO_SUCH_NODE);
    }
    let lost = lost.map(|node| node as usize);
    let scratch = scratch.get_mut(..geometry.items + geometry.nodes).ok_or(SHORT_SCRATCH)?;
    let outcome = match geometry.items {
        0..=16 => recover_sized::<16>(table, geometry, lost, limit),
        17..=64 => recover_sized::<64>(table, geometry, lost, limit),
        _ => recover_sized::<256>(table, geometry, lost, limit),
    }?;
    scratch.fill(0);
    Ok(outcome)
}

/// What the survivors' marks say together.
struct Marks {
    survivors: u64,
    formed: bool,
    forward: bool,
    number: u64,
}

fn survivors_marks(marks: &[u64], lost: Option<usize>) -> Marks {
    let mut found = Marks { survivors: 0, formed: true, forward: false, number: 0 };
    for (node, &mark) in marks.iter().enumerate() {
        if mark != 0 && lost != Some(node) {
            found.survivors |= 1 << node;
            found.formed &= mark_formed(mark);
            found.forward |= phase(mark) == COMMITTING;
            found.number = found.number.max(number(mark));
        }
    }
    found
}

fn recover_sized<const SIZE: usize>(
    table: &mut [u64],
    geometry: Geometry,
    lost: Option<usize>,
    limit: u64,
) -> Result<Outcome, u64> {
    let marks = survivors_marks(&table[1..1 + geometry.nodes], lost);
    if !marks.formed {
        return Err(NOT_SOUND);
    }
    let rolled = survey_recovery::<SIZE>(table, geometry, &marks);
    if !rolled.formed {
        return Err(NOT_SOUND);
    }
    let count = marks.survivors.count_ones() as usize;
    if count < 2 || (count - 1) * geometry.frames < 2 * geometry.items - 1 {
        return Err(TOO_FEW_SURVIVORS);
    }
    let held = (0..geometry.items).all(|item| rolled.first[item] | rolled.second[item] != 0);
    if !held || !rolled.equal {
        return Err(NO_RECOVERY_COPY);
    }
    let mut pen = Pen::new(table, limit);
    if let Some(node) = lost {
        pen.store(1 + node, 0);
    }
    roll::<SIZE>(&mut pen, geometry, &marks);
    settle(&mut pen, geometry, marks.survivors, rolled);
    pen.mark_all(marks.survivors, mark(RUNNING, marks.number));
    pen.done(0)
}

/// 1 or 2 where an entry of this code holds that recovery copy on the chosen side, else 0.
static HELD_BACK: [u8; 64] = held(false);
static HELD_FORWARD: [u8; 64] = held(true);

const fn held(forward: bool) -> [u8; 64] {
    let mut table = [0; 64];
    let mut code = 0;
    while code < 32 {
        let current = (code >> 2) as u64;
        table[code] = match current {
            SHARED_CK1 => 1,
            SHARED_CK2 => 2,
            PRECOMMIT1 if forward => 1,
            PRECOMMIT2 if forward => 2,
            _ if forward => 0,
            _ => (code & 3) as u8,
        };
        code += 1;
    }
    table
}

/// The bits in which a copy's value differs from the item's first; the first is noted.
#[inline]
fn differs(first: &mut u64, noted: bool, is_copy: bool, value: u64) -> u64 {
    let known = if noted { *first } else { value };
    *first = known;
    if is_copy {
        known ^ value
    } else {
        0
    }
}

fn survey_recovery<const SIZE: usize>(table: &[u64], geometry: Geometry, marks: &Marks) -> Rolled<SIZE> {
    let held = if marks.forward { &HELD_FORWARD } else { &HELD_BACK };
    let mut rolled = Rolled { first: [0; SIZE], second: [0; SIZE], values: [0; SIZE], formed: true, equal: true };
    let mut occupied = Occupied::<SIZE>::new();
    let mut bad = 0;
    let mut differ = 0;
    for node in Bits(marks.survivors) {
        let entries = geometry.entries(table, node);
        occupied.gather(entries);
        let mut sum = 0;
        for &item in occupied.list() {
            let item = item as usize & (SIZE - 1);
            let entry = entries[item];
            let code = code(entry[0]);
            sum += TALLIES[code];
            bad |= TALLIES[code] & ONE_BAD;
            let twin = held[code];
            // A recovery copy in the kept place counts only where the current place holds none.
            let in_current = code >> 2 >= SHARED_CK1 as usize && (marks.forward || code >> 2 <= SHARED_CK2 as usize);
            let value = if in_current { entry[1] } else { entry[2] };
            let noted = rolled.first[item] | rolled.second[item] != 0;
            differ |= differs(&mut rolled.values[item], noted, twin != 0, value);
            rolled.first[item] |= ((twin == 1) as u16) << node;
            rolled.second[item] |= ((twin == 2) as u16) << node;
        }
        rolled.formed &= sum >> FRAMES_FROM <= geometry.frames as u64;
    }
    rolled.formed &= occupied.formed && bad == 0;
    rolled.equal = differ == 0;
    rolled
}

fn roll<const SIZE: usize>(pen: &mut Pen, geometry: Geometry, marks: &Marks) {
    let mut occupied = Occupied::<SIZE>::new();
    for node in Bits(marks.survivors) {
        occupied.gather(geometry.entries(pen.table, node));
        for &item in occupied.list() {
            roll_entry(pen, geometry.entry(node, item as usize), marks.forward);
        }
    }
}

#[inline]
fn roll_entry(pen: &mut Pen, at: usize, forward: bool) {
    let word = pen.table[at];
    if !forward && kept(word) != 0 {
        if current(word) != INVALID {
            pen.store(at, state(INVALID, kept(word)));
        }
        let value = pen.table[at + 2];
        pen.store(at + 1, value);
        pen.store(at, state(SHARED_CK1 - 1 + kept(word), 0));
        return;
    }
    let rolled = match current(word) {
        SHARED_CK1 | SHARED_CK2 => current(word),
        PRECOMMIT1 if forward => SHARED_CK1,
        PRECOMMIT2 if forward => SHARED_CK2,
        _ => INVALID,
    };
    if state(rolled, 0) != word {
        pen.store(at, state(rolled, 0));
    }
}

const fn lowest(set: u16) -> u16 {
    set & set.wrapping_neg()
}

/// Who holds the item's recovery copy of one number in the end: its lowest holder, else the second
/// lowest of the other number.
fn chosen(own: u16, other: u16) -> u16 {
    if own != 0 {
        lowest(own)
    } else {
        lowest(other & !lowest(other))
    }
}

/// Surplus copies go; then single copies get their partners.
fn settle<const SIZE: usize>(pen: &mut Pen, geometry: Geometry, survivors: u64, mut rolled: Rolled<SIZE>) {
    let mut used = [0; MAX_NODES];
    for item in 0..geometry.items {
        let (first, second) = (rolled.first[item], rolled.second[item]);
        let (stays_first, stays_second) = (chosen(first, second), chosen(second, first));
        if (first, second) != (stays_first, stays_second) {
            drop_surplus(pen, geometry, item, (first, second), (stays_first, stays_second));
        }
        for node in Bits((stays_first | stays_second) as u64) {
            used[node] += 1;
        }
        rolled.first[item] = stays_first;
        rolled.second[item] = stays_second;
    }
    for item in 0..geometry.items {
        let (first, second) = (rolled.first[item], rolled.second[item]);
        if first == 0 || second == 0 {
            let absent = if first == 0 { SHARED_CK1 } else { SHARED_CK2 };
            let single = (first | second).trailing_zeros() as usize;
            let partner = partner(geometry, survivors, &used, single);
            used[partner] += 1;
            let at = geometry.entry(partner, item);
            pen.store(at + 1, rolled.values[item]);
            pen.store(at, state(absent, 0));
        }
    }
}

fn drop_surplus(pen: &mut Pen, geometry: Geometry, item: usize, held: (u16, u16), stays: (u16, u16)) {
    for node in Bits((held.0 | held.1) as u64) {
        let code = |sets: (u16, u16)| {
            if sets.0 >> node & 1 == 1 {
                SHARED_CK1
            } else if sets.1 >> node & 1 == 1 {
                SHARED_CK2
            } else {
                INVALID
            }
        };
        if code(held) != code(stays) {
            pen.store(geometry.entry(node, item), state(code(stays), 0));
        }
    }
}

/// The first survivor after the single holder that has a free frame.
fn partner(geometry: Geometry, survivors: u64, used: &[usize; MAX_NODES], single: usize) -> usize {
    let after = Bits(survivors & (!0 << single << 1)).chain(Bits(survivors & !(!0 << single)));
    after.into_iter().find(|&node| used[node] < geometry.frames).expect("enough frames for partners")
}
