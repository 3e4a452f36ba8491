//! The engine of document 01, told as plainly as it can be told, to compare other engines with.
//!
//! A call reads the lent table into a picture (marks and entries of the live nodes, decoded) and is
//! turned down, or makes its whole list of stores from that picture: its plan. `carry_out` then stores
//! the first `limit` of them. Speed is no aim here.

/// What a call says: the answer's number (0 carried out, 17 nothing left to create, else a refusal),
/// the value and the number of stores made.
#[derive(Clone, Copy, PartialEq, Eq, Debug)]
pub struct Outcome {
    pub answer: u64,
    pub value: u64,
    pub stores: u64,
}

// The numbers of the refusals.
const TOO_SHORT: u64 = 1;
const NOT_SOUND: u64 = 2;
const NO_GEOMETRY: u64 = 3;
const NO_SUCH_NODE: u64 = 4;
const NO_SUCH_ITEM: u64 = 5;
const NODE_DEAD: u64 = 6;
const CHECKPOINT_OPEN: u64 = 7;
const NO_CHECKPOINT_OPEN: u64 = 8;
const NO_FRAME: u64 = 9;
const PLACE_INVALID: u64 = 10;
const NO_HOME: u64 = 11;
const NOT_ALL_CREATED: u64 = 12;
const LAST_NUMBER: u64 = 13;
const TOO_FEW_SURVIVORS: u64 = 14;
const NO_RECOVERY_COPY: u64 = 15;
const SHORT_SCRATCH: u64 = 16;
const NOTHING_LEFT: u64 = 17;
const NO_SUCH_PLACE: u64 = 18;
const TOO_MANY_FRAMES: u64 = 20;

const LARGEST_NUMBER: u64 = (1 << 32) - 1;

/// Which of an item's two recovery copies.
#[derive(Clone, Copy, PartialEq, Eq, Debug)]
enum Twin {
    First,
    Second,
}

impl Twin {
    fn other(self) -> Twin {
        match self {
            Twin::First => Twin::Second,
            Twin::Second => Twin::First,
        }
    }
}

#[derive(Clone, Copy, PartialEq, Eq, Debug)]
enum Current {
    Invalid,
    Shared,
    Owner,
    Modified,
    SharedCk(Twin),
    Precommit(Twin),
}

/// The kept place: Invalid, or the Inv-CK of a number.
type Kept = Option<Twin>;

#[derive(Clone, Copy, PartialEq, Eq, Debug)]
enum Phase {
    Running,
    Creating,
    Committing,
}

#[derive(Clone, Copy, PartialEq, Eq, Debug)]
struct Mark {
    phase: Phase,
    number: u64,
}

#[derive(Clone, Copy, Debug)]
struct Entry {
    current: Current,
    kept: Kept,
    current_value: u64,
    kept_value: u64,
}

#[derive(Clone, Copy, PartialEq, Eq, Debug)]
enum Kind {
    Clean,
    Dirty,
    Created,
}

#[derive(Clone, Copy, PartialEq, Eq)]
enum Place {
    Current,
    Kept,
}

// Words.

fn current_code(current: Current) -> u64 {
    match current {
        Current::Invalid => 0,
        Current::Shared => 1,
        Current::Owner => 2,
        Current::Modified => 3,
        Current::SharedCk(Twin::First) => 4,
        Current::SharedCk(Twin::Second) => 5,
        Current::Precommit(Twin::First) => 6,
        Current::Precommit(Twin::Second) => 7,
    }
}

fn current_of(code: u64) -> Option<Current> {
    Some(match code {
        0 => Current::Invalid,
        1 => Current::Shared,
        2 => Current::Owner,
        3 => Current::Modified,
        4 => Current::SharedCk(Twin::First),
        5 => Current::SharedCk(Twin::Second),
        6 => Current::Precommit(Twin::First),
        7 => Current::Precommit(Twin::Second),
        _ => return None,
    })
}

fn kept_code(kept: Kept) -> u64 {
    match kept {
        None => 0,
        Some(Twin::First) => 1,
        Some(Twin::Second) => 2,
    }
}

fn kept_of(code: u64) -> Option<Kept> {
    match code {
        0 => Some(None),
        1 => Some(Some(Twin::First)),
        2 => Some(Some(Twin::Second)),
        _ => None,
    }
}

fn state_word(current: Current, kept: Kept) -> u64 {
    current_code(current) << 60 | kept_code(kept) << 58
}

/// The two places of a state word, or nothing where the word is out of form.
fn state_of(word: u64) -> Option<(Current, Kept)> {
    if word << 6 != 0 {
        return None;
    }
    let current = current_of(word >> 60)?;
    let kept = kept_of(word >> 58 & 3)?;
    if matches!(current, Current::SharedCk(_)) && kept.is_some() {
        return None;
    }
    Some((current, kept))
}

fn phase_code(phase: Phase) -> u64 {
    match phase {
        Phase::Running => 0,
        Phase::Creating => 1,
        Phase::Committing => 2,
    }
}

fn mark_word(mark: Mark) -> u64 {
    1 << 63 | phase_code(mark.phase) << 61 | mark.number << 29
}

/// The mark of a live node's word, or nothing where the word is out of form.
fn mark_of(word: u64) -> Option<Mark> {
    if word >> 63 != 1 || word << 35 != 0 {
        return None;
    }
    let phase = match word >> 61 & 3 {
        0 => Phase::Running,
        1 => Phase::Creating,
        2 => Phase::Committing,
        _ => return None,
    };
    Some(Mark { phase, number: word >> 29 & LARGEST_NUMBER })
}

/// N, M and F.
#[derive(Clone, Copy, PartialEq, Eq, Debug)]
struct Geometry {
    nodes: usize,
    items: usize,
    frames: usize,
}

impl Geometry {
    /// Within the ranges, and with a frame for every place of a node, or enough frames for four copies of every item
    /// where one node is dead.
    fn new(nodes: u64, items: u64, frames: u64) -> Option<Geometry> {
        let within = (3..=16).contains(&nodes) && (1..=256).contains(&items) && (1..=512).contains(&frames);
        let reserved = || frames == 2 * items || (nodes - 2) * frames >= 4 * items - 1;
        if !within || !reserved() {
            return None;
        }
        Some(Geometry { nodes: nodes as usize, items: items as usize, frames: frames as usize })
    }

    fn word(self) -> u64 {
        (self.nodes as u64) << 55 | (self.items as u64) << 46 | (self.frames as u64) << 36
    }

    fn of_word(word: u64) -> Option<Geometry> {
        if word >> 60 != 0 || word << 28 != 0 {
            return None;
        }
        Geometry::new(word >> 55 & 31, word >> 46 & 511, word >> 36 & 1023)
    }

    fn words(self) -> usize {
        1 + self.nodes + 3 * self.nodes * self.items
    }

    /// The place of the entry's state word; its values are in the next two.
    fn entry(self, node: usize, item: usize) -> usize {
        1 + self.nodes + 3 * (node * self.items + item)
    }
}

/// Refusals 1, 3 and 1: the geometry of a table that is long enough for it.
fn geometry_of(table: &[u64]) -> Result<Geometry, u64> {
    let first = *table.first().ok_or(TOO_SHORT)?;
    let geometry = Geometry::of_word(first).ok_or(NO_GEOMETRY)?;
    if table.len() < geometry.words() {
        return Err(TOO_SHORT);
    }
    Ok(geometry)
}

// The picture of a table, and the list of stores that a call makes on it.

struct Picture {
    geometry: Geometry,
    /// Nothing for a node that is dead, or left out.
    marks: Vec<Option<Mark>>,
    /// Empty for a node that is dead, or left out.
    entries: Vec<Vec<Entry>>,
    stores: Vec<(usize, u64)>,
}

impl Picture {
    /// The nodes that are live and not left out; nothing where one of their words is out of form or
    /// one uses more frames than there are.
    fn of(table: &[u64], geometry: Geometry, left_out: Option<usize>) -> Option<Picture> {
        let mut marks = Vec::new();
        let mut entries = Vec::new();
        for node in 0..geometry.nodes {
            let word = table[1 + node];
            if word == 0 || left_out == Some(node) {
                marks.push(None);
                entries.push(Vec::new());
            } else {
                marks.push(Some(mark_of(word)?));
                entries.push(entries_of(table, geometry, node)?);
            }
        }
        let picture = Picture { geometry, marks, entries, stores: Vec::new() };
        let fits = picture.live().all(|node| picture.used(node) <= geometry.frames);
        fits.then_some(picture)
    }

    fn is_live(&self, node: usize) -> bool {
        self.marks[node].is_some()
    }

    fn live(&self) -> impl Iterator<Item = usize> + '_ {
        (0..self.geometry.nodes).filter(|&node| self.is_live(node))
    }

    fn live_list(&self) -> Vec<usize> {
        self.live().collect()
    }

    /// The live nodes after `node`, cyclically, itself excluded.
    fn live_after(&self, node: usize) -> impl Iterator<Item = usize> + '_ {
        let nodes = self.geometry.nodes;
        (1..nodes).map(move |step| (node + step) % nodes).filter(|&other| self.is_live(other))
    }

    fn entry(&self, node: usize, item: usize) -> Entry {
        self.entries[node][item]
    }

    fn current(&self, node: usize, item: usize) -> Current {
        self.entries[node][item].current
    }

    fn kept(&self, node: usize, item: usize) -> Kept {
        self.entries[node][item].kept
    }

    fn used(&self, node: usize) -> usize {
        let places = |entry: &Entry| (entry.current != Current::Invalid) as usize + entry.kept.is_some() as usize;
        self.entries[node].iter().map(places).sum()
    }

    fn has_free_frame(&self, node: usize) -> bool {
        self.used(node) < self.geometry.frames
    }

    fn store_mark(&mut self, node: usize, mark: Option<Mark>) {
        self.marks[node] = mark;
        self.stores.push((1 + node, mark.map_or(0, mark_word)));
    }

    fn store_state(&mut self, node: usize, item: usize, current: Current, kept: Kept) {
        let entry = &mut self.entries[node][item];
        entry.current = current;
        entry.kept = kept;
        self.stores.push((self.geometry.entry(node, item), state_word(current, kept)));
    }

    fn store_current(&mut self, node: usize, item: usize, current: Current) {
        self.store_state(node, item, current, self.kept(node, item));
    }

    fn store_current_value(&mut self, node: usize, item: usize, value: u64) {
        self.entries[node][item].current_value = value;
        self.stores.push((self.geometry.entry(node, item) + 1, value));
    }

    fn store_kept_value(&mut self, node: usize, item: usize, value: u64) {
        self.entries[node][item].kept_value = value;
        self.stores.push((self.geometry.entry(node, item) + 2, value));
    }
}

fn entries_of(table: &[u64], geometry: Geometry, node: usize) -> Option<Vec<Entry>> {
    let entry = |item| {
        let at = geometry.entry(node, item);
        let (current, kept) = state_of(table[at])?;
        Some(Entry { current, kept, current_value: table[at + 1], kept_value: table[at + 2] })
    };
    (0..geometry.items).map(entry).collect()
}

// Soundness.

/// A sound table: its picture, the phase and number that all live marks have, every item's kind.
struct Sound {
    picture: Picture,
    mark: Mark,
    kinds: Vec<Kind>,
}

fn agreed_mark(picture: &Picture) -> Option<Mark> {
    let mut marks = picture.marks.iter().flatten();
    let first = *marks.next()?;
    let allowed = match first.phase {
        Phase::Running => true,
        Phase::Creating => first.number < LARGEST_NUMBER,
        Phase::Committing => false,
    };
    (allowed && marks.all(|mark| *mark == first)).then_some(first)
}

fn all_equal(mut values: impl Iterator<Item = u64>) -> bool {
    let first = values.next();
    values.all(|value| Some(value) == first)
}

fn kind_of(picture: &Picture, phase: Phase, item: usize) -> Option<Kind> {
    let entries = || picture.live().map(|node| picture.entry(node, item));
    let copies = || entries().filter(|entry| entry.current != Current::Invalid);
    let keeps = || entries().filter(|entry| entry.kept.is_some());
    let number_of = |current| copies().filter(|entry| entry.current == current).count();
    let keeps_of = |twin| keeps().filter(|entry| entry.kept == Some(twin)).count();

    let values_equal = all_equal(copies().map(|entry| entry.current_value));
    let kept_pair =
        keeps_of(Twin::First) == 1 && keeps_of(Twin::Second) == 1 && all_equal(keeps().map(|entry| entry.kept_value));
    let sharers = number_of(Current::Shared);
    let others = copies().count() - sharers;
    let pair_of = |first, second| others == 2 && number_of(first) == 1 && number_of(second) == 1;

    let clean = pair_of(Current::SharedCk(Twin::First), Current::SharedCk(Twin::Second));
    let exclusive = others == 1 && number_of(Current::Modified) == 1 && sharers == 0;
    let nonexclusive = others == 1 && number_of(Current::Owner) == 1;
    let created = pair_of(Current::Precommit(Twin::First), Current::Precommit(Twin::Second));

    if !values_equal {
        None
    } else if clean && keeps().count() == 0 {
        Some(Kind::Clean)
    } else if (exclusive || nonexclusive) && kept_pair {
        Some(Kind::Dirty)
    } else if created && kept_pair && phase == Phase::Creating {
        Some(Kind::Created)
    } else {
        None
    }
}

fn sound(picture: Picture) -> Option<Sound> {
    let mark = agreed_mark(&picture)?;
    let kinds = (0..picture.geometry.items).map(|item| kind_of(&picture, mark.phase, item)).collect::<Option<_>>()?;
    Some(Sound { picture, mark, kinds })
}

/// The table checks: 1, 3, 1, 2.
fn checked(table: &[u64]) -> Result<Sound, u64> {
    let geometry = geometry_of(table)?;
    Picture::of(table, geometry, None).and_then(sound).ok_or(NOT_SOUND)
}

/// What Read, Write and Evict ask next: 4, 5, 6, 7.
fn addressed(sound: &Sound, node: u64, item: u64) -> Result<(usize, usize), u64> {
    let geometry = sound.picture.geometry;
    if node >= geometry.nodes as u64 {
        return Err(NO_SUCH_NODE);
    }
    if item >= geometry.items as u64 {
        return Err(NO_SUCH_ITEM);
    }
    if !sound.picture.is_live(node as usize) {
        return Err(NODE_DEAD);
    }
    if sound.mark.phase == Phase::Creating {
        return Err(CHECKPOINT_OPEN);
    }
    Ok((node as usize, item as usize))
}

/// What Create, Commit and Abandon ask: the table checks, then 8.
fn checked_open(table: &[u64]) -> Result<Sound, u64> {
    let sound = checked(table)?;
    if sound.mark.phase != Phase::Creating {
        return Err(NO_CHECKPOINT_OPEN);
    }
    Ok(sound)
}

// Answers.

/// A carried-out call: its value and its list of stores (place, word); or a number that stores nothing.
pub type Plan = Result<(u64, Vec<(usize, u64)>), u64>;

/// Makes the first `limit` stores of the plan.
pub fn carry_out(table: &mut [u64], plan: Plan, limit: u64) -> Outcome {
    match plan {
        Err(answer) => Outcome { answer, value: 0, stores: 0 },
        Ok((value, stores)) => {
            let made = limit.min(stores.len() as u64);
            for &(place, word) in &stores[..made as usize] {
                table[place] = word;
            }
            Outcome { answer: 0, value, stores: made }
        }
    }
}

// The calls.

/// The words that a table of so many nodes and items has; 0 where no geometry has them.
pub fn words(nodes: u64, items: u64) -> u64 {
    let some = (1..=512).find_map(|frames| Geometry::new(nodes, items, frames));
    some.map_or(0, |geometry| geometry.words() as u64)
}

pub fn check(table: &[u64]) -> u64 {
    checked(table).err().unwrap_or(0)
}

/// The answer, and the start and length of the node's entries (both 0 where refused).
pub fn stretch(table: &[u64], node: u64) -> (u64, u64, u64) {
    match geometry_of(table) {
        Err(refusal) => (refusal, 0, 0),
        Ok(geometry) if node >= geometry.nodes as u64 => (NO_SUCH_NODE, 0, 0),
        Ok(geometry) => (0, geometry.entry(node as usize, 0) as u64, 3 * geometry.items as u64),
    }
}

pub fn format_plan(length: usize, nodes: u64, items: u64, frames: u64) -> Plan {
    let geometry = Geometry::new(nodes, items, frames).ok_or(NO_GEOMETRY)?;
    if geometry.frames > 2 * geometry.items {
        return Err(TOO_MANY_FRAMES);
    }
    if length < geometry.words() {
        return Err(TOO_SHORT);
    }
    Ok((0, format_stores(geometry)))
}

/// A table as Format left it before more frames than places were refused: its words, for any allowed geometry.
pub fn lay_out(table: &mut [u64], nodes: u64, items: u64, frames: u64) {
    let geometry = Geometry::new(nodes, items, frames).expect("an allowed geometry");
    for (place, word) in format_stores(geometry) {
        table[place] = word;
    }
}

fn format_stores(geometry: Geometry) -> Vec<(usize, u64)> {
    let mut words = vec![geometry.word()];
    words.resize(1 + geometry.nodes, mark_word(Mark { phase: Phase::Running, number: 0 }));
    for node in 0..geometry.nodes {
        for item in 0..geometry.items {
            words.extend([state_word(formatted(geometry.nodes, node, item), None), 0, 0]);
        }
    }
    words.into_iter().enumerate().collect()
}

fn formatted(nodes: usize, node: usize, item: usize) -> Current {
    if node == 2 * item % nodes {
        Current::SharedCk(Twin::First)
    } else if node == (2 * item + 1) % nodes {
        Current::SharedCk(Twin::Second)
    } else {
        Current::Invalid
    }
}

fn serves(current: Current) -> bool {
    matches!(current, Current::SharedCk(Twin::First) | Current::Owner | Current::Modified)
}

pub fn read_plan(table: &[u64], node: u64, item: u64) -> Plan {
    let sound = checked(table)?;
    let (node, item) = addressed(&sound, node, item)?;
    let mut picture = sound.picture;
    let mine = picture.entry(node, item);
    if mine.current != Current::Invalid {
        return Ok((mine.current_value, Vec::new()));
    }
    if !picture.has_free_frame(node) {
        return Err(NO_FRAME);
    }
    let server = picture.live().find(|&other| serves(picture.current(other, item))).expect("a sound item has a server");
    let value = picture.entry(server, item).current_value;
    if picture.current(server, item) == Current::Modified {
        picture.store_current(server, item, Current::Owner);
    }
    picture.store_current_value(node, item, value);
    picture.store_current(node, item, Current::Shared);
    Ok((value, picture.stores))
}

pub fn write_plan(table: &[u64], node: u64, item: u64, new_value: u64) -> Plan {
    let sound = checked(table)?;
    let (node, item) = addressed(&sound, node, item)?;
    let mut picture = sound.picture;
    let needs_frame = matches!(picture.current(node, item), Current::Invalid | Current::SharedCk(_));
    if needs_frame && !picture.has_free_frame(node) {
        return Err(NO_FRAME);
    }
    for other in picture.live_list() {
        if other != node {
            other_writes(&mut picture, other, item);
        }
    }
    if let Current::SharedCk(twin) = picture.current(node, item) {
        keep(&mut picture, node, item, twin);
    }
    picture.store_current_value(node, item, new_value);
    picture.store_current(node, item, Current::Modified);
    Ok((0, picture.stores))
}

/// A recovery copy moves from the current place to the kept place.
fn keep(picture: &mut Picture, node: usize, item: usize, twin: Twin) {
    let value = picture.entry(node, item).current_value;
    picture.store_kept_value(node, item, value);
    picture.store_state(node, item, Current::Invalid, Some(twin));
}

fn other_writes(picture: &mut Picture, node: usize, item: usize) {
    match picture.current(node, item) {
        Current::Invalid => (),
        Current::SharedCk(twin) => keep(picture, node, item, twin),
        Current::Shared | Current::Owner | Current::Modified => picture.store_current(node, item, Current::Invalid),
        Current::Precommit(_) => unreachable!("no checkpoint is open"),
    }
}

/// Where a copy goes that leaves its node.
struct Home {
    node: usize,
    room: Room,
}

/// How the home makes room: it takes its Shared copy over, has a free frame, or drops a Shared copy.
enum Room {
    Takeover,
    Free,
    Drop(usize),
}

fn home(picture: &Picture, source: usize, item: usize, place: Place) -> Result<Home, u64> {
    let room = |node| Some(Home { node, room: room_at(picture, node, item, place)? });
    picture.live_after(source).find_map(room).ok_or(NO_HOME)
}

fn room_at(picture: &Picture, node: usize, item: usize, place: Place) -> Option<Room> {
    let entry = picture.entry(node, item);
    if place == Place::Current && entry.current == Current::Shared {
        return Some(Room::Takeover);
    }
    let empty = match place {
        Place::Current => entry.current == Current::Invalid,
        Place::Kept => entry.kept.is_none(),
    };
    if !empty {
        None
    } else if picture.has_free_frame(node) {
        Some(Room::Free)
    } else {
        (0..picture.geometry.items).find(|&other| picture.current(node, other) == Current::Shared).map(Room::Drop)
    }
}

fn make_room(picture: &mut Picture, home: &Home) {
    if let Room::Drop(item) = home.room {
        picture.store_current(home.node, item, Current::Invalid);
    }
}

fn current_goes_home(picture: &mut Picture, home: &Home, item: usize, current: Current, value: u64) {
    make_room(picture, home);
    if !matches!(home.room, Room::Takeover) {
        picture.store_current_value(home.node, item, value);
    }
    picture.store_current(home.node, item, current);
}

fn kept_goes_home(picture: &mut Picture, home: &Home, item: usize, twin: Twin, value: u64) {
    make_room(picture, home);
    picture.store_kept_value(home.node, item, value);
    let current = picture.current(home.node, item);
    picture.store_state(home.node, item, current, Some(twin));
}

/// `place`: 0 the current place, 1 the kept place; any other number is answered with 18.
pub fn evict_plan(table: &[u64], node: u64, item: u64, place: u64) -> Plan {
    match place {
        0 => evict_current_plan(table, node, item),
        1 => evict_kept_plan(table, node, item),
        _ => Err(NO_SUCH_PLACE),
    }
}

fn evict_current_plan(table: &[u64], node: u64, item: u64) -> Plan {
    let sound = checked(table)?;
    let (node, item) = addressed(&sound, node, item)?;
    let mut picture = sound.picture;
    let leaving = picture.entry(node, item);
    if leaving.current == Current::Invalid {
        return Err(PLACE_INVALID);
    }
    if leaving.current != Current::Shared {
        let home = home(&picture, node, item, Place::Current)?;
        current_goes_home(&mut picture, &home, item, leaving.current, leaving.current_value);
    }
    picture.store_current(node, item, Current::Invalid);
    Ok((0, picture.stores))
}

fn evict_kept_plan(table: &[u64], node: u64, item: u64) -> Plan {
    let sound = checked(table)?;
    let (node, item) = addressed(&sound, node, item)?;
    let mut picture = sound.picture;
    let leaving = picture.entry(node, item);
    let twin = leaving.kept.ok_or(PLACE_INVALID)?;
    let home = home(&picture, node, item, Place::Kept)?;
    kept_goes_home(&mut picture, &home, item, twin, leaving.kept_value);
    picture.store_state(node, item, leaving.current, None);
    Ok((0, picture.stores))
}

pub fn open_plan(table: &[u64]) -> Plan {
    let sound = checked(table)?;
    if sound.mark.phase == Phase::Creating {
        return Err(CHECKPOINT_OPEN);
    }
    if sound.mark.number == LARGEST_NUMBER {
        return Err(LAST_NUMBER);
    }
    let mut picture = sound.picture;
    mark_all(&mut picture, Mark { phase: Phase::Creating, number: sound.mark.number });
    Ok((0, picture.stores))
}

fn mark_all(picture: &mut Picture, mark: Mark) {
    for node in picture.live_list() {
        picture.store_mark(node, Some(mark));
    }
}

pub fn create_plan(table: &[u64]) -> Plan {
    let sound = checked_open(table)?;
    let item = sound.kinds.iter().position(|kind| *kind == Kind::Dirty).ok_or(NOTHING_LEFT)?;
    let mut picture = sound.picture;
    let owns = |node: &usize| matches!(picture.current(*node, item), Current::Owner | Current::Modified);
    let owner = picture.live().find(owns).expect("a dirty item has an owner");
    let sharer = picture.live().find(|&node| picture.current(node, item) == Current::Shared);
    let value = picture.entry(owner, item).current_value;
    let partner = match sharer {
        Some(node) => Home { node, room: Room::Takeover },
        None => home(&picture, owner, item, Place::Current)?,
    };
    picture.store_current(owner, item, Current::Precommit(Twin::First));
    current_goes_home(&mut picture, &partner, item, Current::Precommit(Twin::Second), value);
    Ok((0, picture.stores))
}

/// What Commit asks: the table checks, 8, 12.
fn committable(table: &[u64]) -> Result<Sound, u64> {
    let sound = checked_open(table)?;
    if sound.kinds.contains(&Kind::Dirty) {
        return Err(NOT_ALL_CREATED);
    }
    Ok(sound)
}

pub fn commit_plan(table: &[u64]) -> Plan {
    let sound = committable(table)?;
    let mut picture = sound.picture;
    let number = sound.mark.number + 1;
    mark_all(&mut picture, Mark { phase: Phase::Committing, number });
    for node in picture.live_list() {
        for item in 0..picture.geometry.items {
            commit_entry(&mut picture, node, item);
        }
    }
    mark_all(&mut picture, Mark { phase: Phase::Running, number });
    Ok((0, picture.stores))
}

fn commit_entry(picture: &mut Picture, node: usize, item: usize) {
    let entry = picture.entry(node, item);
    match entry.current {
        Current::Precommit(twin) => picture.store_state(node, item, Current::SharedCk(twin), None),
        current if entry.kept.is_some() => picture.store_state(node, item, current, None),
        _ => (),
    }
}

/// The stores of a whole commit, by document 02: 2k + 4d - c for k live nodes, d created items and c entries of live
/// nodes with a Precommit and an Inv-CK side by side.
pub fn commit_length_plan(table: &[u64]) -> Plan {
    let Sound { picture, kinds, .. } = committable(table)?;
    let entries = picture.live().flat_map(|node| (0..kinds.len()).map(move |item| (node, item)));
    let side_by_side = entries.filter(|&(node, item)| {
        matches!(picture.current(node, item), Current::Precommit(_)) && picture.kept(node, item).is_some()
    });
    let created = kinds.iter().filter(|kind| **kind == Kind::Created);
    let length = 2 * picture.live().count() + 4 * created.count() - side_by_side.count();
    Ok((length as u64, Vec::new()))
}

pub fn abandon_plan(table: &[u64]) -> Plan {
    let sound = checked_open(table)?;
    let mut picture = sound.picture;
    for node in picture.live_list() {
        for item in 0..picture.geometry.items {
            match picture.current(node, item) {
                Current::Precommit(Twin::First) => picture.store_current(node, item, Current::Owner),
                Current::Precommit(Twin::Second) => picture.store_current(node, item, Current::Shared),
                _ => (),
            }
        }
    }
    mark_all(&mut picture, Mark { phase: Phase::Running, number: sound.mark.number });
    Ok((0, picture.stores))
}

// Recovery.

#[derive(Clone, Copy, PartialEq, Eq)]
enum Side {
    Back,
    Forward,
}

/// What an accepted recovery does to its scratch.
pub fn clear_scratch(table: &[u64], scratch: &mut [u64]) {
    let geometry = geometry_of(table).expect("an accepted table has a geometry");
    scratch[..geometry.items + geometry.nodes].fill(0);
}

pub fn recover_plan(table: &[u64], lost: Option<u64>, scratch_length: usize) -> Plan {
    let geometry = geometry_of(table)?;
    if lost.is_some_and(|node| node >= geometry.nodes as u64) {
        return Err(NO_SUCH_NODE);
    }
    if scratch_length < geometry.items + geometry.nodes {
        return Err(SHORT_SCRATCH);
    }
    let lost = lost.map(|node| node as usize);
    let mut picture = Picture::of(table, geometry, lost).ok_or(NOT_SOUND)?;
    let survivors = picture.live_list();
    if survivors.len() < 2 || (survivors.len() - 1) * geometry.frames < 2 * geometry.items - 1 {
        return Err(TOO_FEW_SURVIVORS);
    }
    let side = chosen_side(&picture);
    if !(0..geometry.items).all(|item| has_recovery_copy(&picture, side, item)) {
        return Err(NO_RECOVERY_COPY);
    }
    let number = picture.marks.iter().flatten().map(|mark| mark.number).max().expect("there are survivors");
    if let Some(node) = lost {
        picture.store_mark(node, None);
    }
    roll(&mut picture, side);
    drop_surplus(&mut picture);
    find_partners(&mut picture);
    mark_all(&mut picture, Mark { phase: Phase::Running, number });
    Ok((0, picture.stores))
}

fn chosen_side(picture: &Picture) -> Side {
    let committing = picture.marks.iter().flatten().any(|mark| mark.phase == Phase::Committing);
    if committing {
        Side::Forward
    } else {
        Side::Back
    }
}

/// The value of the entry's recovery copy on the chosen side.
fn recovery_value(entry: Entry, side: Side) -> Option<u64> {
    match (entry.current, side) {
        (Current::SharedCk(_), _) | (Current::Precommit(_), Side::Forward) => Some(entry.current_value),
        (_, Side::Back) if entry.kept.is_some() => Some(entry.kept_value),
        _ => None,
    }
}

fn has_recovery_copy(picture: &Picture, side: Side, item: usize) -> bool {
    let values = || picture.live().filter_map(|node| recovery_value(picture.entry(node, item), side));
    values().next().is_some() && all_equal(values())
}

fn roll(picture: &mut Picture, side: Side) {
    for node in picture.live_list() {
        for item in 0..picture.geometry.items {
            match (side, picture.kept(node, item)) {
                (Side::Back, Some(twin)) => bring_back(picture, node, item, twin),
                _ => roll_entry(picture, node, item, side),
            }
        }
    }
}

/// Rolling back an Inv-CK: it becomes the Shared-CK of its number.
fn bring_back(picture: &mut Picture, node: usize, item: usize, twin: Twin) {
    let entry = picture.entry(node, item);
    if entry.current != Current::Invalid {
        picture.store_state(node, item, Current::Invalid, entry.kept);
    }
    picture.store_current_value(node, item, entry.kept_value);
    picture.store_state(node, item, Current::SharedCk(twin), None);
}

fn roll_entry(picture: &mut Picture, node: usize, item: usize, side: Side) {
    let entry = picture.entry(node, item);
    let rolled = match entry.current {
        Current::SharedCk(twin) => Current::SharedCk(twin),
        Current::Precommit(twin) if side == Side::Forward => Current::SharedCk(twin),
        _ => Current::Invalid,
    };
    if rolled != entry.current || entry.kept.is_some() {
        picture.store_state(node, item, rolled, None);
    }
}

/// The holders of one of the item's recovery copies, ascending.
fn holders(picture: &Picture, item: usize, twin: Twin) -> Vec<usize> {
    picture.live().filter(|&node| picture.current(node, item) == Current::SharedCk(twin)).collect()
}

/// The node that has the recovery copy of that number in the end.
fn chosen_holder(picture: &Picture, item: usize, twin: Twin) -> Option<usize> {
    let own = holders(picture, item, twin);
    match own.first() {
        Some(&lowest) => Some(lowest),
        None => holders(picture, item, twin.other()).get(1).copied(),
    }
}

fn drop_surplus(picture: &mut Picture) {
    for item in 0..picture.geometry.items {
        let first = chosen_holder(picture, item, Twin::First);
        let second = chosen_holder(picture, item, Twin::Second);
        for node in picture.live_list() {
            let current = if first == Some(node) {
                Current::SharedCk(Twin::First)
            } else if second == Some(node) {
                Current::SharedCk(Twin::Second)
            } else {
                Current::Invalid
            };
            if picture.current(node, item) != current {
                picture.store_state(node, item, current, None);
            }
        }
    }
}

fn find_partners(picture: &mut Picture) {
    for item in 0..picture.geometry.items {
        let first = holders(picture, item, Twin::First);
        let second = holders(picture, item, Twin::Second);
        match (first.as_slice(), second.as_slice()) {
            (&[single], &[]) => give_partner(picture, item, single, Twin::Second),
            (&[], &[single]) => give_partner(picture, item, single, Twin::First),
            _ => (),
        }
    }
}

fn give_partner(picture: &mut Picture, item: usize, single: usize, absent: Twin) {
    let value = picture.entry(single, item).current_value;
    let fits = |node: &usize| picture.current(*node, item) == Current::Invalid && picture.has_free_frame(*node);
    let partner = picture.live_after(single).find(fits).expect("enough frames for partners");
    picture.store_current_value(partner, item, value);
    picture.store_state(partner, item, Current::SharedCk(absent), None);
}
