//! Random geometries, damage and tables that no run of calls reaches.

use crate::random::Random;

pub const LARGEST_NUMBER: u64 = (1 << 32) - 1;

#[derive(Clone, Copy)]
pub struct Geometry {
    pub nodes: u64,
    pub items: u64,
    pub frames: u64,
}

impl Geometry {
    pub fn words(self) -> usize {
        (1 + self.nodes + 3 * self.nodes * self.items) as usize
    }

    pub fn entry(self, node: u64, item: u64) -> usize {
        (1 + self.nodes + 3 * (node * self.items + item)) as usize
    }

    /// More than a node has places: a format is refused with 20, and a table that has them goes on working.
    pub fn has_unusable_frames(self) -> bool {
        self.frames > 2 * self.items
    }

    /// With no more frames than a node has places, so that a format is carried out.
    pub fn usable(self) -> Geometry {
        Geometry { frames: self.frames.min(2 * self.items), ..self }
    }

    /// The numbers in a table's first word, allowed or not.
    pub fn of_table(table: &[u64]) -> Geometry {
        let first = table.first().copied().unwrap_or(0);
        Geometry { nodes: first >> 55 & 31, items: first >> 46 & 511, frames: first >> 36 & 1023 }
    }
}

pub fn geometry_word(nodes: u64, items: u64, frames: u64) -> u64 {
    nodes << 55 | items << 46 | frames << 36
}

pub fn mark(phase: u64, number: u64) -> u64 {
    1 << 63 | phase << 61 | number << 29
}

pub fn state(current: u64, kept: u64) -> u64 {
    current << 60 | kept << 58
}

pub const MOST_FRAMES: u64 = 512;

/// From so many frames on, up to the most, all are allowed; besides, as many as a node has places are.
pub fn enough_frames(nodes: u64, items: u64) -> u64 {
    (4 * items - 1).div_ceil(nodes - 2)
}

/// The fewest frames with which a geometry is allowed.
pub fn fewest_frames(nodes: u64, items: u64) -> u64 {
    enough_frames(nodes, items).min(2 * items)
}

/// These frames where they are allowed, else as many as a node has places.
pub fn allowed_frames(nodes: u64, items: u64, wanted: u64) -> u64 {
    if (enough_frames(nodes, items)..=MOST_FRAMES).contains(&wanted) {
        wanted
    } else {
        2 * items
    }
}

/// Mostly small; frames often scarce, so that copies need homes and homes drop copies, and now and then more than a
/// node has places. Three or four nodes have never fewer frames than places.
pub fn allowed_geometry(random: &mut Random) -> Geometry {
    let (nodes, items) = match random.below(200) {
        0..=119 => (random.one_of(&[3, 4, 5, 5, 5, 6, 6, 7]), random.between(1, 4)),
        120..=179 => (random.between(3, 9), random.between(1, 12)),
        180..=198 => (random.between(3, 16), random.between(1, 40)),
        _ => (random.between(3, 16), random.between(1, 256)),
    };
    let fewest = fewest_frames(nodes, items);
    let wanted = match random.below(8) {
        0..=3 => fewest,
        4 => fewest + 1,
        5 => 2 * items + random.below(2),
        6 => random.between(fewest, MOST_FRAMES),
        _ => fewest + random.below(items + 1),
    };
    Geometry { nodes, items, frames: allowed_frames(nodes, items, wanted) }
}

/// A number of frames at the edges of what is allowed, or one beside it.
fn edge_frames(random: &mut Random, nodes: u64, items: u64) -> u64 {
    random.one_of(&[enough_frames(nodes, items), 2 * items, 4 * items - 1]) + random.below(3) - 1
}

/// Allowed, or just not.
pub fn edge_geometry(random: &mut Random) -> Geometry {
    let Geometry { nodes, items, .. } = allowed_geometry(random);
    Geometry { nodes, items, frames: edge_frames(random, nodes, items) }
}

/// How many of the table's marks are 0.
pub fn dead_nodes(table: &[u64]) -> usize {
    let nodes = Geometry::of_table(table).nodes as usize;
    table.iter().skip(1).take(nodes).filter(|mark| **mark == 0).count()
}

/// Any numbers: near the limits, or far beyond.
pub fn any_geometry(random: &mut Random) -> Geometry {
    let mut near = |edges: &[u64]| match random.below(12) {
        0 => random.word(),
        1 => random.below(1 << 33),
        _ => random.one_of(edges),
    };
    let nodes = near(&[0, 2, 3, 4, 5, 8, 15, 16, 17, 32, 35]);
    let items = near(&[0, 1, 2, 3, 4, 18, 255, 256, 257, 512, 513]);
    let frames = near(&[0, 1, 2, 3, 4, 5, 6, 7, 254, 255, 256, 511, 512, 513, 1024]);
    Geometry { nodes, items, frames }
}

/// A node's mark and entries hold anything.
pub fn hit(random: &mut Random, table: &mut [u64], node: u64) {
    let geometry = Geometry::of_table(table);
    table[1 + node as usize] = any_mark(random);
    let start = geometry.entry(node, 0);
    for word in &mut table[start..start + 3 * geometry.items as usize] {
        *word = if random.percent(30) { random.word() } else { state(random.below(16), random.below(4)) };
    }
}

fn any_mark(random: &mut Random) -> u64 {
    match random.below(4) {
        0 => 0,
        1 => random.word(),
        _ => mark(random.below(4), random.one_of(&[0, 1, 2, LARGEST_NUMBER])),
    }
}

/// Every live mark gets a number near the last one, the phase staying as it is.
pub fn age(random: &mut Random, table: &mut [u64]) {
    let number = LARGEST_NUMBER - random.below(3);
    let nodes = Geometry::of_table(table).nodes as usize;
    for word in &mut table[1..=nodes] {
        if *word != 0 {
            *word = mark(*word >> 61 & 3, number);
        }
    }
}

/// One change to a table of an allowed geometry; the slice may become shorter.
pub fn damage(random: &mut Random, table: &mut Vec<u64>) {
    let geometry = Geometry::of_table(table);
    let node = random.below(geometry.nodes);
    let item = random.below(geometry.items);
    let at = geometry.entry(node, item);
    match random.below(14) {
        0 => table.truncate(random.index(table.len() + 1)),
        1 => table[0] ^= 1 << random.below(64),
        2 => {
            let edge = edge_frames(random, geometry.nodes, geometry.items);
            let frames = random.one_of(&[0, 1, geometry.frames - 1, geometry.frames + 1, 512, 513, edge, edge]);
            table[0] = geometry_word(geometry.nodes, geometry.items, frames & 1023);
        }
        3 => table[1 + node as usize] ^= 1 << random.below(64),
        4 => table[1 + node as usize] = any_mark(random),
        5 => table[at] ^= 1 << random.below(64),
        6 => table[at] ^= 1 << random.between(58, 63),
        7 | 8 => table[at] = state(random.below(8), random.below(3)),
        9 => table[at + 1] ^= 1 << random.below(64),
        10 => table[at + 2] ^= 1 << random.below(64),
        11 => remark(random, table),
        12 => hit(random, table, node),
        _ => scatter(random, table),
    }
}

/// Every live mark gets a phase and a number, often the same ones.
fn remark(random: &mut Random, table: &mut [u64]) {
    let nodes = Geometry::of_table(table).nodes as usize;
    let same = mark(random.below(3), random.one_of(&[0, 1, LARGEST_NUMBER]));
    let mixed = random.percent(50);
    for word in &mut table[1..=nodes] {
        if *word != 0 {
            *word = if mixed { mark(random.below(3), random.below(3)) } else { same };
        }
    }
}

/// Every entry is arbitrary but in form, and an item's values are mostly equal: what only a recovery
/// can work on, with copies missing, surplus copies and single copies.
pub fn scatter(random: &mut Random, table: &mut [u64]) {
    let geometry = Geometry::of_table(table);
    let density = random.one_of(&[10, 30, 60]);
    let strange = random.one_of(&[0, 0, 1, 5]);
    for item in 0..geometry.items {
        let value = random.below(3);
        for node in 0..geometry.nodes {
            let at = geometry.entry(node, item);
            table[at] = formed_state(random, density);
            table[at + 1] = if random.percent(strange) { random.word() } else { value };
            table[at + 2] = if random.percent(strange) { random.word() } else { value };
        }
    }
    if random.percent(60) {
        remark(random, table);
    }
}

fn formed_state(random: &mut Random, density: u64) -> u64 {
    let current = if random.percent(density) { random.below(8) } else { 0 };
    let may_keep = current != 4 && current != 5;
    let kept = if may_keep && random.percent(density) { random.below(3) } else { 0 };
    state(current, kept)
}

/// Words without any order, the first often a geometry that is allowed.
pub fn noise(random: &mut Random) -> Vec<u64> {
    let length = random.one_of(&[0, 1, 2, 3, 12, 13, 14, 40, 200]) as usize + random.index(3);
    let small = random.percent(50);
    let mut words: Vec<u64> =
        (0..length).map(|_| if small { random.below(4) << random.below(64) } else { random.word() }).collect();
    if let (Some(first), true) = (words.first_mut(), random.percent(70)) {
        let geometry = allowed_geometry(random);
        *first = geometry_word(geometry.nodes, geometry.items, geometry.frames);
    }
    words
}
