//! A found table as a limit of a list of stores.

/// A store: place and word.
pub type Store = (usize, u64);

/// Goes through the list's limits, each with the number of words that then differ from the found table.
fn differing_at<'a>(
    before: &[u64],
    list: &'a [Store],
    found: &'a [u64],
) -> impl Iterator<Item = (usize, usize)> + 'a {
    let mut table = before.to_vec();
    let mut differing = table.iter().zip(found).filter(|(ours, theirs)| ours != theirs).count();
    (0..=list.len()).map(move |limit| {
        if limit > 0 {
            let (place, word) = list[limit - 1];
            differing -= (table[place] != found[place]) as usize;
            differing += (word != found[place]) as usize;
            table[place] = word;
        }
        (limit, differing)
    })
}

/// The smallest number of stores of the list after which the table is the found one.
pub fn smallest(before: &[u64], list: &[Store], found: &[u64]) -> Option<usize> {
    differing_at(before, list, found).find(|(_, differing)| *differing == 0).map(|(limit, _)| limit)
}

/// The found table is the one after some but not all stores.
pub fn is_inside(before: &[u64], list: &[Store], found: &[u64], limit: usize) -> bool {
    limit > 0 && limit < list.len() && table_at(before, list, list.len()) != found
}

pub fn table_at(before: &[u64], list: &[Store], limit: usize) -> Vec<u64> {
    let mut table = before.to_vec();
    make(&mut table, &list[..limit]);
    table
}

pub fn make(table: &mut [u64], stores: &[Store]) {
    for &(place, word) in stores {
        table[place] = word;
    }
}

/// How a table differs from the limit that is nearest to it.
pub fn farness(before: &[u64], list: &[Store], found: &[u64]) -> String {
    let nearest = differing_at(before, list, found).min_by_key(|(_, differing)| *differing);
    let (limit, differing) = nearest.expect("a list has a limit");
    let listed = table_at(before, list, limit);
    let pairs = found.iter().zip(&listed).enumerate().filter(|(_, (ours, theirs))| ours != theirs);
    let tell = |(place, (ours, theirs))| format!("word {place}: found {ours:016x}, listed {theirs:016x}");
    let words: Vec<String> = pairs.map(tell).take(4).collect();
    format!("nearest is limit {limit} of {}, {differing} words differ: {}", list.len(), words.join("; "))
}
