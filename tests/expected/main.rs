//! Writes what the programs `vectors` and `quay` are given, and what they must print, from the independent engine in
//! embed/differential/reference.rs. The seeds in this source decide all of it.
//!
//! Usage: expected FOLDER

#[path = "../../embed/differential/calls.rs"]
#[allow(dead_code)]
mod calls;
#[path = "../../embed/differential/choices.rs"]
mod choices;
#[path = "../../embed/differential/random.rs"]
mod random;
#[path = "../../embed/differential/reference.rs"]
mod reference;
#[path = "../../embed/differential/saves.rs"]
mod saves;
#[path = "../../embed/differential/tables.rs"]
mod tables;

mod built;
mod cases;
mod operations;
mod quay;
mod runs;
mod steps;
mod vectors;

use std::path::Path;

fn write(folder: &Path, name: &str, contents: &[u8]) {
    let path = folder.join(name);
    std::fs::create_dir_all(path.parent().expect("a file in a folder")).expect("a folder to write to");
    std::fs::write(&path, contents).expect("a file to write");
    println!("{name}: {} bytes", contents.len());
}

/// The single calls, and the line of a run in which none differs.
fn write_vectors(folder: &Path) {
    println!("single calls, by part:");
    let vectors = cases::all();
    let rows = operations::rows_of_calls();
    println!("single calls, by operation and answer:");
    vectors.tally.print(&rows);
    vectors.tally.require(&rows);
    let line = format!("{} vectors, 0 differ\n", vectors.tally.total());
    write(folder, "crates/vectors/data/vectors.bin", &vectors.bytes);
    write(folder, "crates/vectors/stdout", line.as_bytes());
}

/// The records, and the lines that quay prints for them.
fn write_steps(folder: &Path) {
    println!("records, by part:");
    let steps = steps::all();
    let rows = operations::rows_of_records();
    println!("records, by operation and answer:");
    steps.tally.print(&rows);
    steps.tally.require(&rows);
    write(folder, "crates/quay/data/steps.bin", &steps.bytes);
    write(folder, "crates/quay/stdout", quay::lines(&steps.bytes).as_bytes());
}

fn main() {
    let Some(folder) = std::env::args().nth(1) else {
        eprintln!("usage: expected FOLDER");
        std::process::exit(2)
    };
    write_vectors(Path::new(&folder));
    write_steps(Path::new(&folder));
}
