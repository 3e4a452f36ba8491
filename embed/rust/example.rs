//! A harbour's day. Four machines share the lengths, in metres, of six berths. The lengths are
//! written and saved; later two of them change, and in the middle of the next save a machine is
//! lost. What the plan says afterwards is all of the old save or all of the new one.

#[allow(dead_code)]
mod linkspan;

use linkspan::{Answer, Refusal, Table};

const MACHINES: u64 = 4;
const BERTHS: u64 = 6;
const FRAMES: u64 = 12;
const LENGTHS: [u64; BERTHS as usize] = [120, 180, 95, 240, 310, 150];

/// Value and stores of a call that must be carried out: this day has no other surprises than the
/// lost machine.
fn done(call: &str, answer: Answer) -> (u64, u64) {
    match answer {
        Answer::Done { value, stores } => (value, stores),
        other => panic!("{call} answered {other:?}"),
    }
}

fn check_number(table: &Table) -> u64 {
    table.check().err().map_or(0, Refusal::number)
}

fn write_length(table: &mut Table, machine: u64, berth: u64, metres: u64) {
    let (_, stores) = done("write", table.write(machine, berth, metres));
    println!("machine {machine} writes berth {berth}: {metres} m ({stores} stores)");
}

/// What the plan says, as one machine reads it.
fn print_plan(when: &str, table: &mut Table, machine: u64) {
    let lengths: Vec<u64> = (0..BERTHS).map(|berth| done("read", table.read(machine, berth)).0).collect();
    let listed: Vec<String> = lengths.iter().map(u64::to_string).collect();
    println!("{when}, machine {machine} reads: {}, {} m in all", listed.join(" "), lengths.iter().sum::<u64>());
}

/// The first two steps of a save: it is opened, and every changed berth gets its new copies. Sailings are held for the
/// last step alone, whose stores are known from here on.
fn prepare_save(table: &mut Table) {
    done("open", table.open());
    let mut berths = 0;
    loop {
        match table.create() {
            Answer::Done { .. } => berths += 1,
            Answer::NothingLeft => break,
            Answer::Refused(refusal) => panic!("create was refused: {refusal:?}"),
        }
    }
    let length = table.commit_length().expect("a commit that can be made");
    println!("a save is opened: new copies of {berths} berths; its commit is {length} stores");
}

/// The last step; the table may be one that is cut off after some stores.
fn commit(mut table: Table) {
    let (_, stores) = done("commit", table.commit());
    println!("stores made by the commit: {stores}");
}

/// Nothing of the machine's words is left.
fn lose(table: &mut Table, machine: u64) {
    table.stretch_mut(machine).expect("the machine has a stretch").fill(u64::MAX);
    table.words_mut()[1 + machine as usize] = u64::MAX;
    println!("machine {machine} is lost; check answers {}", check_number(table));
}

fn restore(table: &mut Table, machine: u64) {
    let mut scratch = [0; (BERTHS + MACHINES) as usize];
    let (_, stores) = done("recover", table.recover(Some(machine), &mut scratch));
    println!("restored without machine {machine} ({stores} stores); check answers {}", check_number(table));
}

/// The save breaks off after so many stores, and a machine is lost; on a copy of the table.
fn rehearse(before: &[u64], limit: u64, lost: u64, reader: u64) {
    let mut words = before.to_vec();
    let mut table = Table::new(&mut words);
    commit(table.cut_after(limit));
    lose(&mut table, lost);
    restore(&mut table, lost);
    print_plan("after the restore", &mut table, reader);
    match table.read(lost, 0) {
        Answer::Refused(refusal) => println!("machine {lost} reads: refused, {}", refusal.number()),
        other => panic!("a dead machine's read answered {other:?}"),
    }
}

fn main() {
    let mut words = vec![0; linkspan::words(MACHINES, BERTHS).expect("an allowed geometry")];
    let mut table = Table::new(&mut words);

    let (_, stores) = done("format", table.format(MACHINES, BERTHS, FRAMES));
    println!("morning: {MACHINES} machines, {BERTHS} berths, {stores} words");
    for (berth, &metres) in LENGTHS.iter().enumerate() {
        write_length(&mut table, berth as u64 % MACHINES, berth as u64, metres);
    }
    prepare_save(&mut table);
    commit(table.cut_after(u64::MAX));
    print_plan("noon", &mut table, 1);

    write_length(&mut table, 2, 3, 205);
    write_length(&mut table, 0, 5, 175);
    print_plan("before the evening's save", &mut table, 1);
    prepare_save(&mut table);

    println!("-- the save breaks off when only machine 0 has heard of it, and machine 0 is lost");
    rehearse(table.words(), 1, 0, 1);
    println!("-- the save breaks off when machines 0, 1 and 2 have heard of it, and machine 2 is lost");
    rehearse(table.words(), 3, 2, 1);
}
