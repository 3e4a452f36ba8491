//! The library's instructions that can store, as the disassembler lists them.

use std::collections::HashSet;
use std::process::Command;

extern "C" {
    fn linkspan_words(nodes: u64, items: u64) -> u64;
}

/// An instruction whose last operand is memory that it stores to.
pub struct Instruction {
    /// Where it lies in this process.
    pub address: u64,
    pub function: String,
    pub offset: u64,
    /// Its bytes.
    pub length: usize,
    pub text: String,
}

fn said(tool: &str, arguments: &[&str]) -> String {
    let output = Command::new(tool).args(arguments).output();
    let output = output.unwrap_or_else(|error| panic!("{tool}: {error}"));
    assert!(output.status.success(), "{tool} {arguments:?} failed");
    String::from_utf8_lossy(&output.stdout).into_owned()
}

/// The functions of a program or an archive: address and name.
fn functions(file: &str) -> Vec<(u64, String)> {
    let listing = said("nm", &["--defined-only", file]);
    let function = |line: &str| {
        let mut fields = line.splitn(3, ' ');
        let (address, kind, name) = (fields.next()?, fields.next()?, fields.next()?);
        let address = u64::from_str_radix(address, 16).ok()?;
        matches!(kind, "t" | "T").then(|| (address, name.to_string()))
    };
    listing.lines().filter_map(function).collect()
}

/// The archive's instructions that can store, where this program has them.
pub fn storing(archive: &str) -> Vec<Instruction> {
    let program = std::env::current_exe().expect("this program has a file").display().to_string();
    let names: HashSet<String> = functions(archive).into_iter().map(|(_, name)| name).collect();
    let linked = functions(&program);
    let ours: Vec<u64> = linked.iter().filter(|(_, name)| names.contains(name)).map(|(start, _)| *start).collect();
    let first = *ours.iter().min().expect("the library is linked to this program");
    let last = *ours.iter().max().expect("the library is linked to this program");
    let end = linked.iter().map(|(start, _)| *start).filter(|start| *start > last).min().unwrap_or(last + 0x10000);
    let loaded = loaded_at(&linked);
    let listing = said(
        "objdump",
        &["-d", "--no-show-raw-insn", &format!("--start-address={first}"), &format!("--stop-address={end}"), &program],
    );
    storing_in(&listing, &names, loaded)
}

/// How far from its addresses in the file this program was loaded.
fn loaded_at(linked: &[(u64, String)]) -> u64 {
    let in_file = linked.iter().find(|(_, name)| name == "linkspan_words").expect("linkspan_words is linked").0;
    (linkspan_words as *const () as u64).wrapping_sub(in_file)
}

fn storing_in(listing: &str, names: &HashSet<String>, loaded: u64) -> Vec<Instruction> {
    let mut function = (0, String::new());
    let mut found = Vec::new();
    let mut lines = listing.lines().peekable();
    while let Some(line) = lines.next() {
        if let Some(head) = function_head(line) {
            function = head;
        } else if let Some((address, text)) = instruction(line) {
            if names.contains(&function.1) && stores(text) {
                let next = lines.peek().and_then(|line| instruction(line)).map_or(address, |(next, _)| next);
                found.push(Instruction {
                    address: address.wrapping_add(loaded),
                    function: function.1.clone(),
                    offset: address - function.0,
                    length: (next - address) as usize,
                    text: text.split_whitespace().collect::<Vec<_>>().join(" "),
                });
            }
        }
    }
    found
}

/// `0000000000012340 <name>:`
fn function_head(line: &str) -> Option<(u64, String)> {
    let (address, name) = line.strip_suffix(">:")?.split_once(" <")?;
    Some((u64::from_str_radix(address, 16).ok()?, name.to_string()))
}

/// `   12345:	mov    %rax,(%rdi)`
fn instruction(line: &str) -> Option<(u64, &str)> {
    let (address, text) = line.trim_start().split_once(":\t")?;
    let text = text.split('#').next()?.trim();
    Some((u64::from_str_radix(address, 16).ok()?, text))
}

const PREFIXES: [&str; 9] = ["data16", "cs", "ds", "rep", "repz", "repnz", "lock", "bnd", "notrack"];

/// The operation and its operands, without prefixes that change neither.
fn parts(text: &str) -> (&str, &str) {
    let mut rest = text;
    loop {
        let (word, operands) = rest.split_once(char::is_whitespace).unwrap_or((rest, ""));
        match word {
            _ if PREFIXES.contains(&word) => rest = operands.trim_start(),
            _ => return (word, operands.trim()),
        }
    }
}

/// Operations that do not store although their last operand may be memory.
const ONLY_READ: [&str; 12] =
    ["cmp", "test", "nop", "call", "jmp", "push", "prefetch", "mul", "imul", "div", "idiv", "lea"];

/// Does it store to memory, other than by the stack pointer to its own frame?
fn stores(text: &str) -> bool {
    let (operation, operands) = parts(text);
    let to_memory = operands.ends_with(')') && !operands.rsplit('(').next().is_some_and(|to| to.starts_with("%rsp"));
    let only_reads = ONLY_READ.iter().any(|read| operation.trim_end_matches(['b', 'w', 'l', 'q']) == *read);
    to_memory && !only_reads
}

/// Does it store 8 bytes, all at once?
pub fn stores_a_word(text: &str) -> bool {
    let (operation, operands) = parts(text);
    let from = operands.split(',').next().unwrap_or("");
    match operation {
        "mov" | "and" | "or" | "xor" | "add" | "sub" => is_whole_register(from),
        "movq" | "andq" | "orq" | "xorq" | "addq" | "subq" => true,
        _ => false,
    }
}

/// One of the sixteen registers of 64 bits.
fn is_whole_register(operand: &str) -> bool {
    const NAMED: [&str; 8] = ["%rax", "%rbx", "%rcx", "%rdx", "%rsi", "%rdi", "%rbp", "%rsp"];
    NAMED.contains(&operand) || operand.strip_prefix("%r").is_some_and(|number| number.parse::<u8>().is_ok())
}
