//! Bytes of stack, read off a disassembly: what a function pushes and takes,
//! its return address, and the deepest of what it calls.

use std::collections::{BTreeMap, BTreeSet};

/// The bytes of each function, callees included.
pub type Depths = BTreeMap<String, u64>;

/// A function by itself.
#[derive(Default)]
struct Function {
    own: u64,
    calls: BTreeSet<String>,
}

/// The depths of all functions of `objdump -d --no-show-raw-insn`.
pub fn depths(disassembly: &str) -> Depths {
    let functions = functions(disassembly);
    let depth = |name: &String| (name.clone(), depth(&functions, name, &mut Vec::new()));
    functions.keys().map(depth).collect()
}

fn functions(disassembly: &str) -> BTreeMap<String, Function> {
    let mut functions = BTreeMap::new();
    let mut current = Function::default();
    let mut name = String::new();
    for line in disassembly.lines() {
        if let Some(label) = line.strip_suffix(">:") {
            functions.insert(name, std::mem::take(&mut current));
            name = label.rsplit('<').next().unwrap_or_default().to_string();
        } else if let Some((_, instruction)) = line.split_once(":\t") {
            note(&mut current, &name, instruction.trim());
        }
    }
    functions.insert(name, current);
    functions
}

/// Notes what an instruction does to the stack, and what it calls.
fn note(function: &mut Function, name: &str, instruction: &str) {
    let (operation, operands) = instruction.split_once(' ').unwrap_or((instruction, ""));
    let operands = operands.trim();
    match operation {
        "push" => function.own += 8,
        "sub" | "add" => {
            let taken = operands
                .strip_prefix("$0x")
                .zip(operands.strip_suffix(",%rsp"));
            let Some((bytes, _)) = taken else { return };
            let digits = bytes.trim_end_matches(",%rsp");
            let number = u64::from_str_radix(digits, 16).unwrap_or(0);
            match operation {
                "sub" => function.own += number,
                // Adding a negative number takes too.
                _ if number > u64::MAX / 2 => function.own += number.wrapping_neg(),
                _ => {}
            }
        }
        "call" | "jmp" => {
            // A jump to another function's start is a call in its last place.
            let target = operands
                .split_once('<')
                .map(|(_, rest)| rest.trim_end_matches('>'));
            if let Some(target) = target.filter(|target| !target.contains('+') && *target != name) {
                function.calls.insert(target.to_string());
            }
        }
        _ => {}
    }
}

/// A function's bytes with its return address. A function of the C library, or
/// one that is on the way already, is not gone into.
fn depth(functions: &BTreeMap<String, Function>, name: &str, way: &mut Vec<String>) -> u64 {
    let Some(function) = functions.get(name) else {
        return 8;
    };
    if name.ends_with("@plt") || way.iter().any(|on_it| on_it == name) {
        return 8;
    }
    way.push(name.to_string());
    let deepest = function
        .calls
        .iter()
        .map(|call| depth(functions, call, way))
        .max();
    way.pop();
    8 + function.own + deepest.unwrap_or(0)
}
