//! Compiled code as objdump prints it (`-t`, `-r`, then `-d --no-show-raw-insn`): sections, their instructions, and what
//! their relocations name. Each function has a section of its own.
use crate::Operations;
use std::collections::{BTreeMap, BTreeSet};

#[derive(Default)]
struct Section {
    instructions: Vec<String>,
    names: BTreeSet<String>,
}

#[derive(Default)]
pub struct Code {
    sections: BTreeMap<String, Section>,
    /// the section of each symbol
    homes: BTreeMap<String, String>,
}

/// What the code from a function on comes to.
pub struct Reached {
    pub functions: usize,
    pub instructions: usize,
    /// instructions that multiply or divide, by their names, and where they are
    pub products: Vec<(String, String)>,
    pub faults: Vec<String>,
}

impl Code {
    pub fn read(text: &str) -> Code {
        let mut code = Code::default();
        let mut inside = String::new();
        for line in text.lines() {
            let relocations = line.strip_prefix("RELOCATION RECORDS FOR [").map(|rest| rest.trim_end_matches("]:"));
            let disassembly = line.strip_prefix("Disassembly of section ").map(|rest| rest.trim_end_matches(':'));
            if let Some(section) = relocations.or(disassembly) {
                inside = section.to_string();
                code.sections.entry(inside.clone()).or_default();
            } else {
                code.line(&inside, line);
            }
        }
        code
    }

    /// A line of a section's relocations or instructions; of the symbols, where none has begun.
    fn line(&mut self, inside: &str, line: &str) {
        let Some(section) = self.sections.get_mut(inside) else {
            if let Some((home, symbol)) = symbol(line) {
                self.sections.entry(home.clone()).or_default();
                self.homes.insert(symbol, home);
            }
            return;
        };
        if let Some((_, instruction)) = line.split_once(":\t") {
            section.instructions.push(instruction.to_string());
        } else if let [_, kind, value] = line.split_whitespace().collect::<Vec<_>>()[..] {
            if kind.starts_with("R_") {
                let end = value.rfind("-0x").or(value.rfind("+0x")).unwrap_or(value.len());
                section.names.insert(value[..end].to_string());
            }
        }
    }

    /// All that a function reaches by calls, jumps and tables of jumps, less the functions of a list.
    pub fn reached(&self, from: &str, left_out: &Operations) -> Reached {
        let mut out = Reached { functions: 0, instructions: 0, products: Vec::new(), faults: Vec::new() };
        let mut met = BTreeSet::new();
        let mut open = vec![section_of(from)];
        while let Some(name) = open.pop() {
            let home = self.homes.get(&name).unwrap_or(&name);
            if left_out.keys().any(|listed| *home == section_of(listed)) || !met.insert(home.clone()) {
                continue;
            }
            match self.sections.get(home).filter(|_| !home.starts_with('*')) {
                Some(section) => open.extend(out.take(home, section)),
                None => out.faults.push(format!("the code reaches {name}, which is not in it")),
            }
        }
        for (symbol, home) in &self.homes {
            if symbol.starts_with(&format!("{from}.")) && !met.contains(home) {
                out.faults.push(format!("the code has {symbol}, which is not reached"));
            }
            if left_out.keys().any(|listed| *home == section_of(listed) && ![listed, home].contains(&symbol)) {
                out.faults.push(format!("{symbol} is compiled into one with what is left out"));
            }
        }
        out
    }
}

impl Reached {
    /// A section more; what it names.
    fn take(&mut self, name: &str, section: &Section) -> Vec<String> {
        self.functions += usize::from(!section.instructions.is_empty());
        self.instructions += section.instructions.len();
        let tables = section.names.iter().any(|name| name.starts_with(".rodata"));
        for instruction in &section.instructions {
            if let Some(word) = multiplies(instruction) {
                self.products.push((word.to_string(), format!("{name}: {instruction}")));
            }
            if instruction.contains('*') && !(tables && instruction.starts_with("jmp ")) {
                self.faults.push(format!("{name} goes where no name says: {instruction}"));
            }
        }
        section.names.iter().cloned().collect()
    }
}

fn section_of(function: &str) -> String {
    format!(".text.{function}")
}

/// A line of the symbol table: the section and the symbol.
fn symbol(line: &str) -> Option<(String, String)> {
    let (left, right) = line.split_once('\t')?;
    Some((left.split_whitespace().last()?.to_string(), right.split_whitespace().last()?.to_string()))
}

/// On x86-64: the word of an instruction that multiplies or divides, whole numbers or others, as these words begin; or an
/// address with 3, 5 or 9 times a register.
fn multiplies(instruction: &str) -> Option<&str> {
    let kinds = [
        "mul", "imul", "div", "idiv", "pmul", "pmadd", "pclmul", "fmul", "fimul", "fdiv", "fidiv", "fprem", "fmadd", "fmsub",
        "fnmadd", "fnmsub", "dpp", "pdp", "rcp", "aam", "aad",
    ];
    let is_kind = |word: &str| kinds.iter().any(|kind| word.trim_start_matches('v').starts_with(kind));
    let words = instruction.split_whitespace().take_while(|word| !word.contains(['%', '$', '(', '<']));
    words.into_iter().find(|word| is_kind(word)).or(tripled(instruction))
}

/// An operand `(%rax,%rax,2)`.
fn tripled(instruction: &str) -> Option<&str> {
    let operand = instruction.split_once('(')?.1.split_once(')')?.0;
    match operand.split(',').collect::<Vec<_>>()[..] {
        [base, index, "2" | "4" | "8"] if base == index => Some(operand),
        _ => None,
    }
}
