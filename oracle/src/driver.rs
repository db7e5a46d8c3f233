//! Steps the original's VM, one instruction at a time.
//!
//! Where the Rust would panic, at the sizes that document 01 added, and at an index that is none
//! (document 02, M-103), the step is stopped before it is executed; where it would panic, it is run
//! all the same and has to. Everything else is the original's `execute`.

use std::collections::HashMap;
use std::panic::{catch_unwind, AssertUnwindSafe};

use crate::names::text_of;
use crate::original::sifc_bytecode::instr::Instr;
use crate::original::sifc_bytecode::opc::Op;
use crate::original::sifc_bytecode::sifv::SifVal;
use crate::original::sifc_err::runtime_err::{RuntimeErr, RuntimeErrTy};
use crate::original::sifc_vm::config::VMConfig;
use crate::original::sifc_vm::vm::VM;
use crate::refuse::{panics, REGISTERS};

pub const VALUE_STACK: usize = 24;
pub const CALL_STACK: usize = 24;
pub const KEYS: usize = 16;

/// A register past the machine's own, for Mv and Ldav with equal registers.
const SCRATCH: usize = REGISTERS;

#[derive(Clone, Debug, PartialEq)]
pub struct Stop {
    pub number: u8,
    pub details: Vec<u64>,
}

impl Stop {
    pub fn new(number: u8, details: &[u64]) -> Stop {
        Stop { number, details: details.to_vec() }
    }

    pub fn bare(number: u8) -> Stop {
        Stop::new(number, &[])
    }
}

#[derive(Clone, Debug, PartialEq)]
pub enum End {
    Done,
    Spent,
    Stopped { stop: Stop, line: i64 },
}

pub struct Machine {
    pub vm: VM<'static>,
    pub count: u64,
    /// Whether a step was taken where the original panics (equal registers).
    pub apart: bool,
}

impl Machine {
    pub fn new(
        program: Vec<Instr>,
        start: usize,
        labels: HashMap<usize, usize>,
        functions: HashMap<String, usize>,
    ) -> Machine {
        let config =
            VMConfig { trace: false, initial_heap_size: 64, initial_dreg_count: REGISTERS + 1 };
        Machine { vm: VM::init(program, start, labels, functions, config), count: 0, apart: false }
    }

    pub fn at_end(&self) -> bool {
        self.vm.ip >= self.vm.prog.len()
    }

    /// Takes up to `steps` steps.
    pub fn run(&mut self, steps: u64) -> End {
        for _ in 0..steps {
            if self.at_end() {
                return End::Done;
            }
            if let Err(stop) = self.step() {
                let line = self.vm.ip as i64 + 1 - self.vm.csi as i64;
                return End::Stopped { stop, line };
            }
        }
        if self.at_end() {
            End::Done
        } else {
            End::Spent
        }
    }

    /// The original's own `run`, for a program that meets no panic, no added size and no 38.
    pub fn run_by_original(&mut self) -> Result<(), Stop> {
        let result = self.vm.run();
        result.map_err(|error| self.stop_of(&error))
    }

    /// Whether a stop is one of the original's own, here at the position; 38 is none.
    pub fn is_original_stop(&self, stop: &Stop) -> bool {
        let loading = matches!(self.vm.prog[self.vm.ip].op, Op::Ldav { .. });
        stop.number < 31 || stop.number == 31 && !loading
    }

    /// Whether the original's own `run` comes from the start to this end: no step was taken where it
    /// panics, and the stop, if there is one, is its own.
    pub fn is_reached_by_original(&self, end: &End) -> bool {
        match end {
            End::Done => !self.apart,
            End::Spent => false,
            End::Stopped { stop, .. } => !self.apart && self.is_original_stop(stop),
        }
    }

    /// The original is run at the position, and has to panic there.
    fn has_to_panic(&mut self) {
        let vm = &mut self.vm;
        let panicked = panics(|| {
            let _ = vm.execute();
        });
        let (at, op) = (self.vm.ip, &self.vm.prog[self.vm.ip].op);
        assert!(panicked, "the original does not panic at index {at}: {op:?}");
    }

    /// One step. A stopped step changes nothing and is not counted.
    pub fn step(&mut self) -> Result<(), Stop> {
        let op = self.vm.prog[self.vm.ip].op.clone();
        if let Some(stop) = self.added_stop(&op) {
            if matches!(stop.number, 31..=33) {
                self.has_to_panic();
            }
            return Err(stop);
        }
        match op {
            Op::Mv { src, dest } if src == dest => {
                self.through_scratch(Op::Mv { src, dest: SCRATCH }, dest)?;
            }
            Op::Ldav { name, idx_reg, dest } if idx_reg == dest => {
                self.through_scratch(Op::Ldav { name, idx_reg, dest: SCRATCH }, dest)?;
            }
            _ => self.execute()?,
        }
        self.vm.ip = self.vm.ip.wrapping_add(1);
        self.count += 1;
        Ok(())
    }

    fn execute(&mut self) -> Result<(), Stop> {
        let vm = &mut self.vm;
        match catch_unwind(AssertUnwindSafe(|| vm.execute())) {
            Ok(result) => result.map_err(|error| self.stop_of(&error)),
            Err(_) => {
                let (at, op) = (self.vm.ip, &self.vm.prog[self.vm.ip].op);
                panic!("the original panicked at index {at}: {op:?}");
            }
        }
    }

    /// Reads, then writes: the value goes by the scratch register.
    fn through_scratch(&mut self, op: Op, dest: usize) -> Result<(), Stop> {
        let at = self.vm.ip;
        let own = std::mem::replace(&mut self.vm.prog[at].op, op);
        let result = self.execute();
        self.vm.prog[at].op = own;
        result?;
        self.has_to_panic();
        self.apart = true;
        let value = self.register(SCRATCH);
        self.vm.dregs.set_contents(dest, value);
        self.vm.dregs.set_contents(SCRATCH, None);
        Ok(())
    }

    pub fn register(&mut self, index: usize) -> Option<SifVal> {
        self.vm.inspect_dreg(index)
    }

    /// The stops that documents 01 and 02 add to the original's, in their order.
    fn added_stop(&mut self, op: &Op) -> Option<Stop> {
        match op {
            Op::Ldav { name, idx_reg, .. } => self.load_refused(name, *idx_reg),
            Op::Upda { name, idx_reg, val_reg } => self.update_refused(name, *idx_reg, *val_reg),
            Op::Tbli { tabname, key, src } => self.table_insert(tabname, key, *src),
            Op::Tblg { tabname, key, .. } => self.key_absent(tabname, key),
            Op::Call { name, .. } => self.calls_full(name),
            Op::FnStackPush { src } => self.push_refused(*src),
            _ => None,
        }
    }

    /// The number in a register, if one is there.
    fn number_in(&mut self, register: usize) -> Option<f64> {
        match self.register(register) {
            Some(SifVal::Num(n)) => Some(n),
            _ => None,
        }
    }

    fn array_length(&self, name: &str) -> Option<u64> {
        match self.vm.heap.get(name) {
            Some(SifVal::Arr(items)) => Some(items.len() as u64),
            _ => None,
        }
    }

    /// 38 comes behind the 27 of an empty register or no number, which the original's step gives.
    fn load_refused(&mut self, name: &str, idx_reg: usize) -> Option<Stop> {
        let number = self.number_in(idx_reg)?;
        let Some(index) = exact_index(number) else {
            return Some(Stop::bare(38));
        };
        let length = self.array_length(name)?;
        let details = [u64::from(text_of(name)), index, length];
        (index >= length).then(|| Stop::new(31, &details))
    }

    /// 38 comes behind the 27s of both registers, which the original's step gives.
    fn update_refused(&mut self, name: &str, idx_reg: usize, val_reg: usize) -> Option<Stop> {
        let number = self.number_in(idx_reg)?;
        let value = self.register(val_reg)?;
        let Some(index) = exact_index(number) else {
            return Some(Stop::bare(38));
        };
        let inside = index < self.array_length(name)?;
        (inside && !is_single(&value)).then(|| Stop::bare(34))
    }

    fn table_insert(&mut self, table: &str, key: &str, src: usize) -> Option<Stop> {
        let value = self.register(src);
        let Some(SifVal::Tab(map)) = self.vm.heap.get(table) else {
            return None;
        };
        match value {
            None => Some(Stop::bare(32)),
            Some(value) if !is_single(&value) => Some(Stop::bare(34)),
            Some(_) => {
                let full = map.len() >= KEYS && !map.contains_key(key);
                full.then(|| Stop::bare(36))
            }
        }
    }

    fn key_absent(&self, table: &str, key: &str) -> Option<Stop> {
        match self.vm.heap.get(table) {
            Some(SifVal::Tab(map)) if !map.contains_key(key) => Some(Stop::bare(33)),
            _ => None,
        }
    }

    fn calls_full(&self, name: &str) -> Option<Stop> {
        let known = self.vm.fntab.contains_key(name);
        let full = self.vm.call_stack.len() >= CALL_STACK;
        (known && full).then(|| Stop::bare(35))
    }

    fn push_refused(&mut self, src: usize) -> Option<Stop> {
        if self.register(src).is_none() {
            return Some(Stop::bare(32));
        }
        let full = self.vm.fn_stack.len() >= VALUE_STACK;
        full.then(|| Stop::bare(35))
    }

    fn stop_of(&self, error: &RuntimeErr) -> Stop {
        let line = (self.vm.ip + 1).wrapping_sub(self.vm.csi);
        assert_eq!(error.line, line, "the original's line");
        stop_of_type(&error.ty)
    }
}

/// The index of a number: whole numbers from 0 up to below 2^64 have one, minus zero has 0, every
/// other number has none (document 02, M-103).
pub fn exact_index(n: f64) -> Option<u64> {
    let top = 18_446_744_073_709_551_616.0;
    (n >= 0.0 && n < top && n.trunc() == n).then_some(n as u64)
}

fn is_single(value: &SifVal) -> bool {
    !matches!(value, SifVal::Arr(_) | SifVal::Tab(_))
}

fn stop_of_type(ty: &RuntimeErrTy) -> Stop {
    let text = |name: &String| u64::from(text_of(name));
    match ty {
        RuntimeErrTy::InvalidName(name) => Stop::new(20, &[text(name)]),
        RuntimeErrTy::InvalidIncr => Stop::bare(21),
        RuntimeErrTy::InvalidIncrTy => Stop::bare(22),
        RuntimeErrTy::InvalidDecr => Stop::bare(23),
        RuntimeErrTy::InvalidDecrTy => Stop::bare(24),
        RuntimeErrTy::InvalidJump => Stop::bare(25),
        RuntimeErrTy::RegNoContents(register) => {
            let number = register.trim_start_matches('r').parse().expect("a register");
            Stop::new(26, &[number])
        }
        RuntimeErrTy::TyMismatch => Stop::bare(27),
        RuntimeErrTy::NotAnArray(name) => Stop::new(28, &[text(name)]),
        RuntimeErrTy::InvalidFnSym(name) => Stop::new(29, &[text(name)]),
        RuntimeErrTy::EmptyCallStack => Stop::bare(30),
        RuntimeErrTy::IndexOutOfBounds(name, index, length) => {
            Stop::new(31, &[text(name), *index as u64, *length as u64])
        }
        RuntimeErrTy::InvalidOp => panic!("InvalidOp is never raised by the original"),
    }
}
