//! Programs and machines: the four calls on buffers that the crate keeps.

use crate::answer::{Refusal, Report};
use crate::bytes::{part, u16_at, u64_at, u8_at};
use crate::ffi;
use crate::value::{Name, Value};

/// A lowered script: a program buffer that the engine has accepted.
///
/// ```
/// use sif::{Program, Refusal};
/// assert_eq!(Program::lower(b"\0").err(), Some(Refusal::FileCut));
///
/// // A Program with no statements: one node, one text.
/// let program = Program::lower(b"\x00\x01\x01\x06\x01\x00fortmp")?;
/// assert_eq!(program.count(), 1);
/// # Ok::<(), Refusal>(())
/// ```
#[derive(Clone, Debug, PartialEq, Eq)]
pub struct Program {
    bytes: Vec<u8>,
}

impl Program {
    /// Bytes of a program buffer (`SIF_PROGRAM_SIZE`).
    pub const SIZE: usize = 40_960;
    /// The version of the header that the crate follows (`SIF_VERSION`).
    pub const VERSION: u64 = 1;
    /// No accepted tree file is longer (`SIF_FILE_LONGEST`).
    pub const FILE_LONGEST: usize = 12_867;

    /// Lowers a tree file (`sif_lower`): refused with 1 to 7, or 39. Takes under 22 KB of stack on x86-64.
    pub fn lower(file: &[u8]) -> Result<Program, Refusal> {
        let mut bytes = vec![0; Program::SIZE];
        Refusal::check(ffi::lower(file, &mut bytes), Refusal::FileCut)?;
        Ok(Program { bytes })
    }

    /// A program from the bytes of one, as [`Program::bytes`] gives them. Refused with 9 where they
    /// are fewer than 40,960, with 8 where they are more or no program.
    ///
    /// ```
    /// use sif::{Program, Refusal};
    /// assert_eq!(Program::from_bytes(&[0; 40_959]), Err(Refusal::BufferTooShort));
    /// assert_eq!(Program::from_bytes(&[0; 40_961]), Err(Refusal::ProgramRefused));
    /// assert_eq!(Program::from_bytes(&[255; 40_960]), Err(Refusal::ProgramRefused));
    /// // A buffer of zeros is the program with no instructions.
    /// assert_eq!(Program::from_bytes(&[0; 40_960])?.count(), 0);
    /// # Ok::<(), Refusal>(())
    /// ```
    pub fn from_bytes(bytes: &[u8]) -> Result<Program, Refusal> {
        if bytes.len() > Program::SIZE {
            return Err(Refusal::ProgramRefused);
        }
        let mut state = vec![0; Machine::SIZE];
        Refusal::check(ffi::start(bytes, &mut state), Refusal::ProgramRefused)?;
        Ok(Program { bytes: bytes.to_vec() })
    }

    /// The program buffer, 40,960 bytes (docs/FORMATS.md).
    pub fn bytes(&self) -> &[u8] {
        &self.bytes
    }

    /// A machine at the program's start, with no name set (`sif_start`).
    pub fn start(&self) -> Result<Machine<'_>, Refusal> {
        let mut bytes = vec![0; Machine::SIZE];
        Refusal::check(ffi::start(&self.bytes, &mut bytes), Refusal::ProgramRefused)?;
        Ok(Machine { program: self, bytes })
    }
}

/// A program while it runs: the program and a state of it.
///
/// ```
/// use sif::{Answer, Name, Program, Refusal, Single, Value};
/// // var x = 2: document 01's first case.
/// let file = b"\x00\x03\x02\x06\x01\x01\x01\x08\x01\x13\x00fortmpx\x01\x40\0\0\0\0\0\0\0";
/// let program = Program::lower(file)?;
/// let mut machine = program.start()?;
/// let report = machine.run(1000)?;
/// assert_eq!((report.answer, report.steps), (Answer::Done, 1));
/// let x = Name::new(1).unwrap();
/// assert_eq!(machine.read(x)?, Some(Value::Single(Single::Number(2.0))));
/// # Ok::<(), Refusal>(())
/// ```
#[derive(Clone, Debug, PartialEq, Eq)]
pub struct Machine<'p> {
    program: &'p Program,
    bytes: Vec<u8>,
}

impl<'p> Machine<'p> {
    /// Bytes of a state (`SIF_STATE_SIZE`).
    pub const SIZE: usize = 65_536;
    /// Registers of a machine.
    pub const REGISTERS: u8 = 96;

    // Places in a state (docs/FORMATS.md).
    pub(crate) const NAMES_AT: usize = 24_576;
    const STACK_AT: usize = 40_960;
    const CALLS_AT: usize = 47_104;
    const FUNCTIONS_AT: usize = 47_200;
    const MARK_AT: usize = 47_328;
    const COUNT_AT: usize = 47_336;
    const POSITION_AT: usize = 47_344;
    const STACK_DEPTH_AT: usize = 47_346;
    const CALLS_DEPTH_AT: usize = 47_347;

    /// A machine from the bytes of a state of that program, as [`Machine::bytes`] gives them. Refused
    /// with 9 where they are fewer than 65,536, with 10 where they are more or no state of it.
    ///
    /// ```
    /// use sif::{Machine, Program, Refusal};
    /// let program = Program::lower(b"\x00\x01\x01\x06\x01\x00fortmp")?;
    /// let machine = program.start()?;
    /// assert_eq!(Machine::from_bytes(&program, machine.bytes()), Ok(machine));
    /// assert_eq!(Machine::from_bytes(&program, &[]), Err(Refusal::BufferTooShort));
    /// assert_eq!(Machine::from_bytes(&program, &[255; 65_536]), Err(Refusal::StateRefused));
    /// # Ok::<(), Refusal>(())
    /// ```
    pub fn from_bytes(program: &'p Program, bytes: &[u8]) -> Result<Machine<'p>, Refusal> {
        if bytes.len() > Machine::SIZE {
            return Err(Refusal::StateRefused);
        }
        let mut machine = Machine { program, bytes: bytes.to_vec() };
        machine.run(0)?;
        Ok(machine)
    }

    /// The state, 65,536 bytes (docs/FORMATS.md).
    pub fn bytes(&self) -> &[u8] {
        &self.bytes
    }

    /// The program that runs.
    pub fn program(&self) -> &'p Program {
        self.program
    }

    /// Takes up to so many steps (`sif_run`). Refused with 10 where the count of steps would pass
    /// 2^64 − 1.
    pub fn run(&mut self, steps: u64) -> Result<Report, Refusal> {
        let mut report = [0; Report::SIZE];
        let number = ffi::run(&self.program.bytes, &mut self.bytes, steps, &mut report);
        Refusal::check(number, Refusal::StateRefused)?;
        Report::decode(&report).ok_or(Refusal::StateRefused)
    }

    /// The value of a name; none where it is not set (`sif_read_name`).
    pub fn read(&self, name: Name) -> Result<Option<Value>, Refusal> {
        let mut value = [0; Value::SIZE];
        let number = ffi::read_name(&self.bytes, u64::from(name.number()), &mut value);
        Refusal::check(number, Refusal::StateRefused)?;
        Ok(Value::decode(&value))
    }

    /// The names that are set, ascending, with their values: the page.
    pub fn names(&self) -> Vec<(Name, Value)> {
        Name::all().filter_map(|name| Some((name, self.name(name)?))).collect()
    }

    /// How many names are set.
    pub fn held(&self) -> u32 {
        u64_at(&self.bytes, Machine::MARK_AT).count_ones()
    }

    /// The same from the state's bytes, without a call.
    pub fn name(&self, name: Name) -> Option<Value> {
        self.slot(Machine::NAMES_AT, usize::from(name.number()))
    }

    /// The value in a register, 0 to 95; none where it is empty.
    pub fn register(&self, register: u8) -> Option<Value> {
        if register < Machine::REGISTERS {
            self.slot(0, usize::from(register))
        } else {
            None
        }
    }

    /// The value stack, from its bottom.
    pub fn stack(&self) -> Vec<Value> {
        let depth = usize::from(u8_at(&self.bytes, Machine::STACK_DEPTH_AT));
        (0..depth).map_while(|i| self.slot(Machine::STACK_AT, i)).collect()
    }

    /// The call stack, from its bottom: where each call was made.
    pub fn calls(&self) -> Vec<u16> {
        let depth = usize::from(u8_at(&self.bytes, Machine::CALLS_DEPTH_AT));
        (0..depth).map(|i| u16_at(&self.bytes, Machine::CALLS_AT + 4 * i)).collect()
    }

    /// The index at which a function of that name is declared.
    pub fn function(&self, name: Name) -> Option<u16> {
        u16_at(&self.bytes, Machine::FUNCTIONS_AT + 2 * usize::from(name.number())).checked_sub(1)
    }

    /// The index of the next instruction; the program's count at its end.
    pub fn position(&self) -> u16 {
        u16_at(&self.bytes, Machine::POSITION_AT)
    }

    /// Steps completed since the start.
    pub fn steps(&self) -> u64 {
        u64_at(&self.bytes, Machine::COUNT_AT)
    }

    /// The registers whose contents differ from those of another machine, ascending.
    pub fn registers_unlike(&self, other: &Machine) -> Vec<u8> {
        let unlike = |register: &u8| self.slot_unlike(other, 0, usize::from(*register));
        (0..Machine::REGISTERS).filter(unlike).collect()
    }

    /// The names that differ from those of another machine, ascending.
    pub fn names_unlike(&self, other: &Machine) -> Vec<Name> {
        let unlike =
            |name: &Name| self.slot_unlike(other, Machine::NAMES_AT, usize::from(name.number()));
        Name::all().filter(unlike).collect()
    }

    /// The names whose functions differ from those of another machine, ascending.
    pub fn functions_unlike(&self, other: &Machine) -> Vec<Name> {
        Name::all().filter(|name| self.function(*name) != other.function(*name)).collect()
    }

    /// The bytes of a slot at its number, from a place in the state on.
    fn slot_bytes(&self, at: usize, number: usize) -> &[u8] {
        part(&self.bytes, at + Value::SIZE * number, Value::SIZE)
    }

    fn slot(&self, at: usize, number: usize) -> Option<Value> {
        Value::decode(self.slot_bytes(at, number))
    }

    fn slot_unlike(&self, other: &Machine, at: usize, number: usize) -> bool {
        self.slot_bytes(at, number) != other.slot_bytes(at, number)
    }
}
