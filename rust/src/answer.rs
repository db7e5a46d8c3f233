//! What the engine's calls answer: refusals, and how a run ended.

use std::error::Error;
use std::fmt;

use crate::bytes::{u64_at, u8_at};
use crate::value::Name;

/// Why a call was refused (document 01, "Numbers given for the input"; 39: document 02, M-104). A
/// refused call has changed nothing that this crate keeps.
#[derive(Clone, Copy, Debug, PartialEq, Eq, Hash)]
pub enum Refusal {
    /// 1: under 3 bytes, contents cut off, or bodies that do not end with the file.
    FileCut = 1,
    /// 2: node count outside 1 to 1,024 or text count outside 1 to 64.
    FileCounts,
    /// 3: a text over 40 bytes, with a byte outside 32 to 126, or out of order.
    FileTexts,
    /// 4: an unknown kind, or a tree that is not built by the rules.
    FileStructure,
    /// 5: a text number not below the text count, or an unknown operator.
    FileNumbers,
    /// 6: an operand without a register before it.
    NoRegister,
    /// 7: more than 96 registers or 1,024 instructions.
    ScriptTooLarge,
    /// 8: a buffer that is no program.
    ProgramRefused,
    /// 9: too few bytes for a program or a state.
    BufferTooShort,
    /// 10: bytes that are no state of the program, or a count of steps past 2^64 − 1.
    StateRefused,
    /// 39: a NaN or an infinity as a number of the file.
    NumberNotFinite = 39,
}

impl Refusal {
    /// All refusals, by number.
    pub const ALL: [Refusal; 11] = [
        Refusal::FileCut,
        Refusal::FileCounts,
        Refusal::FileTexts,
        Refusal::FileStructure,
        Refusal::FileNumbers,
        Refusal::NoRegister,
        Refusal::ScriptTooLarge,
        Refusal::ProgramRefused,
        Refusal::BufferTooShort,
        Refusal::StateRefused,
        Refusal::NumberNotFinite,
    ];

    /// The refusal of a number, 1 to 10, or 39.
    pub fn from_number(number: u64) -> Option<Refusal> {
        Refusal::ALL.into_iter().find(|refusal| u64::from(refusal.number()) == number)
    }

    /// Its number, 1 to 10, or 39.
    pub fn number(self) -> u8 {
        self as u8
    }

    /// What the number means.
    pub fn words(self) -> &'static str {
        match self {
            Refusal::FileCut => "the file is cut off, or goes on behind its last body",
            Refusal::FileCounts => "the node count or the text count is out of range",
            Refusal::FileTexts => "a text that is not allowed, or out of order",
            Refusal::FileStructure => "the tree is not built by the rules",
            Refusal::FileNumbers => "a text number or an operator that is not there",
            Refusal::NoRegister => "an operand without a value before it",
            Refusal::ScriptTooLarge => "more than 96 registers or 1,024 instructions",
            Refusal::ProgramRefused => "not a program",
            Refusal::BufferTooShort => "too few bytes",
            Refusal::StateRefused => "not a state of this program, or too many steps",
            Refusal::NumberNotFinite => "a number that is a NaN or infinite",
        }
    }

    /// The engine's number as a result. A number that the header does not have, which the engine
    /// never answers, counts as `unknown`.
    pub(crate) fn check(number: u64, unknown: Refusal) -> Result<(), Refusal> {
        match number {
            0 => Ok(()),
            _ => Err(Refusal::from_number(number).unwrap_or(unknown)),
        }
    }
}

impl fmt::Display for Refusal {
    fn fmt(&self, f: &mut fmt::Formatter) -> fmt::Result {
        write!(f, "refused with {}: {}", self.number(), self.words())
    }
}

impl Error for Refusal {}

/// What is said of places; that they end below 2^64 is left out.
pub(crate) const PLACES: &str = "places are whole numbers from 0 on";

/// The error at which a run stopped, with its details (document 01, "Numbers given for the state"; 38:
/// document 02, M-103).
#[derive(Clone, Copy, Debug, PartialEq, Eq, Hash)]
pub enum Stop {
    /// 20: a name that is not set.
    InvalidName(Name),
    /// 21: nothing to increment.
    InvalidIncr,
    /// 22: not a number to increment.
    InvalidIncrTy,
    /// 23: nothing to decrement.
    InvalidDecr,
    /// 24: not a number to decrement.
    InvalidDecrTy,
    /// 25: a label that is not there.
    InvalidJump,
    /// 26: an empty register.
    RegNoContents(u8),
    /// 27: an operator on a value of the wrong kind; also a condition or an index of the wrong kind.
    TyMismatch,
    /// 28: a name that holds no array.
    NotAnArray(Name),
    /// 29: a function that is not declared.
    InvalidFnSym(Name),
    /// 30: a return outside a call.
    EmptyCallStack,
    /// 31: an index past the end of an array.
    IndexOutOfBounds {
        /// The array's name.
        name: Name,
        /// The index, counted from 0; at most 18,446,744,073,709,549,568.
        index: u64,
        /// The array's length.
        length: u64,
    },
    /// 32: an empty register pushed or put into a table.
    EmptyRegister,
    /// 33: a key that the table does not have.
    KeyAbsent,
    /// 34: an array or table put inside another.
    Nested,
    /// 35: over 24 values or 24 calls.
    StackFull,
    /// 36: a 17th key.
    TableFull,
    /// 38: a number that is no index: a fraction, a negative, a NaN, an infinity, 2^64 or more.
    NoIndex,
}

impl Stop {
    /// Its number, 20 to 36, or 38.
    pub fn number(self) -> u8 {
        match self {
            Stop::InvalidName(_) => 20,
            Stop::InvalidIncr => 21,
            Stop::InvalidIncrTy => 22,
            Stop::InvalidDecr => 23,
            Stop::InvalidDecrTy => 24,
            Stop::InvalidJump => 25,
            Stop::RegNoContents(_) => 26,
            Stop::TyMismatch => 27,
            Stop::NotAnArray(_) => 28,
            Stop::InvalidFnSym(_) => 29,
            Stop::EmptyCallStack => 30,
            Stop::IndexOutOfBounds { .. } => 31,
            Stop::EmptyRegister => 32,
            Stop::KeyAbsent => 33,
            Stop::Nested => 34,
            Stop::StackFull => 35,
            Stop::TableFull => 36,
            Stop::NoIndex => 38,
        }
    }

    /// Its details, in the listing's order.
    pub fn details(self) -> Vec<u64> {
        match self {
            Stop::InvalidName(name) | Stop::NotAnArray(name) | Stop::InvalidFnSym(name) => {
                vec![u64::from(name.number())]
            }
            Stop::RegNoContents(register) => vec![u64::from(register)],
            Stop::IndexOutOfBounds { name, index, length } => {
                vec![u64::from(name.number()), index, length]
            }
            _ => Vec::new(),
        }
    }

    /// What happened, with names by a function from their numbers.
    ///
    /// ```
    /// use sif::{Name, Stop};
    /// let stop = Stop::IndexOutOfBounds { name: Name::new(1).unwrap(), index: 3, length: 3 };
    /// assert_eq!(stop.words(|_| "cells".to_string()), "index 3 in array cells of length 3");
    /// ```
    pub fn words(self, text: impl Fn(Name) -> String) -> String {
        match self {
            Stop::InvalidName(name) => format!("name {} is not set", text(name)),
            Stop::InvalidIncr => "nothing to increment".into(),
            Stop::InvalidIncrTy => "not a number to increment".into(),
            Stop::InvalidDecr => "nothing to decrement".into(),
            Stop::InvalidDecrTy => "not a number to decrement".into(),
            Stop::InvalidJump => "a jump to a label that is not there".into(),
            Stop::RegNoContents(register) => format!("register {register} is empty"),
            Stop::TyMismatch => {
                "a value of the wrong kind for an operator, a condition or an index".into()
            }
            Stop::NotAnArray(name) => format!("{} is not an array", text(name)),
            Stop::InvalidFnSym(name) => format!("function {} is not declared", text(name)),
            Stop::EmptyCallStack => "a return outside a call".into(),
            Stop::IndexOutOfBounds { name, index, length } => {
                format!("index {index} in array {} of length {length}", text(name))
            }
            Stop::EmptyRegister => "an empty register pushed or put into a table".into(),
            Stop::KeyAbsent => "a key that the table does not have".into(),
            Stop::Nested => "an array or table put inside another".into(),
            Stop::StackFull => {
                "more than 24 values on the stack, or 24 calls in one another".into()
            }
            Stop::TableFull => "a 17th key in a table".into(),
            Stop::NoIndex => format!("a number that is no index: {PLACES}"),
        }
    }

    /// The stop of a number with the details of a report.
    fn decode(number: u8, details: [u64; 3]) -> Option<Stop> {
        let [first, index, length] = details;
        let name = Name::from_u64(first);
        match number {
            20 => name.map(Stop::InvalidName),
            21 => Some(Stop::InvalidIncr),
            22 => Some(Stop::InvalidIncrTy),
            23 => Some(Stop::InvalidDecr),
            24 => Some(Stop::InvalidDecrTy),
            25 => Some(Stop::InvalidJump),
            26 => u8::try_from(first).ok().map(Stop::RegNoContents),
            27 => Some(Stop::TyMismatch),
            28 => name.map(Stop::NotAnArray),
            29 => name.map(Stop::InvalidFnSym),
            30 => Some(Stop::EmptyCallStack),
            31 => name.map(|name| Stop::IndexOutOfBounds { name, index, length }),
            32 => Some(Stop::EmptyRegister),
            33 => Some(Stop::KeyAbsent),
            34 => Some(Stop::Nested),
            35 => Some(Stop::StackFull),
            36 => Some(Stop::TableFull),
            38 => Some(Stop::NoIndex),
            _ => None,
        }
    }
}

/// How a run ended.
#[derive(Clone, Copy, Debug, PartialEq, Eq, Hash)]
pub enum Answer {
    /// The program's end is reached.
    Done,
    /// At an error. The stopped step changed nothing, is not counted, and comes again if run again.
    Stopped {
        /// The error.
        stop: Stop,
        /// Its line: position + 1 − code start, below 1 in the functions in front of the code.
        line: i64,
    },
    /// All given steps were taken, and the program goes on.
    Spent,
}

/// What a run tells.
#[derive(Clone, Copy, Debug, PartialEq, Eq, Hash)]
pub struct Report {
    /// How it ended.
    pub answer: Answer,
    /// Steps taken in this run.
    pub steps: u64,
}

impl Report {
    pub(crate) const SIZE: usize = 48;
    pub(crate) const ANSWER_AT: usize = 0;
    pub(crate) const STOP_AT: usize = 1;
    pub(crate) const LINE_AT: usize = 8;
    pub(crate) const DETAILS_AT: usize = 16;
    pub(crate) const STEPS_AT: usize = 40;
    pub(crate) const DONE: u8 = 0;
    pub(crate) const STOPPED: u8 = 1;
    pub(crate) const SPENT: u8 = 2;

    /// The report in its bytes; none where they are no report, which a run never writes.
    pub(crate) fn decode(bytes: &[u8]) -> Option<Report> {
        let detail = |i: usize| u64_at(bytes, Report::DETAILS_AT + 8 * i);
        let answer = match u8_at(bytes, Report::ANSWER_AT) {
            Report::DONE => Answer::Done,
            Report::STOPPED => Answer::Stopped {
                stop: Stop::decode(
                    u8_at(bytes, Report::STOP_AT),
                    [detail(0), detail(1), detail(2)],
                )?,
                line: u64_at(bytes, Report::LINE_AT) as i64,
            },
            Report::SPENT => Answer::Spent,
            _ => return None,
        };
        Some(Report { answer, steps: u64_at(bytes, Report::STEPS_AT) })
    }
}
