//! Names and values.

use crate::bytes::{u64_at, u8_at};

/// The number of a text, 0 to 63. A script's texts name its variables, functions and keys, and are
/// its text values. The number means something beside the file whose texts it counts.
///
/// ```
/// use sif::Name;
/// assert_eq!(Name::new(63).map(|name| name.number()), Some(63));
/// assert_eq!(Name::new(64), None);
/// ```
#[derive(Clone, Copy, Debug, PartialEq, Eq, PartialOrd, Ord, Hash)]
pub struct Name(u8);

impl Name {
    /// How many texts a file may have (`SIF_TEXTS`).
    pub const COUNT: u8 = 64;

    /// The name of that text number; none from 64 on.
    pub fn new(number: u8) -> Option<Name> {
        (number < Name::COUNT).then_some(Name(number))
    }

    /// The text number.
    pub fn number(self) -> u8 {
        self.0
    }

    /// All 64 names, ascending.
    pub fn all() -> impl Iterator<Item = Name> {
        (0..Name::COUNT).map(Name)
    }

    /// The name in a field of eight bytes.
    pub(crate) fn from_u64(number: u64) -> Option<Name> {
        u8::try_from(number).ok().and_then(Name::new)
    }
}

/// A value that is neither array nor table: what arrays and tables hold.
#[derive(Clone, Copy, Debug, PartialEq)]
pub enum Single {
    /// A number; every NaN of the engine is 7ff8000000000000.
    Number(f64),
    /// A text.
    Text(Name),
    /// Yes or no.
    Bool(bool),
    /// The nothing-value.
    Nothing,
}

impl Single {
    /// A single value from its kind and its number (docs/FORMATS.md, "Single values").
    pub(crate) fn decode(kind: u8, number: u64) -> Option<Single> {
        match kind {
            Value::NUM => Some(Single::Number(one_nan(f64::from_bits(number)))),
            Value::STR => Name::from_u64(number).map(Single::Text),
            Value::BL => Some(Single::Bool(number != 0)),
            Value::NULL => Some(Single::Nothing),
            _ => None,
        }
    }
}

/// All NaNs count as one value (document 01, "Running").
fn one_nan(number: f64) -> f64 {
    if number.is_nan() {
        f64::from_bits(0x7ff8_0000_0000_0000)
    } else {
        number
    }
}

/// A value of a name, a register or the stack.
#[derive(Clone, Debug, PartialEq)]
pub enum Value {
    /// A number, text, yes/no or nothing.
    Single(Single),
    /// At most 24 items.
    Array(Vec<Single>),
    /// At most 16 keys, ascending, each with its value.
    Table(Vec<(Name, Single)>),
}

impl Value {
    pub(crate) const UNSET: u8 = 0;
    pub(crate) const NUM: u8 = 1;
    pub(crate) const STR: u8 = 2;
    pub(crate) const BL: u8 = 3;
    pub(crate) const NULL: u8 = 4;
    pub(crate) const ARR: u8 = 5;
    pub(crate) const TAB: u8 = 6;

    /// Bytes of a value slot (`SIF_VALUE_SIZE`).
    pub const SIZE: usize = 256;
    pub(crate) const KIND_AT: usize = 0;
    pub(crate) const LENGTH_AT: usize = 1;
    pub(crate) const NUMBER_AT: usize = 8;
    pub(crate) const ITEM_KINDS_AT: usize = 16;
    pub(crate) const ITEMS_AT: usize = 40;
    pub(crate) const KEYS_AT: usize = 232;

    /// The value in a slot; none where the slot is empty.
    pub(crate) fn decode(slot: &[u8]) -> Option<Value> {
        let kind = u8_at(slot, Value::KIND_AT);
        let length = usize::from(u8_at(slot, Value::LENGTH_AT));
        let item = |i: usize| {
            let kind = u8_at(slot, Value::ITEM_KINDS_AT + i);
            Single::decode(kind, u64_at(slot, Value::ITEMS_AT + 8 * i))
        };
        let key = |i: usize| Name::new(u8_at(slot, Value::KEYS_AT + i));
        match kind {
            Value::UNSET => None,
            Value::ARR => Some(Value::Array((0..length).map_while(item).collect())),
            Value::TAB => {
                Some(Value::Table((0..length).map_while(|i| Some((key(i)?, item(i)?))).collect()))
            }
            _ => Single::decode(kind, u64_at(slot, Value::NUMBER_AT)).map(Value::Single),
        }
    }
}
