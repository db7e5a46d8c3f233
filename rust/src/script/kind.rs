//! The kinds of node: document 01, "The tree file".

/// Kind 1: the whole script; node 0 and no other.
pub const PROGRAM: u8 = 1;
/// Kind 2: statements that belong together.
pub const BLOCK: u8 = 2;
/// Kind 3: a condition with its branches.
pub const IF: u8 = 3;
/// Kind 4: a further branch of an If.
pub const ELIF: u8 = 4;
/// Kind 5: a loop.
pub const FOR: u8 = 5;
/// Kind 6: the end of a function's work.
pub const RETURN: u8 = 6;
/// Kind 7: an expression as a statement.
pub const EXPR_STMT: u8 = 7;
/// Kind 8: a variable with or without a first value.
pub const VAR_DECL: u8 = 8;
/// Kind 9: a function.
pub const FN_DECL: u8 = 9;
/// Kind 10: values by key.
pub const TABLE: u8 = 10;
/// Kind 11: one key of a Table.
pub const ITEM: u8 = 11;
/// Kind 12: values in a row.
pub const ARRAY: u8 = 12;
/// Kind 13: an item of an array, read.
pub const ARRAY_ACCESS: u8 = 13;
/// Kind 14: an item of an array, written.
pub const ARRAY_MUT: u8 = 14;
/// Kind 15: a function called.
pub const CALL: u8 = 15;
/// Kind 16: a name set.
pub const ASSIGN: u8 = 16;
/// Kind 17: an operator between two expressions.
pub const BINARY: u8 = 17;
/// Kind 18: an operator before an expression.
pub const UNARY: u8 = 18;
/// Kind 19: a number.
pub const NUM: u8 = 19;
/// Kind 20: a text.
pub const TEXT: u8 = 20;
/// Kind 21: a name, read.
pub const NAME: u8 = 21;
/// Kind 22: yes.
pub const TRUE: u8 = 22;
/// Kind 23: no.
pub const FALSE: u8 = 23;

/// What the body of a node holds.
#[derive(Clone, Copy, Debug, PartialEq, Eq)]
pub(crate) enum Body {
    Nothing,
    Elifs,
    Texts(usize),
    /// An operator from 1 to the number.
    Operator(u8),
    Binary64,
}

/// The body of a kind, or nothing where the kind is unknown.
pub(crate) fn body(kind: u8) -> Option<Body> {
    match kind {
        PROGRAM | BLOCK | ELIF | RETURN | EXPR_STMT | TABLE | TRUE | FALSE => Some(Body::Nothing),
        IF => Some(Body::Elifs),
        FOR => Some(Body::Texts(2)),
        VAR_DECL | FN_DECL | ITEM | ARRAY | ARRAY_ACCESS | ARRAY_MUT | CALL | ASSIGN | TEXT
        | NAME => Some(Body::Texts(1)),
        BINARY => Some(Body::Operator(13)),
        UNARY => Some(Body::Operator(2)),
        NUM => Some(Body::Binary64),
        _ => None,
    }
}

impl Body {
    /// How many bytes it takes.
    pub(crate) fn size(self) -> usize {
        match self {
            Body::Nothing => 0,
            Body::Elifs | Body::Operator(_) => 1,
            Body::Texts(count) => count,
            Body::Binary64 => 8,
        }
    }
}

/// The name of a kind, as document 01 has it.
pub fn name(kind: u8) -> &'static str {
    match kind {
        PROGRAM => "Program",
        BLOCK => "Block",
        IF => "If",
        ELIF => "Elif",
        FOR => "For",
        RETURN => "Return",
        EXPR_STMT => "ExprStmt",
        VAR_DECL => "VarDecl",
        FN_DECL => "FnDecl",
        TABLE => "Table",
        ITEM => "Item",
        ARRAY => "Array",
        ARRAY_ACCESS => "ArrayAccess",
        ARRAY_MUT => "ArrayMut",
        CALL => "Call",
        ASSIGN => "Assign",
        BINARY => "Binary",
        UNARY => "Unary",
        NUM => "Num",
        TEXT => "Text",
        NAME => "Name",
        TRUE => "True",
        FALSE => "False",
        _ => "unknown kind",
    }
}

/// "Statements: 2, 3, 5 to 9."
pub(crate) fn is_statement(kind: u8) -> bool {
    matches!(kind, BLOCK | IF | FOR..=FN_DECL)
}

/// "Expressions: 14 to 23."
pub(crate) fn is_expression(kind: u8) -> bool {
    matches!(kind, ARRAY_MUT..=FALSE)
}

/// "A right side may also be 10, 12, 13."
pub(crate) fn is_right_side(kind: u8) -> bool {
    is_expression(kind) || matches!(kind, TABLE | ARRAY | ARRAY_ACCESS)
}
