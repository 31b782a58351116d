//! Types of C: numbers, atomic or not, and pointers to them.

use super::lex::Kind;
use super::parse::Parser;
use super::{refuse, Read};

#[derive(Debug, Clone, PartialEq, Eq)]
pub struct Type {
    pub name: String,
    pub is_atomic: bool,
    /// How many `*` stand behind it.
    pub pointers: usize,
    /// The greatest value that the machine's part of it needs: 1 for bool, for others 15 and more; none for void.
    pub most: Option<u8>,
    /// Is it declared elsewhere, so that nothing says where it begins?
    pub is_extern: bool,
    /// Does it outlive its function's calls?
    pub is_static: bool,
}

impl Type {
    /// A number that is no bool, so that a value of 0 to 15 keeps its value in it.
    pub fn is_plain_number(&self) -> bool {
        !self.is_atomic && self.pointers == 0 && self.most == Some(MOST)
    }

    /// A number or a bool that a register may hold.
    pub fn is_register(&self) -> bool {
        !self.is_atomic && self.pointers == 0 && self.most.is_some()
    }
}

/// The greatest value of the machine.
pub const MOST: u8 = 15;

/// Names that say how something is kept, and nothing about its values.
const PASSED: [&str; 11] = [
    "static",
    "const",
    "volatile",
    "register",
    "inline",
    "restrict",
    "__restrict",
    "__inline",
    "__volatile__",
    "__inline__",
    "__extension__",
];

const NUMBERS: [&str; 27] = [
    "char",
    "short",
    "int",
    "long",
    "signed",
    "unsigned",
    "size_t",
    "ssize_t",
    "ptrdiff_t",
    "intptr_t",
    "uintptr_t",
    "int8_t",
    "int16_t",
    "int32_t",
    "int64_t",
    "uint8_t",
    "uint16_t",
    "uint32_t",
    "uint64_t",
    "u8",
    "u16",
    "u32",
    "u64",
    "s8",
    "s16",
    "s32",
    "s64",
];

const ATOMIC_NUMBERS: [&str; 15] = [
    "atomic_char",
    "atomic_schar",
    "atomic_uchar",
    "atomic_short",
    "atomic_ushort",
    "atomic_int",
    "atomic_uint",
    "atomic_long",
    "atomic_ulong",
    "atomic_llong",
    "atomic_ullong",
    "atomic_size_t",
    "atomic_intptr_t",
    "atomic_uintptr_t",
    "atomic_ptrdiff_t",
];

/// Types that no word or register of the machine has.
const REFUSED: [&str; 14] = [
    "float",
    "double",
    "struct",
    "union",
    "enum",
    "atomic_t",
    "atomic64_t",
    "atomic_flag",
    "spinlock_t",
    "mtx_t",
    "pthread_mutex_t",
    "typedef",
    "_Complex",
    "__auto_type",
];

/// Does a type begin with this name?
pub fn is_type(name: &str) -> bool {
    let others = ["void", "bool", "_Bool", "_Atomic", "atomic_bool", "extern"];
    let lists: [&[&str]; 5] = [&PASSED, &NUMBERS, &ATOMIC_NUMBERS, &REFUSED, &others];
    lists.iter().any(|list| list.contains(&name))
}

/// Reads a type with its `*`s.
pub fn of(parser: &mut Parser) -> Read<Type> {
    let at = parser.here();
    let mut found = Type {
        name: String::new(),
        is_atomic: false,
        pointers: 0,
        most: None,
        is_extern: false,
        is_static: false,
    };
    let mut is_named = false;
    while let Kind::Name(name) = parser.peek().clone() {
        if !is_type(&name) {
            break;
        }
        parser.next();
        is_named |= specified(parser, &mut found, &name)?;
    }
    if !is_named {
        return refuse(at, "a type is wanted here");
    }
    while parser.take("*") {
        found.pointers += 1;
        while ["const", "volatile", "restrict", "__restrict"].iter().any(|word| parser.take(word)) {
        }
    }
    Ok(found)
}

/// What one name says of a type; does it name one?
fn specified(parser: &mut Parser, found: &mut Type, name: &str) -> Read<bool> {
    if PASSED.contains(&name) {
        found.is_static |= name == "static";
        return Ok(false);
    }
    if REFUSED.contains(&name) {
        return refuse(
            parser.behind(),
            format!("`{name}` is no type of a word or a register here"),
        );
    }
    if name == "extern" {
        found.is_extern = true;
        return Ok(false);
    }
    if name == "_Atomic" {
        found.is_atomic = true;
        return in_parentheses(parser, found);
    }
    found.name = name.into();
    found.is_atomic |= name.starts_with("atomic_");
    found.most = match name {
        "void" => None,
        "bool" | "_Bool" | "atomic_bool" => Some(1),
        _ => Some(MOST),
    };
    Ok(true)
}

/// `_Atomic(int)`; `_Atomic` alone goes with the type beside it.
fn in_parentheses(parser: &mut Parser, found: &mut Type) -> Read<bool> {
    if !parser.take("(") {
        return Ok(false);
    }
    let inner = parser.inside(of)?;
    parser.expect(")")?;
    (found.name, found.most, found.pointers) = (inner.name, inner.most, inner.pointers);
    Ok(true)
}
