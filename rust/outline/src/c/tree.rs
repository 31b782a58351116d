//! What a C function says.

use super::types::Type;
use super::At;

#[derive(Debug, Clone, PartialEq, Eq)]
pub struct Expression {
    pub is: Node,
    pub at: At,
}

#[derive(Debug, Clone, PartialEq, Eq)]
pub enum Node {
    Number(u64),
    Name(String),
    Call(String, Vec<Expression>),
    /// An operator in front: `!`, `*`, `&`, `-` and others.
    Prefix(&'static str, Box<Expression>),
    /// `++` or `--` behind.
    Postfix(&'static str, Box<Expression>),
    Infix(&'static str, Box<Expression>, Box<Expression>),
    /// `=`, or an operator with `=` behind it.
    Assign(&'static str, Box<Expression>, Box<Expression>),
    Cast(Type, Box<Expression>),
    /// Something that is C, and that no program of the machine has.
    Other(&'static str),
}

#[derive(Debug, Clone, PartialEq, Eq)]
pub struct Statement {
    pub is: Act,
    pub at: At,
}

#[derive(Debug, Clone, PartialEq, Eq)]
pub enum Act {
    Declare(Vec<Declaration>),
    Do(Expression),
    If(Expression, Box<Statement>, Option<Box<Statement>>),
    While(Expression, Box<Statement>),
    DoWhile(Box<Statement>, Expression),
    For(Box<For>),
    Goto(String),
    Label(String),
    Return(Option<Expression>),
    Break,
    Continue,
    Block(Vec<Statement>),
    /// An assertion behind `//@`.
    Note(String),
}

#[derive(Debug, Clone, PartialEq, Eq)]
pub struct For {
    pub first: Option<Statement>,
    pub test: Option<Expression>,
    pub next: Option<Expression>,
    pub body: Statement,
}

/// A variable, perhaps with a value.
#[derive(Debug, Clone, PartialEq, Eq)]
pub struct Declaration {
    pub name: String,
    pub of: Type,
    pub value: Option<Expression>,
    pub at: At,
}

/// A function with its body.
#[derive(Debug, Clone, PartialEq, Eq)]
pub struct Function {
    pub name: String,
    pub parameters: Vec<Declaration>,
    pub body: Vec<Statement>,
    pub at: At,
    /// Where its body ends.
    pub end: At,
}

impl Expression {
    pub fn new(is: Node, at: At) -> Expression {
        Expression { is, at }
    }

    /// The parts of an expression.
    pub fn parts(&self) -> Vec<&Expression> {
        match &self.is {
            Node::Number(_) | Node::Name(_) | Node::Other(_) => vec![],
            Node::Call(_, parts) => parts.iter().collect(),
            Node::Prefix(_, part) | Node::Postfix(_, part) | Node::Cast(_, part) => vec![part],
            Node::Infix(_, a, b) | Node::Assign(_, a, b) => vec![a, b],
        }
    }

    /// Does a call stand in it?
    pub fn has_call(&self) -> bool {
        matches!(self.is, Node::Call(..)) || self.parts().iter().any(|part| part.has_call())
    }

    /// The expression without casts to numbers, which change no value that stays in the range.
    pub fn uncast(&self) -> &Expression {
        match &self.is {
            Node::Cast(to, part) if to.is_plain_number() => part.uncast(),
            _ => self,
        }
    }
}
