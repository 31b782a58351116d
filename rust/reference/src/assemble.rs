//! From trees to an image: program, outline and proofs become records and bytes.
//!
//! Equal formulas become one formula record and equal lines one line record.

use crate::formula::encode::Encode;
use crate::image::written::{self, Record, Written};
use crate::image::{Claim, Header, Instruction, Meeting, Program, Statement, Thread};
use crate::proof::Proof;
use std::collections::HashMap;
use std::rc::Rc;

/// All that an image says.
#[derive(Clone, Debug, PartialEq, Eq)]
pub struct Plan {
    pub program: Program,
    /// Lines on which no obligation need rest; they are written first.
    pub spare: Vec<Rc<Proof>>,
    /// A proof per obligation.
    pub obligations: Vec<Option<Rc<Proof>>>,
    /// What never happens, with a proof.
    pub claims: Vec<(Meeting, Option<Rc<Proof>>)>,
}

impl Plan {
    /// A plan without spare lines and claims.
    pub fn new(program: Program, obligations: Vec<Option<Rc<Proof>>>) -> Plan {
        Plan { program, spare: Vec::new(), obligations, claims: Vec::new() }
    }

    /// The image as it is written.
    pub fn written(&self) -> Written {
        let mut image = Assembly::of(&self.program);
        for proof in &self.spare {
            image.proof(proof);
        }
        for proof in &self.obligations {
            let line = image.named(proof.as_deref());
            image.obligation(line);
        }
        for (meeting, proof) in &self.claims {
            let line = image.named(proof.as_deref());
            image.claim(Claim { meeting: *meeting, line });
        }
        image.written()
    }

    /// The records of the image, in their order.
    pub fn records(&self) -> Vec<Record> {
        self.written().records()
    }

    /// The bytes of the image.
    pub fn bytes(&self) -> Vec<u8> {
        self.written().bytes()
    }
}

/// An image in the making: a formula or a line gets its number where it first occurs.
pub struct Assembly {
    written: Written,
    formulas: HashMap<Vec<u8>, u16>,
    lines: HashMap<written::Line, u16>,
}

impl Assembly {
    /// An image of this program and outline, without lines.
    pub fn of(program: &Program) -> Assembly {
        let mut image = Assembly::with(program.header.clone());
        for thread in &program.threads {
            image.thread(thread);
        }
        for assertion in program.outline.iter().flatten() {
            let number = image.formula(assertion.encode());
            image.written.outline.push(number);
        }
        image
    }

    fn with(header: Header) -> Assembly {
        let written = Written {
            header,
            formulas: Vec::new(),
            threads: Vec::new(),
            outline: Vec::new(),
            lines: Vec::new(),
            obligations: Vec::new(),
            claims: Vec::new(),
        };
        Assembly { written, formulas: HashMap::new(), lines: HashMap::new() }
    }

    pub fn written(self) -> Written {
        self.written
    }

    fn formula(&mut self, bytes: Vec<u8>) -> u16 {
        *self.formulas.entry(bytes).or_insert_with_key(|bytes| {
            self.written.formulas.push(bytes.clone());
            self.written.formulas.len() as u16
        })
    }

    fn thread(&mut self, thread: &Thread) {
        let code = thread.iter().map(|instruction| self.instruction(instruction)).collect();
        self.written.threads.push(code);
    }

    fn instruction(&mut self, instruction: &Instruction) -> written::Instruction {
        let operands = instruction.operands();
        let numbers: Vec<u16> =
            operands.iter().map(|formula| self.formula(formula.encode())).collect();
        instruction.fields(&numbers)
    }

    /// The number of the line that a proof ends with, 0 for none.
    fn named(&mut self, proof: Option<&Proof>) -> u16 {
        proof.map_or(0, |proof| self.proof(proof))
    }

    /// The number of a proof's last line; premises come first.
    fn proof(&mut self, proof: &Proof) -> u16 {
        let premises = proof.premises.iter().map(|premise| self.proof(premise)).collect();
        self.line(proof.rule, &proof.statement, premises)
    }

    /// The number of the line, which is written if it is new.
    pub fn line(&mut self, rule: u8, statement: &Statement, premises: Vec<u16>) -> u16 {
        let (thread, point) = statement.place();
        let (left, right) = statement.sides();
        let (left, right) = (self.formula(left.encode()), self.formula(right.encode()));
        let line = written::Line { rule, thread, point, left, right, premises };
        *self.lines.entry(line).or_insert_with_key(|line| {
            self.written.lines.push(line.clone());
            self.written.lines.len() as u16
        })
    }

    /// The line of the next obligation, 0 for none.
    pub fn obligation(&mut self, line: u16) {
        self.written.obligations.push(line);
    }

    /// The next claim.
    pub fn claim(&mut self, claim: Claim) {
        self.written.claims.push(claim);
    }
}
