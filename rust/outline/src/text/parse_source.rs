//! Text to a source: declarations, threads, the parts `proof` and `certificate`.

use crate::terms::*;
use crate::text::lex::{tokens, Mistake, Place, Token, Tokens, KEYWORDS};
use crate::text::parse_claim::{claim, point_of, Unplaced};
use crate::text::parse_formula::Cursor;
use crate::text::parse_instruction::instruction;
use crate::text::parse_proof::proof;
use crate::text::scope::Scope;
use crate::text::sort_name;
use crate::text::source::{Labels, Point, Source};
use reference::checker::limits;
use reference::checker::rules::Rules;
use reference::formula::atoms::{Atom, Atoms};
use reference::formula::nesting::{Nesting, BYTES, NESTING};
use reference::formula::{Formula, Sort};
use reference::image::Instruction;

/// Reads a whole source text, or finds its first mistake.
pub fn parse(text: &str) -> Result<Source, Mistake> {
    parse_all(text).map_err(|mut mistakes| mistakes.remove(0))
}

/// Reads a whole source text, or finds its mistakes: at most one in each point, instruction and other part.
pub fn parse_all(text: &str) -> Result<Source, Vec<Mistake>> {
    let Tokens { list, mistakes } = tokens(text);
    let (scope, scanned) = Scope::scan(&list);
    let list = scope.with_qualified(list, false);
    let mut draft = Draft::of(&scope);
    draft.mistakes.first = [mistakes, scanned].concat();
    let mut cursor = Cursor::of(&list, scope);
    while *cursor.peek() != Token::End {
        let start = cursor.at;
        cursor.scope.within = None;
        if let Err(mistake) = item(&mut cursor, &mut draft) {
            draft.mistakes.add(mistake);
            draft.mistakes.missing.extend(name_behind(&list, start));
            cursor.at = cursor.at.max(start + 1);
            while !at_end_of_thread(&cursor) {
                cursor.at += 1;
            }
        }
    }
    draft.finish(&cursor.scope, list[list.len() - 1].1)
}

/// A source in reading.
struct Draft {
    source: Source,
    claims: Vec<Unplaced>,
    mistakes: Mistakes,
}

impl Draft {
    fn of(scope: &Scope) -> Draft {
        let source = Source {
            rules: Rules::Published,
            header: scope.header(),
            names: scope.names.clone(),
            threads: Vec::new(),
            points: Vec::new(),
            labels: Vec::new(),
            code_numbers: Vec::new(),
            claims: Vec::new(),
            hints: Vec::new(),
            certificate: None,
        };
        Draft { source, claims: Vec::new(), mistakes: Mistakes::default() }
    }

    /// The source, once all threads are there; a thread with a mistake has no points for a claim to name.
    fn finish(mut self, scope: &Scope, end: Place) -> Result<Source, Vec<Mistake>> {
        if self.mistakes.is_empty() {
            self.mistakes.all.extend(scope.missing(end));
        }
        if self.mistakes.is_empty() {
            for claim in &self.claims {
                match claim.placed(&self.source.labels) {
                    Ok(claim) => self.source.claims.push(claim),
                    Err(mistake) => self.mistakes.add(mistake),
                }
            }
        }
        if !self.mistakes.is_empty() {
            return Err(self.mistakes.in_order());
        }
        self.source.names.shorts = scope.shorts();
        self.source.names.labels = self.source.labels.clone();
        Ok(self.source)
    }

    /// One more claim, if an image has room for it.
    fn claim(&mut self, c: &mut Cursor) -> Result<(), Mistake> {
        let place = c.line();
        c.expect("never")?;
        let claim = claim(c, place)?;
        if self.claims.len() == limits::CLAIMS {
            let text = format!("an image has at most {} claims", limits::CLAIMS);
            return Err(Mistake { line: place, text });
        }
        self.claims.push(claim);
        Ok(())
    }
}

/// The mistakes of a text, without those that only follow from others: about a name that was not declared since its
/// declaration failed, or in a line that has one already.
#[derive(Default)]
struct Mistakes {
    /// Those of tokens and declarations, which are read first.
    first: Vec<Mistake>,
    all: Vec<Mistake>,
    missing: Vec<String>,
}

impl Mistakes {
    fn add(&mut self, mistake: Mistake) {
        let said = |text: String| mistake.text.contains(&text);
        let follows = |name: &String| {
            said(format!("`{name}` is not declared")) || said(format!("`{name}` is no thread"))
        };
        let is_told = self.first.iter().any(|told| told.line.line == mistake.line.line);
        if !is_told && !self.missing.iter().any(follows) {
            self.all.push(mistake);
        }
    }

    fn is_empty(&self) -> bool {
        self.first.is_empty() && self.all.is_empty()
    }

    /// All of them in the order of the text.
    fn in_order(self) -> Vec<Mistake> {
        let mut all = [self.first, self.all].concat();
        all.sort_by_key(|mistake| mistake.line);
        all.dedup_by_key(|mistake| mistake.line);
        all
    }
}

/// The name that the part at a place would have declared: behind `let`, or behind a word that is none of the language.
fn name_behind(list: &[(Token, Place)], at: usize) -> Option<String> {
    match (&list[at].0, list.get(at + 1).map(|t| &t.0)) {
        (Token::Name(word), Some(Token::Name(name)))
            if word == "let" || !KEYWORDS.contains(&word.as_str()) =>
        {
            Some(name.clone())
        }
        _ => None,
    }
}

fn item(c: &mut Cursor, draft: &mut Draft) -> Result<(), Mistake> {
    if c.take("range") {
        c.number()?;
        return Ok(());
    }
    if c.take("word") {
        c.name()?;
        c.expect("=")?;
        c.number()?;
        return Ok(());
    }
    if c.take("open") {
        c.expect("register")?;
        return owned(c);
    }
    if c.take("register") {
        return owned(c);
    }
    if c.take("let") {
        return short(c);
    }
    if c.take("thread") {
        return thread(c, draft);
    }
    if c.sees_next("never") {
        return draft.claim(c);
    }
    if c.take("proof") {
        return proof(c, &mut draft.source);
    }
    if c.sees_next("certificate") {
        if draft.source.certificate.is_some() {
            return c.fail("there is a part `certificate` already".into());
        }
        c.at += 1;
        draft.source.certificate = Some(crate::text::parse_certificate::certificate(c)?);
        return Ok(());
    }
    c.wanted("`range`, `word`, `register`, `let`, `thread`, `never`, `proof` or `certificate`")
}

/// `NAME of THREAD`, which the scope has read already.
fn owned(c: &mut Cursor) -> Result<(), Mistake> {
    c.name()?;
    c.expect("of")?;
    c.name()?;
    Ok(())
}

/// `[open] registers NAME, ..`, any number of times.
fn registers(c: &mut Cursor) -> Result<(), Mistake> {
    while c.sees_next("open") || c.sees_next("registers") {
        c.take("open");
        c.expect("registers")?;
        c.name()?;
        while c.take(",") {
            c.name()?;
        }
    }
    Ok(())
}

/// `let NAME = FORMULA`; without the name of a sort, an assertion is tried, then an interval.
fn short(c: &mut Cursor) -> Result<(), Mistake> {
    let line = c.line();
    let name = c.name()?;
    c.expect("=")?;
    let formula = match sort_word(c) {
        Some(sort) => c.of_sort(sort)?,
        None => assertion_or_interval(c)?,
    };
    // What does not fit into a record fits nowhere, and names of names of it would grow without end.
    check_size(&formula, line)?;
    c.scope.short(&name, formula, line)
}

fn assertion_or_interval(c: &mut Cursor) -> Result<Formula, Mistake> {
    let start = c.at;
    let first = match c.assertion() {
        Ok(a) => return Ok(Formula::Assertion(a)),
        Err(e) => (c.at, e),
    };
    c.at = start;
    let interval = c.interval().map(Formula::Interval);
    interval.map_err(|e| if c.at >= first.0 { e } else { first.1 })
}

/// The name of a sort, taken if it is next.
pub fn sort_word(c: &mut Cursor) -> Option<Sort> {
    [Sort::Value, Sort::Test, Sort::Interval, Sort::Assertion]
        .into_iter()
        .find(|sort| c.take(sort_name(*sort)))
}

/// A thread: points in braces with instructions between them.
fn thread(c: &mut Cursor, draft: &mut Draft) -> Result<(), Mistake> {
    let line = c.line();
    let name = c.name()?;
    let number = c.scope.thread(&name, line)?;
    registers(c)?;
    c.scope.within = Some(number);
    let mut labels = Vec::new();
    let bare = is_bare(c);
    let next = |c: &mut Cursor, labels: &mut Labels, mistakes: &mut Mistakes| match bare {
        true => Ok(bare_point(c, labels)),
        false => point_or_past(c, labels, mistakes),
    };
    let mut points = vec![next(c, &mut labels, &mut draft.mistakes)?];
    let (mut code, mut numbers, mut jumps) = (Vec::new(), Vec::new(), Vec::new());
    while !at_end_of_thread(c) {
        let at = c.line();
        match instruction(c, number) {
            Ok(read) => {
                jumps.push(read.jump.map(|jump| (jump, at)));
                code.push(read.instruction);
                numbers.push(read.numbers);
            }
            Err(mistake) => {
                draft.mistakes.add(mistake);
                to_next_point(c);
            }
        }
        labels.truncate(points.len());
        points.push(next(c, &mut labels, &mut draft.mistakes)?);
    }
    let (count, most) = (points.len(), usize::from(limits::POINTS));
    if count > most {
        let text = format!("thread {name} has {count} points; {most} is the most");
        return Err(Mistake { line, text });
    }
    for (instruction, jump) in code.iter_mut().zip(jumps) {
        if let (Instruction::Branch { target, .. }, Some((named, at))) = (instruction, jump) {
            *target = point_of(&named, &labels, at)?;
        }
    }
    draft.source.threads.push(code);
    draft.source.points.push(points);
    draft.source.code_numbers.push(numbers);
    draft.source.labels.push(labels);
    Ok(())
}

/// A point; one whose assertion cannot be read is noted and passed over, so that the thread goes on behind it.
fn point_or_past(
    c: &mut Cursor,
    labels: &mut Labels,
    mistakes: &mut Mistakes,
) -> Result<Point, Mistake> {
    let (before, line) = (labels.len(), c.line());
    let mistake = match point(c, labels) {
        Err(mistake) if labels.len() > before => mistake,
        other => return other,
    };
    mistakes.add(mistake);
    let closed = c.tokens[c.at - 1].0 == Token::Mark("}");
    while !closed && !at_end_of_thread(c) && !c.take("}") {
        c.at += 1;
    }
    Ok(Point { assertion: holds(&truth()), number: at_number(c)?, line, hole: false })
}

/// Has the thread that begins here instructions and no assertion at all?
fn is_bare(c: &Cursor) -> bool {
    let mut ahead = Cursor::of(c.tokens, Default::default());
    ahead.at = c.at;
    while !at_end_of_thread(&ahead) && !ahead.sees_next("{") {
        ahead.at += 1;
    }
    ahead.at > c.at && !ahead.sees_next("{")
}

/// `[LABEL :]` in a thread without assertions: each point is a hole.
fn bare_point(c: &mut Cursor, labels: &mut Labels) -> Point {
    let line = c.line();
    labels.push(label(c));
    Point { assertion: holds(&truth()), number: None, line, hole: true }
}

/// `LABEL :`, where it stands.
fn label(c: &mut Cursor) -> Option<String> {
    let Token::Name(name) = c.peek().clone() else { return None };
    c.at += 1;
    if c.take(":") {
        return Some(name);
    }
    c.at -= 1;
    None
}

/// Past an instruction that could not be read.
fn to_next_point(c: &mut Cursor) {
    let labelled = |c: &Cursor| {
        let next = c.tokens.get(c.at + 1).map(|t| &t.0);
        matches!(c.peek(), Token::Name(_)) && next == Some(&Token::Mark(":"))
    };
    while !c.sees_next("{") && !labelled(c) && !at_end_of_thread(c) {
        c.at += 1;
    }
}

fn at_end_of_thread(c: &Cursor) -> bool {
    *c.peek() == Token::End
        || ["thread", "never", "proof", "certificate", "let", "word", "register", "open", "range"]
            .iter()
            .any(|k| c.sees_next(k))
}

/// `[LABEL :] { ASSERTION } [@ NUMBER]`, or `[LABEL :] { ? }`
fn point(c: &mut Cursor, labels: &mut Labels) -> Result<Point, Mistake> {
    let label = label(c);
    if label.is_none() && !c.sees_next("{") {
        return c.wanted("a point, `{ ASSERTION }`,");
    }
    labels.push(label);
    let line = c.line();
    if let [Token::Mark("{"), Token::Mark("?"), Token::Mark("}")] = next_three(c) {
        c.at += 3;
        return Ok(Point { assertion: holds(&truth()), number: None, line, hole: true });
    }
    let assertion = braced(c)?;
    check_size(&assertion, line)?;
    if assertion.has_atom(|atom| atom == Atom::Start) {
        return Err(Mistake { line, text: "`start` may not stand in an outline".into() });
    }
    Ok(Point { assertion, number: at_number(c)?, line, hole: false })
}

/// The next three tokens; the end of the text stands for those behind it.
fn next_three(c: &Cursor) -> [Token; 3] {
    let last = c.tokens.len() - 1;
    [0, 1, 2].map(|n| c.tokens[(c.at + n).min(last)].0.clone())
}

/// A formula must fit into its record.
pub fn check_size(tree: &impl Nesting, line: Place) -> Result<(), Mistake> {
    if tree.fits_record() {
        return Ok(());
    }
    let (bytes, nesting) = (tree.encode().len(), tree.nesting());
    let most = format!("{BYTES} bytes and nesting {NESTING} are the most");
    Err(Mistake { line, text: format!("formula of {bytes} bytes and nesting {nesting}; {most}") })
}

/// `{ ASSERTION }`
pub fn braced(c: &mut Cursor) -> Result<A, Mistake> {
    c.expect("{")?;
    let a = c.assertion()?;
    c.expect("}")?;
    Ok(a)
}

/// `@ NUMBER`, where it stands.
pub fn at_number(c: &mut Cursor) -> Result<Option<usize>, Mistake> {
    if c.take("@") {
        return Ok(Some(c.number()?));
    }
    Ok(None)
}
