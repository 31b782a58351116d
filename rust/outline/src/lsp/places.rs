//! Which tokens are a point, its instruction, or a claim.

use crate::text::lex::{Place, Token};
use crate::text::source::{Claim, Point, Source};

/// The first and the last token.
pub type Span = (usize, usize);

/// A point with its assertion, and the instruction behind it.
#[derive(Debug, Clone, Copy)]
pub struct Spans {
    pub point: Span,
    pub instruction: Option<Span>,
}

/// The tokens of all points by thread, and of all claims.
#[derive(Debug, Default)]
pub struct Places {
    pub points: Vec<Vec<Spans>>,
    pub claims: Vec<Span>,
}

/// The tokens in which points are looked for.
struct Tokens<'a>(&'a [(Token, Place)]);

impl Tokens<'_> {
    fn at(&self, place: Place) -> usize {
        self.0.iter().position(|(_, at)| *at == place).unwrap_or(0)
    }

    fn is(&self, at: usize, text: &str) -> bool {
        matches!(&self.0.get(at), Some((Token::Mark(mark), _)) if *mark == text)
    }

    /// Where a point begins, its label included; its brace is here, or what a thread without assertions has.
    fn begin(&self, first: usize) -> usize {
        let labelled = self.is(first, "{") && first >= 2 && self.is(first - 1, ":");
        if labelled {
            first - 2
        } else {
            first
        }
    }

    /// Where a point ends: its brace, its label, or nothing but the instruction itself.
    fn end(&self, first: usize) -> usize {
        match (self.is(first, "{"), self.is(first + 1, ":")) {
            (true, _) => (first..self.0.len()).find(|&end| self.is(end, "}")).unwrap_or(first),
            (_, true) => first + 1,
            _ => first,
        }
    }

    /// The points of a thread, whose places are these.
    fn spans(&self, firsts: &[usize]) -> Vec<Spans> {
        let span = |(n, &first): (usize, &usize)| {
            let last = self.end(first);
            let numbered = if self.is(last + 1, "@") { 2 } else { 0 };
            let from = if last == first { first } else { last + 1 + numbered };
            let to = firsts.get(n + 1).map(|next| self.begin(*next).max(1) - 1);
            let instruction = to.filter(|to| from <= *to).map(|to| (from, to));
            Spans { point: (self.begin(first), last), instruction }
        };
        firsts.iter().enumerate().map(span).collect()
    }
}

impl Places {
    pub fn of(list: &[(Token, Place)], source: &Source) -> Places {
        let tokens = Tokens(list);
        let thread = |points: &Vec<Point>| {
            let firsts: Vec<usize> = points.iter().map(|point| tokens.at(point.line)).collect();
            tokens.spans(&firsts)
        };
        // `never THREAD POINT and THREAD POINT`
        let claim = |claim: &Claim| (tokens.at(claim.line), tokens.at(claim.line) + 5);
        Places {
            points: source.points.iter().map(thread).collect(),
            claims: source.claims.iter().map(claim).collect(),
        }
    }

    pub fn of_point(&self, thread: u8, point: u8) -> Option<&Spans> {
        self.points.get(usize::from(thread).checked_sub(1)?)?.get(usize::from(point))
    }

    /// The thread and point at a token, and whether the token is of the instruction.
    pub fn at(&self, token: usize) -> Option<(u8, u8, bool)> {
        let within = |span: Span| (span.0..=span.1).contains(&token);
        let all = (1..).zip(&self.points);
        let mut all = all.flat_map(|(t, points)| (0..).zip(points).map(move |(p, s)| (t, p, s)));
        all.find_map(|(t, p, spans)| {
            let instruction = spans.instruction.is_some_and(within);
            (instruction || within(spans.point)).then_some((t, p, instruction))
        })
    }
}
