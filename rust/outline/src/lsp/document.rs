//! A text that an editor has open: its tokens, its names, and what was found out about it.

use super::index::Index;
use super::places::Places;
use super::position::Position;
use crate::build::Watch;
use crate::infer::{infer, Answer, Breach, Wish};
use crate::text::lex::{tokens, Place, Token};
use crate::text::source::Source;
use crate::watch::judgement::{Effort, Judged, Judgement, Past};
use reference::explore::Run;

/// So many tries has an inference, which is asked for by a code action.
pub const INFER_TRIES: u64 = 200_000;

#[derive(Default)]
pub struct Document {
    pub uri: String,
    /// The editor's number of this text, as JSON.
    pub version: Option<String>,
    pub text: String,
    pub list: Vec<(Token, Place)>,
    pub index: Index,
    pub places: Places,
    /// What was found out; none until the text was judged.
    pub judgement: Option<Judgement>,
    /// A run that breaks what an outline with holes wishes.
    pub broken: Option<(Run, Breach)>,
    /// What inference came to, once it was asked for.
    pub inferred: Option<Answer>,
    /// Whether the text has changed since it was judged.
    pub is_new: bool,
    past: Past,
}

impl Document {
    pub fn of(uri: String) -> Document {
        Document { uri, ..Document::default() }
    }

    /// Takes another text.
    pub fn set(&mut self, version: Option<String>, text: String) {
        self.list = tokens(&text).list;
        self.index = Index::of(&self.list);
        (self.version, self.text, self.is_new) = (version, text, true);
        (self.judgement, self.broken, self.inferred) = (None, None, None);
        self.places = Places::default();
    }

    pub fn lines(&self) -> Vec<&str> {
        self.text.lines().collect()
    }

    /// Judges the text. A search that was stopped leaves it new: it is gone on with later.
    pub fn judge(&mut self, effort: Effort, watch: Watch) {
        let judgement = Judgement::of(&self.text, &mut self.past, effort, watch);
        self.is_new = matches!(&judgement, Judgement::Judged(judged) if judged.built.untried > 0);
        if let Judgement::Holes(source) = &judgement {
            self.broken = Wish::of(source, true).broken(&source.program());
        }
        self.places = match &judgement {
            Judgement::Mistakes(_) => Places::default(),
            Judgement::Holes(source) => Places::of(&self.list, source),
            Judgement::Judged(judged) => Places::of(&self.list, &judged.source),
        };
        self.judgement = Some(judgement);
    }

    pub fn judged(&self) -> Option<&Judged> {
        match &self.judgement {
            Some(Judgement::Judged(judged)) => Some(judged),
            _ => None,
        }
    }

    /// What the text says, if it can be read.
    pub fn source(&self) -> Option<&Source> {
        match &self.judgement {
            Some(Judgement::Judged(judged)) => Some(&judged.source),
            Some(Judgement::Holes(source)) => Some(source),
            _ => None,
        }
    }

    /// Looks for the assertions of holes, once for each text; says whether it came to its end. What was stopped is begun
    /// again where it is asked for again.
    pub fn infer(&mut self, goes_on: &dyn Fn() -> bool) -> bool {
        if self.inferred.is_none() {
            let holes = self.source().filter(|source| source.has_holes());
            let Some(source) = holes else { return true };
            let wish = Wish::of(source, true);
            let answer = infer(source, &wish, INFER_TRIES, &|_, _| goes_on());
            let stopped = matches!(&answer, Answer::NotFound(end) if end.stopped);
            self.inferred = (!stopped).then_some(answer);
        }
        self.inferred.is_some()
    }

    /// The token at a position, or the one that ends there.
    pub fn token_at(&self, position: Position) -> Option<usize> {
        let place = position.place(&self.lines())?;
        let ends = |at: usize| {
            let (token, begin) = &self.list[at];
            let length = match token {
                Token::Name(name) => name.chars().count(),
                Token::Number(number) => number.to_string().len(),
                Token::Mark(mark) => mark.len(),
                Token::End => 0,
            };
            begin.column + length
        };
        let here = |at: &usize| {
            let begin = self.list[*at].1;
            begin.line == place.line && begin.column <= place.column && place.column <= ends(*at)
        };
        let mut all: Vec<usize> = (0..self.list.len() - 1).filter(here).collect();
        // Of two that meet here a name comes first, then the one that begins here.
        all.sort_by_key(|&at| !matches!(self.list[at].0, Token::Name(_) | Token::Number(_)));
        all.first().copied()
    }

    /// The token before a position.
    pub fn token_before(&self, position: Position) -> Option<usize> {
        let place = position.place(&self.lines())?;
        self.list.iter().rposition(|(token, at)| *token != Token::End && *at < place)
    }

    /// The bytes of the text before a position.
    pub fn offset(&self, position: Position) -> usize {
        let before: usize = self.text.split_inclusive('\n').take(position.line).map(str::len).sum();
        let line = self.text[before..].split('\n').next().unwrap_or("");
        let mut units = 0;
        for (at, c) in line.char_indices() {
            if units >= position.character {
                return before + at;
            }
            units += c.len_utf16();
        }
        before + line.len()
    }
}
