//! Clauses that rest on each other: lazily and from the goals backwards.
//!
//! A node is a clause at a point. Each of its obligations chooses an option that the search certifies, whose clauses
//! become nodes in turn. A clause with an obligation that has no option left is dead for good, and whoever rests on it
//! chooses again. When nothing is left to do, what the goals rest on is inductive.

use crate::infer::cases::Spot;
use crate::infer::claims::Apart;
use crate::infer::clauses::{is_settled as is_settled_word, size, Clause, Literal};
use crate::infer::ground::Ground;
use crate::infer::have::{Had, Key, Keys, Width};
use crate::infer::options::Kind;
use crate::terms::*;
use reference::image::Instruction;
use std::collections::{BTreeMap, BTreeSet, HashMap, HashSet};

/// The most options of one obligation that are handed to the search.
const MOST_TRIED: usize = 60;

/// What it costs to say what a thread sees at another's point.
const ELSEWHERE: usize = 6;

/// A set of clauses from which an obligation may follow.
#[derive(Debug, Clone)]
pub struct Choice {
    pub premises: Keys,
    /// None: not tried yet.
    pub serves: Option<bool>,
}

#[derive(Debug)]
pub struct Obligation {
    pub kind: Kind,
    pub options: Option<Vec<Choice>>,
    pub chosen: Option<usize>,
}

#[derive(Debug)]
pub struct Node {
    pub key: Key,
    pub dead: bool,
    pub obligations: Vec<Obligation>,
}

/// Why a run to the fixpoint ended without one.
#[derive(Debug, Clone, PartialEq, Eq)]
pub enum Stuck {
    /// This clause has no option left for this.
    Dead(Key, Kind),
    /// These two spots have no clauses that exclude each other.
    Apart(Apart),
    /// More clauses were demanded than may be.
    Nodes,
    /// The effort is spent, or somebody has stopped it.
    Stopped,
}

/// One run to the fixpoint.
pub struct Fixpoint<'g, 'a> {
    pub ground: &'g mut Ground<'a>,
    pub width: Width,
    pub nodes: Vec<Node>,
    pub index: HashMap<Key, usize>,
    wanted_by: BTreeMap<usize, BTreeSet<usize>>,
    had: Had,
    certified: &'g mut Certified,
    /// What the outline must have: the goals, and the clauses chosen for claims.
    pub roots: Vec<Key>,
    /// The most clauses.
    pub most_nodes: usize,
    /// The effort at which it ends.
    pub until: u64,
    /// The obligation on which each dead clause died.
    pub died: BTreeMap<usize, Kind>,
    pub taste: Taste,
    /// The leaves in use at each point, and everywhere.
    leaves: HashMap<Spot, HashSet<Literal>>,
    everywhere: HashSet<Literal>,
    /// The clauses in use at some point.
    texts: HashSet<Clause>,
}

/// What makes one option better than another.
#[derive(Debug, Clone, Copy, PartialEq, Eq)]
pub enum Taste {
    /// Weak clauses of leaves that are in use there already, so that several have the same guards.
    Weak,
    /// Clauses of leaves that are in use there already, so that points that meet stay within ten.
    Leaves,
    /// As `Leaves`, and what a thread sees is said at its own points, where it goes into a view that is there.
    Own,
    /// As `Own`, and clauses that settle a word, so that few of them say much.
    Settled,
}

/// What the search has said before.
#[derive(Default)]
pub struct Certified(HashMap<(Kind, Keys, Key), bool>);

impl<'g, 'a> Fixpoint<'g, 'a> {
    pub fn new(ground: &'g mut Ground<'a>, certified: &'g mut Certified, width: Width) -> Self {
        Fixpoint {
            ground,
            width,
            nodes: Vec::new(),
            index: HashMap::new(),
            wanted_by: BTreeMap::new(),
            had: Had::default(),
            certified,
            roots: Vec::new(),
            most_nodes: usize::MAX,
            until: u64::MAX,
            died: BTreeMap::new(),
            taste: Taste::Leaves,
            leaves: HashMap::new(),
            everywhere: HashSet::new(),
            texts: HashSet::new(),
        }
    }

    /// Does the search certify the clause from these?
    pub fn is_certified(&mut self, key: &Key, kind: Kind, premises: &Keys) -> bool {
        let asked = (kind, premises.clone(), key.clone());
        if let Some(known) = self.certified.0.get(&asked) {
            return *known;
        }
        let found = self.ground.certifies(key, kind, premises);
        self.certified.0.insert(asked, found);
        found
    }

    /// The node of a clause at a point, with all that it must stand.
    pub fn node(&mut self, key: &Key) -> usize {
        if let Some(known) = self.index.get(key) {
            return *known;
        }
        let open = |kind| Obligation { kind, options: None, chosen: None };
        let fixed = self.ground.fixed.contains_key(&key.0.place);
        let mut kinds = self.kinds(key);
        let is_goal = self.roots.contains(key);
        kinds.retain(|kind| !fixed || is_goal && !self.is_given(*kind));
        let obligations = kinds.into_iter().map(open).collect();
        self.nodes.push(Node { key: key.clone(), dead: false, obligations });
        let leaves: Vec<Literal> = key.1.iter().map(|n| self.leaf(*n)).collect();
        self.leaves.entry(key.0).or_default().extend(&leaves);
        self.everywhere.extend(&leaves);
        self.texts.insert(key.1.clone());
        self.index.insert(key.clone(), self.nodes.len() - 1);
        self.nodes.len() - 1
    }

    /// Do only given assertions speak of it? Then the search for the whole outline says whether it is so.
    fn is_given(&self, kind: Kind) -> bool {
        match kind {
            Kind::Start => true,
            Kind::Step(from) | Kind::Branch(from, _) | Kind::Kept(from) => {
                self.ground.fixed.contains_key(&from.place)
            }
        }
    }

    fn kinds(&self, (spot, _): &Key) -> Vec<Kind> {
        let (program, cases) = (self.ground.program, &self.ground.sample.cases);
        let ((t, p), range) = (spot.place, program.header.counts.range);
        if let Some(taken) = spot.behind {
            let from = Spot::of(spot.place, spot.case);
            let branch = program.instruction(t, p).is_some_and(|c| c.is_branch());
            return vec![if branch { Kind::Branch(from, taken) } else { Kind::Step(from) }];
        }
        let mut kinds = if p == 0 { vec![Kind::Start] } else { vec![] };
        for (u, code) in (1..).zip(&program.threads) {
            for (q, c) in (0..).zip(code) {
                let before = |case: &u8| cases.open(c, *case, spot.case, range).is_some();
                let from = cases.at((u, q)).filter(|from| before(&from.case));
                match c {
                    Instruction::Branch { target, .. } if u == t => {
                        let from: Vec<Spot> = from.collect();
                        let on = |taken| from.iter().map(move |spot| Kind::Branch(*spot, taken));
                        kinds.extend(on(true).filter(|_| *target == p));
                        kinds.extend(on(false).filter(|_| q + 1 == p));
                    }
                    Instruction::Branch { .. } => {}
                    _ if u == t => kinds.extend(from.filter(|_| q + 1 == p).map(Kind::Step)),
                    _ => {
                        let own = |from: &Spot| cases.has(Spot::of(spot.place, from.case));
                        kinds.extend(from.filter(own).map(Kind::Kept));
                    }
                }
            }
        }
        kinds
    }

    pub fn is_dead(&self, key: &Key) -> bool {
        self.index.get(key).is_some_and(|n| self.nodes[*n].dead)
    }

    /// What a premise costs: what is demanded already is free.
    pub fn cost(&self, key: &Key) -> usize {
        if self.index.get(key).is_some_and(|n| !self.nodes[*n].dead) {
            return 0;
        }
        let (place, clause) = key;
        let here = self.leaves.get(place);
        let cost = |n: &Literal| {
            let leaf = self.leaf(*n);
            match (here.is_some_and(|here| here.contains(&leaf)), self.everywhere.contains(&leaf)) {
                _ if self.taste == Taste::Settled && is_settled(self.ground.formula(*n)) => 1,
                (true, _) => 1,
                (_, true) => 6,
                _ => 10 + 2 * size(self.ground.formula(*n)),
            }
        };
        let more = clause.len().max(1) - 1;
        let again = match self.taste {
            _ if self.texts.contains(clause) => 2,
            Taste::Leaves | Taste::Own | Taste::Settled => 4 + 6 * more,
            Taste::Weak => 16 - 2 * more.min(6),
        };
        let elsewhere = ELSEWHERE * self.foreign(key);
        again + elsewhere + clause.iter().map(cost).sum::<usize>()
    }

    /// Chooses an option for each obligation of a node; what it was if one has none.
    fn settle(&mut self, n: usize, work: &mut Vec<usize>) -> Result<(), Kind> {
        for k in 0..self.nodes[n].obligations.len() {
            if self.is_settled(n, k) {
                continue;
            }
            let premises = self.choose(n, k).ok_or(self.nodes[n].obligations[k].kind)?;
            for premise in &premises {
                let known = self.index.contains_key(premise);
                let m = self.node(premise);
                self.wanted_by.entry(m).or_default().insert(n);
                if !known {
                    work.push(m);
                }
            }
        }
        Ok(())
    }

    /// Has it an option none of whose clauses is dead?
    fn is_settled(&self, n: usize, k: usize) -> bool {
        let obligation = &self.nodes[n].obligations[k];
        match (&obligation.options, obligation.chosen) {
            (Some(options), Some(c)) => !options[c].premises.iter().any(|p| self.is_dead(p)),
            _ => false,
        }
    }

    /// The cheapest option that the search certifies.
    fn choose(&mut self, n: usize, k: usize) -> Option<Keys> {
        let (key, kind) = (self.nodes[n].key.clone(), self.nodes[n].obligations[k].kind);
        let mut options = match self.nodes[n].obligations[k].options.take() {
            Some(options) => options,
            None => {
                let found = self.ground.options(&key, kind, self.width, &mut self.had);
                found.into_iter().map(|premises| Choice { premises, serves: None }).collect()
            }
        };
        let alive = |o: &usize| {
            let option = &options[*o];
            option.serves != Some(false) && !option.premises.iter().any(|p| self.is_dead(p))
        };
        let cost = |o: usize| options[o].premises.iter().map(|p| self.cost(p)).sum::<usize>();
        let mut order: Vec<(usize, usize)> =
            (0..options.len()).filter(alive).map(|o| (cost(o), o)).collect();
        order.sort();
        let (mut chosen, mut tried) = (None, 0);
        for (_, o) in order {
            if options[o].serves.is_none() {
                tried += 1;
                if tried > MOST_TRIED {
                    break;
                }
                options[o].serves = Some(self.is_certified(&key, kind, &options[o].premises));
            }
            if options[o].serves == Some(true) {
                chosen = Some(o);
                break;
            }
        }
        let premises = chosen.map(|o| options[o].premises.clone());
        self.nodes[n].obligations[k].options = Some(options);
        self.nodes[n].obligations[k].chosen = chosen;
        premises
    }

    /// Settles all that is demanded; `more` may demand more, or say that nothing is left.
    pub fn run(
        &mut self,
        goals: &[Key],
        goes_on: &dyn Fn() -> bool,
        more: &mut dyn FnMut(&mut Self) -> Result<Keys, Stuck>,
    ) -> Result<(), Stuck> {
        self.roots = goals.to_vec();
        let mut work: Vec<usize> = goals.iter().map(|goal| self.node(goal)).collect();
        loop {
            work.reverse();
            self.settle_all(&mut work, goes_on)?;
            if let Some(goal) = goals.iter().find(|goal| self.is_dead(goal)) {
                return Err(Stuck::Dead(goal.clone(), self.died[&self.index[goal]]));
            }
            let demanded = more(self)?;
            if demanded.is_empty() {
                return Ok(());
            }
            for key in &demanded {
                let known = self.index.contains_key(key);
                let n = self.node(key);
                if !known {
                    work.push(n);
                }
            }
        }
    }

    fn settle_all(
        &mut self,
        work: &mut Vec<usize>,
        goes_on: &dyn Fn() -> bool,
    ) -> Result<(), Stuck> {
        while let Some(n) = work.pop() {
            if self.nodes[n].dead {
                continue;
            }
            if self.nodes.len() > self.most_nodes {
                return Err(Stuck::Nodes);
            }
            if self.ground.effort() > self.until || !goes_on() {
                return Err(Stuck::Stopped);
            }
            if let Err(kind) = self.settle(n, work) {
                self.nodes[n].dead = true;
                self.died.insert(n, kind);
                work.extend(self.wanted_by.get(&n).into_iter().flatten());
            }
        }
        Ok(())
    }

    /// What the roots rest on, with themselves.
    pub fn reached(&self) -> BTreeSet<Key> {
        let mut seen: BTreeSet<Key> = BTreeSet::new();
        let mut work: Vec<&Key> = self.roots.iter().collect();
        while let Some(key) = work.pop() {
            if !seen.insert(key.clone()) {
                continue;
            }
            for obligation in &self.nodes[self.index[key]].obligations {
                if let (Some(options), Some(c)) = (&obligation.options, obligation.chosen) {
                    work.extend(&options[c].premises);
                }
            }
        }
        seen
    }
}

/// Does a thread see one write of a word, and its value?
fn is_settled(a: &A) -> bool {
    a.as_sees().is_some_and(|(_, i)| is_settled_word(i))
}
