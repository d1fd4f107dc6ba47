//! The reading of a state, rule by rule from request a. It is the second opinion beside the proved reader, so it is plain, and
//! shares nothing with it.

use deck::Deck;
use deck::read::numbers;

use crate::second::state::{ELEMENTS, State};

/// What a line, or the whole state, can be refused for.
#[derive(Clone, Copy, Debug, PartialEq, Eq, PartialOrd, Ord)]
pub enum Rule {
    /// There is a line.
    NotEmpty,
    /// The columns of a deck, and a line feed.
    Columns,
    /// Line 1 is 50 and a number.
    CountFirst,
    /// 1 to 64 elements.
    Count,
    /// A later line is of kind 51, 52 or 53.
    Kind,
    /// It has an id.
    Id,
    /// By kind.
    KindOrder,
    /// By id within a kind.
    IdOrder,
    /// Each id once.
    IdOnce,
    /// Elements below the count.
    Elements,
    /// 51 takes no individual's class.
    NoIndividualsClass,
    /// 51 takes declared classes and the run's fresh ids.
    Class,
    /// The elements of a class do not fall.
    ElementsRise,
    /// Nor come twice.
    ElementsOnce,
    /// 52 takes declared roles, by their ids.
    Role,
    /// The pairs are whole.
    WholePairs,
    /// First elements do not fall.
    FirstsRise,
    /// Nor do the second ones of one first.
    SecondsRise,
    /// No pair comes twice.
    PairsOnce,
    /// 53 takes declared individuals.
    Individual,
    /// An individual has one element.
    OneElement,
    /// Each individual has its line.
    EveryIndividual,
}

impl Rule {
    pub const ALL: [Self; 22] = [
        Self::NotEmpty,
        Self::Columns,
        Self::CountFirst,
        Self::Count,
        Self::Kind,
        Self::Id,
        Self::KindOrder,
        Self::IdOrder,
        Self::IdOnce,
        Self::Elements,
        Self::NoIndividualsClass,
        Self::Class,
        Self::ElementsRise,
        Self::ElementsOnce,
        Self::Role,
        Self::WholePairs,
        Self::FirstsRise,
        Self::SecondsRise,
        Self::PairsOnce,
        Self::Individual,
        Self::OneElement,
        Self::EveryIndividual,
    ];
}

/// The first bad line, from 1, or 0 where only a line 53 is missing; and a rule that it breaks.
#[derive(Clone, Copy, Debug, PartialEq, Eq)]
pub struct Bad {
    pub line: u32,
    pub rule: Rule,
}

/// The state that `bytes` hold, of a deck whose run takes so many fresh ids.
///
/// # Errors
/// The first bad line.
pub fn read(deck: &Deck, fresh: u32, bytes: &[u8]) -> Result<State, Bad> {
    read_without(None, deck, fresh, bytes)
}

/// The reading without one of its rules, as a wrong reader would have it.
///
/// # Errors
/// The first line that is bad by the others.
pub fn read_without(
    rule: Option<Rule>,
    deck: &Deck,
    fresh: u32,
    bytes: &[u8],
) -> Result<State, Bad> {
    let mut reader = Reader {
        without: rule,
        deck,
        fresh,
        state: State::default(),
        before: None,
    };
    reader
        .demand(Rule::NotEmpty, !bytes.is_empty())
        .map_err(|rule| Bad { line: 1, rule })?;
    for (line, text) in (1..).zip(bytes.split_inclusive(|&byte| byte == b'\n')) {
        reader.line(text).map_err(|rule| Bad { line, rule })?;
    }
    reader
        .demand(
            Rule::EveryIndividual,
            reader.state.individuals.len() == deck.individuals as usize,
        )
        .map_err(|rule| Bad { line: 0, rule })?;
    reader
        .state
        .individuals
        .resize(deck.individuals as usize, 0);
    Ok(reader.state)
}

struct Reader<'a> {
    without: Option<Rule>,
    deck: &'a Deck,
    fresh: u32,
    state: State,
    /// Kind and id of the line before; none at the first.
    before: Option<(u32, u32)>,
}

impl Reader<'_> {
    fn demand(&self, rule: Rule, holds: bool) -> Result<(), Rule> {
        if holds || self.without == Some(rule) {
            Ok(())
        } else {
            Err(rule)
        }
    }

    fn line(&mut self, text: &[u8]) -> Result<(), Rule> {
        let numbers = match numbers(text) {
            Some(numbers) => numbers,
            // Without the rule a last line need not have its line feed.
            None if self.without == Some(Rule::Columns) => {
                numbers(&[text, b"\n"].concat()).ok_or(Rule::Columns)?
            }
            None => return Err(Rule::Columns),
        };
        match self.before {
            None => self.first(&numbers),
            Some(before) => self.later(before, &numbers),
        }
    }

    fn first(&mut self, numbers: &[u32]) -> Result<(), Rule> {
        self.demand(Rule::CountFirst, numbers.len() == 2 && numbers[0] == 50)?;
        let count = numbers.get(1).copied().unwrap_or(1);
        let is_good = (1..=ELEMENTS).contains(&count);
        // A wrong reader takes one more, or none, and no greater count.
        if count > ELEMENTS + 1 {
            return Err(Rule::Count);
        }
        self.demand(Rule::Count, is_good)?;
        self.state.size = count;
        self.before = Some((50, 0));
        Ok(())
    }

    fn later(&mut self, before: (u32, u32), numbers: &[u32]) -> Result<(), Rule> {
        let kind = numbers[0];
        self.demand(Rule::Kind, matches!(kind, 51..=53))?;
        self.demand(Rule::Id, numbers.len() > 1)?;
        let Some((&id, rest)) = numbers[1..].split_first() else {
            return Ok(());
        };
        self.demand(Rule::KindOrder, before.0 <= kind)?;
        let is_same_kind = before.0 == kind;
        self.demand(Rule::IdOrder, !is_same_kind || before.1 <= id)?;
        self.demand(Rule::IdOnce, !is_same_kind || before.1 != id)?;
        let size = self.state.size;
        self.demand(Rule::Elements, rest.iter().all(|&element| element < size))?;
        self.before = Some((kind, id));
        match kind {
            51 => self.class(id, rest),
            52 => self.role(id, rest),
            53 => self.individual(id, rest),
            _ => Ok(()),
        }
    }

    fn class(&mut self, id: u32, elements: &[u32]) -> Result<(), Rule> {
        let declared = self.deck.classes;
        let named = declared + self.deck.individuals;
        let is_individuals = (declared..named).contains(&id);
        self.demand(Rule::NoIndividualsClass, !is_individuals)?;
        // Both sums fit in a word: a run has at most some 10^6 fresh ids.
        self.demand(Rule::Class, id < named + self.fresh)?;
        let rise = elements.is_sorted();
        self.demand(Rule::ElementsRise, rise)?;
        let has_twice = elements.windows(2).any(|two| two[0] == two[1]);
        self.demand(Rule::ElementsOnce, !has_twice)?;
        self.state.classes.insert(id, sorted(elements));
        Ok(())
    }

    fn role(&mut self, id: u32, numbers: &[u32]) -> Result<(), Rule> {
        self.demand(Rule::Role, id < self.deck.roles)?;
        let (pairs, rest) = numbers.as_chunks::<2>();
        self.demand(Rule::WholePairs, rest.is_empty())?;
        let neighbours = || pairs.windows(2).map(|two| (two[0], two[1]));
        let firsts_rise = neighbours().all(|(one, next)| one[0] <= next[0]);
        self.demand(Rule::FirstsRise, firsts_rise)?;
        let seconds_rise = neighbours().all(|(one, next)| one[0] != next[0] || one[1] <= next[1]);
        self.demand(Rule::SecondsRise, seconds_rise)?;
        self.demand(Rule::PairsOnce, neighbours().all(|(one, next)| one != next))?;
        // A wrong reader takes others, which no axiom speaks of.
        if id < self.deck.roles {
            self.state.roles.insert(id, sorted(pairs));
        }
        Ok(())
    }

    fn individual(&mut self, id: u32, elements: &[u32]) -> Result<(), Rule> {
        self.demand(Rule::Individual, id < self.deck.individuals)?;
        self.demand(Rule::OneElement, elements.len() == 1)?;
        self.state.individuals.extend(elements.first());
        Ok(())
    }
}

/// For a wrong reader's sake: a right one has them rising.
fn sorted<T: Ord + Copy>(items: &[T]) -> Vec<T> {
    let mut items = items.to_vec();
    items.sort_unstable();
    items.dedup();
    items
}
