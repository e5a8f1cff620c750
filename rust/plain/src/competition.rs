//! Competition: two types of one tag that may both come next in an element, or that are both roots, and
//! that both bear a tree opened by one kind.

use crate::kinds::Kind;
use crate::limits::{LONGEST_WORD, MOST_STATES, MOST_TAGS, NO_PARENT, PAIRS, State, Type};
use crate::rows::{Entry, Rows};
use crate::schema::Schema;
use crate::states::States;
use crate::trimming::Trimming;
use crate::witness::Witness;

/// A competition that was found: the parts of its witness.
#[derive(Debug, Clone, PartialEq, Eq)]
pub struct Competition {
    pub within: Type,
    pub one: Type,
    pub other: Type,
    pub word: Vec<Type>,
}

impl Competition {
    pub fn witness(&self) -> Witness<'_> {
        Witness {
            within: self.within,
            one: self.one,
            other: self.other,
            word: &self.word,
        }
    }
}

/// A competition of two roots, or, where no roots compete, in a type.
pub fn find(schema: &Schema, trimming: &Trimming) -> Option<Competition> {
    among_roots(schema, trimming).or_else(|| in_types(schema, trimming))
}

/// Two roots of one tag and one kind of opening, which come before any word.
fn among_roots(schema: &Schema, trimming: &Trimming) -> Option<Competition> {
    let mut first_of = [[None; MOST_TAGS]; Kind::ALL.len()];
    for &root in schema.root_types() {
        let tag = usize::from(schema.tag[usize::from(root)]);
        for kind in trimming.opened[usize::from(root)].iter() {
            let first = *first_of[kind as usize][tag].get_or_insert(root);
            if first != root {
                return Some(Competition {
                    within: NO_PARENT,
                    one: first.min(root),
                    other: first.max(root),
                    word: vec![],
                });
            }
        }
    }
    None
}

/// A competition in the smallest type that has one, after a shortest of the words after which two
/// types compete in that type.
fn in_types(schema: &Schema, trimming: &Trimming) -> Option<Competition> {
    let mut queue = Queue::EMPTY;
    let counts = |&of: &Type| trimming.reached[usize::from(of)] && trimming.bears(of);
    let mut types = (0..schema.types).filter(counts);
    types.find_map(|within| queue.search(&trimming.rows, within))
}

/// Do the witness's types compete as roots; or after its word, where no roots compete, in the smallest
/// type that has a competition, and no two in that type after a shorter word?
pub fn confirm(schema: &Schema, trimming: &Trimming, witness: &Witness) -> bool {
    let is_least = |found: Competition| {
        found.within == witness.within && found.word.len() == witness.word.len()
    };
    let compete = || match witness.within {
        NO_PARENT => are_roots(schema, witness),
        _ => both_come(trimming, witness),
    };
    has_form(schema, witness)
        && opened_alike(trimming, witness)
        && compete()
        && find(schema, trimming).is_some_and(is_least)
}

/// Are its types given, J less than K and of one tag, and the word not too long?
fn has_form(schema: &Schema, witness: &Witness) -> bool {
    let &Witness {
        within,
        one,
        other,
        word,
    } = witness;
    let tag = |of: Type| schema.tag[usize::from(of)];
    let is_given = |of: Type| of < schema.types;
    (within == NO_PARENT || is_given(within))
        && [one, other].iter().chain(word).all(|&of| is_given(of))
        && one < other
        && tag(one) == tag(other)
        && word.len() <= LONGEST_WORD
}

/// Do J and K both bear a tree opened by one kind?
fn opened_alike(trimming: &Trimming, witness: &Witness) -> bool {
    let [one, other] = [witness.one, witness.other].map(|of| trimming.opened[usize::from(of)]);
    one.meets(other)
}

/// Are J and K roots?
fn are_roots(schema: &Schema, witness: &Witness) -> bool {
    let is_root = |of: Type| schema.root_types().contains(&of);
    [witness.one, witness.other].into_iter().all(is_root)
}

/// May J come after the word, and K too?
fn both_come(trimming: &Trimming, witness: &Witness) -> bool {
    let follow = |states: States, &by: &Type| {
        let entries = trimming.rows.from_any(witness.within, states);
        let to = entries.filter(|entry| entry.by() == by).map(Entry::to);
        to.map(States::only).fold(States::NONE, States::union)
    };
    let after = witness.word.iter().fold(States::START, follow);
    [witness.one, witness.other]
        .iter()
        .all(|of| !follow(after, of).is_empty())
}

/// The number of an unordered pair of states.
pub const fn pair_number(p: State, q: State) -> usize {
    let (p, q) = if p >= q { (p, q) } else { (q, p) };
    p as usize * (p as usize + 1) / 2 + q as usize
}

/// The pair's number for each two states, in either order.
const PAIR_NUMBERS: [[u16; MOST_STATES]; MOST_STATES] = {
    let mut numbers = [[0; MOST_STATES]; MOST_STATES];
    let mut entry = 0;
    while entry < MOST_STATES * MOST_STATES {
        let (p, q) = (entry / MOST_STATES, entry % MOST_STATES);
        numbers[p][q] = pair_number(p as State, q as State) as u16;
        entry += 1;
    }
    numbers
};

/// A pair of states, and how the search came to it: from which place of the queue, by which type.
#[derive(Debug, Clone, Copy)]
struct Arrival {
    p: State,
    q: State,
    before: u16,
    by: Type,
}

impl Arrival {
    /// The start states, to which no step led.
    const START: Arrival = Arrival {
        p: 0,
        q: 0,
        before: 0,
        by: 0,
    };
}

/// The pairs that one word leads to, in the order in which they were found.
struct Queue {
    reached: [bool; PAIRS],
    arrivals: [Arrival; PAIRS],
    count: usize,
}

impl Queue {
    const EMPTY: Queue = Queue {
        reached: [false; PAIRS],
        arrivals: [Arrival::START; PAIRS],
        count: 0,
    };

    /// Puts only the pair of start states into it.
    fn restart(&mut self) {
        self.reached = [false; PAIRS];
        self.count = 0;
        self.add(Arrival::START);
    }

    /// Adds a pair that was not reached before.
    #[inline(always)]
    fn add(&mut self, arrival: Arrival) {
        let number = PAIR_NUMBERS[usize::from(arrival.p)][usize::from(arrival.q)];
        let reached = &mut self.reached[usize::from(number)];
        if !*reached {
            *reached = true;
            self.arrivals[self.count] = arrival;
            self.count += 1;
        }
    }

    /// Breadth first over the pairs of states that one word leads to in a type: a pair is found by a
    /// shortest word that leads to it, and pairs of shorter words come before those of longer ones. So
    /// the first pair with rivals has a shortest word.
    fn search(&mut self, rows: &Rows, within: Type) -> Option<Competition> {
        self.restart();
        let mut place = 0;
        while place < self.count {
            if let Some((one, other)) = self.go_on(rows, within, place) {
                return Some(Competition {
                    within,
                    one: one.min(other),
                    other: one.max(other),
                    word: self.word_to(place),
                });
            }
            place += 1;
        }
        None
    }

    /// Goes over the entries of one tag from the two states at a place. Two of one type lead to a further
    /// pair; two of different types that share a kind are rivals, whose types it answers.
    fn go_on(&mut self, rows: &Rows, within: Type, place: usize) -> Option<(Type, Type)> {
        let Arrival { p, q, .. } = self.arrivals[place];
        for one in rows.row(within, p) {
            for other in rows.row(within, q) {
                if one.tag() != other.tag() {
                    continue;
                }
                if one.by() == other.by() {
                    self.add(Arrival {
                        p: one.to(),
                        q: other.to(),
                        before: place as u16,
                        by: one.by(),
                    });
                } else if one.opened().meets(other.opened()) {
                    return Some((one.by(), other.by()));
                }
            }
        }
        None
    }

    /// The word that leads to the pair at a place.
    fn word_to(&self, mut place: usize) -> Vec<Type> {
        let mut word = vec![];
        while place > 0 {
            let Arrival { before, by, .. } = self.arrivals[place];
            word.push(by);
            place = usize::from(before);
        }
        word.reverse();
        word
    }
}
