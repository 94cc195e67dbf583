//! The edits between what a session holds and what it is to hold.

use std::collections::{HashMap, HashSet};

use bstr::{BString, ByteSlice};

use super::{Answer, Edit, Refusal, SessionObject, State};
use crate::profile::limits::MAX_PAYLOAD;

/// A change of the objects that a session holds. Positions count from 0.
#[derive(Clone, PartialEq, Eq, Debug)]
pub(super) enum Change<'a> {
    /// An object before a position.
    Add(&'a SessionObject, usize),
    /// An object in the place of that of its name.
    Replace(&'a SessionObject),
    /// An object that is there already, before a position of the others.
    Move(&'a SessionObject, usize),
    /// The object of this name is removed.
    Remove(BString),
}

impl Change<'_> {
    /// The edit that is sent; `None` if the object is too long to be sent.
    pub(super) fn edit(&self) -> Option<Edit<'_>> {
        let edit = match self {
            Change::Add(held, position) => Edit::Add(held.name.as_bstr(), *position, &held.data),
            Change::Replace(held) => Edit::Replace(held.name.as_bstr(), &held.data),
            Change::Move(held, position) => Edit::Move(held.name.as_bstr(), *position),
            Change::Remove(name) => Edit::Remove(name.as_bstr()),
        };
        (edit.payload().len() <= MAX_PAYLOAD).then_some(edit)
    }
}

/// The fewest edits from what a session holds to these objects, but for what it has refused of them.
pub(super) fn between<'a>(state: &State, objects: &'a [SessionObject]) -> Vec<Change<'a>> {
    let mut changes = Vec::new();
    for held in objects {
        if state.held.get(&held.name).map_or(false, |old| *old != held.data) && !is_refused(state, held) {
            changes.push(Change::Replace(held));
        }
    }
    if !is_in_order(state, objects) {
        arrange(state, objects, &mut changes);
    }
    changes
}

/// Whether the session has refused this object, with these bytes.
fn is_refused(state: &State, held: &SessionObject) -> bool {
    state.refused.get(&held.name).map_or(false, |(data, _)| *data == held.data)
}

/// Whether the session has the names in this order already.
fn is_in_order(state: &State, objects: &[SessionObject]) -> bool {
    state.order.len() == objects.len() && state.order.iter().zip(objects).all(|(name, held)| *name == held.name)
}

/// The removals; then each object that is elsewhere, put behind the one before it; then those that are new, the last
/// one first. So no place depends on whether the session takes a new object.
fn arrange<'a>(state: &State, objects: &'a [SessionObject], changes: &mut Vec<Change<'a>>) {
    let wanted: HashMap<&BString, usize> = objects.iter().enumerate().map(|(at, held)| (&held.name, at)).collect();
    let mut order = Vec::with_capacity(objects.len());
    for name in &state.order {
        match wanted.get(name) {
            Some(index) => order.push(*index),
            None => changes.push(Change::Remove(name.clone())),
        }
    }
    let staying: HashSet<usize> = longest_ascending(&order).into_iter().collect();
    let there: HashSet<usize> = order.iter().copied().collect();
    let (mut before, mut count) = (None, 0);
    let mut new = Vec::new();
    for (index, held) in objects.iter().enumerate() {
        if !there.contains(&index) {
            if !is_refused(state, held) {
                new.push(Change::Add(held, count));
            }
            continue;
        }
        if !staying.contains(&index) {
            order.retain(|other| *other != index);
            let at = place_after(&order, before);
            order.insert(at, index);
            changes.push(Change::Move(held, at));
        }
        before = Some(index);
        count += 1;
    }
    changes.extend(new.into_iter().rev());
}

/// The place behind an object, or the first one.
fn place_after(order: &[usize], before: Option<usize>) -> usize {
    match before {
        None => 0,
        Some(index) if order.last() == Some(&index) => order.len(),
        Some(index) => order.iter().position(|other| *other == index).map_or(order.len(), |at| at + 1),
    }
}

/// A longest part of a list that ascends: what may stay where it is.
fn longest_ascending(list: &[usize]) -> Vec<usize> {
    // For each length the index of the least last element, and for each element the one before it.
    let mut ends: Vec<usize> = Vec::new();
    let mut before: Vec<Option<usize>> = Vec::with_capacity(list.len());
    for (at, value) in list.iter().enumerate() {
        let length = ends.partition_point(|end| list.get(*end) < Some(value));
        before.push(length.checked_sub(1).and_then(|shorter| ends.get(shorter).copied()));
        match ends.get_mut(length) {
            Some(end) => *end = at,
            None => ends.push(at),
        }
    }
    let mut found = Vec::with_capacity(ends.len());
    let mut next = ends.last().copied();
    while let Some(at) = next {
        found.extend(list.get(at));
        next = before.get(at).copied().flatten();
    }
    found.reverse();
    found
}

/// Does to what is known of the session what it said that it did; the answers are to the changes that were sent.
pub(super) fn apply(state: &mut State, changes: &[Change<'_>], answers: &[Answer]) {
    let mut answers = answers.iter();
    for change in changes {
        let answer = match change.edit() {
            Some(_) => answers.next(),
            None => Some(&Answer::Refused(Refusal::TOO_LONG)),
        };
        match answer {
            Some(Answer::Accepted) => {
                state.accepted += 1;
                accept(state, change);
            }
            Some(Answer::Refused(refusal)) => refuse(state, change, *refusal),
            None => {}
        }
    }
}

fn accept(state: &mut State, change: &Change<'_>) {
    match change {
        Change::Add(held, position) => {
            state.order.insert((*position).min(state.order.len()), held.name.clone());
            state.held.insert(held.name.clone(), held.data.clone());
        }
        Change::Replace(held) => {
            state.held.insert(held.name.clone(), held.data.clone());
            state.refused.remove(&held.name);
        }
        Change::Move(held, position) => {
            state.order.retain(|name| *name != held.name);
            state.order.insert((*position).min(state.order.len()), held.name.clone());
        }
        Change::Remove(name) => {
            state.order.retain(|other| other != name);
            state.held.remove(name);
        }
    }
}

/// A position past the end comes of an earlier refusal: the object itself is not refused then.
fn refuse(state: &mut State, change: &Change<'_>, refusal: Refusal) {
    match change {
        Change::Add(held, _) | Change::Replace(held) if refusal.number != 3 => {
            state.refused.insert(held.name.clone(), (held.data.clone(), refusal));
        }
        Change::Add(held, _) | Change::Replace(held) | Change::Move(held, _) => {
            state.not_removed.push((held.name.clone(), refusal));
        }
        Change::Remove(name) => state.not_removed.push((name.clone(), refusal)),
    }
}

#[cfg(test)]
mod tests {
    use super::*;
    use crate::snapshot::Bytes;

    fn objects(names: &str) -> Vec<SessionObject> {
        let one = |name: &str| SessionObject { name: name.into(), data: Bytes::from(name.as_bytes().to_vec()) };
        names.split_whitespace().map(one).collect()
    }

    fn state(names: &str) -> State {
        let mut state = State::default();
        for held in objects(names) {
            state.order.push(held.name.clone());
            state.held.insert(held.name, held.data);
        }
        state
    }

    /// Brings one order to another by the edits, as a session does them; gives how many there were.
    fn brings(from: &str, to: &str) -> usize {
        let (mut now, wanted) = (state(from), objects(to));
        let changes = between(&now, &wanted);
        let answers = vec![Answer::Accepted; changes.len()];
        apply(&mut now, &changes, &answers);
        assert_eq!(now.order, wanted.iter().map(|held| held.name.clone()).collect::<Vec<_>>(), "{from} to {to}");
        changes.len()
    }

    #[test]
    fn the_fewest_edits() {
        assert_eq!(brings("", "a b c"), 3);
        assert_eq!(brings("a b c", "a b c"), 0);
        assert_eq!(brings("a b c", "c a b"), 1);
        assert_eq!(brings("x a b", "a n b x"), 2);
        assert_eq!(brings("a b c d e", "e d c b a"), 4);
        assert_eq!(brings("a b c", ""), 3);
        assert_eq!(brings("a b c d", "d n a c m"), 4);
        assert_eq!(brings("p q r s t u", "u a p s b r t c q"), 6);
    }

    #[test]
    fn other_bytes_are_one_edit() {
        let (mut now, mut wanted) = (state("a b"), objects("a b"));
        wanted[1].data = Bytes::from(b"other".to_vec());
        let changes = between(&now, &wanted);
        assert_eq!(changes, [Change::Replace(&wanted[1])]);
        apply(&mut now, &changes, &[Answer::Accepted]);
        assert_eq!(between(&now, &wanted), []);
        assert_eq!(now.accepted, 1);
    }

    #[test]
    fn what_is_refused_is_not_sent_again() {
        let (mut now, wanted) = (state("a"), objects("a b c d"));
        let good = Answer::Accepted;
        let changes = between(&now, &wanted);
        assert_eq!(changes, [Change::Add(&wanted[3], 1), Change::Add(&wanted[2], 1), Change::Add(&wanted[1], 1)]);
        apply(&mut now, &changes, &[good, good, Answer::Refused(Refusal { number: 4, inner: 1 })]);
        assert_eq!(between(&now, &wanted), []);
        let mut other = wanted;
        other[1].data = Bytes::from(b"good".to_vec());
        assert_eq!(between(&now, &other), [Change::Add(&other[1], 1)]);
    }
    #[test]
    fn no_place_depends_on_what_is_refused() {
        let (mut now, wanted) = (state("c g"), objects("a b c d e f g h"));
        let changes = between(&now, &wanted);
        let refused = |change: &Change<'_>| !matches!(change, Change::Add(held, _) if held.name == "e");
        let answer = |change| match refused(change) {
            true => Answer::Refused(Refusal { number: 4, inner: 1 }),
            false => Answer::Accepted,
        };
        let places = |change: &Change<'_>| matches!(change, Change::Add(_, at) if *at <= 2);
        assert!(changes.iter().all(places), "{changes:?}");
        let answers: Vec<Answer> = changes.iter().map(answer).collect();
        apply(&mut now, &changes, &answers);
        assert_eq!(now.order, ["c", "e", "g"]);
        assert_eq!((now.refused.len(), now.not_removed.len()), (5, 0));
        assert_eq!(between(&now, &wanted), []);
    }
    /// A session of nothing but names: what it would answer to the changes, and what it has then.
    fn answered(order: &mut Vec<BString>, changes: &[Change<'_>], refuses: impl Fn(&BString) -> bool) -> Vec<Answer> {
        let (good, refused) = (Answer::Accepted, |number| Refusal { number, inner: 1 });
        let mut answers = Vec::new();
        for change in changes {
            let mut moved = order.clone();
            let (held, at) = match change {
                Change::Add(held, at) => (held, *at),
                Change::Move(held, at) => {
                    moved.retain(|name| *name != held.name);
                    (held, *at)
                }
                Change::Replace(_) => unreachable!("the bytes are those of the name"),
                Change::Remove(name) => {
                    order.retain(|other| other != name);
                    answers.push(good);
                    continue;
                }
            };
            answers.push(match (at > moved.len(), refuses(&held.name)) {
                (true, _) => Answer::Refused(refused(3)),
                (_, true) => Answer::Refused(refused(4)),
                _ => {
                    moved.insert(at, held.name.clone());
                    *order = moved;
                    good
                }
            });
        }
        answers
    }

    #[test]
    fn random_orders_are_brought_at_once_whatever_is_refused() {
        let mut seed = 7_u64;
        let mut next = |below: u64| {
            seed ^= seed << 13;
            seed ^= seed >> 7;
            seed ^= seed << 17;
            seed % below
        };
        let mut now = State::default();
        for _ in 0..400 {
            let mut names: Vec<u64> = (0..12).filter(|_| next(3) > 0).collect();
            names.sort_by_key(|_| next(100));
            let bad = next(1 << 12) & next(1 << 12);
            let text: Vec<String> = names.iter().map(|name| format!("o{name}")).collect();
            let wanted = objects(&text.join(" "));
            let refuses = |name: &BString| bad >> name[1..].to_str().unwrap().parse::<u64>().unwrap() & 1 == 1;
            let mut order = now.order.clone();
            let (changes, there) = (between(&now, &wanted), now.order.clone());
            let answers = answered(&mut order, &changes, |name| refuses(name) && !there.contains(name));
            apply(&mut now, &changes, &answers);
            assert_eq!(now.order, order);
            assert!(now.not_removed.is_empty() && between(&now, &wanted).is_empty(), "{changes:?}");
            let taken = wanted.iter().map(|held| &held.name).filter(|name| !now.refused.contains_key(*name));
            assert!(taken.eq(&now.order), "{:?}", now.order);
            now.refused.clear();
        }
    }
}
