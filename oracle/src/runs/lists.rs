//! Lists of runs, put together from those of the parts.
//!
//! The order of a list is part of what is compared: what comes first in a sequence tells first, and no further round comes before one more.
//! Lists in free order are sorted before they are compared.

use crate::path::{Ending, Event, Run};
use crate::random::Random;
use std::cell::RefCell;

/// How many orders of several lists a sample draws.
const ORDERS: usize = 3;

/// Puts lists together; those that are to be sampled hold no more than so many runs.
pub struct Lists {
    sample: Option<(usize, RefCell<Random>)>,
}

/// The one run without events.
pub fn nothing() -> Vec<Run> {
    vec![Run { events: Vec::new(), ending: Ending::Falls }]
}

/// The one run with this event.
pub fn one(event: Event) -> Vec<Run> {
    vec![Run { events: vec![event], ending: Ending::Falls }]
}

/// The one run that goes no further.
pub fn stop() -> Vec<Run> {
    vec![Run { events: Vec::new(), ending: Ending::Stops }]
}

/// The runs, of which those that end so fall.
pub fn caught(ending: Ending, mut runs: Vec<Run>) -> Vec<Run> {
    runs.iter_mut().filter(|run| run.ending == ending).for_each(|run| run.ending = Ending::Falls);
    runs
}

impl Lists {
    pub fn whole() -> Lists {
        Lists { sample: None }
    }

    pub fn sampled(most: usize, random: Random) -> Lists {
        Lists { sample: Some((most, RefCell::new(random))) }
    }

    /// The list, or as many of it as a sample may hold, in its order; where some fall one of them stays, so that what stands next is seen.
    fn kept<T>(&self, mut list: Vec<T>, falls: impl Fn(&T) -> bool) -> Vec<T> {
        if let Some((most, random)) = &self.sample {
            while list.len() > *most {
                let i = random.borrow_mut().below(list.len());
                if !falls(&list[i]) || list.iter().filter(|run| falls(run)).count() > 1 {
                    list.remove(i);
                }
            }
        }
        list
    }

    /// One list or another.
    pub fn either(&self, lists: impl IntoIterator<Item = Vec<Run>>) -> Vec<Run> {
        self.kept(lists.into_iter().flatten().collect(), |run| run.ending == Ending::Falls)
    }

    /// After each run that falls every run of the second list; what does not fall goes no further.
    pub fn then(&self, first: &[Run], second: &[Run]) -> Vec<Run> {
        let mut pairs: Vec<(&Run, Option<&Run>)> = Vec::new();
        for run in first {
            match run.ending {
                Ending::Falls => pairs.extend(second.iter().map(|after| (run, Some(after)))),
                _ => pairs.push((run, None)),
            }
        }
        let falls = |(run, after): &(&Run, Option<&Run>)| after.unwrap_or(run).ending == Ending::Falls;
        let kept = self.kept(pairs, falls);
        kept.into_iter().map(|(run, after)| after.map_or_else(|| run.clone(), |after| followed(run, after))).collect()
    }

    /// One after the other.
    pub fn in_turn(&self, lists: impl IntoIterator<Item = Vec<Run>>) -> Vec<Run> {
        lists.into_iter().fold(nothing(), |before, list| self.then(&before, &list))
    }

    /// The list, or nothing.
    pub fn or_not(&self, list: Vec<Run>) -> Vec<Run> {
        if list == nothing() {
            return list;
        }
        self.either([nothing(), list])
    }

    /// In any order, each list as a whole; where one does nothing makes no difference.
    pub fn in_any_order(&self, lists: Vec<Vec<Run>>) -> Vec<Run> {
        let telling: Vec<Vec<Run>> = lists.into_iter().filter(|list| *list != nothing()).collect();
        if telling.len() < 2 {
            return self.in_turn(telling);
        }
        self.either(self.orders(telling.len()).iter().map(|order| self.in_turn(order.iter().map(|i| telling[*i].clone()))))
    }

    /// The orders of so many: all of them, or as many as a sample draws.
    fn orders(&self, count: usize) -> Vec<Vec<usize>> {
        let all: Vec<usize> = (0..count).collect();
        match &self.sample {
            None => permutations(&all),
            Some((_, random)) => (0..ORDERS).map(|_| drawn(all.clone(), &mut random.borrow_mut())).collect(),
        }
    }

    /// At most so many rounds: none, or one and then the others.
    pub fn rounds(&self, most: usize, round: &[Run]) -> Vec<Run> {
        (0..most).fold(nothing(), |more, _| self.either([nothing(), self.then(round, &more)]))
    }
}

/// Any one of them first, then those left in any order.
fn permutations(of: &[usize]) -> Vec<Vec<usize>> {
    if of.is_empty() {
        return vec![Vec::new()];
    }
    let mut orders = Vec::new();
    for (at, first) in of.iter().enumerate() {
        let left = [&of[..at], &of[at + 1..]].concat();
        orders.extend(permutations(&left).into_iter().map(|order| [vec![*first], order].concat()));
    }
    orders
}

/// One of their orders.
fn drawn(mut of: Vec<usize>, random: &mut Random) -> Vec<usize> {
    let mut order = Vec::new();
    while !of.is_empty() {
        order.push(of.swap_remove(random.below(of.len())));
    }
    order
}

fn followed(run: &Run, after: &Run) -> Run {
    Run { events: [&run.events[..], &after.events[..]].concat(), ending: after.ending }
}
