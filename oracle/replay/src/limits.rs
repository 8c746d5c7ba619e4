//! Requests at the limits of documents 01 and 02: each limit alone, and for every two refusals that can meet a
//! request in which they do.

use std::collections::HashSet;

use requests::document;
use requests::plan::Plan;
use requests::request::{Entry, ENTRIES};
use requests::spoils::{sound, Spoil, SPOILS};

use crate::record::{has_words_for, request};

pub fn plans() -> Vec<Plan> {
    let of_entry = |entry| alone(entry).into_iter().chain(pairs(entry));
    ENTRIES.into_iter().flat_map(of_entry).collect()
}

fn alone(entry: Entry) -> Vec<Plan> {
    let plans = SPOILS.iter().map(|spoil| spoiled(sound(entry), spoil));
    plans.filter(has_words_for).collect()
}

/// The later refusal's cause is brought in last, and so stands; that the earlier one's does too shows
/// in the answer.
fn pairs(entry: Entry) -> Vec<Plan> {
    let number = |spoil| answer(&spoiled(sound(entry), spoil));
    let causes = SPOILS.iter().map(|spoil| (number(spoil), spoil));
    let causes: Vec<_> = causes.filter(|(number, _)| *number > 0).collect();
    let mut met = HashSet::new();
    let mut pairs = Vec::new();
    for (earlier, first) in &causes {
        let later = |(later, _): &&(u32, _)| document::comes_before(*earlier, *later);
        for (later, second) in causes.iter().filter(later) {
            let both = spoiled(spoiled(sound(entry), first), second);
            let is_earlier = has_words_for(&both) && answer(&both) == *earlier;
            if is_earlier && met.insert((earlier, later)) {
                pairs.push(both);
            }
        }
    }
    pairs
}

fn spoiled(mut plan: Plan, spoil: &Spoil) -> Plan {
    spoil(&mut plan);
    plan
}

fn answer(plan: &Plan) -> u32 {
    document::answer(&request(plan))
}
