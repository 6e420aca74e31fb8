//! The rescue of a mixed space: its hidden attributes are dropped, and what is left is listed again (document 02, request 5; 000, 2.8).

use crate::card::Task;
use crate::tim::{each, Analysis, Bags, Containing, Extension, Kind, Space, Sparse, Transition};

/// How a rescue went: its number of rounds, and how the last of them ended.
#[derive(Clone, Debug)]
pub struct Rescue {
    pub rounds: usize,
    pub end: End,
}

#[derive(Clone, Debug)]
pub enum End {
    /// As P, which prints as H: what is left of the space, and its bags.
    Listed(Space, Bags),
    /// As W, which prints nothing.
    Wide,
    /// A restricted rule has one empty side.
    OneSided,
    NoProperty,
}

/// The rescue of a space that turned out to be mixed here. Each round drops a property at least.
pub fn rescue(analysis: &Analysis, space: &Space, mixed: &Containing) -> Rescue {
    let (mut left, mut mixed) = (space.clone(), mixed.clone());
    let mut rounds = 0;
    loop {
        rounds += 1;
        left = narrowed(analysis, &left, &mixed);
        if left.properties.is_empty() {
            return Rescue { rounds, end: End::NoProperty };
        }
        if left.transitions.iter().any(|transition| transition.start.is_empty() || transition.finish.is_empty()) {
            return Rescue { rounds, end: End::OneSided };
        }
        match analysis.extension(&left) {
            Extension::Mixed(again) => mixed = again,
            Extension::Wide => return Rescue { rounds, end: End::Wide },
            Extension::Bags(bags) => return Rescue { rounds, end: End::Listed(left, bags) },
        }
    }
}

/// The space without the properties whose count is larger in the containing bag than in the contained one. A rule with both sides empty
/// is dropped; a member has some of the properties that are left.
fn narrowed(analysis: &Analysis, space: &Space, Containing { containing, contained }: &Containing) -> Space {
    let larger = |place: usize| containing[place] > contained[place];
    let properties: Vec<usize> = (0..space.properties.len()).filter(|&place| !larger(place)).map(|place| space.properties[place]).collect();
    let restricted = |bag: &Sparse| bag.iter().filter(|(property, _)| properties.contains(property)).copied().collect::<Sparse>();
    let rule = |Transition { enablers, start, finish }: &Transition| Transition {
        enablers: *enablers,
        start: restricted(start),
        finish: restricted(finish),
    };
    let rules = space.transitions.iter().map(rule);
    let transitions = rules.filter(|rule| !(rule.start.is_empty() && rule.finish.is_empty())).collect();
    let opens = |object: &usize| analysis.opening(&properties, *object).iter().any(|&count| count > 0);
    let members = each(space.members).filter(opens).fold(0, |members, object| members | 1 << object);
    Space { properties, transitions, kind: space.kind, members }
}

/// The mixed spaces of a task, each with its rescue.
pub fn rescues(task: &Task) -> Vec<(Space, Rescue)> {
    let analysis = Analysis::new(task);
    let property_spaces = analysis.spaces.iter().filter(|space| space.kind == Kind::Property);
    let mixed = property_spaces.filter_map(|space| match analysis.extension(space) {
        Extension::Mixed(mixed) => Some((space.clone(), rescue(&analysis, space, &mixed))),
        _ => None,
    });
    mixed.collect()
}
