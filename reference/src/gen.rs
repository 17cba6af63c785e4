//! A deterministic generator of cases.
//!
//! A case depends on the seed and its own index only.

mod bindings;
mod certificates;
mod components;
mod counts;
mod damage;
mod damaged;
mod descriptions;
mod faults;
mod lent;
mod list_damage;
mod lists;
mod models;
mod names;
mod paths;
mod plan;
mod program;
mod random;
mod sound;
mod tree;
mod work;

pub use certificates::certificate_case;
pub use components::component_case;
pub use damage::{critical_kind, optional_kind};
pub use damaged::damaged_case;
pub use descriptions::description_case;
pub use models::{sample, sound_model, Sample};
pub use paths::path_case;
pub use program::write_generated;
pub use random::Random;

use crate::cases::Case;
use work::Models;

/// The largest number of edges that a walk of a generated case may look at.
const MAX_WORK: u64 = 4_000;

#[derive(Clone, Copy)]
enum Call {
    Verdict,
    Match,
    Sign,
    /// A signing call that is allowed, with bindings of some kind.
    Bind,
}

const CALLS: [(usize, Call); 4] = [
    (20, Call::Verdict),
    (40, Call::Match),
    (26, Call::Sign),
    (14, Call::Bind),
];

/// The case with this index.
pub fn case(seed: u64, index: u64) -> Case {
    let mut random = Random::for_case(seed, index);
    let random = &mut random;
    let sample = sample(random);
    match random.weighted(&CALLS) {
        Call::Verdict => Case::Verdict {
            model: sample.bytes,
        },
        Call::Match => match_case(random, sample),
        Call::Sign => sign_case(random, sample),
        Call::Bind => bindings::binding_case(random, sample),
    }
}

fn match_case(random: &mut Random, sample: Sample) -> Case {
    let models = Models::of(&sample);
    let mut name = names::match_name(random, &models.source);
    while models.match_work(&name) > MAX_WORK {
        name = work::shortened(&name);
    }
    Case::Match {
        model: sample.bytes,
        name,
        words: lent::binding_words(random),
    }
}

fn sign_case(random: &mut Random, sample: Sample) -> Case {
    let models = Models::of(&sample);
    let (mut packet, mut key) = names::sign_names(random, &models.source);
    models.shorten_both(&mut packet, &mut key, MAX_WORK);
    signing(random, sample.bytes, packet, key)
}

/// A signing call with words for bindings and path.
fn signing(random: &mut Random, model: Vec<u8>, packet: Vec<u8>, key: Vec<u8>) -> Case {
    let needed = work::component_count(&packet) + work::component_count(&key);
    let path = lent::path_words(random, needed);
    Case::Sign {
        model,
        packet,
        key,
        words: lent::binding_words(random),
        path,
    }
}
