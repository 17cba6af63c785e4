//! An ordinary checker for compiled Light VerSec (LVS) models, written from the
//! papers alone, and a generator of cases to compare another checker with it.
//!
//! - [`elements`]: types, lengths and values; optional and critical elements
//! - [`names`]: names and their components
//! - [`model`]: the model as structs, and its reader
//! - [`verdict`](mod@verdict): the tests of a model, refusals
//! - [`walk`]: the depth-first walk
//! - [`answers`]: the calls that match, sign, write and describe
//! - [`follow`](mod@follow): the call that follows a path
//! - [`certificates`]: the call that finds a certificate in a list
//! - [`comparison`]: the call that compares two components
//! - [`encode`]: the bytes of a model
//! - [`description`]: a model as two plain lists
//! - [`gaps`](mod@gaps): taking optional elements out and putting elements in
//! - [`cases`]: the form in which cases and answers travel
//! - [`gen`]: the generator of cases

pub mod answers;
pub mod cases;
pub mod certificates;
pub mod comparison;
pub mod description;
pub mod elements;
pub mod encode;
pub mod follow;
pub mod gaps;
pub mod gen;
pub mod model;
pub mod names;
pub mod verdict;
pub mod walk;

pub use answers::{
    describe, match_name, sign, write_model, DescribeAnswer, MatchAnswer, SignAnswer, WriteAnswer,
};
pub use certificates::{find_certificate, CertificateAnswer};
pub use comparison::{compare_components, Comparison};
pub use follow::{follow, FollowAnswer};
pub use gaps::{bare, gaps, insert_element, Gap};
pub use verdict::{verdict, Reason, Refusal, Verdict};
