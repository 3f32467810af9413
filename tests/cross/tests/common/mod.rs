//! A wrong layer in the place of the proved one, for the tests of the comparison.
//!
//! Assumes nothing.

use cross::case::Sides;
use cross::families::FAMILIES;
use cross::sides::{Layer, Second};
use second::generate::coverage::Coverage;

/// The text of the first difference in a family, if there is one.
pub fn difference(layer: &dyn Layer, family: &str) -> Option<String> {
    let sides = Sides {
        proved: layer,
        second: &Second,
    };
    let family = FAMILIES.iter().find(|one| one.name == family);
    let family = family.expect("there is such a family");
    let outcome = family.compare(&sides, 1, &mut Coverage::default());
    outcome.difference.map(|difference| difference.text)
}
