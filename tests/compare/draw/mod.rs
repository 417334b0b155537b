//! Lists of calls, drawn at random.

pub mod causes;
pub mod damage;
pub mod descriptions;
pub mod families;
pub mod histories;
pub mod known;
pub mod letters;
pub mod levels;
pub mod limits;
pub mod recipes;
pub mod render;
pub mod tables;
pub mod texts;

use crate::call::Call;
use crate::claims::Claim;
use crate::random::Random;

/// Calls to be answered one behind the other.
#[derive(Clone, Debug)]
pub struct List {
    /// What sort of list it was drawn as.
    pub kind: &'static str,
    pub calls: Vec<Call>,
    /// What is claimed of the answers, besides what is claimed of all calls.
    pub claim: Claim,
}

/// What draws lists, and how often each is asked.
const DRAWN: [(fn(&mut Random) -> List, usize); 5] =
    [(texts::list, 200), (texts::respelled_list, 100), (tables::list, 200), (levels::list, 200), (recipes::list, 12)];

/// One list of any kind.
pub fn list(random: &mut Random) -> List {
    let (drawn, _) = DRAWN[random.weighted(&DRAWN.map(|(_, weight)| weight))];
    drawn(random)
}
