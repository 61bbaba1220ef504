//! Both sides of the comparison, the inputs, and the fixed list; the two programs stand on these.

pub mod bytes;
pub mod counted;
pub mod courses;
pub mod exhaustive;
pub mod faults;
pub mod fixed;
pub mod foreign;
pub mod generate;
pub mod handed;
pub mod miscounted;
pub mod misplaced;
pub mod misread;
pub mod model;
#[cfg(feature = "ours")]
pub mod ours;
pub mod place;
pub mod reads;
pub mod rng;
pub mod run;
pub mod shapes;
pub mod spoiled;
pub mod theirs;
