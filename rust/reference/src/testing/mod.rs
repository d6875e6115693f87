//! Generators of calls, images and forged records: what the tests of this crate and the comparison with the proved
//! store both run.

pub mod calls;
pub mod choices;
pub mod floats;
pub mod forged;
pub mod full;
pub mod images;
pub mod load;
