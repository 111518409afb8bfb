//! What the published files lean on, as far as they need it.

pub mod bit_packer;
pub mod bytes;
pub mod index;
pub mod loads;
pub mod step;
pub mod traits;
