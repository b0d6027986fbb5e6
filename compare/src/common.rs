//! What the drivers share: records, the second reading, the original behind it, random files.

pub mod faults;
pub mod generate;
pub mod oracle;
pub mod random;
pub mod reading;
pub mod record;
