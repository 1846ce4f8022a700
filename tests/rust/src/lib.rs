//! Document 01's rules written a second time, in another style, and the C face held to them.
pub mod books;
pub mod flange;
pub mod fraction;
pub mod held;
pub mod lent;
pub mod lists;
pub mod random;
pub mod rules;
pub mod sections;
pub mod series;
pub mod steel;
