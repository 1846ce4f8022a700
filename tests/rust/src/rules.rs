//! Document 01's rules, a file for each chapter. Tables are searched, points interpolated and fractions kept exact where the proved code
//! compares, branches and divides step by step.
mod balance;
mod book;
mod class;
mod drawn;
mod law;
mod section;
mod shear;
mod strength;
mod writer;

pub use balance::{
    amounts, area, exact, first, list_of, listed, rounded, rounded_by, write, Amount, Axis, First,
    List, Listed, Sums,
};
pub use book::{
    book, lines, own_length, record, Book, BookAnswer, Bound, Lines, RecordAnswer, LINES,
};
pub use class::{class, Class, LETTERS, STEPS};
pub use drawn::{draw, stress_drawn, Drawn, Point};
pub use law::{Law, TABLE};
pub use section::{bars, centroid, record_length, Layer, Section, REFUSALS};
pub use shear::{c, q, shear, unlimited_c, unlimited_k, unlimited_kf, Shear};
pub use strength::{count, squares_while, strength, Numbers, Rule, Strength, RULE, T10};
pub use writer::{add_layer, book_of, records, write_book, Parts, Written};
