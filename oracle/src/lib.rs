//! What the tests of the station judge from outside are made of. None of it needs the library under test.

pub mod answers;
pub mod compare;
pub mod converter;
pub mod generate;
pub mod law;
pub mod random;
pub mod report;
pub mod routes;
pub mod subject;
