//! What the tools, the tests and the benchmark share: events, service, the readable text of a book, and the proved core.

pub mod bill;
pub mod calendar;
pub mod columns;
pub mod core;
pub mod csv;
pub mod dates;
pub mod event;
pub mod hints;
pub mod history;
pub mod kinds;
pub mod reading;
pub mod service;
pub mod shown;
pub mod story;
pub mod table;
pub mod text;
pub mod words;
