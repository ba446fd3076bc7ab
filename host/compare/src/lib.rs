//! Holds the proved library against the model: the same call on the same bytes, every field of the
//! answer and every byte and word of every buffer compared.

pub mod answers;
pub mod ask;
pub mod buffers;
pub mod checksums;
pub mod editions;
pub mod end;
pub mod keys;
pub mod lists;
pub mod question;
pub mod run;
pub mod subject;
pub mod tables;
pub mod tally;
