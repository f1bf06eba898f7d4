//! A second program for routing plans, written from the definition of the
//! build alone. It reads a plan, solves it by rounds, judges it and prints the
//! answer sheet, the reach sheet and the word sheet; it also makes random records
//! and compares another program's sheets with its own.

pub mod answer;
pub mod chance;
pub mod characters;
pub mod commands;
pub mod damaging;
pub mod damaging_labels;
pub mod damaging_offers;
pub mod damaging_text;
pub mod drawing;
pub mod frames;
pub mod fuzz;
pub mod judging;
pub mod labels;
pub mod making;
pub mod making_labels;
pub mod offering;
pub mod outcome;
pub mod places;
pub mod plan;
pub mod reach;
pub mod reading;
pub mod records;
pub mod relays;
pub mod sheet;
pub mod solving;
pub mod vectors;
pub mod vectors_of_labels;
pub mod vectors_of_words;
pub mod words;
