//! Second program for document 01 ("Harmonic groups, smoothing and class A
//! verdicts of a mains current") and the cards of document 02 that have landed.
//! It is written from these documents alone and shares no code and no table with
//! the proved core, so that the two can be compared on many inputs. Speed and
//! memory come after plainness here.

pub mod annex_c;
pub mod columns;
pub mod distortion;
pub mod exact_group;
pub mod glitch;
pub mod groups;
pub mod harmlist;
pub mod inputs;
pub mod largest;
pub mod limits;
pub mod listing;
pub mod natural;
pub mod observation;
pub mod observe;
pub mod panel;
pub mod random;
pub mod refusals;
pub mod rounding;
pub mod rows;
pub mod signals;
pub mod sine;
pub mod spectrum;
pub mod table;
pub mod three_seconds;
pub mod turn;
pub mod vectors;
pub mod verdict;
pub mod words;
