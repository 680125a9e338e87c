//! A second, independent reading of the papers, to compare the proved monitor with.
//!
//! It is written from 01, 02 and document 004 alone, by search on lists of actions. Where the papers
//! speak of people, sheets, standings and bags, the code says users, instances, statuses and
//! multisets.
//!
//! - [`policy`]: terms, reading policy words, the normal form;
//! - [`place`]: the place of a policy's fault;
//! - [`text`]: policies as readable text;
//! - [`search`]: satisfied and possible, by search on lists;
//! - [`event`]: event words;
//! - [`secure`]: permissions and workflow;
//! - [`monitor`]: a monitor and its rules, for either way to keep an action;
//! - [`enabled`]: who may act, by trying each user;
//! - [`multiset`]: the multiset test;
//! - [`raw`]: instances given as raw data with noted bits, and number 15;
//! - [`workspace`]: the words that a workspace must hold;
//! - [`casefile`]: case files and the judge's output;
//! - [`literal`]: Definitions 3 to 7 rule by rule, for small cases;
//! - [`generate`]: inputs for comparisons, from a seed;
//! - [`examples`]: 01's settled examples and tempting mistakes, as checks;
//! - [`selfcheck`]: the search held against the literal definitions.

#![forbid(unsafe_code)]
#![deny(missing_docs)]

pub mod casefile;
pub mod code;
pub mod enabled;
pub mod event;
pub mod examples;
pub mod generate;
#[cfg(test)]
mod leavers;
pub mod literal;
pub mod monitor;
pub mod multiset;
pub mod place;
pub mod policy;
pub mod raw;
pub mod search;
pub mod secure;
pub mod selfcheck;
pub mod text;
mod words;
pub mod workspace;
