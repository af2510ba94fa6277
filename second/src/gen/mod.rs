//! The seeded generator of cases.

pub mod calls;
pub mod cards;
pub mod cuts;
pub mod damage;
pub mod editions;
pub mod faulty_inputs;
pub mod files;
pub mod forgery;
pub mod full_size;
pub mod limit;
pub mod lists;
pub mod panel;
pub mod phrases;
pub mod questions;
pub mod random;
pub mod raw;
pub mod rooms;
pub mod screens;
pub mod streams;
pub mod writing;
