//! The checker by document 01's steps, and the writer of document 02.

pub mod beam;
pub mod built;
pub mod column;
pub mod held;
pub mod member;
pub mod mesh;
pub mod outcome;
pub mod parameters;
pub mod report;
pub mod schedule;
pub mod tables;
pub mod utilization;
pub mod writing;
