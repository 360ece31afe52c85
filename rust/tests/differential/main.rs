//! The proved planner against a second implementation, written apart from it: every job, every returned number, every
//! place of every buffer, on random lists, valid and damaged, small and of full size. Seeds are fixed.
mod conversions;
mod lent;
mod lists;
mod plans;
mod random;
mod reasons;
mod reference;
mod reports;
mod schedules;
mod splits;
mod tally;
mod trails;
