//! Checks of this implementation against itself: what it works out in two
//! ways must agree, on seeded random words and on all small cases.

mod folding;
mod generator;
mod matches;
mod random;
mod selecting;
mod selection;
mod small;
