//! Document 01, and requests One, Two and Four to Eight of document 02, against the reference and the built library. Every expected value is written out by hand.

mod fixture;

mod arms;
mod cartridges;
mod entries;
mod events;
mod house_numbers;
mod listings;
mod mode_sense;
mod moves;
mod panel;
mod replay;
mod reservations;
mod searches;
mod sense;
mod shelves;
mod shipped_errors;
mod small_library;
mod soundness;
mod vectors;
