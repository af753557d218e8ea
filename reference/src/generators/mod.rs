//! Inputs by kind, each fixed by a seed and a number.

mod extremes;
mod grids;
#[allow(dead_code)] // the benchmarks alone use it, through the library
pub mod hubs;
pub mod joints;
pub mod judged;
pub mod large;
pub mod on_grid;
pub mod sets;
pub mod shape;
mod soups;
mod strips;
pub mod traces;

use std::io::{Error, Result};

use crate::input::Input;
use crate::random::Random;
use shape::{Room, Shape};

/// The program's room.
pub const TEXT: Room = Room {
    triangles: 64,
    points: 64,
};

/// Room for a few triangles.
pub const SMALL: Room = Room {
    triangles: 9,
    points: 20,
};

/// A kind's name and how it makes an input.
pub type Kind = (&'static str, fn(&mut Random, &Room) -> Input);

fn chosen(make: fn(&mut Random, &Room) -> Shape, r: &mut Random, room: &Room) -> Input {
    make(r, room).input(r)
}

fn stepped(make: fn(&mut Random, &Room) -> Shape, r: &mut Random, room: &Room) -> Input {
    extremes::at_step(make(r, room), r)
}

/// The kinds that `cases` and `compare` go through in turn.
pub const KINDS: &[Kind] = &[
    ("grid", |r, m| chosen(grids::grid, r, m)),
    ("refined", |r, m| chosen(grids::refined, r, m)),
    ("stretched", |r, m| chosen(grids::stretched, r, m)),
    ("graded", |r, m| chosen(grids::graded, r, m)),
    ("ring", |r, m| chosen(grids::ring, r, m)),
    ("slit", |r, m| chosen(grids::slit, r, m)),
    ("scatter", |r, m| chosen(grids::scatter, r, m)),
    ("clockwise", |r, m| chosen(grids::clockwise, r, m)),
    ("lattice", |r, m| chosen(soups::lattice, r, m)),
    ("soup", |r, m| chosen(soups::soup, r, m)),
    ("layers", |r, m| chosen(soups::layers, r, m)),
    ("repeats", |r, m| chosen(soups::repeats, r, m)),
    ("fans", |r, m| chosen(soups::fans, r, m)),
    ("flat", |r, m| chosen(soups::flat, r, m)),
    ("single", |r, m| chosen(extremes::single, r, m)),
    ("corners", |r, m| chosen(extremes::corners, r, m)),
    ("tiny", |r, m| chosen(extremes::tiny, r, m)),
    ("thin", |r, m| stepped(extremes::thin, r, m)),
    ("blunt", |r, m| stepped(extremes::blunt, r, m)),
    ("deep", extremes::deep),
    ("insertion", extremes::insertion),
    ("heap", |r, m| stepped(soups::heap, r, m)),
    ("runaway", |r, m| stepped(soups::runaway, r, m)),
    ("crowded", |r, m| stepped(soups::crowded, r, m)),
    ("slots", |r, m| stepped(soups::slots, r, m)),
    ("refused", extremes::refused),
];

/// Made only where they are asked for: one needs more triangles than a text has, the other is for one test.
const ASKED: &[Kind] = &[
    ("hub", |r, m| stepped(soups::hub, r, m)),
    ("strip", strips::strip),
];

/// The kind of a name.
pub fn kind(name: &str) -> Result<&'static Kind> {
    let found = KINDS.iter().chain(ASKED).find(|k| k.0 == name);
    found.ok_or_else(|| Error::other(format!("no kind {name}")))
}

/// The kind of a case: the one asked for, or the kinds in turn.
pub fn of_case(asked: Option<&'static Kind>, case: u64) -> &'static Kind {
    asked.unwrap_or(&KINDS[(case % KINDS.len() as u64) as usize])
}
