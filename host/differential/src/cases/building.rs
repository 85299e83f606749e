//! Building, from tables and from a book's text.

use super::reading::BookText;
use super::tables::OwnTables;
use super::Case;
use crate::lending::Lent;
use crate::lengths::around;
use crate::lent_tables::LentTables;
use crate::outcome::{Outcome, Side};
use fulgwerz::{Counts, Space};
use plain::limits::*;
use plain::random::Random;

/// The words lent, and the turn limit.
#[derive(Clone, Copy, Debug)]
pub struct Room {
    pub combinations: usize,
    pub metastates: usize,
    pub arcs: usize,
}

pub struct Building {
    pub tables: OwnTables,
    pub room: Room,
    pub turn_limit: u32,
}

pub struct BuildingBook {
    pub book: BookText,
    pub room: Room,
    pub turn_limit: u32,
}

/// The most that a random build is lent: little, so that a case stays short, but now and then ten times as much.
fn most_room(random: &mut Random) -> Room {
    let times = if random.below(200) == 0 { 10 } else { 1 };
    Room { combinations: times * COMBINATION * 600, metastates: times * METASTATE * 250, arcs: times * ARC * 2500 }
}

/// Room and turns around what the build of these tables needs, or ample room.
fn room_and_turns(random: &mut Random, tables: &OwnTables) -> (Room, u32) {
    let most = most_room(random);
    let (combinations, Counts { metastates, arcs, .. }) = need_of(random, tables, most);
    let turns = metastates as usize;
    let turn_limit = match random.below(8) {
        0 => 0,
        1 => 1,
        2 => turns.saturating_sub(1),
        3 => turns,
        4 => turns + 1,
        5 => random.below(turns + 2),
        _ => u32::MAX as usize,
    };
    let room = Room {
        combinations: around(random, combinations, COMBINATION).min(most.combinations),
        metastates: around(random, metastates as usize, METASTATE).min(most.metastates),
        arcs: around(random, arcs as usize, ARC).min(most.arcs),
    };
    let ample = random.percent(30);
    (if ample { most } else { room }, turn_limit as u32)
}

/// How many combinations, metastates and arcs the build leaves; any number of the latter where it lacks room.
fn need_of(random: &mut Random, tables: &OwnTables, room: Room) -> (usize, Counts) {
    let (mut combinations, mut metastates) = (vec![0; room.combinations], vec![0; room.metastates]);
    let mut arcs = vec![0; room.arcs];
    let found = plain::fast::combine(tables.header, tables.tables(), &mut combinations).count;
    let space = Space { combinations: &mut combinations, metastates: &mut metastates, arcs: &mut arcs };
    let built = plain::fast::build(tables.header, tables.tables(), space, u32::MAX);
    if built.fault == 0 {
        return (found, built.counts);
    }
    let metastates = random.below(room.metastates / METASTATE) as u32;
    (found, Counts { states: 0, metastates, arcs: random.below(room.arcs / ARC) as u32 })
}

pub fn build_case(random: &mut Random) -> Box<dyn Case> {
    let tables = OwnTables::known(random);
    build_case_of(random, tables)
}

/// From these tables, or from them with a change.
pub fn build_case_of(random: &mut Random, mut tables: OwnTables) -> Box<dyn Case> {
    let (room, turn_limit) = room_and_turns(random, &tables);
    if random.percent(20) {
        tables.change(random);
    }
    Box::new(Building { tables, room, turn_limit })
}

pub fn build_book_case(random: &mut Random) -> Box<dyn Case> {
    let damaged = random.percent(40);
    let book = BookText::new(random, damaged);
    build_book_case_of(random, book)
}

/// From this text, with any room where it is refused.
pub fn build_book_case_of(random: &mut Random, book: BookText) -> Box<dyn Case> {
    let tables = OwnTables::known(random);
    let (room, turn_limit) = match OwnTables::read(&book.text) {
        Some(own) => room_and_turns(random, &own),
        None => room_and_turns(random, &tables),
    };
    Box::new(BuildingBook { book, room, turn_limit })
}

impl Case for Building {
    fn entry(&self) -> &'static str {
        "build"
    }

    fn others(&self) -> &'static [Side] {
        &[Side::Plain, Side::Fast]
    }

    fn call(&self, side: Side) -> Outcome {
        let build = match side {
            Side::Library => fulgwerz::build,
            Side::Plain => plain::build,
            Side::Fast => plain::fast::build,
        };
        let mut lent = self.tables.lend();
        let mut combinations = Lent::garbage(self.room.combinations);
        let mut metastates = Lent::garbage(self.room.metastates);
        let mut arcs = Lent::garbage(self.room.arcs);
        let space =
            Space { combinations: combinations.part(), metastates: metastates.part(), arcs: arcs.part() };
        let answer = build(self.tables.header, lent.for_reading(), space, self.turn_limit);
        Outcome::new(answer.fault, answer)
            .with_tables(lent)
            .with("combinations", combinations)
            .with("metastates", metastates)
            .with("arcs", arcs)
    }

    fn input(&self) -> String {
        format!("  {:?}\n  words lent: {:?}, turn limit {}", self.tables, self.room, self.turn_limit)
    }
}

impl Case for BuildingBook {
    fn entry(&self) -> &'static str {
        "build_book"
    }

    fn call(&self, side: Side) -> Outcome {
        let build_book = if side == Side::Library { fulgwerz::build_book } else { plain::build_book };
        let mut text = Lent::holding(&self.book.text);
        let mut lent = LentTables::garbage(self.book.lent);
        let mut combinations = Lent::garbage(self.room.combinations);
        let mut metastates = Lent::garbage(self.room.metastates);
        let mut arcs = Lent::garbage(self.room.arcs);
        let space =
            Space { combinations: combinations.part(), metastates: metastates.part(), arcs: arcs.part() };
        let answer = build_book(text.part(), lent.for_filling(), space, self.turn_limit);
        Outcome::new(answer.fault, answer)
            .with("text", text)
            .with_tables(lent)
            .with("combinations", combinations)
            .with("metastates", metastates)
            .with("arcs", arcs)
    }

    fn input(&self) -> String {
        format!("{}\n  words lent: {:?}, turn limit {}", self.book.input(), self.room, self.turn_limit)
    }
}
