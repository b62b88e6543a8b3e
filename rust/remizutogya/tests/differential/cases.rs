//! One case of each call: input is drawn, archive and peer are called, and what they do is compared. Each gives the
//! number that both gave.

use crate::outcome::{Given, Lent, agreed, agreed_values};
use crate::random::Random;
use crate::{archive, lines, profiles, streams, words};
use peer::Profile;

/// The rooms that the listing and the text of a reply ask for.
const LISTING_ROOM: usize = 262_144;
const TEXT_ROOM: usize = 256;

pub fn build(random: &mut Random, p: Profile) -> u8 {
    let lent = Lent::limbs(random, profiles::table_limbs(p));
    agreed(
        &(p, lent.room()),
        lent.after(|out| archive::build(p, out)),
        lent.after(|out| peer::build(p, out)),
    )
}

pub fn shipped(random: &mut Random, p: Profile) -> u8 {
    let lent = Lent::limbs(random, profiles::table_limbs(p));
    agreed(
        &(p.m, lent.room()),
        lent.after(|out| archive::shipped(p.m, out)),
        lent.after(|out| peer::shipped(p.m, out)),
    )
}

pub fn index(random: &mut Random, p: Profile) -> u8 {
    let (table, cells) = (profiles::table(random, p), words::word(random, p));
    let (answer, index) = peer::index(p, &table, &cells);
    agreed_values(
        &(p, &cells, &table),
        archive::index(p, &table, &cells),
        Given::of(answer, &index),
    )
}

pub fn word(random: &mut Random, p: Profile) -> u8 {
    let (table, index) = (profiles::table(random, p), words::index(random, p));
    let lent = Lent::bytes(random, profiles::in_range(p).m);
    let archive = lent.after(|out| archive::word(p, &table, index, out));
    let peer = lent.after(|out| peer::word(p, &table, &index, out));
    agreed(&(p, index, lent.room(), &table), archive, peer)
}

pub fn write(random: &mut Random, p: Profile) -> u8 {
    let n = streams::word_count(random, p);
    let (table, (bytes, bits)) = (profiles::table(random, p), streams::messages(random, p, n));
    let lent = Lent::bytes(random, streams::stream_cells(p, n));
    let archive = lent.after(|out| archive::write(p, &table, &bytes, bits, out));
    let peer = lent.after(|out| peer::write(p, &table, &bytes, bits, out));
    agreed(&(p, bits, &bytes, lent.room(), &table), archive, peer)
}

pub fn read(random: &mut Random, p: Profile) -> u8 {
    let n = streams::word_count(random, p);
    let (table, cells) = (profiles::table(random, p), streams::stream(random, p, n));
    let lent = Lent::bytes(random, (n * profiles::message_length(p)).div_ceil(8));
    let archive = lent.after(|out| archive::read(p, &table, &cells, out));
    let peer = lent.after(|out| peer::read(p, &table, &cells, out));
    agreed(&(p, &cells, lent.room(), &table), archive, peer)
}

pub fn join(random: &mut Random, p: Profile) -> u8 {
    let n = streams::word_count(random, p);
    let both = if random.once_in(2) {
        n
    } else {
        n + streams::word_count(random, p)
    };
    let before = random.within(0..=both);
    let (first, second) = (
        streams::stream(random, p, before),
        streams::stream(random, p, both - before),
    );
    let lent = Lent::bytes(random, streams::stream_cells(p, both));
    let archive = lent.after(|out| archive::join(p, &first, &second, out));
    let peer = lent.after(|out| peer::join(p, &first, &second, out));
    agreed(&(p, &first, &second, lent.room()), archive, peer)
}

pub fn turn(random: &mut Random, p: Profile) -> u8 {
    let n = streams::word_count(random, p);
    let cells = streams::stream(random, p, n);
    let lent = Lent::bytes(random, cells.len());
    let archive = lent.after(|out| archive::turn(p, &cells, out));
    let peer = lent.after(|out| peer::turn(p, &cells, out));
    agreed(&(p, &cells, lent.room()), archive, peer)
}

pub fn find(random: &mut Random, p: Profile) -> u8 {
    let cells = words::run(random, p);
    let answer = peer::find(p.q, p.x, &cells);
    agreed_values(
        &(p.q, p.x, &cells),
        archive::find(p.q, p.x, &cells),
        Given::of(answer, &[]),
    )
}

pub fn published(random: &mut Random, _: Profile) -> u8 {
    let row = lines::published_row(random);
    let (answer, given) = peer::published(row);
    agreed_values(
        &row,
        archive::published(row),
        Given::of(answer, &given.map(|number| number as u64)),
    )
}

pub fn rate(random: &mut Random, p: Profile) -> u8 {
    let (table, n) = (profiles::table(random, p), lines::rated_words(random));
    let (answer, bits, cells) = peer::rate(p, &table, n);
    let peer = Given::of(answer, &[bits as u64, cells as u64]);
    agreed_values(&(p, n, &table), archive::rate(p, &table, n), peer)
}

pub fn list(random: &mut Random, _: Profile) -> u8 {
    let line = lines::line(random);
    let lent = Lent::bytes(random, LISTING_ROOM);
    let archive = lent.after(|out| archive::list(&line, out));
    let peer = lent.after(|out| peer::list(&line, out));
    agreed(
        &(line.escape_ascii().to_string(), lent.room()),
        archive,
        peer,
    )
}

pub fn reply_text(random: &mut Random, _: Profile) -> u8 {
    let (number, place) = lines::reply(random);
    let lent = Lent::bytes(random, TEXT_ROOM);
    let archive = lent.after(|out| archive::reply_text(number, place, out));
    let peer = lent.after(|out| peer::reply_text(number, place, out));
    agreed(&(number, place, lent.room()), archive, peer)
}
