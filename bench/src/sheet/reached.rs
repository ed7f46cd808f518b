//! What the compared pages have reached: situations in plain words, each looked for in what a page is made of.

use super::noted::Noted;
use super::page::{level, order};
use super::sums::LeftOut;
use super::Pages;
use crate::bounds::kept::Unkept;
use crate::bounds::waits::Summary;
use crate::model::aic::SOURCES;
use crate::stack::LEVELS;

/// A situation, and whether a page is one.
pub type Item = (&'static str, fn(&Pages) -> bool);

fn some(pages: &Pages, holds: impl Fn(&Noted) -> bool) -> bool {
    pages
        .rows
        .iter()
        .any(|(_, row)| row.as_ref().is_ok_and(&holds))
}

fn out(pages: &Pages, holds: impl Fn(&LeftOut) -> bool) -> bool {
    pages
        .rows
        .iter()
        .any(|(_, row)| row.as_ref().is_err_and(&holds))
}

fn named(pages: &Pages, holds: impl Fn(u8) -> bool) -> bool {
    pages
        .rows
        .iter()
        .any(|(name, _)| name.iter().any(|&byte| holds(byte)))
}

/// Whether it holds of a source that is on the page.
fn source(pages: &Pages, holds: impl Fn(usize) -> bool) -> bool {
    order(&pages.table, &pages.sheet).into_iter().any(holds)
}

fn waits(pages: &Pages, holds: impl Fn(&Summary) -> bool) -> bool {
    source(pages, |n| holds(&pages.sheet.waits[n]))
}

fn term(pages: &Pages, which: usize) -> bool {
    waits(pages, |waits| {
        waits.most.is_some_and(|terms| terms.each()[which] > 0)
    })
}

/// Whether it holds of the waits of a source in two counted traces.
fn twice(pages: &Pages, holds: impl Fn(&Summary, &Summary) -> bool) -> bool {
    let all: Vec<&Noted> = pages
        .rows
        .iter()
        .filter_map(|(_, row)| row.as_ref().ok())
        .collect();
    let pairs = (0..all.len()).flat_map(|at| all[at + 1..].iter().map(move |other| (at, other)));
    pairs
        .into_iter()
        .any(|(at, other)| (0..SOURCES).any(|n| holds(&all[at].waits[n], &other.waits[n])))
}

fn levels(pages: &Pages, holds: impl Fn(&[u32], u32, Option<usize>) -> bool) -> bool {
    (0..LEVELS).any(|l| {
        let (bytes, whose) = level(&pages.table, l);
        holds(&pages.table.frames_at(l), bytes, whose)
    })
}

/// All that a comparison has to reach.
#[rustfmt::skip]
pub const ITEMS: [Item; 46] = [
    ("no trace", |p| p.rows.is_empty()),
    ("every trace left out", |p| !p.rows.is_empty() && !some(p, |_| true)),
    ("a trace is counted behind one that is left out", |p| p.rows.windows(2).any(|two| two[0].1.is_err() && two[1].1.is_ok())),
    ("a name twice", |p| p.rows.windows(2).any(|two| two[0].0 == two[1].0)),
    ("a name with &", |p| named(p, |byte| byte == b'&')),
    ("a name with <", |p| named(p, |byte| byte == b'<')),
    ("a name with >", |p| named(p, |byte| byte == b'>')),
    ("a name with a quote", |p| named(p, |byte| byte == b'"')),
    ("a name with a backslash", |p| named(p, |byte| byte == b'\\')),
    ("a name with a byte below 32", |p| named(p, |byte| byte < 32)),
    ("a name with a byte over 126", |p| named(p, |byte| byte > 126)),
    ("a name of over 3,000 bytes", |p| p.rows.iter().any(|(name, _)| name.len() > 3_000)),
    ("left out by 17", |p| out(p, |why| *why == LeftOut::Unopened)),
    ("left out by 18", |p| out(p, |why| matches!(why, LeftOut::Unkept(_)))),
    ("left out by 18 for source 0", |p| out(p, |why| matches!(why, LeftOut::Unkept(Unkept { source: 0, .. })))),
    ("a whole trace", |p| some(p, |noted| noted.ending.0 == 0)),
    ("E 7", |p| some(p, |noted| noted.ending.0 == 7)),
    ("E 8 of a trace whose steps count", |p| some(p, |noted| noted.ending.0 == 8 && noted.used != 0)),
    ("E 9", |p| some(p, |noted| noted.ending.0 == 9)),
    ("E 10", |p| some(p, |noted| noted.ending.0 == 10)),
    ("E 11", |p| some(p, |noted| noted.ending.0 == 11)),
    ("a trace of another kind", |p| some(p, |noted| !noted.aic && noted.figures.steps > 0)),
    ("an AIC that enables no source", |p| some(p, |noted| noted.aic && noted.used == 0)),
    ("marks", |p| some(p, |noted| noted.marks > 0)),
    ("idle ends", |p| some(p, |noted| noted.idle > 0)),
    ("entries left open", |p| some(p, |noted| noted.left > 0)),
    ("a source that is shown for its use alone", |p| source(p, |n| p.table.rows[n] == Default::default())),
    ("a source that no trace enables", |p| source(p, |n| p.sheet.used >> n & 1 == 0)),
    ("a source that is left out", |p| order(&p.table, &p.sheet).len() < SOURCES),
    ("a forced source", |p| source(p, |n| n != 0 && !p.table.is_normal(n))),
    ("a name of 24 characters", |p| source(p, |n| p.names[n].len() == 24)),
    ("a level of the mark, which ties with a frame", |p| levels(p, |frames, bytes, whose| whose.is_none() && bytes > 0 && frames.last() == Some(&bytes))),
    ("a level of a source that ties with another", |p| levels(p, |frames, bytes, whose| whose.is_some() && frames.iter().rev().nth(1) == Some(&bytes))),
    ("a level of a source with a name", |p| levels(p, |_, _, whose| whose.is_some_and(|n| !p.names[n].is_empty()))),
    ("waits of which none has a bound", |p| waits(p, |waits| waits.waits > 0 && waits.most.is_none())),
    ("waits of which some have no bound", |p| waits(p, |waits| waits.most.is_some() && waits.unbounded > 0)),
    ("waits that did not end", |p| waits(p, |waits| waits.unended > 0)),
    ("the term pending", |p| term(p, 0)),
    ("the term edges", |p| term(p, 1)),
    ("the term commands", |p| term(p, 2)),
    ("the term turns", |p| term(p, 3)),
    ("the term closed while active", |p| term(p, 4)),
    ("the term remembered", |p| term(p, 5)),
    ("a bound that a later trace raises", |p| twice(p, |first, second| first.most.is_some_and(|terms| terms.sum() > 0) && second.most.map(|terms| terms.sum()) > first.most.map(|terms| terms.sum()))),
    ("equal bounds of other terms in two traces", |p| twice(p, |first, second| first.most != second.most && first.most.map(|terms| terms.sum()) == second.most.map(|terms| terms.sum()))),
    ("bounds lost in two traces", |p| twice(p, |first, second| first.unbounded > 0 && second.unbounded > 0)),
];
