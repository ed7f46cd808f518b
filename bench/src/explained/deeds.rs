//! What a step did beside what it wrote: entries, what is remembered, hosts, inputs that are chosen, and the outputs.

use super::places::accessed;
use super::Told;
use crate::model::aic::{Aic, Selection};
use crate::model::aintc::{Aintc, Side};
use crate::model::cic::Cic;
use crate::model::{Machine, Step};

/// What a step did, each deed led by a semicolon; a refused one did nothing.
pub fn deeds(told: &Told) -> String {
    let done = match (told.before, told.after) {
        _ if told.answer.is_err() => vec![],
        (Machine::Aic(before), Machine::Aic(after)) => of_aic(told, before, after),
        (Machine::Cic(before), Machine::Cic(after)) => of_hosts(before, after),
        (Machine::Indexed(before), Machine::Indexed(after)) => of_hosts(before.cic(), after.cic()),
        (Machine::Aintc(before), Machine::Aintc(after)) => of_aintc(before, after),
        _ => vec![],
    };
    led(done)
}

fn led(done: Vec<String>) -> String {
    done.iter().map(|deed| format!("; {deed}")).collect()
}

/// An entry more or less, and what is remembered.
fn of_aic(told: &Told, before: &Aic, after: &Aic) -> Vec<String> {
    let mut done = Vec::new();
    let (old, new) = (before.entries(), after.entries());
    if new.len() > old.len() {
        let entry = new[new.len() - 1];
        done.push(match (entry.source, entry.level) {
            (Some(source), Some(level)) => format!("starts source {source} at level {level}"),
            _ => "opens a mark".to_owned(),
        });
    } else if new.len() < old.len() {
        done.push(match old[old.len() - 1].source {
            Some(source) => format!("closes source {source}"),
            None => "closes a mark".to_owned(),
        });
    } else if old.is_empty() && closes(told) {
        done.push("nothing open".to_owned());
    }
    if before.remembered() != after.remembered() {
        done.push(match after.remembered() {
            Some(Selection::Source { number, .. }) => format!("remembers source {number}"),
            Some(Selection::Nobody) => "remembers no source".to_owned(),
            None => "forgets".to_owned(),
        });
    }
    done
}

/// Whether the step is a write of EOICR.
fn closes(told: &Told) -> bool {
    let name = accessed(told.before, told.recorded.step).map(|register| register.group.name);
    matches!(told.recorded.step, Step::Write { .. }) && name == Some("EOICR")
}

/// Hosts that are asserted now and were not, then those that were and are not.
fn of_hosts(before: &Cic, after: &Cic) -> Vec<String> {
    let (old, new) = (before.asserted(), after.asserted());
    let hosts = || 0..after.hosts();
    let come: Vec<usize> = hosts().filter(|&n| new.get(n) && !old.get(n)).collect();
    let gone: Vec<usize> = hosts().filter(|&n| old.get(n) && !new.get(n)).collect();
    let told = [("asserts", come), ("ends", gone)];
    let told = told.iter().filter_map(|(verb, hosts)| match hosts[..] {
        [] => None,
        [host] => Some(format!("{verb} host {host}")),
        [host, ref more @ ..] => Some(format!("{verb} host {host} and {} more", more.len())),
    });
    told.collect()
}

/// What each side is busy with now and was not.
fn of_aintc(before: &Aintc, after: &Aintc) -> Vec<String> {
    let mut done = Vec::new();
    for (side, name) in [(Side::Irq, "IRQ"), (Side::Fiq, "FIQ")] {
        let number = |aintc: &Aintc| aintc.chosen(side).map(|chosen| chosen.number);
        match (number(before), number(after)) {
            (old, Some(new)) if old != Some(new) => {
                done.push(format!("chooses input {new} for {name}"));
            }
            (Some(_), None) => done.push(format!("frees {name}")),
            _ => {}
        }
    }
    done
}

/// The outputs that the step changed; those of a CIC are its hosts.
pub fn outputs(told: &Told) -> String {
    if matches!(told.before, Machine::Cic(_) | Machine::Indexed(_)) {
        return String::new();
    }
    let (old, new) = (told.before.shown(), told.after.shown());
    let changed = ["IRQ", "FIQ"].into_iter().zip(old.into_iter().zip(new));
    let changed = changed.filter(|(_, (old, new))| old != new);
    let told = changed.map(|(name, (_, new))| match new {
        0 => format!("{name} inactive"),
        _ => format!("{name} active"),
    });
    led(told.collect())
}
