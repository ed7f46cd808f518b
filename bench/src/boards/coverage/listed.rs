//! Everything that a transcript has to reach.

use super::{Coverage, Far, Item, Lead, Limit};
use crate::boards::Sort;
use crate::model::board::CONTROLLERS;
use crate::model::core::{Register, Role, Side};
use crate::tally::{each, Listed, Tally};

impl Listed for Coverage {
    type Item = Item;

    fn tally(&self) -> &Tally<Item> {
        &self.tally
    }

    fn wanted() -> Vec<Item> {
        let mut items: Vec<Item> = (0..=CONTROLLERS).map(Item::Controllers).collect();
        items.extend((0..CONTROLLERS as u32).map(Item::Chain));
        items.extend((0..CONTROLLERS).map(Item::Through));
        items.push(Item::Unsound);
        items.extend(answers());
        items.extend(limits());
        items.extend(configurations());
        items.extend(wires());
        items.extend(registers());
        let facts = [super::FACTS, super::situations::FACTS].concat();
        items.extend(facts.into_iter().map(Item::Fact));
        items
    }
}

/// The numbers that each sort of call can be answered by.
fn answers() -> Vec<Item> {
    let mut items = Vec::new();
    for sort in Sort::ALL {
        let numbers: &[u32] = match sort {
            Sort::Add => &[0, 6, 10],
            Sort::Connect => &[0, 6, 15],
            Sort::Write => &[0, 6, 1, 2, 4],
            Sort::Read => &[0, 6, 1, 2, 3],
            Sort::Pin | Sort::Outputs | Sort::Input | Sort::Chain => &[0, 6],
        };
        items.extend(numbers.iter().map(|&number| Item::Answered(sort, number)));
    }
    items
}

/// The limits of each sort of call, from both sides.
fn limits() -> Vec<Item> {
    let mut items = vec![
        Item::Beyond(Sort::Add, Limit::Room, Far::First),
        Item::Last(Sort::Add, Limit::Room),
    ];
    for sort in Sort::ALL {
        let limits: &[Limit] = match sort {
            Sort::Add => &[],
            Sort::Connect => &[Limit::Controller, Limit::Input, Limit::Pin],
            Sort::Pin => &[Limit::Pin, Limit::Level],
            Sort::Input => &[Limit::Controller, Limit::Input],
            Sort::Write | Sort::Read | Sort::Outputs | Sort::Chain => &[Limit::Controller],
        };
        for &limit in limits {
            items.push(Item::Beyond(sort, limit, Far::First));
            items.push(Item::Beyond(sort, limit, Far::Further));
            items.push(Item::Last(sort, limit));
            if limit == Limit::Controller {
                items.push(Item::Beyond(sort, limit, Far::Absent));
            }
        }
    }
    // No wire from the last controller is ever carried out: there is none above it.
    items.extend(each(|far| Item::Beyond(Sort::Connect, Limit::Other, far)));
    items
}

fn configurations() -> Vec<Item> {
    let mut items: Vec<Item> = (0..4).map(Item::Configuration).collect();
    items.extend([0, 1, 8].map(|count| Item::Sources(Side::Fiq, count)));
    items.extend([0, 1, 31, 32].map(|count| Item::Sources(Side::Irq, count)));
    items.extend(each(|(fiq, irq)| Item::Levels(fiq, irq)));
    items
}

/// Wires, activities, levels and what they move.
fn wires() -> Vec<Item> {
    let mut items: Vec<Item> = each(|(lead, new)| Item::Replaced(lead, new)).collect();
    items.extend(each(|(lead, spot)| Item::Wired(lead, spot)));
    let asked = each(|(lead, spot, high)| Item::Asked(lead, spot, high));
    items.extend(asked.filter(|item| !matches!(item, Item::Asked(Lead::Nothing, _, true))));
    items.extend(each(|(side, up, spot)| Item::NotLower(side, up, spot)));
    items.extend(each(|(side, level, on)| Item::Activity(side, level, on)));
    items.extend(each(|(side, level, on)| Item::Output(side, level, on)));
    for sort in [Sort::Connect, Sort::Pin, Sort::Write] {
        items.extend(each(|on| Item::Moved(sort, on)));
    }
    items
}

/// Every register with what an access to it can be answered.
fn registers() -> Vec<Item> {
    let mut items = Vec::new();
    for register in (0..0x30).step_by(4).filter_map(Register::at) {
        items.push(Item::Accessed(register, true, 0));
        match register.role {
            Role::Raw | Role::Status => {
                items.push(Item::Accessed(register, false, 4));
                let leads = [Lead::Pin, Lead::Irq, Lead::Fiq];
                items.extend(leads.map(|lead| Item::Shown(register, lead)));
            }
            Role::SoftClear | Role::EnableClear => {
                items.push(Item::Accessed(register, true, 3));
                items.push(Item::Accessed(register, false, 0));
            }
            Role::Soft | Role::Enable => items.push(Item::Accessed(register, false, 0)),
        }
    }
    items
}
