//! Cases of all kinds: the images and budgets of the others, with questions for cells, parts and charges.

use crate::generate::case;
use crate::image::read;
use crate::interference::{phase, Charging};
use crate::random::Random;
use crate::stream::{Asked, Question};
use crate::table::{Table, Transaction};

pub fn asked(seed: u64, index: u64) -> Asked {
    let asked = case(seed, index).asked();
    let Question::Cells { budget } = asked.question else { unreachable!("it asks for cells") };
    // Other numbers than those that the case was drawn from.
    let random = &mut Random::of(!seed, index);
    let question = match random.within(1, 100) {
        1..=10 => Question::Cells { budget },
        11..=50 => Question::Parts { budget },
        _ => charge(random, read(&asked.image).ok().as_ref()),
    };
    Asked { question, ..asked }
}

fn charge(random: &mut Random, table: Option<&Table>) -> Question {
    let charging = random.pick(&[Charging::Imposed, Charging::Released]);
    let (any, other) = (random.next() as u8, random.next() as u8);
    let Some(table) = table else {
        return Question::Charge { task: any, transaction: other, charging, t: random.next() as u32 };
    };
    let (tasks, transactions) = (table.numbered().len(), table.transactions.len());
    let (number, v) = pair(random, table);
    let task = if random.percent(4) { random.pick(&[tasks as u8, any]) } else { number as u8 };
    let transaction = if random.percent(4) { random.pick(&[transactions as u8, other]) } else { v as u8 };
    Question::Charge { task, transaction, charging, t: at(random, &table.transactions[v]) }
}

/// A task, of three the least urgent, and a transaction, of three one that is not its own, if there is one among them.
fn pair(random: &mut Random, table: &Table) -> (usize, usize) {
    let numbered = table.numbered();
    let urgency = |number: &usize| {
        let (u, a) = numbered[*number];
        table.transactions[u].tasks[a].priority
    };
    let number = [0; 3].map(|_| random.below(numbered.len())).into_iter().min_by_key(urgency).expect("three");
    let drawn = [0; 3].map(|_| random.below(table.transactions.len()));
    (number, drawn.into_iter().find(|&v| v != numbered[number].0).unwrap_or(drawn[0]))
}

/// Mostly where a charge turns: at phases and a time after them, whole periods later, and at the ends of the fields.
fn at(random: &mut Random, transaction: &Transaction) -> u32 {
    let period = transaction.period;
    let [j, c] = [0; 2].map(|_| &transaction.tasks[random.below(transaction.tasks.len())]);
    let phase = phase(period, j, c);
    let time = random.pick(&j.times);
    let some_periods = period * random.within(0, 3);
    let any = random.next() as u32;
    let most_periods = period * (any as i64 / period);
    let start = match random.within(1, 10) {
        1 => return random.pick(&[0, 1]),
        2 => return random.pick(&[u32::MAX, u32::MAX - 1, 1 << 31, any]),
        3 => random.pick(&[1 << 24, period, 2 * period]),
        4 => random.within(0, 3 * period),
        5 => most_periods,
        6 => most_periods + phase,
        7 => most_periods + phase + time,
        8 => some_periods + phase + time,
        _ => some_periods + phase,
    };
    (start + random.within(-1, 1)).clamp(0, u32::MAX as i64) as u32
}
