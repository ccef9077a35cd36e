//! Who holds the processor, from one change to the next.
//!
//! 'While a job of a's priority or above is pending, such jobs hold the processor, ties in any order, save that lower
//! work and idling together may take up to B of the ticks of any unbroken stretch of such pending work, B being a's.
//! This holds with each task as a.'

use crate::random::Random;
use crate::simulate::plan::{Job, Plan};
use crate::table::{Table, Task};

/// Who chooses among what the rules allow.
#[derive(Clone, Copy, Debug, PartialEq, Eq)]
pub enum Chooser {
    /// Any allowed choice.
    Random,
    /// What keeps this task's jobs waiting longest: B at once, then its rivals, then itself.
    Against(usize),
    /// The same, but each B is held back at random.
    LateAgainst(usize),
}

/// Some ticks through which one task holds the processor, or none does.
#[derive(Clone, Copy, Debug, PartialEq, Eq)]
pub struct Piece {
    pub who: Option<usize>,
    pub ticks: i64,
}

/// A run: its plan, and from tick `start` on the pieces up to the plan's end. In a piece the task's jobs run in arrival
/// order.
pub struct Run {
    pub plan: Plan,
    pub start: i64,
    pub pieces: Vec<Piece>,
}

pub fn tasks(table: &Table) -> Vec<&Task> {
    table.transactions.iter().flat_map(|transaction| &transaction.tasks).collect()
}

/// The tasks with a pending job, and the greatest priority among them; −1 if there are none.
struct Pending {
    tasks: Vec<usize>,
    most: i64,
}

/// The state of the processor between two ticks.
struct State<'t> {
    tasks: Vec<&'t Task>,
    /// For each task the index of its first unfinished job and the ticks that this job still needs.
    current: Vec<(usize, i64)>,
    /// For each task as a: the ticks that lower work and idling took from the present stretch.
    taken: Vec<i64>,
}

impl State<'_> {
    fn pending(&self, plan: &Plan, tick: i64) -> Pending {
        let is_pending =
            |task: &usize| plan.jobs[*task].get(self.current[*task].0).is_some_and(|job| job.ready <= tick);
        let tasks: Vec<usize> = (0..self.tasks.len()).filter(is_pending).collect();
        let most = tasks.iter().map(|&task| self.tasks[task].priority).max().unwrap_or(-1);
        Pending { tasks, most }
    }

    /// Whether a job of the priority of task `a` or above is among the pending.
    fn is_stretch(&self, pending: &Pending, a: usize) -> bool {
        pending.most >= self.tasks[a].priority
    }

    /// The stretches of which no job is pending have ended.
    fn end_stretches(&mut self, pending: &Pending) {
        for a in 0..self.tasks.len() {
            if !self.is_stretch(pending, a) {
                self.taken[a] = 0;
            }
        }
    }

    /// Idling counts as less urgent than any work.
    fn priority(&self, choice: Option<usize>) -> i64 {
        choice.map_or(-1, |j| self.tasks[j].priority)
    }

    /// Whether the choice would take ticks from the stretch of task a.
    fn takes(&self, choice: Option<usize>, a: usize) -> bool {
        self.priority(choice) < self.tasks[a].priority
    }

    /// The least priority of an allowed choice: one below would take from a stretch whose B is used up.
    fn least_allowed(&self, pending: &Pending) -> i64 {
        let is_used_up = |a: &usize| self.is_stretch(pending, *a) && self.taken[*a] == self.tasks[*a].blocking;
        (0..self.tasks.len()).filter(is_used_up).map(|a| self.tasks[a].priority).max().unwrap_or(-1)
    }

    fn choose(&self, random: &mut Random, chooser: Chooser, pending: &Pending) -> Option<usize> {
        let mut choices: Vec<Option<usize>> = pending.tasks.iter().map(|&j| Some(j)).collect();
        choices.push(None);
        let least = self.least_allowed(pending);
        choices.retain(|&choice| self.priority(choice) >= least);
        let target = match chooser {
            Chooser::Random => return random.pick(&choices),
            Chooser::Against(a) | Chooser::LateAgainst(a) => a,
        };
        let holds_back = matches!(chooser, Chooser::LateAgainst(_)) && random.percent(60);
        let rank = |choice: Option<usize>| match choice {
            _ if !self.is_stretch(pending, target) => 1,
            _ if self.takes(choice, target) => {
                if holds_back {
                    -1
                } else {
                    2
                }
            }
            Some(j) if j == target => 0,
            _ => 1,
        };
        let best = choices.iter().map(|&choice| rank(choice)).max()?;
        choices.retain(|&choice| rank(choice) == best);
        random.pick(&choices)
    }

    /// How long the choice may last at most: nothing becomes ready or finishes before that, and no B is passed.
    fn longest(&self, pending: &Pending, choice: Option<usize>, next_change: i64) -> i64 {
        let need = choice.map_or(next_change, |task| self.current[task].1);
        let is_taken = |a: &usize| self.is_stretch(pending, *a) && self.takes(choice, *a);
        let left = (0..self.tasks.len()).filter(is_taken).map(|a| self.tasks[a].blocking - self.taken[a]).min();
        next_change.min(need).min(left.unwrap_or(next_change))
    }

    /// The piece goes by.
    fn pass(&mut self, plan: &Plan, pending: &Pending, piece: Piece) {
        for a in 0..self.tasks.len() {
            if self.is_stretch(pending, a) && self.takes(piece.who, a) {
                self.taken[a] += piece.ticks;
            }
        }
        if let Some(task) = piece.who {
            let (index, left) = &mut self.current[task];
            *left -= piece.ticks;
            if *left == 0 {
                *index += 1;
                *left = plan.jobs[task].get(*index).map_or(0, |job| job.need);
            }
        }
    }
}

/// How long a choice lasts. Who is not simply against a task may change his mind at any tick.
fn length(random: &mut Random, chooser: Chooser, longest: i64) -> i64 {
    match chooser {
        Chooser::Random | Chooser::LateAgainst(_) if random.percent(50) => random.within(1, longest),
        _ => longest,
    }
}

/// The ticks at which a job becomes ready, and the end.
fn changes(plan: &Plan) -> Vec<i64> {
    let ready = plan.jobs.iter().flatten().map(|job| job.ready);
    let mut changes: Vec<i64> = ready.filter(|&tick| tick < plan.end).chain([plan.end]).collect();
    changes.sort_unstable();
    changes.dedup();
    changes
}

/// Plays the plan. With `wide` a stretch also ends where all its jobs have finished at the edge of a tick, though the
/// next tick has new ones: more runs are then allowed than by the letter.
pub fn play(random: &mut Random, table: &Table, plan: Plan, chooser: Chooser, wide: bool) -> Run {
    let tasks = tasks(table);
    let first_need = |row: &Vec<Job>| (0, row.first().map_or(0, |job| job.need));
    let current = plan.jobs.iter().map(first_need).collect();
    let mut state = State { taken: vec![0; tasks.len()], current, tasks };
    let changes = changes(&plan);
    let mut pieces = Vec::new();
    for between in changes.windows(2) {
        let mut tick = between[0];
        while tick < between[1] {
            let pending = state.pending(&plan, tick);
            state.end_stretches(&pending);
            let who = state.choose(random, chooser, &pending);
            let ticks = length(random, chooser, state.longest(&pending, who, between[1] - tick));
            state.pass(&plan, &pending, Piece { who, ticks });
            pieces.push(Piece { who, ticks });
            tick += ticks;
            if wide {
                let left = state.pending(&plan, tick - 1);
                state.end_stretches(&left);
            }
        }
    }
    Run { plan, start: changes[0], pieces }
}
