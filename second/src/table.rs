//! The decoded table and its limits, as 'The table image' and the requests 4 and 5 of document 02 give them. Nothing here
//! knows bits.

/// One task. `times` has one execution time C for each mode of its transaction.
#[derive(Clone, Debug, PartialEq, Eq)]
pub struct Task {
    pub offset: i64,
    pub jitter: i64,
    pub blocking: i64,
    pub deadline: i64,
    pub priority: i64,
    pub times: Vec<i64>,
}

#[derive(Clone, Debug, PartialEq, Eq)]
pub struct Transaction {
    pub period: i64,
    pub modes: usize,
    pub tasks: Vec<Task>,
}

#[derive(Clone, Debug, PartialEq, Eq)]
pub struct Table {
    pub frame: i64,
    pub transactions: Vec<Transaction>,
}

impl Table {
    pub const EDITION: i64 = 1;
    pub const TRANSACTIONS: usize = 63;
    pub const TASKS: usize = 128;
    /// H, in ticks.
    pub const HORIZON: i64 = 16_777_215;
    /// In bytes.
    pub const LONGEST_IMAGE: usize = 5033;

    /// 'Tasks are numbered from 0 in image order': (transaction, task within it) of each number.
    pub fn numbered(&self) -> Vec<(usize, usize)> {
        let mut places = Vec::new();
        for (v, transaction) in self.transactions.iter().enumerate() {
            for j in 0..transaction.tasks.len() {
                places.push((v, j));
            }
        }
        places
    }

    /// The number of task j of transaction v in the whole table.
    pub fn number(&self, v: usize, j: usize) -> usize {
        self.transactions[..v].iter().map(|before| before.tasks.len()).sum::<usize>() + j
    }
}

impl Task {
    pub fn greatest_time(&self) -> i64 {
        *self.times.iter().max().expect("a time for each mode")
    }

    /// 'Its offset plus its greatest execution time': a deadline below it nobody could keep.
    pub fn least_deadline(&self) -> i64 {
        self.offset + self.greatest_time()
    }
}

impl Transaction {
    pub const MODES: usize = 8;
    pub const TASKS: usize = 16;
}
