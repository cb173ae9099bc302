//! What the desk replies, and the line that the terminal writes for it.

use std::fmt;

/// The replies from 3 up, under the paper's numbers.
#[derive(Debug, Clone, Copy, PartialEq, Eq)]
#[repr(u8)]
pub enum Fault {
    EmptyChain = 3,
    UnknownEdition = 4,
    TooLong = 5,
    CutShort = 6,
    BadCount = 7,
    BadValue = 8,
    LeftOver = 9,
    NoRoom = 10,
}

#[derive(Debug, Clone, PartialEq, Eq)]
pub enum Reply {
    Accepted {
        steps: u64,
        root: usize,
        path: Vec<usize>,
    },
    Refused {
        steps: u64,
    },
    Exhausted {
        steps: u64,
    },
    Fault(Fault),
}

impl Reply {
    /// The reply's number in the paper's table.
    pub fn number(&self) -> u8 {
        match self {
            Reply::Accepted { .. } => 0,
            Reply::Refused { .. } => 1,
            Reply::Exhausted { .. } => 2,
            Reply::Fault(fault) => *fault as u8,
        }
    }

    /// The steps taken, 0 in every reply from 3 up.
    pub fn steps(&self) -> u64 {
        match self {
            Reply::Accepted { steps, .. } => *steps,
            Reply::Refused { steps } => *steps,
            Reply::Exhausted { steps } => *steps,
            Reply::Fault(_) => 0,
        }
    }
}

impl fmt::Display for Reply {
    fn fmt(&self, f: &mut fmt::Formatter) -> fmt::Result {
        match self {
            Reply::Accepted { steps, root, path } => {
                write!(f, "ACCEPT steps {steps} root {root} path")?;
                path.iter().try_for_each(|place| write!(f, " {place}"))
            }
            Reply::Refused { steps } => write!(f, "REFUSE steps {steps}"),
            Reply::Exhausted { steps } => write!(f, "EXHAUSTED steps {steps}"),
            Reply::Fault(fault) => write!(f, "ERROR {}", *fault as u8),
        }
    }
}
