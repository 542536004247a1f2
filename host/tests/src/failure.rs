//! Why a run ends early, in words for whoever has to find out why.

use std::fmt;

pub struct Failure {
    /// The group of calls that met it, where it was one.
    pub group: &'static str,
    /// Whether the library has given an answer, which then is a wrong one.
    pub answered: bool,
    why: String,
}

pub type Checked<T> = Result<T, Failure>;

impl Failure {
    /// Something is not as it should be.
    pub fn wrong(why: String) -> Failure {
        Failure {
            group: "",
            answered: true,
            why,
        }
    }

    /// The driver does not start, or it has ended.
    pub fn no_answer(why: String) -> Failure {
        Failure {
            answered: false,
            ..Failure::wrong(why)
        }
    }

    pub fn met_in(self, group: &'static str) -> Failure {
        Failure { group, ..self }
    }
}

impl fmt::Display for Failure {
    fn fmt(&self, to: &mut fmt::Formatter<'_>) -> fmt::Result {
        match self.group {
            "" => write!(to, "{}", self.why),
            group => write!(to, "{group}: {}", self.why),
        }
    }
}
