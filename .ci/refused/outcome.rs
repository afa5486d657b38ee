//! How a run ends.
use h5_serialize::SerializeFault;
use h5_token::BuildFault;

/// How a run ends that comes to its end.
#[derive(Clone, Copy, Debug, PartialEq, Eq)]
pub enum Outcome {
    /// As where nothing is refused.
    Whole,
    /// The same, but the text of an error found no memory.
    ErrorLost,
    /// A call was answered `Memory`, and each later one `Failed`.
    Refused,
    /// Otherwise.
    Wrong,
}

impl Outcome {
    /// This outcome where that holds, which has to.
    pub fn where_holds(self, holds: bool) -> Outcome {
        if holds { self } else { Outcome::Wrong }
    }

    /// The outcome after one more call of a builder, a reader or a parser.
    pub fn after(self, answer: Result<(), BuildFault>) -> Outcome {
        match (self, answer) {
            (Outcome::Whole, Ok(())) => Outcome::Whole,
            (Outcome::Whole, Err(BuildFault::Memory)) => Outcome::Refused,
            (Outcome::Refused, Err(BuildFault::Failed)) => Outcome::Refused,
            _ => Outcome::Wrong,
        }
    }

    /// The outcome after one more call of a serializer, which is answered like this where nothing is refused.
    pub fn after_call(
        self,
        answer: Result<(), SerializeFault>,
        expected: Result<(), SerializeFault>,
    ) -> Outcome {
        match (self, answer) {
            (Outcome::Whole, Err(SerializeFault::Memory)) => Outcome::Refused,
            (Outcome::Refused, Err(SerializeFault::Failed)) => Outcome::Refused,
            (Outcome::Whole, _) => Outcome::Whole.where_holds(answer == expected),
            _ => Outcome::Wrong,
        }
    }
}

/// An answer without its value.
pub fn bare<T: Drop>(answer: Result<T, BuildFault>) -> Result<(), BuildFault> {
    match answer {
        Ok(_value) => Ok(()),
        Err(fault) => Err(fault),
    }
}
