//! What a case's label promises.

/// What is known of the answer beforehand.
#[derive(Clone, Copy, Debug, PartialEq, Eq)]
pub enum Expect {
    Accepted,
    Refusal(u64),
    Any,
}

impl Expect {
    pub fn of(refusal: u64) -> Expect {
        match refusal {
            0 => Expect::Accepted,
            n => Expect::Refusal(n),
        }
    }

    pub fn label(self) -> String {
        match self {
            Expect::Accepted => "accepted:".into(),
            Expect::Refusal(n) => format!("{n}:"),
            Expect::Any => "any:".into(),
        }
    }
}
