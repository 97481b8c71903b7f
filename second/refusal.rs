//! The refusals, with their numbers and places.

#[derive(Clone, Copy, PartialEq, Eq, Debug)]
pub enum Refusal {
    AlreadyOpen,
    NotOpen,
    NoArticle,
    NoSite,
    UnknownPair,
    TooManyWrites,
    TooLate,
    /// At this offset a record is due that is not there, or not whole.
    NotDue(usize),
    Foreign,
    /// The record at this offset breaks a field rule.
    BrokenRule(usize),
    /// Bytes are left from this offset on.
    BytesLeft(usize),
    /// The interval at this offset begins above what the table has.
    Gap(usize),
    /// The interval at this offset claims own actions that never were.
    NeverCommitted(usize),
    /// The buffer has too few bytes for the offer, which has so many.
    Short(usize),
    /// The history, which has this capacity, has too few free places.
    Full(usize),
    /// The line of this number has none of the known forms.
    WrongLine(usize),
}

impl Refusal {
    pub fn number(self) -> u8 {
        match self {
            Refusal::AlreadyOpen => 2,
            Refusal::NotOpen => 3,
            Refusal::NoArticle => 4,
            Refusal::NoSite => 5,
            Refusal::UnknownPair => 6,
            Refusal::TooManyWrites => 7,
            Refusal::TooLate => 8,
            Refusal::NotDue(_) => 9,
            Refusal::Foreign => 10,
            Refusal::BrokenRule(_) => 11,
            Refusal::BytesLeft(_) => 12,
            Refusal::Gap(_) => 13,
            Refusal::NeverCommitted(_) => 14,
            Refusal::Short(_) => 15,
            Refusal::Full(_) => 16,
            Refusal::WrongLine(_) => 18,
        }
    }

    pub fn place(self) -> usize {
        match self {
            Refusal::NotDue(place)
            | Refusal::BrokenRule(place)
            | Refusal::BytesLeft(place)
            | Refusal::Gap(place)
            | Refusal::NeverCommitted(place)
            | Refusal::Short(place)
            | Refusal::Full(place)
            | Refusal::WrongLine(place) => place,
            _ => 0,
        }
    }
}
