//! The three kinds of figure: which pairs they know and what a pair does.

/// What an action does to a figure.
#[derive(Clone, Copy, PartialEq, Eq, Debug)]
pub struct Pair {
    pub operation: u8,
    pub amount: i32,
}

/// One operation that a kind knows, with the amounts that go with it.
#[derive(Clone, Copy, PartialEq, Eq, Debug)]
pub struct Operation {
    pub number: u8,
    pub least: i32,
    pub most: i32,
}

#[derive(Clone, Copy, PartialEq, Eq, Debug)]
pub enum Kind {
    OnHand,
    Flags,
    Price,
}

const HIGHEST_PRICE: i64 = 99_999_999;

const ADD: Operation = Operation {
    number: 1,
    least: -1_000_000,
    most: 1_000_000,
};
const SWITCH_ON: Operation = Operation {
    number: 1,
    least: 1,
    most: 16_777_215,
};
const SET_PRICE: Operation = Operation {
    number: 1,
    least: 0,
    most: HIGHEST_PRICE as i32,
};
const CHANGE_PRICE: Operation = Operation {
    number: 2,
    least: -500,
    most: 500,
};

impl Kind {
    pub const ALL: [Kind; 3] = [Kind::OnHand, Kind::Flags, Kind::Price];

    pub fn from_number(number: u32) -> Option<Kind> {
        Kind::ALL
            .into_iter()
            .find(|kind| u32::from(kind.number()) == number)
    }

    pub fn number(self) -> u8 {
        match self {
            Kind::OnHand => 1,
            Kind::Flags => 2,
            Kind::Price => 3,
        }
    }

    pub fn start(self) -> i64 {
        0
    }

    pub fn operations(self) -> &'static [Operation] {
        match self {
            Kind::OnHand => &[ADD],
            Kind::Flags => &[SWITCH_ON],
            Kind::Price => &[SET_PRICE, CHANGE_PRICE],
        }
    }

    pub fn knows(self, pair: Pair) -> bool {
        self.operations().iter().any(|operation| {
            operation.number == pair.operation
                && (operation.least..=operation.most).contains(&pair.amount)
        })
    }

    pub fn step(self, figure: i64, pair: Pair) -> i64 {
        if !self.knows(pair) {
            return figure;
        }
        let amount = i64::from(pair.amount);
        match (self, pair.operation) {
            (Kind::OnHand, _) => figure.wrapping_add(amount),
            (Kind::Flags, _) => figure | amount,
            (Kind::Price, 1) => amount,
            (Kind::Price, _) => {
                let held = figure.clamp(0, HIGHEST_PRICE);
                (held * (1000 + amount) / 1000).min(HIGHEST_PRICE)
            }
        }
    }
}
