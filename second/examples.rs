//! The worked examples of the rules: kinds, set-ups and the calls of a table.

use crate::kind::{Kind, Pair};
use crate::reader::{self, Frame};
use crate::refusal::Refusal;
use crate::selftest::Checks;
use crate::table::Table;

pub fn run(checks: &mut Checks) {
    kinds(checks);
    frames(checks);
    table_calls(checks);
    price_out_of_order(checks);
    two_sections(checks);
}

fn pair(operation: u8, amount: i32) -> Pair {
    Pair { operation, amount }
}

type Pairs = &'static [(u8, i32)];

fn kinds(checks: &mut Checks) {
    let worked: [(Kind, i64, Pairs, i64); 17] = [
        (
            Kind::OnHand,
            0,
            &[(1, 1000), (1, 500), (1, -200), (1, -200)],
            1_100,
        ),
        (Kind::OnHand, 0, &[(1, -5)], -5),
        (Kind::OnHand, i64::MAX, &[(1, 1)], i64::MIN),
        (Kind::OnHand, i64::MIN, &[(1, -1)], i64::MAX),
        (Kind::OnHand, 7, &[(1, 1_000_001)], 7),
        (Kind::OnHand, 7, &[(2, 1)], 7),
        (Kind::Flags, 5, &[(1, 6)], 7),
        (Kind::Flags, -8, &[(1, 1)], -7),
        (Kind::Flags, 5, &[(1, 0)], 5),
        (Kind::Price, 0, &[(1, 10_000), (2, 50)], 10_500),
        (Kind::Price, 0, &[(2, 50), (1, 10_000)], 10_000),
        (Kind::Price, 333, &[(2, 15)], 337),
        (Kind::Price, 1, &[(2, -500)], 0),
        (Kind::Price, 99_999_999, &[(2, 1)], 99_999_999),
        (Kind::Price, -7, &[(2, 500)], 0),
        (Kind::Price, 200_000_000, &[(2, -500)], 49_999_999),
        (Kind::Price, -7, &[(2, 501)], -7),
    ];
    for (kind, start, pairs, wanted) in worked {
        let figure = pairs.iter().fold(start, |figure, (operation, amount)| {
            kind.step(figure, pair(*operation, *amount))
        });
        checks.same(&format!("{kind:?} {start} {pairs:?}"), figure, wanted);
    }
}

fn frames(checks: &mut Checks) {
    for (numbers, lawful) in [
        ((1, 1, 2, 1), true),
        ((65_535, 3, 8, 64), true),
        ((0, 1, 3, 4), false),
        ((65_536, 1, 3, 4), false),
        ((1, 0, 3, 4), false),
        ((1, 4, 3, 4), false),
        ((1, 257, 3, 4), false),
        ((1, 1, 1, 4), false),
        ((1, 1, 9, 4), false),
        ((1, 1, 258, 4), false),
        ((1, 1, 3, 0), false),
        ((1, 1, 3, 65), false),
    ] {
        let (group, kind, sites, articles) = numbers;
        let frame = Frame::new(group, kind, sites, articles);
        checks.same(&format!("set-up {numbers:?}"), frame.is_some(), lawful);
    }
}

const ON_HAND: Frame = Frame {
    group: 1,
    kind: Kind::OnHand,
    sites: 3,
    articles: 4,
};
const PRICES: Frame = Frame {
    group: 300,
    kind: Kind::Price,
    sites: 3,
    articles: 8,
};

/// Commits the writes as one transaction and answers its message, empty if there is none.
fn commit(table: &mut Table, writes: &[(u8, Pair)]) -> Result<Vec<u8>, Refusal> {
    table.open()?;
    for (article, pair) in writes {
        if let Err(refusal) = table.write(*article, *pair) {
            table.abandon()?;
            return Err(refusal);
        }
    }
    match table.commit(600) {
        Ok(commit) => Ok(commit.message.unwrap_or_default()),
        Err(refusal) => {
            table.abandon()?;
            Err(refusal)
        }
    }
}

fn table_calls(checks: &mut Checks) {
    let mut table = Table::new(ON_HAND, 0, 64);
    checks.same(
        "write without open",
        table.write(0, pair(1, 1)),
        Err(Refusal::NotOpen),
    );
    checks.same(
        "abandon without open",
        table.abandon(),
        Err(Refusal::NotOpen),
    );
    checks.same("open", table.open(), Ok(()));
    checks.same("open twice", table.open(), Err(Refusal::AlreadyOpen));
    checks.same(
        "take while open",
        table.take(&[]),
        Err(Refusal::AlreadyOpen),
    );
    checks.same(
        "unknown pair",
        table.write(0, pair(1, 1_000_001)),
        Err(Refusal::UnknownPair),
    );
    checks.same(
        "no article",
        table.write(4, pair(1, 1_000_001)),
        Err(Refusal::NoArticle),
    );
    for time in 1..=16 {
        checks.same("write", table.write(0, pair(1, 1)), Ok(time));
    }
    checks.same(
        "seventeenth write",
        table.write(0, pair(1, 1)),
        Err(Refusal::TooManyWrites),
    );
    checks.same("figure while open", table.figure(0), Ok(0));
    let committed = table
        .commit(6 + 15 + 16 * 16 - 1)
        .map(|commit| (commit.actions, commit.message));
    checks.same("commit into a short buffer", committed, Ok((16, None)));
    checks.same("figure", table.figure(0), Ok(16));
    checks.same("clock", table.clock(), 16);
    checks.same(
        "commit of no writes",
        commit(&mut table, &[]),
        Ok(Vec::new()),
    );
    for _ in 0..47 {
        checks.check(commit(&mut table, &[(0, pair(1, 0))]).is_ok(), || {
            "commit".to_string()
        });
    }
    let two = [(0, pair(1, 1)), (0, pair(1, 1))];
    checks.same(
        "63 of 64 in use",
        commit(&mut table, &two),
        Err(Refusal::Full(64)),
    );
    checks.same(
        "known(4, 9, 9)",
        table.known(4, 9, 9),
        Err(Refusal::NoArticle),
    );
    checks.same("known(0, 0, 3)", table.known(0, 0, 3), Err(Refusal::NoSite));
    checks.same("take of no bytes", table.take(&[]), Err(Refusal::NotDue(0)));
    checks.same("own open item", table.open_item(0, 0), Ok(false));

    let mut one = Table::new(ON_HAND, 0, 64);
    checks.check(commit(&mut one, &[(0, pair(1, 1))]).is_ok(), || {
        "commit".to_string()
    });
    checks.same("short offer", one.offer(2, 0, 56), Err(Refusal::Short(57)));
    checks.same(
        "offer",
        one.offer(2, 0, 57).map(|bytes| bytes.len()),
        Ok(57),
    );
    let mut late = Table::new(ON_HAND, 0, 64);
    let last = hex("48 0001 01 01 01 53 00 01 0000 49 01 00000000 EE6B2800");
    checks.same("take up to the last time", late.take(&last), Ok(0));
    checks.same(
        "write after it",
        commit(&mut late, &[(0, pair(1, 1))]),
        Err(Refusal::TooLate),
    );
    let claim = hex("48 0001 01 01 01 53 00 01 0000 49 00 00000000 00000001");
    checks.same(
        "claim of own actions",
        late.take(&claim),
        Err(Refusal::NeverCommitted(11)),
    );
    let gap = hex("48 0001 01 01 01 53 01 02 0000 49 00 00000000 00000000 49 01 00000001 00000001");
    checks.same("gap", late.take(&gap), Err(Refusal::Gap(21)));
}

fn price_out_of_order(checks: &mut Checks) {
    let mut table = Table::new(PRICES, 2, 64);
    let early = hex("48 012C 03 00 01 53 00 01 0002 49 00 00000000 00000003
        41 00 00000001 00000001 00 01 00002710 41 00 00000003 00000003 00 02 00000032");
    checks.same("prices of site 0", table.take(&early), Ok(2));
    checks.same("price", table.figure(0), Ok(10_500));
    let between = hex("48 012C 03 01 01 53 00 01 0001 49 01 00000000 00000002
        41 01 00000002 00000002 00 01 00004E20");
    checks.same("price of site 1", table.take(&between), Ok(1));
    checks.same("price again", table.figure(0), Ok(21_000));
    let times: Vec<u32> = table.history().map(|action| action.moment.time).collect();
    checks.same("times", times, vec![1, 2, 3]);
}

fn two_sections(checks: &mut Checks) {
    let mut table = Table::new(PRICES, 1, 64);
    let set = pair(1, 1);
    let mut before: Vec<(u8, Pair)> = vec![(5, set); 7];
    before.extend([(0, set), (0, set)]);
    checks.check(commit(&mut table, &before).is_ok(), || {
        "nine writes".to_string()
    });
    let writes = [(5, pair(1, 10_000)), (2, pair(1, 250)), (5, pair(2, -50))];
    let wanted = hex("48 01 2C 03 01 02
        53 02 01 00 01 49 01 00 00 00 00 00 00 00 0B
        41 01 00 00 00 0B 00 00 00 0A 02 01 00 00 00 FA
        53 05 01 00 02 49 01 00 00 00 07 00 00 00 0C
        41 01 00 00 00 0A 00 00 00 0A 05 01 00 00 27 10
        41 01 00 00 00 0C 00 00 00 0A 05 02 FF FF FF CE");
    checks.same(
        "message of two sections",
        commit(&mut table, &writes),
        Ok(wanted.clone()),
    );
    let count = reader::read(&wanted, &PRICES).map(|message| message.action_count());
    checks.same("two sections read", count, Ok(3));
}

/// The bytes of a hexadecimal text; anything else than digits is passed over.
pub fn hex(text: &str) -> Vec<u8> {
    let digits: Vec<u8> = text
        .chars()
        .filter_map(|digit| digit.to_digit(16))
        .map(|digit| digit as u8)
        .collect();
    digits
        .chunks(2)
        .map(|two| two.iter().fold(0, |byte, digit| byte << 4 | digit))
        .collect()
}
