//! The worked examples of messages, of reading them, and of scripts.

use crate::examples::hex;
use crate::reader::{Answer, Question};
use crate::refusal::Refusal;
use crate::script::{self, Program};
use crate::selftest::Checks;

pub fn run(checks: &mut Checks) {
    reading(checks);
    the_script(checks);
    single_lines(checks);
    inputs(checks);
}

const FIRST: &str = "48 00 01 01 00 01 53 00 01 00 01 49 00 00 00 00 00 00 00 00 01
    41 00 00 00 00 01 00 00 00 01 00 01 00 00 03 E8";
const SECOND: &str = "48 00 01 01 00 01 53 00 03 00 02
    49 00 00 00 00 00 00 00 00 02 49 01 00 00 00 00 00 00 00 00
    49 02 00 00 00 00 00 00 00 00
    41 00 00 00 00 01 00 00 00 01 00 01 00 00 03 E8
    41 00 00 00 00 02 00 00 00 02 00 01 00 00 01 F4";
const THIRD: &str = "48 00 01 01 02 01 53 00 03 00 01
    49 00 00 00 00 02 00 00 00 02 49 01 00 00 00 00 00 00 00 00
    49 02 00 00 00 00 00 00 00 02
    41 02 00 00 00 02 00 00 00 02 00 01 FF FF FF 38";

fn reading(checks: &mut Checks) {
    let bytes = hex(FIRST);
    let mut longer = bytes.clone();
    longer.push(0x41);
    let refused = Answer::Refused;
    let mut cases = vec![
        (bytes.clone(), Answer::Granted(1)),
        (Vec::new(), refused(Refusal::NotDue(0))),
        (longer, refused(Refusal::BytesLeft(37))),
    ];
    for (length, place) in [(36, 21), (21, 21), (20, 11)] {
        cases.push((
            bytes.iter().copied().take(length).collect(),
            refused(Refusal::NotDue(place)),
        ));
    }
    let edits: [(&[(usize, u8)], Refusal); 11] = [
        (&[(6, 0x49)], Refusal::NotDue(6)),
        (&[(1, 0), (2, 2), (4, 3)], Refusal::Foreign),
        (&[(2, 2), (5, 0)], Refusal::Foreign),
        (&[(5, 0)], Refusal::BrokenRule(0)),
        (&[(4, 3)], Refusal::BrokenRule(0)),
        (&[(7, 4)], Refusal::BrokenRule(6)),
        (&[(8, 0)], Refusal::BrokenRule(6)),
        (&[(16, 2)], Refusal::BrokenRule(11)),
        (&[(26, 2)], Refusal::BrokenRule(21)),
        (
            &[(33, 0), (34, 0x0F), (35, 0x42), (36, 0x41)],
            Refusal::BrokenRule(21),
        ),
        (&[(10, 0)], Refusal::BytesLeft(21)),
    ];
    for (edit, refusal) in edits {
        let mut changed = bytes.clone();
        for (place, value) in edit {
            if let Some(there) = changed.get_mut(*place) {
                *there = *value;
            }
        }
        cases.push((changed, refused(refusal)));
    }
    for (bytes, wanted) in cases {
        let about = format!("reading {bytes:02X?}");
        let question = Question {
            group: 1,
            kind: 1,
            sites: 3,
            articles: 4,
            bytes,
        };
        checks.same(&about, question.answer(), wanted);
    }
}

fn the_script(checks: &mut Checks) {
    let lines = [
        ("M00+0010000", "M 1"),
        ("T10", "T 1"),
        ("T20", "T 1"),
        ("M00+0005001", "M 2"),
        ("T11", "T 1"),
        ("M20-0002002", "M 2"),
        ("O0203", "O 73"),
        ("T23", "T 1"),
        ("T23", "T 0"),
        ("F20", "F 1300"),
        ("O2004", "O 57"),
        ("T04", "T 1"),
        ("T14", "T 1"),
        ("F10", "F 1300"),
        ("P020", "P 0"),
        ("P010", "P 1"),
        ("T05", "T refused 9"),
    ];
    let mut program = Program::new();
    for (number, (line, wanted)) in lines.into_iter().enumerate() {
        let printed = program.run_line(line.as_bytes()).to_string();
        checks.same(&format!("line {number} {line}"), printed.as_str(), wanted);
    }
    for (slot, message) in [(0, FIRST), (3, SECOND), (4, THIRD)] {
        checks.same(
            &format!("slot {slot}"),
            program.slot(slot),
            &hex(message)[..],
        );
    }
    let later = ["F00", "F10", "F20"].map(|line| program.run_line(line.as_bytes()).to_string());
    checks.same(
        "all figures",
        later,
        ["F 1300", "F 1300", "F 1300"].map(String::from),
    );
}

fn single_lines(checks: &mut Checks) {
    let lines = [
        ("M00-0000019", "M 1"),
        ("M04+0000010", "M refused 4"),
        ("M30+0000010", "? refused 18"),
        ("M00+000001", "? refused 18"),
        ("M00 0000010", "? refused 18"),
        ("O0000", "O 41"),
        ("O0300", "O refused 5"),
        ("O0990", "O refused 4"),
        ("F03", "F 0"),
        ("F04", "F refused 4"),
        ("F00\r", "? refused 18"),
        ("f00", "? refused 18"),
        ("P030", "P refused 5"),
        ("P900", "? refused 18"),
        ("", "? refused 18"),
    ];
    for (line, wanted) in lines {
        let sheet = script::sheet(&script::run(format!("{line}\n").as_bytes()));
        checks.same(
            &format!("single line {line:?}"),
            sheet,
            format!("{wanted}\n").into_bytes(),
        );
    }
}

fn inputs(checks: &mut Checks) {
    let count = |input: &[u8]| script::run(input).len();
    checks.same("no bytes", count(b""), 0);
    checks.same("one empty line", count(b"\n"), 1);
    checks.same("two empty lines", count(b"\n\n"), 2);
    checks.same("no end", count(b"F00\nF00"), 2);
    checks.same("an end", count(b"F00\nF00\n"), 2);
    let mut long = vec![b'x'; 32_764];
    long.extend(b"\nF00\nF00\n");
    checks.same("cut after a line", count(&long), 2);
    let sheet = script::sheet(&script::run(&long));
    checks.same("cut line", sheet, b"? refused 18\nF 0\n".to_vec());
    checks.same(
        "a line end as the last byte",
        count(&[&[b'x'; 32_767][..], b"\nF00"].concat()),
        1,
    );
}
