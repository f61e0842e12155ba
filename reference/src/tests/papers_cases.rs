//! The cases of document 01, starred and not.

use super::*;
use crate::special::*;

/// "it prints ...": the text of document 01, byte for byte.
#[test]
fn the_schedule() {
    let expected = "kiosk front price 40 3 1,2,4\nkiosk front screens 2 2 4,5\nsteps 4\n";
    assert_eq!(printed("desk", &whole_schedule(false)), expected);
}

/// "with peak true the price is 55 with 2,3,4"; the branch's assignment is a
/// fifth step.
#[test]
fn the_schedule_with_peak_true() {
    let lines = [
        "kiosk front price 55 3 2,3,4",
        "kiosk front screens 2 2 4,5",
        "steps 5",
    ];
    check(whole_schedule(true), &lines);
}

/// "Limit 4 accepts it; 3 is refused 6 at the resource." One entry of 39 bytes,
/// two integer attributes of 48 bytes.
#[test]
fn limits_4_and_3() {
    let accepted = Answer::Catalog {
        length: 135,
        steps: 4,
    };
    assert_eq!(answer_limited(&whole_schedule(false), 4), accepted);
    refuse_limited(whole_schedule(false), 3, 6, "kiosk");
}

/// The catalog's bytes, written out from "The catalog" and reading 24. The
/// table is fee 0, front 1, kiosk 2, peak 3, price 4, screens 5.
#[test]
fn the_schedule_in_bytes() {
    let (answer, bytes) = Case::of(whole_schedule(false).build().bytes)
        .compile()
        .expect("clean");
    assert_eq!(
        answer,
        Answer::Catalog {
            length: 135,
            steps: 4
        }
    );
    let labels = |first: u8| {
        let mut set = vec![0; 32];
        set[0] = first;
        set
    };
    let mut expected = vec![0x40, 0, 132, 0, 2, 0, 1];
    expected.extend(labels(0b0001_0000)); // label 4
    expected.extend([0x41, 0, 45, 0, 4]);
    expected.extend(labels(0b0001_0110)); // labels 1, 2, 4
    expected.extend([0x42, 0, 8, 0, 0, 0, 0, 0, 0, 0, 40]);
    expected.extend([0x41, 0, 45, 0, 5]);
    expected.extend(labels(0b0011_0000)); // labels 4, 5
    expected.extend([0x42, 0, 8, 0, 0, 0, 0, 0, 0, 0, 2]);
    assert_eq!(bytes, expected);
}

/// "−7 / 2 and 7 / −2 are −4"; the operands' labels 2 and 3 and the title's 1.
#[test]
fn division_rounds_downward() {
    for (left, right) in [(-7, 2), (7, -2)] {
        check(
            arithmetic(DIVIDE, left, right),
            &["kiosk front result -4 3 1,2,3", "steps 1"],
        );
    }
}

/// Exact quotients and equal signs need no correction: −8 / 2 = −4, −7 / −2 =
/// 3, 7 / 2 = 3, least / 1 = least, and least / 2 is half of it.
#[test]
fn division_without_correction() {
    let quotients = [
        (-8, 2, "-4"),
        (-7, -2, "3"),
        (7, 2, "3"),
        (0, -5, "0"),
        (-1, 2, "-1"),
        (i64::MIN, 1, "-9223372036854775808"),
        (i64::MIN, 2, "-4611686018427387904"),
        (i64::MAX, -1, "-9223372036854775807"),
        (i64::MIN, i64::MAX, "-2"),
    ];
    for (left, right, quotient) in quotients {
        let line = format!("kiosk front result {quotient} 3 1,2,3");
        check(arithmetic(DIVIDE, left, right), &[&line, "steps 1"]);
    }
}

/// "least / −1 is 16; 0 / 0 is 17; largest + 1 is 16", at the operator. least −
/// 1 leaves 64 bits too.
#[test]
fn arithmetic_refusals() {
    refuse(arithmetic(DIVIDE, i64::MIN, -1), 16, "operator");
    refuse(arithmetic(DIVIDE, 0, 0), 17, "operator");
    refuse(arithmetic(ADD, i64::MAX, 1), 16, "operator");
    refuse(arithmetic(SUBTRACT, i64::MIN, 1), 16, "operator");
}

/// "false and (1 / 0 = 1) is false": the right side is skipped, so its labels
/// 3, 4 and 5 are not in the set.
#[test]
fn false_and_skips() {
    check(false_and(), &["kiosk front result false 2 1,2", "steps 1"]);
}

/// "A branch holding only a built-in resource adds nothing to later values":
/// the wall has the path's 1, the kiosk after it has not.
#[test]
fn branch_with_a_built_in_resource() {
    let lines = ["wall north - - 2 1,2", "kiosk front price 40 2 3,4", "steps 3"];
    check(branch_built_in(), &lines);
}

/// "one holding an include adds its condition to all": 1 is in the trail,
/// though that branch is not taken.
#[test]
fn branch_with_an_include() {
    check(branch_include(), &["kiosk front price 40 3 1,3,4", "steps 2"]);
}

/// "Depth 32 passes, 33 is 4", at the field too deep.
#[test]
fn depth_32_and_33() {
    check(depth(32), &["steps 1"]);
    refuse(depth(33), 4, "deepest");
}

/// "level 16 passes, 17 is 7". Types t00 to t16 are declared at levels 0 to
/// 16, one step each, and the resource in the last body is one more.
#[test]
fn level_16_and_17() {
    check(level(16), &["kiosk end - - 1 2", "steps 18"]);
    refuse(level(17), 7, "last");
}

/// "two classes inheriting each other: 7, given steps". The include is step 1
/// at level 0; the parent at level n is step n + 1, b at odd levels (named by
/// a's 35) and a at even ones. So step 18 is needed to meet level 17, at a's
/// 35, and R14 asks 6 before 7 there.
#[test]
fn two_classes_inheriting_each_other() {
    refuse(inherit_each_other(), 7, "of a");
    refuse_limited(inherit_each_other(), 18, 7, "of a");
    refuse_limited(inherit_each_other(), 17, 6, "of a");
    refuse_limited(inherit_each_other(), 16, 6, "of b");
}

/// The mistakes near at hand, each with what it would print instead.
#[test]
fn mistakes_near_at_hand() {
    // "letting a title's labels miss its attributes": 7 is the title's.
    let titled = items(vec![built_in("wall", text(7, "a"), vec![given("x", int(8, 1))])]);
    check(titled, &["wall a x 1 2 7,8", "steps 1"]);
    // "seeing the declarer's variables in a type body": the body's parent is
    // the base, here the top, and x is the class's.
    let body = items(vec![
        type_definition("t", vec![], vec![show(var("x").at("read"))]),
        class_definition(
            "c",
            None,
            vec![],
            vec![assign("x", int(1, 1)), defined("t", text(2, "a"), vec![])],
        ),
        include("c"),
    ]);
    refuse(body, 13, "read");
    // "leaving a stale entry in the output": the first resource is written,
    // then refused away; `lent` looks at the bytes.
    let stale = items(vec![show(int(1, 1)), assign("y", var("x").at("read"))]);
    refuse(stale, 13, "read");
}
