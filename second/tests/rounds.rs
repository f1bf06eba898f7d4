//! Rounds and their count: sets are read as they were when a round began, and
//! the allowance is compared with the count.

mod common;

use common::{expect, text};
use second::drawing::Drawing;
use second::reading::read;
use second::sheet::sheet;
use second::solving::{solve, AMPLE_ROUNDS};

/// Were sets read that the same round enlarged, this order of the parts would
/// take fewer rounds than the other.
#[test]
fn the_count_does_not_depend_on_the_order_of_the_parts() {
    let parts = ["1901 120001 10", "1900 13000200 10"];
    for order in [[0, 1], [1, 0]] {
        let [first, second] = order.map(|part| parts[part]);
        expect(
            &text(&format!("010102010102 020000 020101 15 {first} {second}")),
            &[
                "2f0004",
                "200000000002",
                "21000000000002",
                "21070000000002",
                "22010000000002",
                "22070000000002",
                "300001000001",
                "flow breach",
            ],
        );
    }
}

/// Each bracket takes a round of its own.
#[test]
fn seven_nested_brackets_take_nine_rounds() {
    expect(
        &text("010101000601 020000 1900 1901 1902 1903 1904 1905 1906 120000 10"),
        &[
            "2f0009",
            "22000000000001",
            "22010000000001",
            "22020000000001",
            "22030000000001",
            "22040000000001",
            "22050000000001",
            "22060000000001",
            "22070000000001",
            "3001",
            "flow clear",
        ],
    );
}

/// Send, receive and binder: three rounds for each hand of the chain.
#[test]
fn a_chain_of_three_receives() {
    expect(
        &text(
            "010103030003 020000 020101 020202 15 120000 10 15 13000300 120103 10 \
             15 13010301 120203 10 13020302 10",
        ),
        &[
            "2f000a",
            "200000000001",
            "200100000001",
            "200200000001",
            "21070000000001",
            "21070100000001",
            "21070200000001",
            "22070000000001",
            "22070100000001",
            "22070200000001",
            "3001",
            "flow clear",
        ],
    );
}

#[test]
fn an_allowance_of_0_is_always_too_small() {
    let nil = text("010101000000 10");
    assert_eq!(sheet(&nil, 0), "3f0e0000\nrefused\n");
    assert_eq!(sheet(&nil, 1), "2f0001\n3001\nflow clear\n");
}

#[test]
fn the_allowance_is_judged_after_a_good_reading() {
    assert_eq!(sheet(b"", 0), "3f010000\nrefused\n");
    assert_eq!(sheet(&text("010101000000 11"), 0), "3f0c0003\nrefused\n");
    assert_eq!(sheet(&text("010101000000 10 10"), 0), "3f0d0003\nrefused\n");
}

#[test]
fn exactly_the_count_is_enough_and_the_count_has_its_bound() {
    for record in Drawing::new(3).take(3_000) {
        let Ok(plan) = read(&record.text) else {
            continue;
        };
        let (solution, count) = solve(&plan, AMPLE_ROUNDS).expect("ample");
        assert_eq!(solve(&plan, count), Some((solution, count)));
        assert_eq!(solve(&plan, count - 1), None);
        let [b, c, k] = [
            plan.head.binders,
            plan.head.channels,
            plan.head.highest_level,
        ]
        .map(u32::from);
        assert!(u32::from(count) <= b * c + 2 * (k + 2) * c * c + 1);
    }
}
