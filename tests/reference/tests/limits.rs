//! The limits of the orders 2..40 in figures, in both classes and in lowest terms;
//! no other order and no other class letter has one.

use reference::limits::{Class, Limit, limit_by_rule, order_limit};
use reference::refusals::Refusal;

/// Order, numerator and denominator in mA.
type Figures = [(u64, u64, u64); 39];

const CLASS_A: Figures = [
    (2, 1_080, 1),
    (3, 2_300, 1),
    (4, 430, 1),
    (5, 1_140, 1),
    (6, 300, 1),
    (7, 770, 1),
    (8, 230, 1),
    (9, 400, 1),
    (10, 184, 1),
    (11, 330, 1),
    (12, 460, 3),
    (13, 210, 1),
    (14, 920, 7),
    (15, 150, 1),
    (16, 115, 1),
    (17, 2_250, 17),
    (18, 920, 9),
    (19, 2_250, 19),
    (20, 92, 1),
    (21, 750, 7),
    (22, 920, 11),
    (23, 2_250, 23),
    (24, 230, 3),
    (25, 90, 1),
    (26, 920, 13),
    (27, 250, 3),
    (28, 460, 7),
    (29, 2_250, 29),
    (30, 184, 3),
    (31, 2_250, 31),
    (32, 115, 2),
    (33, 750, 11),
    (34, 920, 17),
    (35, 450, 7),
    (36, 460, 9),
    (37, 2_250, 37),
    (38, 920, 19),
    (39, 750, 13),
    (40, 46, 1),
];

const CLASS_B: Figures = [
    (2, 1_620, 1),
    (3, 3_450, 1),
    (4, 645, 1),
    (5, 1_710, 1),
    (6, 450, 1),
    (7, 1_155, 1),
    (8, 345, 1),
    (9, 600, 1),
    (10, 276, 1),
    (11, 495, 1),
    (12, 230, 1),
    (13, 315, 1),
    (14, 1_380, 7),
    (15, 225, 1),
    (16, 345, 2),
    (17, 3_375, 17),
    (18, 460, 3),
    (19, 3_375, 19),
    (20, 138, 1),
    (21, 1_125, 7),
    (22, 1_380, 11),
    (23, 3_375, 23),
    (24, 115, 1),
    (25, 135, 1),
    (26, 1_380, 13),
    (27, 125, 1),
    (28, 690, 7),
    (29, 3_375, 29),
    (30, 92, 1),
    (31, 3_375, 31),
    (32, 345, 4),
    (33, 1_125, 11),
    (34, 1_380, 17),
    (35, 675, 7),
    (36, 230, 3),
    (37, 3_375, 37),
    (38, 1_380, 19),
    (39, 1_125, 13),
    (40, 69, 1),
];

/// The figures of both classes, each with its class and its letter.
const FIGURES: [(Class, u8, Figures); 2] = [(Class::A, 65, CLASS_A), (Class::B, 66, CLASS_B)];

#[test]
fn limits_are_those_figures() {
    for (_, letter, figures) in FIGURES {
        for (place, (order, numerator, denominator)) in figures.into_iter().enumerate() {
            assert_eq!(order, place as u64 + 2);
            let limit = order_limit(order, letter);
            assert_eq!(limit, Ok(Limit { numerator, denominator }), "order {order}");
        }
    }
}

#[test]
fn figures_are_equal_to_the_rule() {
    for (class, _, figures) in FIGURES {
        for (order, numerator, denominator) in figures {
            let rule = limit_by_rule(order, class);
            assert_eq!(numerator * rule.denominator, rule.numerator * denominator, "order {order}");
        }
    }
}

#[test]
fn figures_are_in_lowest_terms() {
    for (order, numerator, denominator) in FIGURES.into_iter().flat_map(|row| row.2) {
        let divides_both = |divisor: &u64| numerator % divisor == 0 && denominator % divisor == 0;
        assert_eq!((2..=denominator).find(divides_both), None, "order {order}");
    }
}

#[test]
fn header_has_the_largest_figures() {
    let header = include_str!("../../../include/kifsang.h");
    let figures = || FIGURES.into_iter().flat_map(|row| row.2);
    let numerator = figures().map(|(_, numerator, _)| numerator).max().unwrap();
    let denominator = figures().map(|(_, _, denominator)| denominator).max().unwrap();
    for line in [
        format!("numerator     out   one number, at most {numerator}\n"),
        format!("denominator   out   one number, 1..{denominator}; "),
    ] {
        assert!(header.contains(&line), "{line}");
    }
}

#[test]
fn no_other_order_has_a_limit() {
    for order in [0, 1, 41, u64::from(u32::MAX), u64::MAX] {
        for class_letter in 0..=u8::MAX {
            let limit = order_limit(order, class_letter);
            assert_eq!(limit, Err(Refusal::OrderOutOfRange), "order {order}, {class_letter}");
        }
    }
}

#[test]
fn no_other_letter_has_a_limit() {
    for class_letter in (0..=u8::MAX).filter(|letter| !(65..=66).contains(letter)) {
        for order in 2..=40 {
            let limit = order_limit(order, class_letter);
            assert_eq!(limit, Err(Refusal::UnknownClass), "order {order}, {class_letter}");
        }
    }
}
