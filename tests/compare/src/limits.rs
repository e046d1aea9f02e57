//! The limit of each order, with every byte as the class letter.

use crate::{numbers, Tally};
use reference::limits::order_limit;

pub fn compare(tally: &mut Tally) {
    for order in (0..=42).chain([u32::MAX]) {
        for class_letter in 0..=u8::MAX {
            let core = kifsang::limit(order, class_letter);
            let expected = order_limit(order.into(), class_letter);
            let what = format!("limit of order {order}, class letter {class_letter}");
            let (number, refusal) = numbers(&core, &expected);
            tally.same(&what, number, refusal);
            let core = core.map(|limit| (limit.numerator, limit.denominator));
            let expected = expected.map(|limit| (limit.numerator, limit.denominator));
            tally.same(&what, core.ok(), expected.ok());
        }
    }
}
