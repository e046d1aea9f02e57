//! The examples of IEC 61000-4-7, annex C: which printed figures are met, as
//! the README lists them.

use reference::annex_c::{Agreement, comparison, own_spectrum};

/// The figures that agree in the given way, as "example subject".
fn figures_that(agreement: Agreement) -> Vec<String> {
    let all = comparison(&own_spectrum).into_iter();
    let agreeing = all.filter(|figure| figure.agreement() == agreement);
    agreeing.map(|figure| format!("{} {}", figure.example, figure.subject)).collect()
}

#[test]
fn figures_that_differ_are_those_of_the_readme() {
    assert_eq!(
        figures_that(Agreement::Differs),
        [
            "C.3.2 subgroup 5",
            "C.3.2 error of subgroup 5, %",
            "C.3.2 group 5",
            "C.3.2 error of group 5, %",
            "C.4.3 tone alone: interharmonic group 5",
            "C.4.3 sum: interharmonic group 5",
            "C.4.3 sum: error of interharmonic group 5, %",
            "C.4.3 sum: component 5",
            "C.4.3 sum: error of component 5, %",
            "C.4.3 sum: root of group² + component²",
            "C.4.3 sum: error of that root, %",
        ]
    );
}

#[test]
fn figures_within_the_last_digit_are_those_of_the_readme() {
    assert_eq!(
        figures_that(Agreement::WithinLastDigit),
        [
            "C.3.3 group 3",
            "C.3.3 error of group 3, %",
            "C.4.1 leakage at 250 Hz, r.m.s. over windows",
            "C.4.1 component 3, r.m.s. over windows",
            "C.4.3 sum: error of that root, %",
        ]
    );
}
