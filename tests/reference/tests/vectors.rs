//! The form of the printed test cases, which other programs read, and that each
//! refusal and each edition is among them.

use reference::vectors::print_vectors;
use std::collections::BTreeSet;

fn vectors(seed: u64) -> String {
    let mut output = Vec::new();
    print_vectors(seed, &mut output).unwrap();
    String::from_utf8(output).unwrap()
}

#[test]
fn each_line_is_a_word_a_count_and_that_many_numbers() {
    for line in vectors(3).lines().filter(|line| !line.starts_with("# ")) {
        let (word, rest) = line.split_once(' ').unwrap();
        let numbers: Vec<i128> = rest.split(' ').map(|number| number.parse().unwrap()).collect();
        assert!(word.bytes().all(|byte| byte.is_ascii_lowercase() || byte == b'_'));
        assert_eq!(numbers[0] as usize, numbers.len() - 1, "{word}");
        let in_64_bits = i128::from(i64::MIN)..=i128::from(u64::MAX);
        assert!(numbers.iter().all(|number| in_64_bits.contains(number)), "{word}");
    }
}

#[test]
fn every_refusal_of_a_call_comes_and_both_editions_are_taken() {
    let text = vectors(3);
    // The call, the place of its edition if it has one, that of its refusal, and its
    // refusals. The 9 of `observe` needs 45,001 windows.
    let calls: [(&str, Option<usize>, usize, &[&str]); 9] = [
        ("spectrum", None, 2, &["2", "3", "4"]),
        ("group_value", Some(2), 4, &["1", "19", "4", "5", "6"]),
        ("panel_row", Some(2), 4, &["1", "19", "2", "3", "4"]),
        ("fresh_record", Some(1), 2, &["1", "19"]),
        ("add_row", Some(2), 0, &["1", "19", "7", "8", "9"]),
        ("observe", Some(3), 5, &["1", "19", "2", "3"]),
        ("limit", None, 2, &["15", "6"]),
        ("verdict", None, 3, &["10", "11", "15", "6", "7"]),
        ("three_second_value", None, 1, &["20", "6", "7"]),
    ];
    for (call, edition_place, refusal_place, refusals) in calls {
        let (mut found, mut editions) = (BTreeSet::new(), BTreeSet::new());
        for line in text.lines().filter(|line| line.split(' ').next() == Some(call)) {
            let numbers: Vec<&str> = line.split(' ').skip(2).collect();
            if numbers[refusal_place] == "0" {
                editions.extend(edition_place.map(|place| numbers[place]));
            } else {
                found.insert(numbers[refusal_place]);
            }
        }
        assert_eq!(found, refusals.iter().copied().collect(), "{call}");
        let taken: &[&str] = if edition_place.is_some() { &["0", "1"] } else { &[] };
        assert_eq!(editions, taken.iter().copied().collect(), "{call}");
    }
}

#[test]
fn same_seed_gives_the_same_cases() {
    assert_eq!(vectors(4), vectors(4));
    assert_ne!(vectors(4), vectors(5));
}
