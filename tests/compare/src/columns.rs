//! Number columns and listings.

use crate::{numbers, Tally};
use kifsang::{COLUMN_WIDTH, LISTING_ROOM, ORDER_COUNT};
use reference::random::Random;

fn compare_read(tally: &mut Tally, text: &[u8]) {
    let core = kifsang::read_column(text);
    let expected = reference::columns::read_column(text);
    let what = format!("reading {:?}", String::from_utf8_lossy(text));
    let (number, refusal) = numbers(&core, &expected);
    tally.same(&what, number, refusal);
    tally.same(&what, core.ok(), expected.ok());
}

fn compare_write(tally: &mut Tally, number: i64, room: usize) {
    let mut core = vec![b'#'; room];
    let mut other = core.clone();
    let answer = kifsang::write_column(&mut core, number);
    let expected = reference::columns::write_column(&mut other, number);
    let what = format!("writing {number} into {room} bytes");
    let (refusal, expected) = numbers(&answer, &expected);
    tally.same(&what, refusal, expected);
    tally.same(&what, core, other);
}

fn compare_listing(tally: &mut Tally, rows: &[[u32; ORDER_COUNT]; 3], room: usize) {
    let mut core = vec![b'#'; room];
    let mut other = core.clone();
    let answer = kifsang::fill_listing(&rows[0], &rows[1], &rows[2], &mut core);
    let expected = reference::listing::fill_listing(&rows[0], &rows[1], &rows[2], &mut other);
    let (refusal, number) = numbers(&answer, &expected);
    tally.same("the listing's refusal", refusal, number);
    tally.same(
        "the bytes of a listing",
        answer.ok(),
        expected.ok().map(|count| count as u64),
    );
    tally.same("the buffer of a listing", core, other);
}

pub fn compare(tally: &mut Tally, seed: u64) {
    let mut random = Random::new(seed ^ 0xC01);
    for text in [
        "      -7",
        "      07",
        "      -0",
        "       0",
        "99999999",
        "-9999999",
        "        ",
        "       -",
        "  1 2   ",
        "1       ",
        "      +7",
        "     --7",
        "00000000",
        "      10",
        "   -10 0",
        "\t      7",
        "      7\n",
        "1234567",
        "123456789",
        "",
        "     -12",
    ] {
        compare_read(tally, text.as_bytes());
    }
    let bytes = b" -0123456789\n\t+a\x00\xff";
    for _ in 0..20_000 {
        let length = if random.below(10) == 0 {
            random.below(12) as usize
        } else {
            COLUMN_WIDTH
        };
        let blanks = random.below(9) as usize;
        let text: Vec<u8> = (0..length)
            .map(|place| {
                if place < blanks {
                    b' '
                } else {
                    bytes[random.below(bytes.len() as u64) as usize]
                }
            })
            .collect();
        compare_read(tally, &text);
    }
    for number in [
        0,
        1,
        -1,
        9,
        10,
        -9,
        -10,
        99_999_999,
        100_000_000,
        -9_999_999,
        -10_000_000,
        i64::MAX,
        i64::MIN,
    ] {
        for room in [0, 7, 8, 9] {
            compare_write(tally, number, room);
        }
    }
    for _ in 0..5000 {
        let number = (random.bits() as i64) >> random.below(64);
        compare_write(tally, number, COLUMN_WIDTH);
        let mut text = vec![b' '; COLUMN_WIDTH];
        if kifsang::write_column(&mut text, number).is_ok() {
            tally.same(
                "a number that is written and read",
                kifsang::read_column(&text),
                Ok(number),
            );
        }
    }
    let mut rows = [[0; ORDER_COUNT]; 3];
    for room in [0, 1639, 1640, 1641, 2000] {
        compare_listing(tally, &rows, room);
    }
    for _ in 0..300 {
        for row in &mut rows {
            for value in row.iter_mut() {
                *value = if random.below(3) == 0 {
                    random.bits() as u32 >> random.below(32)
                } else {
                    0
                };
            }
        }
        compare_listing(tally, &rows, LISTING_ROOM + random.below(50) as usize);
    }
    compare_listing(tally, &[[u32::MAX; ORDER_COUNT]; 3], LISTING_ROOM);
}
