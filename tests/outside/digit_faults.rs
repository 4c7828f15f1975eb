//! Wrong variants of the values of numbers: a wrong entry of the wall chart, wrong places, wrong digits, wrong sums; in logs, in patterns and in
//! both.

use crate::plain::{Plain, RIGHT};
use crate::reference::{self as r, entry, Number, Value};
use crate::shown_faults::Variants;

/// The wrong variants.
pub fn variants() -> Variants {
    [over_places(), over_digits(), over_sums(), over_entries(), over_numbers_of_logs(), over_numbers_of_patterns()].concat()
}

fn in_logs(value: Value<'static>) -> Plain {
    Plain { log_value: value, ..RIGHT }
}

fn in_patterns(value: Value<'static>) -> Plain {
    Plain { pattern_value: value, ..RIGHT }
}

fn in_both(value: Value<'static>) -> Plain {
    Plain { log_value: value, pattern_value: value, ..RIGHT }
}

/// The sum of what `entry` gives for the digits at their places.
fn sum(digits: &[u8], entry: impl Fn(usize, u32) -> u32) -> u32 {
    digits.iter().rev().enumerate().map(|(place, digit)| entry(place, u32::from(digit - b'0'))).sum()
}

/// The value with one entry wrong, of the numbers for which `of` holds.
fn with_entry(of: impl Fn(Number) -> bool + 'static, (place, digit): (usize, u32), wrong: u32) -> Value<'static> {
    Box::leak(Box::new(move |number, digits: &[u8]| {
        sum(digits, |p, d| if of(number) && (p, d) == (place, digit) { wrong } else { entry(p, d) })
    }))
}

/// A wrong value in logs, in patterns and in both.
fn in_each(what: &str, value: Value<'static>) -> Variants {
    let named = |reader: &str, plain| (&*format!("{what} in {reader}").leak(), plain);
    vec![named("logs", in_logs(value)), named("patterns", in_patterns(value)), named("both", in_both(value))]
}

/// The same but for logs, where it does not show: numbers of five digits stay damaged.
fn but_in_logs(what: &str, value: Value<'static>) -> Variants {
    in_each(what, value).split_off(1)
}

/// Digits left out, and wrong places.
fn over_places() -> Variants {
    /// The value without the first or the last of so many digits.
    fn without(digits: &[u8], of: usize, first: bool) -> u32 {
        match (digits.len() == of, first) {
            (false, _) => r::value(digits),
            (true, true) => r::value(&digits[1..]),
            (true, false) => r::value(&digits[..of - 1]),
        }
    }
    /// The value with a place taken for the one below it.
    fn lowered(digits: &[u8], place: usize) -> u32 {
        sum(digits, |p, d| entry(if p == place { p - 1 } else { p }, d))
    }
    [
        in_each("the first of five digits left out", &|_, digits| without(digits, 5, true)),
        but_in_logs("the last of five digits left out", &|_, digits| without(digits, 5, false)),
        in_each("the first of four digits left out", &|_, digits| without(digits, 4, true)),
        in_each("the last of four digits left out", &|_, digits| without(digits, 4, false)),
        in_each("the first of three digits left out", &|_, digits| without(digits, 3, true)),
        in_each("the last of three digits left out", &|_, digits| without(digits, 3, false)),
        in_each("places counted from the first digit", &|_, digits| {
            digits.iter().zip(0..).map(|(digit, place)| entry(place, u32::from(digit - b'0'))).sum()
        }),
        in_each("places counted from one", &|_, digits| sum(digits, |place, digit| entry(place + 1, digit))),
        in_each("the first digit at place 4", &|_, digits| sum(digits, |place, digit| entry(place + 5 - digits.len(), digit))),
        in_each("place 1 taken for place 0", &|_, digits| lowered(digits, 1)),
        in_each("place 2 taken for place 1", &|_, digits| lowered(digits, 2)),
        in_each("place 3 taken for place 2", &|_, digits| lowered(digits, 3)),
        but_in_logs("place 4 taken for place 3", &|_, digits| lowered(digits, 4)),
    ]
    .concat()
}

/// Wrong columns of the chart.
fn over_digits() -> Variants {
    [
        in_each("bytes modulo ten", &|_, digits| sum(digits, |place, digit| entry(place, (digit + 48) % 10))),
        in_each("bytes modulo eight", &|_, digits| sum(digits, |place, digit| entry(place, digit % 8))),
        in_each("bytes for digits", &|_, digits| sum(digits, |place, digit| entry(place, digit + 48))),
        in_each("digits counted from one", &|_, digits| sum(digits, |place, digit| entry(place, (digit + 9) % 10))),
        in_each("digits counted from nine", &|_, digits| sum(digits, |place, digit| entry(place, 9 - digit))),
        in_each("places and digits exchanged", &|_, digits| {
            sum(digits, |place, digit| if digit < 5 { entry(digit as usize, place as u32) } else { entry(place, digit) })
        }),
    ]
    .concat()
}

/// Wrong sums.
fn over_sums() -> Variants {
    /// Each digit's entry, the last digit's first.
    fn entries(digits: &[u8]) -> impl DoubleEndedIterator<Item = u32> + '_ {
        digits.iter().rev().enumerate().map(|(place, digit)| entry(place, u32::from(digit - b'0')))
    }
    [
        in_each("the last digit's entry alone", &|_, digits| entries(digits).next().unwrap()),
        in_each("the first digit's entry alone", &|_, digits| entries(digits).last().unwrap()),
        in_each("the greatest entry alone", &|_, digits| entries(digits).max().unwrap()),
        in_each("entries joined bit by bit", &|_, digits| entries(digits).fold(0, |all, entry| all | entry)),
        in_each("sums cut to 8 bits", &|_, digits| r::value(digits) & 0xff),
        in_each("sums cut to 16 bits", &|_, digits| r::value(digits) & 0xffff),
        in_each("a sum of one more", &|_, digits| r::value(digits) + 1),
    ]
    .concat()
}

/// An entry taken as 0, as that of the next place, and as that of the next digit, or for 9 of the digit before; as far as that is wrong.
fn wrongs(place: usize, digit: u32) -> Vec<u32> {
    let beside = if digit == 9 { 8 } else { digit + 1 };
    let mut all = vec![0, entry(place + 1, digit), entry(place, beside)];
    all.retain(|&wrong| wrong != entry(place, digit));
    all
}

/// Whether a wrong entry shows in logs. These do not:
/// - at place 2 that of 0, since no number begins with it, and that of 4 to 9 with anything but 0: numbers of three digits from 301 on stay
///   damaged;
/// - at places 3 and 4 any with anything but 0: numbers of four and five digits stay damaged.
fn shows_in_logs(place: usize, digit: u32, wrong: u32) -> bool {
    wrong == 0 || place < 2 || place == 2 && (1..=3).contains(&digit)
}

/// Whether a wrong entry shows in patterns. These do not, since k from 6,144 on keeps every stretch that a log can have, and k above 65,535 is
/// refused (so 10,001 for 10,000 would not show either):
/// - at place 3 that of 0, those of 7 and 8 as that of the next digit, and that of 9 as that of 8;
/// - at place 4 that of 0, those of 1 to 4 as that of the next digit, and those of 7 to 9 with anything but 0.
fn shows_in_patterns(place: usize, digit: u32, wrong: u32) -> bool {
    let grows = wrong == entry(place + 1, digit);
    match (place, digit) {
        (3 | 4, 0) => false,
        (3, 7..=9) => wrong == 0 || grows,
        (4, 1..=4) => wrong == 0 || grows,
        (4, 7..=9) => wrong == 0,
        _ => true,
    }
}

/// One wrong entry. In both readers at once it shows wherever it shows in patterns, by numbers of operands and by k, which no log has.
fn over_entries() -> Variants {
    let mut all = Variants::new();
    for (place, digit) in (0..5).flat_map(|place| (0..10).map(move |digit| (place, digit))) {
        for wrong in wrongs(place, digit) {
            let value = with_entry(|_| true, (place, digit), wrong);
            let mut push = |what: &str, plain| {
                all.push((&*format!("place {place}, digit {digit}: {wrong} for {} in {what}", entry(place, digit)).leak(), plain));
            };
            if shows_in_logs(place, digit, wrong) {
                push("logs", in_logs(value));
            }
            if shows_in_patterns(place, digit, wrong) {
                push("patterns", in_patterns(value));
                push("both", in_both(value));
            }
        }
    }
    all
}

/// A wrong entry for one kind of number alone, at the places that it has: 0 for another, and at so many places that of 1 for 0, unless
/// `otherwise` has another wrong one.
fn over_number(
    number: Number,
    (places, zeros): (usize, usize),
    otherwise: fn(usize, u32) -> Option<u32>,
    (what, reader): (&str, fn(Value<'static>) -> Plain),
) -> Variants {
    let entries = (0..places).flat_map(|place| (0..10).map(move |digit| (place, digit)));
    let variant = |(place, digit)| {
        let wrong = otherwise(place, digit).unwrap_or(if digit == 0 { entry(place, 1) } else { 0 });
        let value = with_entry(move |of| of == number, (place, digit), wrong);
        let name = format!("place {place}, digit {digit}: {wrong} for {} as {number:?} in {what}", entry(place, digit));
        (&*name.leak(), reader(value))
    };
    entries.filter(|&(place, digit)| digit > 0 || place < zeros).map(variant).collect()
}

/// In one field of lines alone. No layout is 0, so there 1 and 2 stand for each other, and 1 for the rest; handicaps below 300 are sound without
/// their first digit too, so there it has the entry of the next place. A lane alone may begin with 0.
fn over_numbers_of_logs() -> Variants {
    let logs: (_, fn(_) -> _) = ("logs", in_logs);
    let layout = |_, digit| Some(if digit == 1 { 2 } else { 1 });
    let handicap = |place, digit| (place == 2 && digit < 3).then(|| entry(3, digit));
    [
        over_number(Number::Layout, (1, 1), layout, logs),
        over_number(Number::Lane, (2, 2), |_, _| None, logs),
        over_number(Number::Code, (3, 2), |_, _| None, logs),
        over_number(Number::Handicap, (3, 2), handicap, logs),
        over_number(Number::Frame, (2, 1), |_, _| None, logs),
        over_number(Number::Pins, (2, 1), |_, _| None, logs),
    ]
    .concat()
}

/// In one kind of number of patterns alone.
fn over_numbers_of_patterns() -> Variants {
    let kinds = [(Number::Code, (3, 2)), (Number::Lane, (2, 1)), (Number::Frame, (2, 1)), (Number::Operands, (2, 1)), (Number::K, (5, 3))];
    kinds.into_iter().flat_map(|(number, places)| over_number(number, places, |_, _| None, ("patterns", in_patterns))).collect()
}
