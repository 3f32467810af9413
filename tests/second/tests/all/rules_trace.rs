//! The rules on traces and replay where they could be read otherwise, each with the files that show
//! it.
//!
//! Assumes nothing.

use super::bench::*;
use second::refusal::Refusal;
use second::step::Event;
use second::trace::{Place, Reading, Record, FILE_LIMIT};

/// The table of a small machine: one processor, one task, one resource.
fn small_table() -> Vec<Vec<u8>> {
    vec![counts(1, 1, 1), row(4, 8, 1)]
}

fn small_file(rest: &[Vec<u8>]) -> Vec<Vec<u8>> {
    let mut pieces = small_table();
    pieces.extend(rest.iter().cloned());
    pieces
}

/// The file stops at the piece of that number, with that refusal, after the given lines.
fn assert_stops(pieces: &[Vec<u8>], piece: usize, refusal: u16, lines: &str) {
    let expected = format!("{lines}stop {} {refusal}\n", offset(pieces, piece));
    assert_eq!(listing(pieces), expected);
}

/// Rule 13.6.
#[test]
fn out_of_order_is_told_before_bad_values() {
    assert_stops(&[counts(1, 1, 1), counts(0, 0, 0)], 1, 32, "");
    assert_stops(&[row(0, 0, 0)], 0, 32, "");
    assert_stops(&small_file(&[row(0, 0, 0)]), 2, 32, "");
    assert_stops(&small_file(&[counts(0, 0, 0)]), 2, 32, "");
}

/// Rule 13.6.
#[test]
fn malformed_is_told_before_order() {
    assert_stops(&[record(1, &[0])], 0, 31, "");
    assert_stops(&[record(9, &[])], 0, 31, "");
    assert_stops(&[record(17, &[0; 9])], 0, 31, "");
    assert_stops(&[counts(1, 1, 1), record(16, &[])], 1, 31, "");
}

/// Rule 13.5.
#[test]
fn stray_byte() {
    assert_stops(&[vec![7]], 0, 30, "");
    assert_stops(&[counts(1, 1, 1), vec![0]], 1, 30, "");
    assert_stops(&small_file(&[event(wake(0)), vec![0]]), 3, 30, "1 ok 1\n");
}

/// Rule 13.5.
#[test]
fn length_below_two_then_cut_body_then_kind() {
    assert_stops(&[vec![0, 0]], 0, 31, "");
    assert_stops(&[vec![1, 0]], 0, 31, "");
    assert_stops(&[vec![2, 0]], 0, 30, "");
    assert_stops(&[vec![4, 0, 99, 0, 0]], 0, 30, "");
    assert_stops(&[vec![4, 0, 99, 0, 0, 0]], 0, 31, "");
    assert_stops(&[vec![255, 255, 16, 0]], 0, 30, "");
}

/// Rule 14.3.
#[test]
fn bad_table_entries_at_their_own_offsets() {
    assert_stops(&[counts(9, 1, 0), vec![0]], 0, 19, "");
    let bad_quota = [counts(1, 2, 1), row(1, 1, 0), row(2, 1, 0), vec![0]];
    assert_stops(&bad_quota, 2, 20, "");
    let both = [counts(1, 1, 1), row(0, 1, 2)];
    assert_stops(&both, 1, 20, "");
    let absent = [counts(1, 1, 1), row(1, 1, 2), record(99, &[])];
    assert_stops(&absent, 1, 21, "");
}

/// Rule 14.4.
#[test]
fn table_cut_off_between_records() {
    assert_stops(&[], 0, 32, "");
    assert_stops(&[counts(1, 1, 1)], 1, 32, "");
    assert_stops(&[counts(1, 2, 1), row(1, 1, 0)], 2, 32, "");
}

/// A file of this size whose records are all good.
fn filled_file(size: usize) -> Vec<Vec<u8>> {
    let mut pieces = small_table();
    let mut left = size - pieces.concat().len();
    let odd_sizes: [(Event, usize); 2] = [(wake(9), 6), (elapse(0), 8)];
    let (six, eight) = (&odd_sizes[0], &odd_sizes[1]);
    while !left.is_multiple_of(eight.1) {
        pieces.push(event(six.0));
        left -= six.1;
    }
    pieces.extend((0..left / eight.1).map(|_| event(eight.0)));
    pieces
}

/// Rule 13.7.
#[test]
fn file_of_exactly_the_limit_is_allowed() {
    let most = filled_file(FILE_LIMIT);
    assert_eq!(most.concat().len(), FILE_LIMIT);
    let allowed = listing(&most);
    assert!(allowed.contains("\nend 0\nserver 0 idle 4 0 0 0 0\n"));
    let mut more = most.clone();
    more.push(vec![0]);
    assert_eq!(listing(&more), "stop 0 33\n");
}

/// Rule 14.2.
#[test]
fn table_without_events() {
    let expected = "end 0\nserver 0 idle 4 0 0 0 0\ntask 0 0\n";
    assert_eq!(listing(&small_table()), expected);
}

/// Rule 14.1.
#[test]
fn refused_events_are_numbered_and_large_operands_refused() {
    let events = [wake(65535), lock(0, 65535), wake(0), recharge(1)].map(event);
    let expected = "1 refused 2\n2 refused 3\n3 ok 1\n4 refused 2\nend 0\n\
                    server 0 active 4 8 0 0 0\ntask 0 0\n";
    assert_eq!(listing(&small_file(&events)), expected);
}

/// Rule 13.6.
#[test]
fn records_out_of_order() {
    assert_stops(&[event(wake(0))], 0, 32, "");
    assert_stops(&[counts(1, 1, 1), event(wake(0))], 1, 32, "");
    assert_stops(&small_file(&[row(4, 8, 1)]), 2, 32, "");
    let late = small_file(&[event(wake(0)), counts(1, 1, 1)]);
    assert_stops(&late, 3, 32, "1 ok 1\n");
    let late = small_file(&[event(wake(0)), row(4, 8, 1)]);
    assert_stops(&late, 3, 32, "1 ok 1\n");
}

/// Rule 5.4.
#[test]
fn declared_bits_against_the_resource_count() {
    let all = [counts(1, 1, 16), row(1, 1, 0xffff)];
    assert!(listing(&all).starts_with("end 0\n"));
    assert_stops(&[counts(1, 1, 15), row(1, 1, 0x8000)], 1, 21, "");
    assert_stops(&[counts(1, 1, 0), row(1, 1, 1)], 1, 21, "");
}

/// Rule 13.8.
#[test]
fn reading_at_the_end_is_neither_record_nor_refusal() {
    let bytes = event(lock(3, 258));
    let start = Place::start(&bytes);
    let Ok(Reading::Record(read, end)) = start.read() else {
        panic!("a good record is read");
    };
    assert_eq!(read, Record::Event(lock(3, 258)));
    assert_eq!(end.offset, bytes.len());
    assert_eq!(end.read(), Ok(Reading::End));
    let too_long = vec![0; FILE_LIMIT + 1];
    let reading = Place::start(&too_long).read();
    assert_eq!(reading, Err(Refusal::RecordMalformed));
}

/// Rule 14.3.
#[test]
fn earliest_fault_is_told_and_lines_already_printed_stay() {
    let pieces = small_file(&[
        event(wake(0)),
        event(dispatch(0)),
        record(5, &[1, 0]),
        counts(0, 0, 0),
    ]);
    assert_stops(&pieces, 4, 31, "1 ok 1\n2 executes 0\n");
}
