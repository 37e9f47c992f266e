//! Covers: what lists kept by the rules before Paper 5 answer. They carry no assurance.

use crate::support::old_rule::{kept_by, Rule};
use crate::support::r2::{self, r2};
use crate::support::r4::{self, r4};
use crate::support::recordings::with_slopes;
use crate::support::slopes::every;
use reference::evaluate::answer;
use reference::kept::chosen_by_rule;
use reference::recording::{dip_times, top_times, Record};
use reference::set::Set;
use reference::text::reading;

fn times(records: &[Record]) -> Vec<i64> {
    records.iter().map(|record| record.time).collect()
}

fn kept(records: &[Record]) -> Vec<Record> {
    records.iter().zip(chosen_by_rule(records, &[])).filter(|(_, kept)| *kept).map(|(record, _)| *record).collect()
}

/// A list of document 01's own rule may lack the rise of a top: the top is lost.
#[test]
fn a_list_of_document_01_loses_a_top() {
    let (full, old) = (r4(), kept_by(Rule::Document01, &r4(), &[]));
    assert_eq!(times(&old), r4::KEPT_BY_01);
    assert_eq!(times(&kept(&full)), r4::KEPT);
    for (text, on_full, on_old) in r4::LOST_BY_01 {
        let node = reading(text.as_bytes()).unwrap();
        assert_eq!(answer(&full, &node), Ok(Set::of(on_full.to_vec())), "{text}");
        assert_eq!(answer(&kept(&full), &node), Ok(Set::of(on_full.to_vec())), "{text}");
        assert_eq!(answer(&old, &node), Ok(Set::of(on_old.to_vec())), "{text}");
    }
}

/// A list of Papers 1 and 3 may lack the last rise of a top: thinned once more, alone or with a further piece, it is another list than
/// that of the recording.
#[test]
fn a_list_of_papers_1_and_3_thins_to_another() {
    let old = kept_by(Rule::Papers1And3, &r2(), &[]);
    assert_eq!(times(&old), [0, 30, 40, 50, 60, 80]);
    assert_eq!(times(&kept(&old)), [0, 30, 40, 60, 80]);
    assert_eq!(times(&kept(&r2())), r2::KEPT[0].1);
    // R2 in two pieces, the first of them thinned by the old rule.
    let first = kept_by(Rule::Papers1And3, &r2()[..4], &[]);
    assert_eq!(times(&kept(&[&first[..], &r2()[4..]].concat())), [0, 30, 40, 60, 80]);
}

/// It has the first record of each rise and of each fall, so it gives the same tops and dips all the same; nobody promises that.
#[test]
fn a_list_of_papers_1_and_3_gives_the_same_tops() {
    let mut lost = 0;
    for slopes in every(9) {
        let full = with_slopes(0, &slopes);
        let old = kept_by(Rule::Papers1And3, &full, &[]);
        assert_eq!(top_times(&old, 0), top_times(&full, 0), "{slopes:?}");
        assert_eq!(dip_times(&old, 0), dip_times(&full, 0), "{slopes:?}");
        lost += u32::from(top_times(&kept_by(Rule::Document01, &full, &[]), 0) != top_times(&full, 0));
    }
    assert!(lost > 1_000, "{lost}");
}
