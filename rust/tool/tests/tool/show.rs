//! Covers: show, its table and its JSON, beside the independent implementation; recordings with more events than a set has runs.

use super::folder::Folder;
use super::json::{self, Value};
use crate::support::random::Random;
use crate::support::recordings;
use reference::kept::chosen;
use reference::recording::{bytes, is_crossing, is_dip, is_top, is_upward_crossing, Record, FALLING, FLAT, RISING};

#[test]
fn the_table_of_r1() {
    let folder = Folder::with_recordings("show");
    folder.mill(&["show", "r1.rec"]).answers(
        "\
time   a   b  slope_a  slope_b  pigment  turn_a  turn_b  cross  kept
   0  40  50  rising   flat           0  -       -       -      kept
  10  60  50  rising   flat           0  -       -       up     kept
  20  80  50  rising   flat           0  -       -       -      kept
  30  70  50  falling  flat           0  top     -       -      kept
  40  30  50  falling  flat           0  -       -       down   kept
  50  55  50  rising   flat           0  dip     -       up     kept
  60  90  50  rising   flat           0  -       -       -      kept
  70  45  50  falling  flat           0  top     -       down   kept
",
    );
    folder.mill(&["show", "empty.rec"]).answers("time  a  b  slope_a  slope_b  pigment  turn_a  turn_b  cross  kept\n");
    folder.mill(&["show", "--json", "empty.rec"]).answers("{\"readings\":[]}\n");
}

#[test]
fn marks_are_those_given_or_those_beside_the_file() {
    let folder = Folder::with_recordings("show_marks");
    let kept = |words: &[&str]| {
        let ran = folder.mill(words);
        assert_eq!(ran.status, Some(0), "{}", ran.err);
        let lines = ran.text().lines().filter(|line| line.ends_with("kept"));
        lines.skip(1).filter_map(|line| line.split_whitespace().next().map(str::to_string)).collect::<Vec<_>>().join(" ")
    };
    assert_eq!(kept(&["show", "r2.rec"]), "0 10 30 40 60 80");
    assert_eq!(kept(&["show", "-m", "10", "r2.rec"]), "0 10 20 30 40 60 80");
    assert_eq!(kept(&["show", "-m40", "r2.rec"]), "0 10 30 40 50 60 80");
    assert_eq!(folder.mill(&["add", "--mark", "10", "kept", "r2.rec"]).status, Some(0));
    assert_eq!(kept(&["show", "kept"]), "0 10 20 30 40 60 80");
    folder.mill(&["show", "-m", "40", "kept"]).troubles_with("kept: its marks are 10, and not 40");
    folder.mill(&["show", "-m", "2000000001", "r2.rec"]).refused("r2.rec", 11, 0);
}

fn word(is: bool, word: &str) -> Value {
    if is {
        json::string(word)
    } else {
        Value::Null
    }
}

/// What the independent implementation says of each reading.
fn expected(records: &[Record], marks: &[i64]) -> Vec<Value> {
    let kept = chosen(records, marks);
    let slope = |slope: u8| json::string(["falling", "flat", "rising"][usize::from(slope)]);
    let turn = |curve, at| match is_top(records, curve, at) {
        true => json::string("top"),
        false => word(is_dip(records, curve, at), "dip"),
    };
    let cross = |at| match is_crossing(records, at) {
        true => json::string("down"),
        false => word(is_upward_crossing(records, at), "up"),
    };
    let object = |(at, record): (usize, &Record)| {
        let members = [
            ("time", json::number(record.time)),
            ("a", json::number(record.value[0])),
            ("b", json::number(record.value[1])),
            ("slope_a", slope(record.slope[0])),
            ("slope_b", slope(record.slope[1])),
            ("pigment", json::number(record.pigment)),
            ("turn_a", turn(0, at)),
            ("turn_b", turn(1, at)),
            ("cross", cross(at)),
            ("kept", Value::Truth(kept[at])),
        ];
        Value::Object(members.map(|(name, value)| (name.to_string(), value)).into_iter().collect())
    };
    records.iter().enumerate().map(object).collect()
}

#[track_caller]
fn shows(folder: &Folder, records: &[Record], marks: &[i64]) {
    folder.put("any.rec", &bytes(records));
    let marks_given: Vec<String> = marks.iter().map(|mark| format!("-m{mark}")).collect();
    let mut words = vec!["show", "--json", "any.rec"];
    words.extend(marks_given.iter().map(String::as_str));
    let ran = folder.mill(&words);
    assert_eq!((ran.status, ran.err.as_str()), (Some(0), ""));
    let (told, expected) = (json::line(&ran.out), expected(records, marks));
    let told = told.at("readings").list();
    assert_eq!(told.len(), expected.len());
    for (at, (told, expected)) in told.iter().zip(&expected).enumerate() {
        assert_eq!(told, expected, "reading {at} of {}", records.len());
    }
    // The table says the same, reading by reading.
    words.retain(|word| *word != "--json");
    let ran = folder.mill(&words);
    let lines: Vec<&str> = ran.text().lines().skip(1).collect();
    assert_eq!(lines.len(), expected.len());
    for (line, expected) in lines.iter().zip(&expected) {
        let names = ["time", "a", "b", "slope_a", "slope_b", "pigment", "turn_a", "turn_b", "cross", "kept"];
        let fields = names.map(|name| match expected.at(name) {
            Value::Null | Value::Truth(false) => "-".to_string(),
            Value::Truth(true) => "kept".to_string(),
            Value::Number(word) | Value::String(word) => word.clone(),
            other => panic!("{other:?}"),
        });
        assert_eq!(line.split_whitespace().collect::<Vec<_>>(), fields);
    }
}

#[test]
fn rows_are_those_of_the_independent_implementation() {
    let folder = Folder::new("show_random");
    for case in 0..40 {
        let mut random = Random::of_case("tool show", case);
        let count = 1 + random.below(120);
        let records = recordings::accepted(&mut random, count);
        let marks = recordings::marks(&mut random, &records);
        shows(&folder, &records, &marks);
    }
}

/// A set has at most 256 runs, and a recording up to 2,048 tops.
#[test]
fn more_events_than_a_set_has_runs() {
    let folder = Folder::new("show_many");
    shows(&folder, &recordings::with_most_tops(0, 4096), &[]);
    shows(&folder, &recordings::with_most_tops(1, 1025), &[7]);
    shows(&folder, &recordings::with_crossings(4096, 1300), &[]);
    for case in 0..3 {
        let mut random = Random::of_case("tool show many", case);
        shows(&folder, &recordings::with_many_events(&mut random), &[]);
        shows(&folder, &recordings::with_many_plateaus(&mut random), &[]);
        shows(&folder, &recordings::with_many_tops(&mut random), &[]);
    }
}

/// The rise of a top lies far before the part in which the top is asked for.
#[test]
fn a_part_begins_at_the_last_slope_before_it() {
    let folder = Folder::new("show_parts");
    let busy = [RISING, FALLING].repeat(300);
    for turn in [RISING, FALLING] {
        let mut slopes = busy.clone();
        slopes.push(turn);
        slopes.extend([FLAT; 2000]);
        slopes.push(RISING + FALLING - turn);
        slopes.extend(&busy);
        for curve in 0..2 {
            shows(&folder, &recordings::with_slopes(curve, &slopes), &[]);
        }
    }
}
