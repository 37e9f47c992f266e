//! Covers: import and export, their tables, every kind of bad line, and that one undoes the other.

use super::folder::Folder;
use super::json;
use crate::support::r1::r1_bytes;
use crate::support::r3::r3_bytes;
use crate::support::random::Random;
use crate::support::recordings;
use reference::recording::bytes;

const R1: &str = "\
time,a,b,slope_a,slope_b,pigment
0,40,50,rising,flat,0
10,60,50,rising,flat,0
20,80,50,rising,flat,0
30,70,50,falling,flat,0
40,30,50,falling,flat,0
50,55,50,rising,flat,0
60,90,50,rising,flat,0
70,45,50,falling,flat,0
";

#[test]
fn r1_there_and_back() {
    let folder = Folder::with_recordings("csv");
    folder.mill(&["export", "r1.rec"]).answers(R1);
    folder.mill(&["export", "-o", "r1.csv", "r1.rec"]).answers("readings 8\n");
    assert_eq!(folder.read("r1.csv").as_deref(), Some(R1.as_bytes()));
    folder.mill(&["import", "r1.csv"]).gives(&r1_bytes());
    folder.mill(&["import", "r1.csv", "-o", "back.rec"]).answers("readings 8\n");
    assert_eq!(folder.read("back.rec"), Some(r1_bytes()));
    folder.mill(&["import", "--json", "--force", "r1.csv", "-o", "back.rec"]).answers("{\"readings\":8}\n");
    folder.mill(&["export", "--json", "--force", "r1.rec", "-o", "r1.csv"]).answers("{\"readings\":8}\n");
    assert_eq!(folder.read("r1.csv").as_deref(), Some(R1.as_bytes()));
    let [first, second] = ["export", "import"]
        .map(|command| folder.mill(&[command, "--json", if command == "export" { "r1.rec" } else { "r1.csv" }]));
    assert_eq!(first.out, second.out);
    let told = json::line(&first.out);
    assert_eq!(told.at("readings").list()[3].at("slope_a"), &json::string("falling"));
    folder.mill(&["export", "empty.rec"]).answers("time,a,b,slope_a,slope_b,pigment\n");
    folder.mill_reads(&["import", "-"], b"time,a,b,slope_a,slope_b\n").gives(b"");
}

#[test]
fn any_recording_there_and_back() {
    let folder = Folder::new("csv_random");
    let mut all = vec![r3_bytes()];
    for case in 0..40 {
        let mut random = Random::of_case("tool csv", case);
        let count = random.below(200);
        all.push(bytes(&recordings::accepted(&mut random, count)));
    }
    all.push(bytes(&recordings::flat(4096)));
    for recording in all {
        folder.put("any.rec", &recording);
        let table = folder.mill(&["export", "any.rec"]);
        assert_eq!(table.text().lines().count(), 1 + recording.len() / 16);
        folder.mill_reads(&["import", "-"], &table.out).gives(&recording);
    }
}

#[test]
fn tables_as_people_write_them() {
    let folder = Folder::new("csv_forms");
    let tables = [
        "time,a,b,slope_a,slope_b,pigment\n10,-3,4,falling,rising,16\n",
        "time,a,b,slope_a,slope_b,pigment\n10,-3,4,falling,rising,16",
        "time,a,b,slope_a,slope_b,pigment\r\n10,-3,4,falling,rising,16\r\n",
        "\u{feff}time,a,b,slope_a,slope_b,pigment\n10,-3,4,0,2,16\n",
        "pigment,slope_b,slope_a,b,a,time\n16,2,0,4,-3,10\n",
        "\"time\", \"a\", \"b\", \"slope_a\", \"slope_b\", \"pigment\"\n\"10\", \"-3\", 4,\t\"falling\", 2, 16 \n",
    ];
    let expected = [10, 0, 0, 0, 253, 255, 255, 255, 4, 0, 0, 0, 0, 2, 16, 0];
    for table in tables {
        folder.mill_reads(&["import", "-"], table.as_bytes()).gives(&expected);
    }
    let ends = "time,a,b,slope_a,slope_b\n0,-1000000000,1000000000,0,1\n2000000000,0,0,1,1\n";
    let both = folder.mill_reads(&["import", "-"], ends.as_bytes());
    assert_eq!((both.status, both.out.len()), (Some(0), 32));
}

#[test]
fn every_bad_line_is_named_and_nothing_is_written() {
    let folder = Folder::with_recordings("csv_bad");
    folder.put("out.rec", b"old");
    let table = "\
time,a,b,slope_a,slope_b,pigment
0,40,50,rising,flat,0
x,60,50,rising,flat,0
10,60,50,rising,flat
20,1000000001,50,rising,flat,0
30,70,-1000000001,falling,flat,0
40,30,50,up,flat,0
50,55,50,rising,3,0

60,90,50,rising,flat,17
60,90,50,rising,flat,0
60,45,50,falling,flat,0
2000000001,1,1,flat,flat,0
70,1.5,1,flat,flat,0
80,99999999999999999999,1,flat,flat,0
90,,1,flat,flat,0
100,1,1,flat,flat,-1
110,45,50,falling,flat,0
";
    folder.put("bad.csv", table.as_bytes());
    let ran = folder.mill(&["import", "-o", "out.rec", "bad.csv"]);
    let expected = [
        (3, "time 'x' is not a whole number from 0 to 2000000000"),
        (4, "has 5 fields, and there are 6 columns"),
        (5, "a '1000000001' is not a whole number from -1000000000 to 1000000000"),
        (6, "b '-1000000001' is not a whole number from -1000000000 to 1000000000"),
        (7, "slope_a 'up' is none of falling, flat and rising"),
        (8, "slope_b '3' is none of falling, flat and rising"),
        (9, "has 1 fields, and there are 6 columns"),
        (10, "pigment '17' is not a whole number from 0 to 16"),
        (12, "time 60 is not after 60"),
        (13, "time '2000000001' is not a whole number from 0 to 2000000000"),
        (14, "a '1.5' is not a whole number from -1000000000 to 1000000000"),
        (15, "a '99999999999999999999' is not a whole number from -1000000000 to 1000000000"),
        (16, "a '' is not a whole number from -1000000000 to 1000000000"),
        (17, "pigment '-1' is not a whole number from 0 to 16"),
    ];
    let lines: String = expected.iter().map(|(number, why)| format!("mill: bad.csv: line {number}: {why}\n")).collect();
    assert_eq!((ran.status, ran.text(), ran.err.as_str()), (Some(2), "", lines.as_str()));
    assert_eq!(folder.read("out.rec").as_deref(), Some(&b"old"[..]));
    folder
        .mill_reads(&["import", "-"], b"time,a,b,slope_a,slope_b\n1,2,3,flat,\xff\n")
        .troubles("standard input: line 2: is no text");
}

#[test]
fn bad_headers_are_named() {
    let folder = Folder::new("csv_headers");
    let expected = [
        ("", "no line names the columns time,a,b,slope_a,slope_b,pigment"),
        ("\n", "'' is none of the columns time,a,b,slope_a,slope_b,pigment"),
        ("time,a,b,slope_a\n", "the column slope_b is missing"),
        ("a,b,slope_a,slope_b,pigment\n", "the column time is missing"),
        ("time,a,b,slope_a,slope_b,a\n", "the column a is there twice"),
        ("time;a;b\n", "'time;a;b' is none of the columns time,a,b,slope_a,slope_b,pigment"),
        ("0,40,50,rising,flat,0\n", "'0' is none of the columns time,a,b,slope_a,slope_b,pigment"),
    ];
    for (table, why) in expected {
        folder.mill_reads(&["import", "-"], table.as_bytes()).troubles(&format!("standard input: line 1: {why}"));
    }
}

#[test]
fn the_library_has_the_last_word() {
    let folder = Folder::with_recordings("csv_refused");
    let lines: String = (0..4097).map(|time| format!("{time},0,0,1,1\n")).collect();
    folder.put("out.rec", b"old");
    folder.put("many.csv", format!("time,a,b,slope_a,slope_b\n{lines}").as_bytes());
    let hint = ["many.csv: --pieces writes several files, and --into takes the readings into a tin"];
    folder.mill(&["import", "-o", "out.rec", "many.csv"]).refused_with("many.csv", 2, &hint);
    assert_eq!(folder.read("out.rec").as_deref(), Some(&b"old"[..]));
    folder.mill(&["export", "-o", "out.rec", "bad.rec"]).refused("bad.rec", 3, 2);
    folder.mill(&["export", "short.rec"]).refused("short.rec", 1, 0);
    assert_eq!(folder.read("out.rec").as_deref(), Some(&b"old"[..]));
}
