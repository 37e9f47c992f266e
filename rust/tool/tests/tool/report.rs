//! Covers: report over several recordings, its order, its refusals, its limit.

use super::folder::Folder;
use super::json;

#[test]
fn figures_of_a_few() {
    let folder = Folder::with_recordings("report");
    folder.put("flat.rec", &[0, 0, 0, 0, 0, 0, 0, 0, 0, 0, 0, 0, 1, 1, 0, 0]);
    // Tops at 30 and 70, one at 40, none.
    folder
        .mill(&["report", "peaks(A)", "40", "r1.rec", "r2.rec", "flat.rec"])
        .answers("recordings 3\nmet        1\nempty      1\ndistances  10\nmean       0.5454545454545454\n");
    folder
        .mill(&["report", "peaks(A)", "31", "r2.rec", "r3.rec"])
        .answers("recordings 2\nmet        0\nempty      0\ndistances  18\nmean       0.1\n");
    folder
        .mill(&["report", "lag", "5", "r1.rec"])
        .answers("recordings 1\nmet        0\nempty      1\ndistances  0\nmean       none\n");
    let json = "{\"recordings\":2,\"met\":0,\"empty\":0,\"distances\":18,\"mean\":0.1,\"assured\":null,\"not_assured\":0}\n";
    folder.mill(&["report", "--json", "peaks(A)", "31", "r2.rec", "r3.rec"]).answers(json);
    let json = "{\"recordings\":1,\"met\":0,\"empty\":1,\"distances\":0,\"mean\":null,\"assured\":null,\"not_assured\":0}\n";
    folder.mill(&["report", "lag", "5", "r1.rec", "--json"]).answers(json);
    let read = folder.mill_reads(&["report", "peaks(A)", "31", "-", "r3.rec"], &folder.read("r2.rec").unwrap());
    read.answers("recordings 2\nmet        0\nempty      0\ndistances  18\nmean       0.1\n");
}

#[test]
fn a_refused_recording_stops_it_and_is_named() {
    let folder = Folder::with_recordings("report_refused");
    folder.mill(&["report", "peaks(A)", "31", "r1.rec", "bad.rec", "short.rec"]).refused("bad.rec", 3, 2);
    folder
        .mill(&["report", "peaks(A)", "31", "r1.rec", "empty.rec"])
        .troubles("empty.rec: is empty: neither a recording nor a tin");
    folder.mill(&["report", "peaks(", "31", "r1.rec"]).refused("", 6, 0);
    folder.mill(&["report", "peaks(A)", "2000000001", "bad.rec"]).refused("", 12, 0);
    folder.mill(&["report", "peaks(A)", "31", "r1.rec", "none.rec"]).troubles("none.rec: No such file or directory");
    folder.mill(&["report", "peaks(A)", "x", "r1.rec"]).troubles_with("TARGET 'x' is not a whole number");
    folder.mill(&["report", "peaks(A)", "31"]).troubles_with("RECORDING is missing");
}

#[test]
fn a_thousand_are_taken_and_one_more_is_not() {
    let folder = Folder::with_recordings("report_many");
    let mut words = vec!["report", "peaks(A)", "30"];
    words.extend(["r1.rec"; 1000]);
    folder.mill(&words).answers("recordings 1000\nmet        1000\nempty      0\ndistances  0\nmean       1\n");
    words.push("r1.rec");
    folder.mill(&words).refused("", 15, 0);
}

#[test]
fn each_recording_has_a_line() {
    let folder = Folder::with_recordings("report_each");
    folder.put("flat, and \"so on\".rec", &[0, 0, 0, 0, 0, 0, 0, 0, 0, 0, 0, 0, 1, 1, 0, 0]);
    assert_eq!(folder.mill(&["thin", "-o", "r2.tin", "r2.rec"]).status, Some(0));
    let words = ["report", "--each", "peaks(A)", "40", "r1.rec", "r2.tin", "flat, and \"so on\".rec"];
    let figures = "recordings 3\nmet        1\nempty      1\ndistances  10\nmean       0.5454545454545454\n";
    let table = "\
recording              answer  distance  degree               assured  refusal
r1.rec                 short   10        0.09090909090909091  -        -
r2.tin                 met     -         -                    yes      -
flat, and \"so on\".rec  empty   -         -                    -        -
";
    folder.mill(&words).answers(&format!("{table}\n{figures}"));
    folder.mill(&[&words[..], &["--csv"]].concat()).answers(
        "\
recording,answer,distance,degree,assured,refusal
r1.rec,short,10,0.09090909090909091,,
r2.tin,met,,,yes,
\"flat, and \"\"so on\"\".rec\",empty,,,,
",
    );
    let told = json::line(&folder.mill(&[&words[..], &["--json"]].concat()).out);
    assert_eq!(told.at("met"), &json::number(1));
    let each = told.at("each").list();
    assert_eq!((each[0].at("answer"), each[0].at("distance")), (&json::string("short"), &json::number(10)));
    assert_eq!((each[1].at("answer"), each[1].at("assured")), (&json::string("met"), &json::Value::Truth(true)));
    assert_eq!((each[2].at("answer"), each[2].at("assured")), (&json::string("empty"), &json::Value::Null));
    folder.mill(&["report", "--csv", "peaks(A)", "40", "r1.rec"]).troubles_with("--csv goes with --each, and not with --json");
    folder.mill(&["report", "--csv", "--each", "--json", "peaks(A)", "40", "r1.rec"]).troubles_with("--csv goes with --each");
}

#[test]
fn bad_files_are_told_or_left_out() {
    let folder = Folder::with_recordings("report_bad");
    let files = ["r1.rec", "bad.rec", "none.rec", "r2.rec", "empty.rec"];
    let of_two = "recordings 2\nmet        1\nempty      0\ndistances  10\nmean       0.5454545454545454\n";
    let lines = "\
mill: bad.rec: refused 3 2: a reading breaks its rules: its time is not after the one before, or one of its numbers is out of range
mill: none.rec: No such file or directory
mill: empty.rec: is empty: neither a recording nor a tin
";
    let ran = folder.mill(&[&["report", "--skip-refused", "peaks(A)", "40"][..], &files].concat());
    let left_out = format!("{lines}mill: 3 of 5 files are left out\n");
    assert_eq!((ran.status, ran.text(), ran.err.as_str()), (Some(0), of_two, left_out.as_str()));
    let ran = folder.mill(&[&["report", "--skip-refused", "--each", "--csv", "peaks(A)", "40"][..], &files].concat());
    assert_eq!((ran.status, ran.err.as_str()), (Some(0), left_out.as_str()));
    assert_eq!(ran.text().lines().count(), 6);
    let told = json::line(&folder.mill(&[&["report", "--skip-refused", "--json", "peaks(A)", "40"][..], &files].concat()).out);
    assert_eq!((told.at("recordings"), told.at("left_out")), (&json::number(2), &json::number(3)));
    // Of tins whose answer is not assured, those that answered are counted.
    for name in ["one.tin", "two.tin"] {
        folder.mill(&["thin", "-o", name, "r2.rec"]).answers("readings 9\nkept     6\n");
    }
    let tins = folder.mill(&["report", "--skip-refused", "lowafter(A,10)", "5", "one.tin", "bad.rec", "two.tin", "none.rec"]);
    assert!(tins.err.contains("mill: 2 of 2 recordings are not assured\n"), "{}", tins.err);
    assert!(ran.text().contains("none.rec,refused,,,,No such file or directory\n"), "{}", ran.text());
    // Without leaving them out each has its line, and there are no figures.
    let ran = folder.mill(&[&["report", "--each", "peaks(A)", "40"][..], &files].concat());
    assert_eq!((ran.status, ran.err.as_str()), (Some(1), lines));
    assert_eq!(ran.text().lines().count(), 6);
    let told = json::line(&folder.mill(&[&["report", "--each", "--json", "peaks(A)", "40"][..], &files].concat()).out);
    assert_eq!(told.at("each").list()[2].at("said"), &json::string("No such file or directory"));
    let none = folder.mill(&["report", "--skip-refused", "peaks(A)", "40", "bad.rec"]);
    assert_eq!(
        (none.status, none.text()),
        (Some(0), "recordings 0\nmet        0\nempty      0\ndistances  0\nmean       none\n")
    );
}
