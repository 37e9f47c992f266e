//! Covers: tables as spreadsheets and other programs write them, with the options of import.

use super::folder::{Folder, Ran};
use super::json;
use mill::{decode, Reading, Slope};

/// What a table of these lines gives with these options.
fn import(folder: &Folder, options: &[&str], table: &str) -> Ran {
    folder.mill_reads(&[&["import"][..], options, &["-"]].concat(), table.as_bytes())
}

#[track_caller]
fn readings(ran: &Ran) -> Vec<Reading> {
    assert_eq!(ran.status, Some(0), "{}", ran.err);
    decode(&ran.out).unwrap()
}

#[track_caller]
fn numbers(ran: &Ran) -> Vec<(u32, i32, i32)> {
    readings(ran).iter().map(|reading| (reading.time, reading.a, reading.b)).collect()
}

const SHEET: &str = "\u{feff}Uhrzeit;Charge;Standard;Bemerkung\r
23:59:58;12,34;-0,5;Start\r
23:59:59;12,5;0;\"a; b\"\r
00:00:01;12,30;0,01;\r
00:00:02;12,3;0,01;\r\n";

#[test]
fn a_spreadsheet_in_one_command() {
    let folder = Folder::new("spreadsheet");
    folder.put("sheet.csv", SHEET.as_bytes());
    let options = ["--delimiter", ";", "--decimal", ",", "--scale", "100", "--time", "clock"];
    let more = ["--columns", "time=Uhrzeit,a=Charge,b=Standard", "--slopes", "5", "-o", "batch.rec", "sheet.csv"];
    let ran = folder.mill(&[&["import"][..], &options, &more].concat());
    ran.answers_noting("readings 4\n", "sheet.csv: columns let be: Bemerkung");
    let all = decode(&folder.read("batch.rec").unwrap()).unwrap();
    let found: Vec<_> =
        all.iter().map(|reading| (reading.time, reading.a, reading.b, reading.slope_a, reading.slope_b)).collect();
    assert_eq!(
        found,
        [
            (863_980, 1234, -50, Slope::Flat, Slope::Flat),
            (863_990, 1250, 0, Slope::Rising, Slope::Rising),
            (864_010, 1230, 1, Slope::Falling, Slope::Flat),
            (864_020, 1230, 1, Slope::Flat, Slope::Flat),
        ]
    );
}

const HEADER: &str = "time,a,b,slope_a,slope_b\n";

#[test]
fn values_are_scaled_exactly_or_bad() {
    let folder = Folder::new("scale");
    let of = |options: &[&str], value: &str| import(&folder, options, &format!("{HEADER}1,\"{value}\",0,1,1\n"));
    for (options, value, number) in [
        (&["--scale", "100"][..], "12.34", 1234),
        (&["--scale", "100"], "-12.3", -1230),
        (&["--scale", "100"], "12", 1200),
        (&["--scale", "100"], "12.34000", 1234),
        (&["--scale", "1000", "--decimal", ","], "0,001", 1),
        (&["--decimal", ","], "7", 7),
        (&["--decimal", ","], "7,0", 7),
        (&["--scale", "1000000000"], "-1", -1_000_000_000),
        (&["--scale=10"], "99999999.9", 999_999_999),
    ] {
        assert_eq!(numbers(&of(options, value)), [(1, number, 0)], "{value}");
    }
    let scaled = |value: &str, times: &str, sign: &str| {
        format!("standard input: line 2: a '{value}' times {times} is not a whole number from -1000000000 to 1000000000; the decimal sign is {sign}")
    };
    for (options, value, times, sign) in [
        (&["--scale", "100"][..], "12.345", "100", "."),
        (&["--scale", "100"], "12,34", "100", "."),
        (&["--scale", "100", "--decimal", ","], "12.34", "100", ","),
        (&["--scale", "100"], "12.", "100", "."),
        (&["--scale", "100"], ".5", "100", "."),
        (&["--scale", "100"], "1e3", "100", "."),
        (&["--scale", "100"], "+1", "100", "."),
        (&["--scale", "100"], "--1", "100", "."),
        (&["--scale", "100"], "", "100", "."),
        (&["--scale", "1000000000"], "1.000000001", "1000000000", "."),
        (&["--decimal", ","], "7,5", "1", ","),
        (&["--scale", "100"], "99999999999999999999", "100", "."),
    ] {
        of(options, value).troubles(&scaled(value, times, sign));
    }
    // Without the options a value is a whole number, as before.
    of(&[], "12.0").troubles_with("a '12.0' is not a whole number from");
    for wrong in ["0", "5", "1e2", "10000000000", "-10", "", "100.0"] {
        of(&["--scale", wrong], "1").troubles_with("--scale wants 1, 10, 100 .. or 1000000000");
    }
    of(&["--decimal", ";"], "1").troubles_with("--decimal wants . or ,");
}

#[test]
fn times_in_seconds_and_by_the_clock() {
    let folder = Folder::new("times");
    let of = |options: &[&str], times: &[&str]| {
        let lines: String = times.iter().map(|time| format!("{time};1;2;1;1\n")).collect();
        import(&folder, &[&["--delimiter=;"][..], options].concat(), &format!("{}{lines}", HEADER.replace(',', ";")))
    };
    let times = |ran: Ran| readings(&ran).iter().map(|reading| reading.time).collect::<Vec<_>>();
    assert_eq!(times(of(&["--time", "tenths"], &["5", "6"])), [5, 6]);
    assert_eq!(times(of(&["--time", "seconds"], &["0", "0.1", "1.50", "200000000"])), [0, 1, 15, 2_000_000_000]);
    assert_eq!(times(of(&["--time", "seconds", "--decimal", ","], &["0,5", "1"])), [5, 10]);
    let clock = ["--time", "clock"];
    assert_eq!(times(of(&clock, &["00:00:00", "0:0:01", "01:02:03", "23:59:59.9"])), [0, 10, 37_230, 863_999]);
    // Past midnight it goes on, twice.
    assert_eq!(
        times(of(&clock, &["22:00:00", "06:00:00", "14:00:00", "22:00:00", "06:00:00"])),
        [792_000, 1_080_000, 1_368_000, 1_656_000, 1_944_000]
    );
    for (form, bad, why) in [
        ("seconds", "0.15", "is not a number of seconds with at most one decimal"),
        ("seconds", "-1", "is not a number of seconds with at most one decimal"),
        ("seconds", "200000000.1", "is not a number of seconds with at most one decimal"),
        ("clock", "24:00:00", "is not a time hh:mm:ss"),
        ("clock", "12:60:00", "is not a time hh:mm:ss"),
        ("clock", "12:00:60", "is not a time hh:mm:ss"),
        ("clock", "12:00", "is not a time hh:mm:ss"),
        ("clock", "12:00:00:00", "is not a time hh:mm:ss"),
        ("clock", "-1:00:00", "is not a time hh:mm:ss"),
        ("clock", "12:00:00.15", "is not a time hh:mm:ss"),
    ] {
        of(&["--time", form], &[bad]).troubles(&format!("standard input: line 2: time '{bad}' {why}"));
    }
    // A clock that goes back a little did not go past midnight.
    of(&clock, &["12:00:00", "11:59:59"]).troubles("standard input: line 3: time 431990 is not after 432000");
    of(&clock, &["12:00:00", "12:00:00"]).troubles("standard input: line 3: time 432000 is not after 432000");
    of(&["--time", "hours"], &["1"]).troubles_with("--time wants tenths, seconds or clock");
}

#[test]
fn columns_have_the_names_of_the_table() {
    let folder = Folder::new("columns");
    let table = "t,x,A,B,sa,sb,P\n1,9,2,3,0,2,7\n";
    let map = "time=t,a=A,b=B,slope_a=sa,slope_b=sb,pigment=P";
    let ran = import(&folder, &["--columns", map], table);
    assert_eq!(ran.err, "mill: standard input: columns let be: x\n");
    let expected = Reading { time: 1, a: 2, b: 3, slope_a: Slope::Falling, slope_b: Slope::Rising, pigment: 7 };
    assert_eq!(readings(&ran), [expected]);
    // A column that is named must be there, the pigment too; one that is not named keeps its own name.
    import(&folder, &["--columns", "time=t,a=A,b=B,slope_a=sa,slope_b=sb,pigment=Pigment"], table)
        .troubles("standard input: line 1: the column Pigment is missing");
    import(&folder, &["--columns", "a=A,b=B"], table).troubles("standard input: line 1: the column time is missing");
    // Without --columns no column is let be: a misspelt one would be lost unseen.
    import(&folder, &[], "time,a,b,slope_a,slope_b,pigmant\n1,2,3,1,1,7\n").troubles_with("'pigmant' is none of the columns");
    for wrong in ["a", "a=", "z=A", "a=A,a=B", "=A", ""] {
        import(&folder, &["--columns", wrong], table)
            .troubles_with("is not column=NAME, each of time a b slope_a slope_b pigment once");
    }
    for wrong in ["", ";;", "a", "5", "\"", "-"] {
        import(&folder, &["--delimiter", wrong], table).troubles_with("--delimiter wants one character");
    }
    assert_eq!(numbers(&import(&folder, &["--delimiter", "tab"], "time\ta\tb\tslope_a\tslope_b\n1\t2\t3\t1\t1\n")), [(1, 2, 3)]);
}

/// Rising where the value is over DEAD more than at the reading before, falling where less, else flat; the first is flat.
#[test]
fn slopes_come_from_the_values_only_when_asked() {
    let folder = Folder::new("slopes");
    let table = "time,a,b\n1,0,0\n2,5,-5\n3,11,-11\n4,5,-5\n5,5,-5\n6,-1,1\n7,4,-4\n";
    let of = |dead: &str| {
        let slopes =
            readings(&import(&folder, &["--slopes", dead], table)).into_iter().map(|reading| (reading.slope_a, reading.slope_b));
        slopes.map(|(a, b)| (a.to_byte(), b.to_byte())).collect::<Vec<_>>()
    };
    assert_eq!(of("5"), [(1, 1), (1, 1), (2, 0), (0, 2), (1, 1), (0, 2), (1, 1)]);
    assert_eq!(of("4"), [(1, 1), (2, 0), (2, 0), (0, 2), (1, 1), (0, 2), (2, 0)]);
    assert_eq!(of("0")[4], (1, 1));
    assert_eq!(of("99999999999"), [(1, 1); 7]);
    import(&folder, &[], table).troubles("standard input: line 1: the column slope_a is missing");
    for wrong in ["x", "", "1.5"] {
        import(&folder, &["--slopes", wrong], table).troubles_with("DEAD");
    }
    import(&folder, &["--slopes=-1"], table).troubles_with("DEAD is below 0");
    // Slopes that the table has are let be, and named.
    let ran = import(&folder, &["--slopes", "0"], "time,slope_b,a,b,slope_a\n1,x,0,0,\n2,,1,1,2\n");
    assert_eq!((ran.status, ran.err.as_str()), (Some(0), "mill: standard input: columns let be: slope_b, slope_a\n"));
    assert_eq!(readings(&ran)[1].slope_b, Slope::Rising);
    // The widest step of values.
    let widest = "time,a,b\n1,-1000000000,1000000000\n2,1000000000,-1000000000\n";
    assert_eq!(readings(&import(&folder, &["--slopes", "1999999999"], widest))[1].slope_a, Slope::Rising);
}

#[test]
fn a_long_table_goes_into_pieces_or_into_a_tin() {
    let folder = Folder::new("long_table");
    let lines: String = (0..9000).map(|time| format!("{time},{},0,1,1\n", time % 7)).collect();
    folder.put("long.csv", format!("{HEADER}{lines}").as_bytes());
    folder.mill(&["import", "--pieces", "-o", "part", "long.csv"]).answers("readings 9000\npieces   3\n");
    assert_eq!(folder.names(), ["long.csv", "part-1", "part-2", "part-3"]);
    let sizes = [1, 2, 3].map(|number| folder.read(&format!("part-{number}")).unwrap().len() / 16);
    assert_eq!(sizes, [4096, 4096, 808]);
    folder.mill(&["import", "--pieces", "-o", "part", "long.csv"]).troubles("part-1: is there already; --force writes over it");
    folder
        .mill(&["import", "--pieces", "--json", "--force", "-o", "part", "long.csv"])
        .answers("{\"readings\":9000,\"pieces\":3}\n");
    // Pieces of a longer table would be taken for some of this one.
    let all = folder.read("part-1");
    for force in [&["--force"][..], &[]] {
        let words = [&["import", "--pieces", "-o", "part", "-"][..], force].concat();
        let ran = folder.mill_reads(&words, format!("{HEADER}1,1,1,1,1\n").as_bytes());
        let line = match force.is_empty() {
            true => "part-1: is there already; --force writes over it",
            false => "part-2: is there, and the table has 1 pieces: take it away first",
        };
        ran.troubles(line);
    }
    assert_eq!(folder.read("part-1"), all);
    folder.put("behind-7", b"");
    folder.put("behind-x", b"");
    let short = format!("{HEADER}1,1,1,1,1\n");
    folder.mill_reads(&["import", "--pieces", "-o", "behind", "-"], short.as_bytes()).troubles_with("behind-7: is there, and");
    folder.mill_reads(&["import", "--pieces", "-o", "./part-1", "-"], short.as_bytes()).answers("readings 1\npieces   1\n");
    for number in 1..=3 {
        assert_eq!(folder.mill(&["add", "-m", "40", "tin", &format!("part-{number}")]).status, Some(0));
    }
    let ran = folder.mill(&["import", "--into", "straight", "-m", "40", "long.csv"]);
    assert_eq!(ran.status, Some(0), "{}", ran.err);
    assert_eq!(folder.read("straight"), folder.read("tin"));
    assert_eq!(folder.tin("straight").unwrap().taken, Some(9000));
    let told = json::line(
        &folder.mill_reads(&["import", "--json", "--into", "straight", "-"], format!("{HEADER}9000,1,1,1,1\n").as_bytes()).out,
    );
    assert_eq!(told.at("taken"), &json::number(1));
    for (options, why) in [
        (&["--pieces"][..], "--pieces wants a file, with -o"),
        (&["--into", "tin", "-o", "x"], "--into goes with no -o"),
        (&["-m", "3"], "-m goes with --into"),
        (&["--into", "-"], "TIN must be a file"),
        (&["--into"], "CSV is missing"),
    ] {
        let ran = folder.mill(&[&["import"][..], options, &["long.csv"]].concat());
        ran.troubles_with(why);
    }
}
