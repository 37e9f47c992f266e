//! Covers: damage to tins, tried with every bit changed, every reading left out and every length cut off; `verify`; other formats and
//! other kept rules. And that no tin, whole or with a bit changed, is a recording.

use super::folder::Folder;
use super::json::{self, Value};
use super::tin::{summed, Tin, MAGIC};
use crate::support::r2::r2_bytes;
use crate::support::r3::r3_bytes;
use crate::support::recordings;
use reference::kept::mark_bytes;

/// What is kept of R3 under two marks, in a tin.
fn tin() -> Vec<u8> {
    let kept = reference::thin(&r3_bytes(), &mark_bytes(&[10, 40]), 4096).unwrap();
    Tin::of(&[10, 40], 9, &kept).bytes()
}

/// The files, each with its bytes; `verify` says of none that it is whole, and no command answers.
fn all_noticed(folder: &Folder, files: &[(String, Vec<u8>)]) {
    for (name, bytes) in files {
        folder.put(name, bytes);
    }
    for group in files.chunks(500) {
        let names: Vec<&str> = group.iter().map(|(name, _)| name.as_str()).collect();
        let ran = folder.mill(&[&["verify", "--json"][..], &names].concat());
        assert_eq!((ran.status, ran.err.as_str()), (Some(1), ""));
        let told = json::line(&ran.out);
        assert_eq!(told.at("files").list().len(), names.len());
        for file in told.at("files").list() {
            assert_eq!(file.at("whole"), &Value::Truth(false), "{file:?}");
        }
    }
    let commands: [&[&str]; 3] = [&["ask", "T>=v"], &["thin"], &["add", "other"]];
    for (at, (name, _)) in files.iter().enumerate() {
        // Each of some commands in turn, and a question always.
        for command in [commands[0], commands[at % 3]] {
            let ran = folder.mill(&[command, &[name.as_str()]].concat());
            assert_eq!((ran.status, ran.text()), (Some(2), ""), "mill {}: {}", ran.words, ran.err);
            assert!(ran.err.starts_with(&format!("mill: {name}: is ")), "mill {}: {}", ran.words, ran.err);
        }
        std::fs::remove_file(folder.at(name)).unwrap();
    }
    assert_eq!(folder.read("other"), None);
}

#[test]
fn the_tin_that_is_damaged_below_is_whole() {
    let folder = Folder::with_recordings("whole");
    folder.put("tin", &tin());
    folder.mill(&["verify", "tin"]).answers("tin: whole: 8 of 9 readings, marks 10 40\n");
    folder.mill(&["ask", "dose(7)", "tin"]).answers("runs 1\n20 20\n");
    folder.mill(&["add", "-m", "40", "-m", "10", "same", "r3.rec"]).answers("taken 9\nheld  8\n");
    assert_eq!(folder.read("same"), Some(tin()));
}

#[test]
fn every_flipped_bit_is_noticed() {
    let folder = Folder::new("flipped");
    let flipped = |bit: usize| {
        let mut bytes = tin();
        bytes[bit / 8] ^= 1 << (bit % 8);
        (format!("bit.{bit}"), bytes)
    };
    let all: Vec<_> = (0..tin().len() * 8).map(flipped).collect();
    assert_eq!(all.len(), 8 * (128 + 8 * 16));
    all_noticed(&folder, &all);
}

#[test]
fn every_length_cut_off_is_noticed() {
    let folder = Folder::new("cut");
    let mut all: Vec<_> = (1..tin().len()).map(|length| (format!("cut.{length}"), tin()[..length].to_vec())).collect();
    all.push(("longer".to_string(), [tin(), vec![0]].concat()));
    all.push(("longer.by.a.reading".to_string(), [tin(), tin()[tin().len() - 16..].to_vec()].concat()));
    all_noticed(&folder, &all);
    // Nothing is left of it: a beginning for `add`, and damaged for every question.
    folder.put("nothing", b"");
    folder.mill(&["verify", "nothing"]).with_status(1, "nothing: is empty: neither a recording nor a tin\n");
    let line = "nothing: is empty: neither a recording nor a tin";
    for words in [
        &["ask", "high(A)", "nothing"][..],
        &["degree", "high(A)", "3", "nothing"],
        &["band", "high(A)", "3", "nothing"],
        &["pair", "A", "3", "nothing"],
        &["order", "/dev/null", "nothing"],
        &["report", "high(A)", "3", "nothing"],
        &["entry", "nothing"],
        &["lab", "ask", "high(A)", "nothing"],
        &["assured", "high(A)", "nothing"],
    ] {
        folder.mill(words).troubles(line);
    }
    folder.mill(&["raw", "nothing"]).troubles("nothing: is no tin");
    folder.mill_reads(&["add", "nothing", "-"], &r2_bytes()).answers("taken 9\nheld  6\n");
}

#[test]
fn every_reading_left_out_is_noticed() {
    let folder = Folder::new("left_out");
    let whole = Tin::read(&tin()).unwrap();
    let mut all = Vec::new();
    for at in 0..whole.readings.len() / 16 {
        let mut left = tin();
        left.drain(128 + 16 * at..144 + 16 * at);
        all.push((format!("left.{at}"), left));
        // And two swapped, and one that is another's.
        let mut swapped = tin();
        swapped[128..].rotate_left(16 * at);
        if at > 0 {
            all.push((format!("swapped.{at}"), swapped));
        }
    }
    all_noticed(&folder, &all);
}

/// A head that says what is not so, with a checksum that fits: a program wrote it that is not this one.
#[test]
fn a_head_that_does_not_fit_is_noticed() {
    let folder = Folder::new("head");
    let whole = Tin::read(&tin()).unwrap();
    let with = |at: usize, bytes: &[u8]| {
        let mut head = tin()[..120].to_vec();
        head[at..at + bytes.len()].copy_from_slice(bytes);
        summed(head, &whole.readings)
    };
    let wrong = [
        with(24, &[3, 0, 0, 0]),
        with(24, &[9, 0, 0, 0]),
        with(24, &[255; 4]),
        with(28, &[7, 0, 0, 0]),
        with(32, &[1, 0, 0, 0]),
        with(32, &[9, 0, 0, 0]),
        with(36, &[1, 0, 0, 0]),
        with(40, &[7, 0, 0, 0, 0, 0, 0, 0]),
        with(48, &[40, 0, 0, 0]),
        with(48, &[50, 0, 0, 0]),
        with(52, &[1, 148, 53, 119]),
        with(56, &[1, 0, 0, 0]),
        with(80, &[1]),
        with(119, &[1]),
        Tin { marks: vec![10], ..whole.clone() }.bytes(),
        Tin { readings: r3_bytes(), ..whole.clone() }.bytes(),
        Tin { taken: Some(7), ..whole.clone() }.bytes(),
        Tin { readings: vec![255; 32], ..whole.clone() }.bytes(),
        Tin { readings: whole.readings[..40].to_vec(), ..whole }.bytes(),
    ];
    let wrong: Vec<_> = wrong.into_iter().enumerate().map(|(at, bytes)| (format!("wrong.{at}"), bytes)).collect();
    all_noticed(&folder, &wrong);
}

#[test]
fn other_formats_and_rules_are_named() {
    let folder = Folder::with_recordings("formats");
    let with = |at: usize, number: u32| {
        let mut head = tin()[..120].to_vec();
        head[at..at + 4].copy_from_slice(&number.to_le_bytes());
        summed(head, &tin()[128..])
    };
    folder.put("later", &with(16, 2));
    folder.put("rule", &with(20, 6));
    let later = "later: is a tin of format 2, and this version of mill reads format 1";
    let rule = "rule: is a tin of the kept rule 6, and this version of mill keeps by rule 4";
    for (name, line) in [("later", later), ("rule", rule)] {
        let before = folder.read(name);
        for words in
            [&["ask", "high(A)", name][..], &["show", name], &["add", name, "r1.rec"], &["add", "kept", name], &["raw", name]]
        {
            folder.mill(words).troubles(line);
        }
        folder.mill(&["verify", name]).with_status(1, &format!("{line}\n"));
        assert_eq!(folder.read(name), before);
    }
    assert_eq!(folder.read("kept"), None);
    // A later format may sum otherwise.
    let mut unsummed = with(16, 2);
    unsummed[120] ^= 1;
    folder.put("unsummed", &unsummed);
    folder
        .mill(&["ask", "high(A)", "unsummed"])
        .troubles("unsummed: is a damaged tin, or one of format 2: its checksum does not fit");
}

/// The promise on the magic word, for whatever follows it: no file that begins with it, or with it and one or two bits changed, is a
/// recording, so it can't be taken for bare readings. Asked of the library itself.
#[test]
fn no_tin_is_a_recording() {
    let no_recording = |bytes: &[u8]| matches!(mill::decode(bytes), Err(mill::Refusal::BadRecord { index: 0 }));
    let whole = tin();
    assert!(no_recording(&whole));
    for bit in 0..whole.len() * 8 {
        let mut flipped = whole.clone();
        flipped[bit / 8] ^= 1 << (bit % 8);
        assert!(no_recording(&flipped), "bit {bit}");
    }
    // By the first reading alone, so whatever stands behind it.
    for one in 0..128 {
        for other in 0..=one {
            let mut first = MAGIC;
            first[one / 8] ^= 1 << (one % 8);
            if other < one {
                first[other / 8] ^= 1 << (other % 8);
            }
            assert!(no_recording(&first), "bits {one} and {other}");
        }
    }
    // The nearest bytes that are a reading lie more bits away than a magic word may be damaged to be known.
    let legal = |byte: u8, most: u8| (0..=most).map(|legal| (legal ^ byte).count_ones()).min().unwrap();
    let away = legal(MAGIC[12], 2) + legal(MAGIC[13], 2) + legal(MAGIC[14], 16) + legal(MAGIC[15], 0);
    assert_eq!(away, 9);
}

#[test]
fn verify_tells_of_each_file() {
    let folder = Folder::with_recordings("verify");
    folder.put("tin", &tin());
    let mut damaged = tin();
    damaged[130] ^= 4;
    folder.put("damaged", &damaged);
    folder.put("pair", &r2_bytes()[..32]);
    folder.put("pair.marks", b"mill marks\n40\n");
    folder.put("other", &r2_bytes());
    folder.put("other.marks", b"mill marks\n40\n");
    let lines = "\
tin: whole: 8 of 9 readings, marks 10 40
damaged: is a damaged tin: its checksum does not fit
pair: is no tin, and has no checksum: 'mill add' makes a tin of it
other: is no tin, and its readings are not those kept under its marks
r1.rec: is no tin, and has no checksum
bad.rec: is no tin, and has no checksum
";
    let names = ["tin", "damaged", "pair", "other", "r1.rec", "bad.rec"];
    folder.mill(&[&["verify"][..], &names].concat()).with_status(1, lines);
    folder.mill(&["verify", "tin", "tin"]).answers(&lines.lines().next().map(|line| format!("{line}\n{line}\n")).unwrap());
    std::fs::create_dir(folder.at("a_folder")).unwrap();
    folder.mill(&["verify", "a_folder"]).with_status(2, "a_folder: Is a directory\n");
    folder
        .mill(&["verify", "none", "tin"])
        .with_status(2, "none: No such file or directory\ntin: whole: 8 of 9 readings, marks 10 40\n");
    folder.mill_reads(&["verify", "-"], &tin()).answers("standard input: whole: 8 of 9 readings, marks 10 40\n");
    folder.mill(&["verify"]).troubles("verify: FILE is missing; see 'mill verify --help'");
    let told = json::line(&folder.mill(&["verify", "--json", "tin"]).out);
    assert_eq!(told.at("whole"), &Value::Truth(true));
    assert_eq!(told.at("files").list()[0].at("said"), &json::string("whole: 8 of 9 readings, marks 10 40"));
    // A pair becomes a tin, of which it is known then that nobody counted.
    folder.mill(&["add", "pair", "empty.rec"]).answers("taken 0\nheld  2\n");
    folder.mill(&["verify", "pair"]).answers("pair: whole: 2 of an unknown number of readings, marks 40\n");
    assert_eq!(folder.read("pair.marks"), None);
}

/// Every command takes a tin where it takes a recording, and answers as of its bare readings.
#[test]
fn every_command_takes_a_tin() {
    let folder = Folder::with_recordings("takes");
    folder.put("tin", &tin());
    folder.put("sheet", b"7 16\n16 7\n");
    folder.mill(&["raw", "tin"]).gives(&tin()[128..]);
    folder.mill(&["raw", "-o", "bare", "tin"]).answers("readings 8\n");
    folder.mill(&["raw", "--json", "-o", "bare2", "tin"]).answers("{\"readings\":8}\n");
    assert_eq!(folder.read("bare").as_deref(), Some(&tin()[128..]));
    folder.mill(&["raw", "r1.rec"]).troubles("r1.rec: is no tin");
    let commands: [&[&str]; 12] = [
        &["ask", "capafter(A,40)", "FILE"],
        &["degree", "peaks(A)", "3", "FILE"],
        &["pair", "A", "20", "FILE"],
        &["band", "high(A)", "5", "FILE"],
        &["order", "sheet", "FILE"],
        &["report", "peaks(A)", "3", "FILE"],
        &["entry", "FILE"],
        &["lab", "ask", "-m", "40", "-m", "10", "capafter(A,10)", "FILE"],
        &["show", "-m", "40", "-m", "10", "FILE"],
        &["thin", "-m", "40", "-m", "10", "FILE"],
        &["export", "FILE"],
        &["export", "--json", "FILE"],
    ];
    for words in commands {
        let [of_tin, bare] = ["tin", "bare"].map(|file| {
            let words: Vec<&str> = words.iter().map(|word| if *word == "FILE" { file } else { word }).collect();
            let ran = folder.mill(&words);
            assert_eq!((ran.status, ran.err.as_str()), (Some(0), ""), "mill {}", ran.words);
            String::from_utf8_lossy(&ran.out).replace("bare", "tin").replace("recording\n", "\n")
        });
        assert_eq!(of_tin, bare, "mill {words:?}");
        let read: Vec<&str> = words.iter().map(|word| if *word == "FILE" { "-" } else { word }).collect();
        assert_eq!(folder.mill_reads(&read, &tin()).status, Some(0), "mill {read:?}");
    }
}

/// A tin lacks readings that the join may have to keep, so it can only be the first piece.
#[test]
fn a_tin_as_a_piece_can_only_begin_a_tin() {
    // Why: behind a rise a fall is a top that by itself it is not.
    let all = reference::recording::bytes(&recordings::with_slopes(0, &[2, 2, 1, 1, 0, 0, 1, 1]));
    let [first, second] = [&all[..32], &all[32..]].map(|piece| mill::thin(piece, &[]).unwrap());
    let peaks = |recording: &[u8]| mill::question(recording, b"peaks(A)").unwrap();
    assert_ne!(peaks(&[first, second].concat()), peaks(&all));
    let folder = Folder::with_recordings("tin_piece");
    let r3 = r3_bytes();
    folder.put("first", &r3[..64]);
    folder.put("second", &r3[64..]);
    for (name, piece) in [("one", "first"), ("two", "second")] {
        assert_eq!(folder.mill(&["add", "-m", "40", name, piece]).status, Some(0));
    }
    folder.mill(&["add", "new", "one"]).answers("taken 4\nheld  4\n");
    assert_eq!(folder.read("new"), folder.read("one"));
    let before = folder.read("new");
    folder.mill(&["add", "new", "two"]).troubles_with("two: is a tin, and lacks readings that may have to be kept behind others");
    folder.mill(&["add", "-m", "10", "other", "one"]).troubles("one: its marks are 40, and not 10");
    assert_eq!((folder.read("new"), folder.read("other")), (before, None));
    // Marks that are set stay, though nothing is held yet.
    folder.mill(&["add", "-m", "10", "begun", "empty.rec"]).answers("taken 0\nheld  0\n");
    folder.mill(&["add", "begun", "one"]).troubles("begun: its marks are 10, and not 40");
    folder.mill(&["add", "unmarked", "first"]).answers("taken 4\nheld  4\n");
    folder.mill(&["add", "begun", "unmarked"]).troubles("unmarked: its marks are none, and not 10");
    assert_eq!(folder.tin("begun"), Some(Tin::of(&[10], 0, &[])));
    folder.mill(&["add", "new", "second"]).answers("taken 5\nheld  8\n");
    assert_eq!(folder.tin("new"), Some(Tin::of(&[40], 9, &reference::thin(&r3, &mark_bytes(&[40]), 4096).unwrap())));
}

/// So it is with readings that have their marks beside them, as they were kept before there were tins.
#[test]
fn a_pair_as_a_piece_can_only_begin_a_tin() {
    let folder = Folder::with_recordings("pair_piece");
    let all = reference::recording::bytes(&recordings::with_slopes(0, &[2, 2, 1, 1, 0, 0, 1, 1]));
    folder.put("first", &all[..32]);
    folder.put("second", &mill::thin(&all[32..], &[]).unwrap());
    folder.put("second.marks", b"mill marks\n");
    folder.mill(&["add", "joined", "first"]).answers("taken 2\nheld  2\n");
    let before = folder.read("joined");
    let line = "second: holds kept readings with marks, and lacks readings that may have to be kept behind others";
    folder.mill(&["add", "joined", "second"]).troubles_with(line);
    assert_eq!(folder.read("joined"), before);
    // It begins one under its own marks, of which nobody knows how many readings were taken.
    let kept = |marks: &[i64]| reference::thin(&r3_bytes(), &mark_bytes(marks), 4096).unwrap();
    folder.put("pair", &kept(&[40]));
    folder.put("pair.marks", b"mill marks\n40\n");
    folder.mill(&["add", "-m", "10", "other", "pair"]).troubles("pair: its marks are 40, as pair.marks says, and not 10");
    assert_eq!(folder.read("other"), None);
    folder.mill(&["add", "begun", "pair"]).answers(&format!("taken {0}\nheld  {0}\n", kept(&[40]).len() / 16));
    assert_eq!(folder.tin("begun"), Some(Tin { taken: None, ..Tin::of(&[40], 0, &kept(&[40])) }));
    folder.mill(&["add", "-m", "10", "ten", "empty.rec"]).answers("taken 0\nheld  0\n");
    folder.mill(&["add", "ten", "pair"]).troubles("ten: its marks are 10, and not 40");
    // A link to it is the same, and a table that has such a file beside it is none.
    std::os::unix::fs::symlink("pair", folder.at("link")).unwrap();
    folder.mill(&["add", "begun", "link"]).troubles_with("link: holds kept readings with marks, and lacks readings");
    folder.put("table", b"time,a,b,slope_a,slope_b\n90,1,0,1,1\n");
    folder.put("table.marks", b"mill marks\n40\n");
    folder.mill(&["import", "--into", "begun", "table"]).answers("taken 1\nheld  8\n");
    // Marks that are not those of the readings tell nothing.
    folder.put("doubtful", &r3_bytes());
    folder.put("doubtful.marks", b"mill marks\n40\n");
    folder.put("talk", &r3_bytes());
    folder.put("talk.marks", b"what was talked of that day\n");
    for (name, why) in [
        ("doubtful", "doubtful: its readings are not those kept under its marks"),
        ("talk", "talk: talk.marks holds no list of marks"),
    ] {
        folder.mill(&["add", "no", name]).troubles(why);
        folder.mill(&["thin", name]).troubles(why);
        folder.mill(&["thin", "-m", "40", "-o", "no", name]).troubles(why);
    }
    assert_eq!(folder.read("no"), None);
}
