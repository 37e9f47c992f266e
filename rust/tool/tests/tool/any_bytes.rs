//! Covers: any bytes as files and as words. Every run ends with status 0, 1 or 2; what is not an answer has its lines; nothing else
//! is written.

use super::folder::{Folder, Ran};
use super::json;
use super::tin::Tin;
use crate::support::r1::r1_bytes;
use crate::support::random::Random;
use std::ffi::OsString;
use std::os::unix::ffi::OsStringExt;

/// Bytes at random: mostly noise, sometimes a recording or a table that is damaged.
fn any_bytes(random: &mut Random) -> Vec<u8> {
    let mut bytes = match random.below(7) {
        0 => r1_bytes(),
        5 => Tin::of(&[40], 8, &r1_bytes()).bytes(),
        6 => mill::entry(&r1_bytes()).unwrap().to_bytes().to_vec(),
        1 => b"time,a,b,slope_a,slope_b,pigment\n0,40,50,rising,flat,0\n10,60,50,rising,flat,3\n".to_vec(),
        2 => b"mill marks\n40\n100\n".to_vec(),
        3 => b"7 16\n16 7\n".to_vec(),
        _ => {
            let length = random.pick(&[0, 1, 15, 16, 17, 32, 160, 4000]);
            (0..length).map(|_| random.next() as u8).collect()
        }
    };
    for _ in 0..random.below(4) {
        match (random.below(4), bytes.is_empty()) {
            (0, false) => bytes.truncate(random.below(bytes.len())),
            (1, false) => {
                let at = random.below(bytes.len());
                bytes[at] = random.next() as u8;
            }
            (2, false) => {
                let at = random.below(bytes.len());
                bytes[at] = random.pick(b",\n\r\"- 09#");
            }
            (3, false) => bytes.extend_from_within(..),
            _ => bytes.push(random.next() as u8),
        }
    }
    bytes
}

#[track_caller]
fn ends_well(ran: &Ran, json: bool) {
    match (ran.status, json) {
        (Some(0), _) => assert!(ran.err.lines().all(|line| line.contains(": not assured: ")), "mill {}: {}", ran.words, ran.err),
        (Some(1), true) => assert!(matches!(json::line(&ran.out).at("refused"), json::Value::Number(_)), "mill {}", ran.words),
        (Some(1 | 2), _) => {
            assert_eq!(ran.text(), "", "mill {}", ran.words);
            assert!(
                !ran.err.is_empty() && ran.err.lines().all(|line| line.starts_with("mill: ")),
                "mill {}: {}",
                ran.words,
                ran.err
            );
            let lines = if ran.err.contains("refused 6 0: ") { 3 } else { 1 };
            assert!(ran.status == Some(2) || ran.err.lines().count() == lines, "mill {}: {}", ran.words, ran.err);
        }
        (status, _) => panic!("mill {}: status {status:?}: {}", ran.words, ran.err),
    }
}

#[test]
fn any_bytes_as_files() {
    let folder = Folder::with_recordings("any_files");
    let commands: [&[&str]; 21] = [
        &["ask", "peaks(A)", "any"],
        &["degree", "high(A)", "5", "any"],
        &["pair", "A", "40", "any"],
        &["band", "high(A)", "5", "any"],
        &["order", "any", "r3.rec"],
        &["order", "any", "other"],
        &["report", "peaks(A)", "31", "r1.rec", "any", "other"],
        &["entry", "r1.rec", "any", "--force", "-o", "out"],
        &["entry", "r1.rec", "--append", "-o", "any"],
        &["find", "A", "40", "any"],
        &["find", "--raw", "A", "40", "any"],
        &["raw", "any"],
        &["assured", "high(A)", "any"],
        &["pin", "any", "other", "10"],
        &["lab", "ask", "peaks(A)", "any"],
        &["show", "any"],
        &["thin", "any", "--force", "-o", "out"],
        &["add", "any", "other"],
        &["add", "out2", "any"],
        &["import", "any", "--force", "-o", "out"],
        &["export", "any", "--force", "-o", "out"],
    ];
    let mut counts = [0; 3];
    for case in 0..50 {
        let mut random = Random::of_case("tool any files", case);
        for command in commands {
            for name in ["any", "other", "any.marks", "any.lock", "out2.marks", "out2"] {
                let _ = std::fs::remove_file(folder.at(name));
            }
            let held = any_bytes(&mut random);
            folder.put("any", &held);
            folder.put("other", &any_bytes(&mut random));
            if random.once_in(3) {
                folder.put("any.marks", &any_bytes(&mut random));
            }
            let before = (folder.read("any"), folder.read("any.marks"));
            let json = random.once_in(2);
            let ran = folder.mill(&if json { [command, &["--json"]].concat() } else { command.to_vec() });
            ends_well(&ran, json);
            counts[ran.status.unwrap() as usize] += 1;
            if json && ran.status == Some(0) {
                json::line(&ran.out);
            }
            if ran.status != Some(0) {
                assert_eq!((folder.read("any"), folder.read("any.marks")), before, "mill {}", ran.words);
            }
        }
    }
    assert!(counts.iter().all(|count| *count >= 40), "{counts:?}");
}

#[test]
fn any_bytes_as_words() {
    let folder = Folder::with_recordings("any_words");
    let heads = [
        "ask", "degree", "pair", "band", "order", "report", "entry", "find", "lab", "show", "thin", "import", "export", "help",
        "--help",
    ];
    let usual =
        ["r1.rec", "peaks(A)", "A", "40", "--json", "-m", "-o", "--", "ask", "degree", "-", "--mark=7", "-m9", "-oout", "-h", ""];
    for case in 0..300 {
        let mut random = Random::of_case("tool any words", case);
        let mut words = vec![OsString::from(random.pick(&heads))];
        for _ in 0..random.below(6) {
            let noise = (0..random.below(9)).map(|_| 1 + (random.next() % 255) as u8).collect();
            words.push(if random.once_in(4) { OsString::from_vec(noise) } else { random.pick(&usual).into() });
        }
        if random.once_in(8) {
            words.remove(0);
        }
        let ran = folder.mill(&words);
        ends_well(&ran, ran.out.starts_with(b"{"));
    }
}

#[test]
fn texts_of_any_bytes() {
    let folder = Folder::with_recordings("any_texts");
    for case in 0..80 {
        let mut random = Random::of_case("tool any texts", case);
        let length = 1 + random.below(300);
        let text: Vec<u8> = (0..length).map(|_| 1 + (random.next() % 255) as u8).collect();
        let number = if length > 256 { 5 } else { 6 };
        let words = ["ask".into(), "--".into(), OsString::from_vec(text), "r1.rec".into()];
        folder.mill(&words).refused("r1.rec", number, 0);
    }
}
