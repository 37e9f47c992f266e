//! Covers: pin, what it holds then, that answers stay, and what it does not take.

use super::folder::Folder;
use super::json;
use super::tin::Tin;
use crate::support::r2::r2_bytes;
use reference::kept::mark_bytes;

/// The readings of R2 at these times.
fn at(times: &[usize]) -> Vec<u8> {
    times.iter().flat_map(|time| r2_bytes()[time / 10 * 16..time / 10 * 16 + 16].to_vec()).collect()
}

fn folder(name: &str) -> Folder {
    let folder = Folder::with_recordings(name);
    folder.mill(&["add", "-m", "40", "tin", "r2.rec"]).answers("taken 9\nheld  7\n");
    assert_eq!(folder.kept("tin"), Some(at(&[0, 10, 30, 40, 50, 60, 80])));
    folder
}

#[test]
fn readings_are_put_back_and_counted() {
    let folder = folder("pin");
    folder.mill(&["pin", "tin", "r2.rec", "20"]).answers("pinned 1\nheld   8\n");
    let pinned = Tin { pins: 1, ..Tin::of(&[40], 9, &at(&[0, 10, 20, 30, 40, 50, 60, 80])) };
    assert_eq!(folder.tin("tin"), Some(pinned.clone()));
    folder.mill(&["verify", "tin"]).answers("tin: whole: 8 of 9 readings, 1 of them pinned, marks 40\n");
    // Again, and one that is kept anyway: neither counts twice.
    folder.mill(&["pin", "tin", "r2.rec", "20", "30", "20"]).answers("pinned 1\nheld   8\n");
    assert_eq!(folder.tin("tin"), Some(pinned));
    folder.mill(&["pin", "--json", "tin", "r2.rec", "70"]).answers("{\"pinned\":2,\"held\":9}\n");
    assert_eq!(folder.kept("tin"), Some(r2_bytes()));
    for text in ["lowafter(A,40)", "peaks(A)", "F(P=7&A=v)", "low(A)&high(B)"] {
        assert_eq!(folder.mill(&["ask", "--assured", text, "tin"]).out, folder.mill(&["ask", text, "r2.rec"]).out);
    }
    // The next piece drops them, and says so; so does thinning.
    folder.mill(&["thin", "tin"]).gives(&at(&[0, 10, 30, 40, 50, 60, 80]));
    folder.put("later", &[1, 1, 0, 0, 5, 0, 0, 0, 5, 0, 0, 0, 1, 1, 0, 0]);
    let ran = folder.mill(&["add", "tin", "later"]);
    ran.answers_noting("taken 1\nheld  8\n", "tin: 2 pinned readings are dropped");
    let joined = [r2_bytes(), folder.read("later").unwrap()].concat();
    assert_eq!(folder.tin("tin"), Some(Tin::of(&[40], 10, &reference::thin(&joined, &mark_bytes(&[40]), 4096).unwrap())));
}

#[test]
fn a_wrong_recording_or_time_changes_nothing() {
    let folder = folder("pin_wrong");
    let before = folder.read("tin");
    let mut other = r2_bytes();
    other[2 * 16 + 4] = 7;
    folder.put("other", &other);
    let wrong: [(&[&str], &str); 8] = [
        (&["pin", "tin", "r1.rec", "20"], "tin: does not hold what is kept of r1.rec"),
        (&["pin", "tin", "r2.rec", "25"], "r2.rec: has no reading at 25"),
        (&["pin", "tin", "r2.rec", "20", "-5"], "r2.rec: has no reading at -5"),
        (&["pin", "tin", "tin", "20"], "tin: is a tin: a pin is taken from the full recording"),
        (&["pin", "none", "r2.rec", "20"], "none: No such file or directory"),
        (&["pin", "tin", "none", "20"], "none: No such file or directory"),
        (&["pin", "tin", "r2.rec", "x"], "pin: TIME 'x' is not a whole number; see 'mill pin --help'"),
        (&["pin", "tin", "r2.rec"], "pin: TIME is missing; see 'mill pin --help'"),
    ];
    for (words, line) in wrong {
        folder.mill(words).troubles(line);
        assert_eq!(folder.read("tin"), before);
    }
    folder.mill(&["pin", "tin", "bad.rec", "20"]).refused("bad.rec", 3, 2);
    // A pin that the recording does not have, though its kept readings are those.
    folder.mill(&["pin", "tin", "r2.rec", "20"]).answers("pinned 1\nheld   8\n");
    folder.mill(&["pin", "tin", "other", "70"]).troubles("tin: does not hold what is kept of other");
    folder.mill(&["pin", "-", "r2.rec", "20"]).troubles("pin: TIN must be a file; see 'mill pin --help'");
}

/// Other recordings keep the same: what is kept alone, or one with a reading more that is not kept.
#[test]
fn how_many_were_taken_stays() {
    let folder = folder("pin_taken");
    folder.put("kept", &at(&[0, 10, 30, 40, 50, 60, 80]));
    folder.mill(&["pin", "tin", "kept", "30"]).troubles("tin: was made of 9 readings, and kept has 7");
    folder.put("kept.marks", b"mill marks\n40\n");
    let line = "kept: has marks beside it, as kept readings have: a pin is taken from the full recording";
    folder.mill(&["pin", "tin", "kept", "30"]).troubles(line);
    assert_eq!(folder.tin("tin"), Some(Tin::of(&[40], 9, &at(&[0, 10, 30, 40, 50, 60, 80]))));
    // Where nobody counted, a pin does not tell either.
    folder.mill(&["add", "kept", "empty.rec"]).answers("taken 0\nheld  7\n");
    folder.mill(&["pin", "kept", "r2.rec", "20"]).answers("pinned 1\nheld   8\n");
    assert_eq!(
        folder.tin("kept"),
        Some(Tin { taken: None, pins: 1, ..Tin::of(&[40], 9, &at(&[0, 10, 20, 30, 40, 50, 60, 80])) })
    );
}

/// A tin that begins with a pinned one is without the pins, and says so.
#[test]
fn pins_are_not_handed_on_without_a_word() {
    let folder = folder("pin_piece");
    folder.mill(&["pin", "tin", "r2.rec", "20", "70"]).answers("pinned 2\nheld   9\n");
    folder.mill(&["add", "next", "tin"]).answers_noting("taken 9\nheld  7\n", "tin: 2 pinned readings are dropped");
    assert_eq!(folder.tin("next"), Some(Tin::of(&[40], 9, &at(&[0, 10, 30, 40, 50, 60, 80]))));
}

/// A pin more than the head counts, or one less, is noticed.
#[test]
fn the_count_of_pins_is_checked() {
    let folder = folder("pin_count");
    let held = at(&[0, 10, 20, 30, 40, 50, 60, 80]);
    for pins in [0, 2, 3] {
        folder.put("wrong", &Tin { pins, ..Tin::of(&[40], 9, &held) }.bytes());
        folder
            .mill(&["ask", "peaks(A)", "wrong"])
            .troubles("wrong: is a damaged tin: its readings are not those kept under its marks");
    }
    let told = json::line(&folder.mill(&["verify", "--json", "wrong"]).out);
    assert_eq!(told.at("whole"), &json::Value::Truth(false));
}

/// A recording longer than the library takes at once.
#[test]
fn a_long_recording_gives_pins_too() {
    let folder = Folder::new("pin_long");
    let calm = reference::recording::bytes(&crate::support::recordings::with_tops(9_000, [40, 30]));
    folder.put("full", &calm);
    assert_eq!(folder.mill(&["add", "tin", "full"]).status, Some(0));
    let held = folder.kept("tin").unwrap().len() / 16;
    let kept = folder.kept("tin").unwrap();
    let missing = calm.chunks(16).find(|reading| !kept.chunks(16).any(|kept| kept == *reading)).unwrap();
    let time = u32::from_le_bytes(missing[..4].try_into().unwrap()).to_string();
    folder.mill(&["pin", "tin", "full", &time]).answers(&format!("pinned 1\nheld   {}\n", held + 1));
    assert_eq!(folder.tin("tin").unwrap().taken, Some(9_000));
}
