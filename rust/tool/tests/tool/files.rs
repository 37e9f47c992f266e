//! Covers: files that are written with `-o`, and files that can't be: folders, devices, links, missing permission, a full disk.

use super::folder::{Folder, Ran, MILL};
use super::tin::{crc64, Tin};
use crate::support::r1::r1_bytes;
use crate::support::r2::r2_bytes;
use std::os::unix::fs::{MetadataExt, PermissionsExt};
use std::os::unix::process::CommandExt;
use std::path::{Path, PathBuf};
use std::process::{Command, Stdio};

/// Each command that writes a file, its words before `-o`, and the bytes that are written.
fn writers() -> [(&'static [&'static str], Vec<u8>); 4] {
    let table = b"time,a,b,slope_a,slope_b,pigment\n0,1,2,rising,flat,3\n";
    let reading = [0, 0, 0, 0, 1, 0, 0, 0, 2, 0, 0, 0, 2, 1, 3, 0];
    [
        (&["thin", "r1.rec"], Tin::of(&[], 8, &r1_bytes()).bytes()),
        (&["import", "one.csv"], reading.to_vec()),
        (&["export", "one.rec"], table.to_vec()),
        (&["entry", "one.rec"], summary()),
    ]
}

/// The summary of `one.rec`, as its page says it is.
fn summary() -> Vec<u8> {
    let head = [&b"\x89mill sum\r\n\x1a\nSUM"[..], &[1, 0, 0, 0, 1, 0, 0, 0]].concat();
    let entry = [0, 0, 1, 1, 2, 2, 0, 0].map(u32::to_le_bytes);
    let body = [entry.as_flattened(), &[7, 0, 0, 0], b"one.rec"].concat();
    let sum = crc64(&[&head[..], &body].concat());
    [&head, &sum.to_le_bytes()[..], &body].concat()
}

fn folder(name: &str) -> Folder {
    let folder = Folder::with_recordings(name);
    folder.put("one.csv", b"time,a,b,slope_a,slope_b,pigment\n0,1,2,rising,flat,3\n");
    folder.put("one.rec", &[0, 0, 0, 0, 1, 0, 0, 0, 2, 0, 0, 0, 2, 1, 3, 0]);
    folder
}

fn to(words: &[&'static str], file: &'static str) -> Vec<&'static str> {
    [words, &["-o", file]].concat()
}

fn forced(words: &[&'static str], file: &'static str) -> Vec<&'static str> {
    [words, &["--force", "-o", file]].concat()
}

#[test]
fn a_file_is_written_over_a_longer_one_only_by_force() {
    let folder = folder("over");
    for (words, bytes) in writers() {
        folder.put("out", &[7; 5000]);
        std::fs::set_permissions(folder.at("out"), std::fs::Permissions::from_mode(0o640)).unwrap();
        let before = folder.names();
        folder.mill(&to(words, "out")).troubles("out: is there already; --force writes over it");
        assert_eq!(folder.read("out"), Some(vec![7; 5000]));
        assert_eq!(folder.mill(&forced(words, "out")).status, Some(0));
        assert_eq!(folder.read("out"), Some(bytes.clone()));
        assert_eq!(folder.at("out").metadata().unwrap().mode() & 0o777, 0o640);
        assert_eq!(folder.names(), before);
        std::os::unix::fs::symlink("out", folder.at("link")).unwrap();
        folder.put("out", b"old");
        folder.mill(&to(words, "link")).troubles("link: is there already; --force writes over it");
        assert_eq!(folder.mill(&forced(words, "link")).status, Some(0));
        assert!(folder.at("link").symlink_metadata().unwrap().is_symlink());
        assert_eq!(folder.read("out"), Some(bytes));
        std::fs::remove_file(folder.at("link")).unwrap();
    }
}

/// Nor by force: what a command reads it never writes over, under whatever name.
#[test]
fn no_command_writes_over_a_file_that_it_reads() {
    let folder = folder("itself");
    std::os::unix::fs::symlink("r2.rec", folder.at("link")).unwrap();
    std::fs::hard_link(folder.at("r2.rec"), folder.at("other")).unwrap();
    assert_eq!(folder.mill(&["add", "tin", "r2.rec"]).status, Some(0));
    let before = folder.names();
    let tin = folder.read("tin");
    let reads = "is a file that this command reads, and is not written over";
    for file in ["r2.rec", "link", "other", "./r2.rec"] {
        for words in
            [&["thin", "r2.rec"][..], &["export", "r2.rec"], &["import", "r2.rec"], &["entry", "r1.rec", "r2.rec", "r3.rec"]]
        {
            for force in [&[][..], &["--force"]] {
                let ran = folder.mill(&[words, &["-o", file], force].concat());
                // What is no table is no table before it is written anywhere.
                ran.troubles_with(if words[0] == "import" { "is no" } else { reads });
                assert_eq!(folder.read("r2.rec"), Some(r2_bytes()));
            }
        }
    }
    folder.mill(&["raw", "tin", "-o", "tin", "--force"]).troubles(&format!("tin: {reads}"));
    folder.put("one.csv", b"time,a,b,slope_a,slope_b\n");
    folder.mill(&["import", "one.csv", "-o", "one.csv", "--force"]).troubles(&format!("one.csv: {reads}"));
    assert_eq!((folder.names(), folder.read("tin")), (before, tin));
    // Standard input is read too.
    let child = folder.command(Path::new(MILL), &["thin", "-", "-o", "r3.rec", "--force"]);
    let ran = { child }.stdin(std::fs::File::open(folder.at("r3.rec")).unwrap()).spawn().unwrap();
    Ran::of(ran, &["thin"]).troubles(&format!("r3.rec: {reads}"));
    // A glob that takes the first for the file of -o.
    let globbed = folder.mill(&["entry", "-o", "r1.rec", "r2.rec", "r3.rec"]);
    globbed.troubles("r1.rec: is there already; --force writes over it");
    assert_eq!(folder.read("r1.rec"), Some(r1_bytes()));
}

#[test]
fn what_can_not_be_written_is_named() {
    let folder = folder("unwritten");
    std::fs::create_dir(folder.at("a_folder")).unwrap();
    std::os::unix::fs::symlink("nowhere", folder.at("broken")).unwrap();
    let before = folder.names();
    for (words, _) in writers() {
        folder.mill(&to(words, "a_folder")).troubles("a_folder: Is a directory");
        folder.mill(&to(words, "no_folder/out")).troubles_with("no_folder/out: not written: ");
        folder.mill(&to(words, "r1.rec/out")).troubles_with("r1.rec/out: not written: ");
        folder.mill(&to(words, "broken")).troubles("broken: No such file or directory");
        folder.mill(&to(words, "/dev/full")).troubles("/dev/full: No space left on device");
        let ran = folder.mill(&to(words, "/dev/null"));
        assert_eq!((ran.status, ran.err.as_str()), (Some(0), ""));
    }
    assert_eq!(folder.names(), before);
    assert!(!Path::new("/dev/null").metadata().unwrap().is_file());
}

/// A device and a pipe are written as they are, also behind a link.
#[test]
fn a_pipe_is_written() {
    let folder = folder("written_pipe");
    std::os::unix::fs::symlink("/dev/stdout", folder.at("link")).unwrap();
    for (words, bytes) in writers() {
        let figures = folder.mill(&forced(words, "out")).out;
        let both = [bytes, figures].concat();
        folder.mill(&to(words, "/dev/stdout")).gives(&both);
        folder.mill(&to(words, "link")).gives(&both);
    }
}

#[test]
fn kept_readings_with_marks_are_not_written_over() {
    let folder = folder("marked");
    folder.put("kept", &r2_bytes());
    folder.put("kept.marks", b"mill marks\n");
    folder.put("kept.lock", b"");
    let held = folder.read("kept");
    std::os::unix::fs::symlink("kept", folder.at("link")).unwrap();
    for (words, _) in writers() {
        let line = "holds kept readings with marks, those of kept.marks: only 'mill add' writes it";
        folder.mill(&forced(words, "kept")).troubles(&format!("kept: {line}"));
        folder.mill(&forced(words, "link")).troubles_with("kept.marks: only 'mill add' writes it");
        for name in ["kept.marks", "kept.lock"] {
            let line = "belongs to the kept readings of kept: only 'mill add' writes it";
            folder.mill(&forced(words, name)).troubles(&format!("{name}: {line}"));
        }
        let line = "is a name for what is not yet in its place: only 'mill add' writes it";
        folder.mill(&to(words, "kept.mill-new")).troubles(&format!("kept.mill-new: {line}"));
    }
    assert_eq!(folder.read("kept"), held);
    assert_eq!(folder.read("kept.marks").as_deref(), Some(&b"mill marks\n"[..]));
    assert_eq!(folder.read("kept.lock"), Some(Vec::new()));
    // Only a name.
    folder.put("other.marks", b"what was talked of that day\n");
    assert_eq!(folder.mill(&["thin", "--raw", "r1.rec", "-o", "other.marks", "--force"]).status, Some(0));
    assert_eq!(folder.read("other.marks"), Some(r1_bytes()));
    // The lock of a tin.
    assert_eq!(folder.mill(&["add", "tin", "r2.rec"]).status, Some(0));
    folder.mill(&["thin", "r1.rec", "-o", "tin.lock", "--force"]).troubles_with("tin.lock: belongs to the kept readings of tin");
}

/// The tool without the rights of a superuser, in a folder that others may read.
struct Plain {
    folder: Folder,
    mill: PathBuf,
    superuser: bool,
}

impl Plain {
    fn new(name: &str) -> Plain {
        let superuser = std::fs::metadata("/proc/self").is_ok_and(|own| own.uid() == 0);
        let own = PathBuf::from(env!("CARGO_TARGET_TMPDIR"));
        let above = [own, std::env::temp_dir(), "/tmp".into(), "/var/tmp".into()];
        let above = above.into_iter().find(|above| !superuser || all_may_enter(above)).expect("a folder that all may enter");
        let folder = Folder::under(&above, name);
        let mill = folder.at("mill");
        // By another process: a program can't be run while a child of this one still holds it open for writing.
        assert!(Command::new("cp").arg(MILL).arg(&mill).status().expect("cp starts").success());
        for (name, mode) in [("", 0o777), ("mill", 0o755)] {
            std::fs::set_permissions(folder.path.join(name), std::fs::Permissions::from_mode(mode)).unwrap();
        }
        Plain { folder, mill, superuser }
    }

    fn mill(&self, words: &[&str]) -> Ran {
        let mut command = self.folder.command(&self.mill, words);
        if self.superuser {
            command.uid(65534).gid(65534);
        }
        Ran::of(command.spawn().unwrap(), words)
    }

    fn mode(&self, name: &str, mode: u32) {
        std::fs::set_permissions(self.folder.at(name), std::fs::Permissions::from_mode(mode)).unwrap();
    }
}

/// Whether the folder and all above it let every user in.
fn all_may_enter(folder: &Path) -> bool {
    let enters = |folder: &Path| folder.metadata().is_ok_and(|there| there.is_dir() && there.mode() & 0o001 != 0);
    folder.canonicalize().is_ok_and(|folder| folder.ancestors().all(enters))
}

#[test]
fn a_missing_permission_is_named_and_nothing_is_lost() {
    let plain = Plain::new("permission");
    let folder = &plain.folder;
    folder.put("r2.rec", &r2_bytes());
    folder.put("secret.rec", &r2_bytes());
    plain.mode("secret.rec", 0o000);
    plain.mode("r2.rec", 0o644);
    plain.mill(&["ask", "high(A)", "secret.rec"]).troubles("secret.rec: Permission denied");
    plain.mill(&["add", "kept", "secret.rec"]).troubles("secret.rec: Permission denied");
    std::fs::create_dir(folder.at("store")).unwrap();
    plain.mode("store", 0o777);
    assert_eq!(plain.mill(&["add", "store/kept", "r2.rec"]).status, Some(0));
    folder.put("later.rec", &[1, 1, 0, 0, 5, 0, 0, 0, 5, 0, 0, 0, 1, 1, 0, 0]);
    plain.mode("later.rec", 0o644);
    let held = folder.read("store/kept");
    // A folder in which nothing can be made, with and without a lock that can be opened.
    plain.mode("store", 0o555);
    plain.mill(&["add", "store/kept", "later.rec"]).troubles("store/kept: not written: store/kept.mill-new: Permission denied");
    plain.mill(&["add", "store/other", "later.rec"]).troubles("store/other.lock: Permission denied");
    plain.mill(&["thin", "r2.rec", "-o", "store/out"]).troubles_with("store/out: not written: store/out.mill-new-");
    assert_eq!(folder.read("store/kept"), held);
    plain.mode("store", 0o777);
    for name in ["store/kept.lock", "store/kept"] {
        plain.mode(name, 0o000);
        plain.mill(&["add", "store/kept", "later.rec"]).troubles(&format!("{name}: Permission denied"));
        plain.mode(name, 0o666);
        assert_eq!(folder.read("store/kept"), held);
    }
    // A lock that may only be read can be held.
    plain.mode("store/kept.lock", 0o444);
    let ran = plain.mill(&["add", "store/kept", "later.rec"]);
    assert_eq!((ran.status, ran.err.as_str()), (Some(0), ""));
    // A superuser does not take the file away from its owner.
    if plain.superuser {
        folder.put("last.rec", &[2, 1, 0, 0, 5, 0, 0, 0, 5, 0, 0, 0, 1, 1, 0, 0]);
        plain.mode("store/kept", 0o600);
        assert_eq!(folder.mill(&["add", "store/kept", "last.rec"]).status, Some(0));
        plain.mill(&["ask", "T=v", "store/kept"]).answers("runs 1\n0 0\n");
    }
}

#[test]
fn files_that_are_too_long_to_hold_are_named() {
    let folder = folder("long");
    for (length, line) in [(67_108_865, Some("long: is longer than 67108864 bytes")), (67_108_864, None)] {
        std::fs::File::create(folder.at("long")).unwrap().set_len(length).unwrap();
        for words in
            [&["add", "kept", "long"][..], &["import", "long"], &["order", "long", "r3.rec"], &["find", "A", "5", "long"]]
        {
            let ran = folder.mill(words);
            match line {
                Some(line) => ran.troubles(line),
                None => {
                    assert!(!ran.err.contains("longer") && ran.err.len() < 300 && ran.status != Some(0), "mill {}", ran.words)
                }
            }
        }
        folder.mill(&["ask", "high(A)", "long"]).refused("long", if line.is_some() { 1 } else { 2 }, 0);
    }
    assert_eq!(folder.read("kept"), None);
}

/// What a wrong file holds is quoted in short, and of very many bad lines the first are named.
#[test]
fn wrong_files_are_told_in_few_words() {
    let folder = folder("few_words");
    folder.put("zeros", &vec![0; 3_000_000]);
    let zeros = format!("'{}..'", "\\0".repeat(40));
    folder
        .mill(&["import", "zeros"])
        .troubles(&format!("zeros: line 1: {zeros} is none of the columns time,a,b,slope_a,slope_b,pigment"));
    folder.mill(&["order", "zeros", "r1.rec"]).troubles(&format!("zeros: line 1: {zeros} is not two pigments"));
    let header = "time,a,b,slope_a,slope_b\n";
    folder.put("long.csv", format!("{header}1,2,3,0,{}\n{},2,3,0,0\n", "x".repeat(3_000_000), "é".repeat(41)).as_bytes());
    let (x, e) = ("x".repeat(40), "é".repeat(40));
    assert_eq!(
        folder.mill(&["import", "long.csv"]).err,
        format!(
            "mill: long.csv: line 2: slope_b '{x}..' is none of falling, flat and rising\n\
             mill: long.csv: line 3: time '{e}..' is not a whole number from 0 to 2000000000\n"
        )
    );
    folder.put("forty.csv", format!("{header}1,2,3,0,{x}\n").as_bytes());
    folder.mill(&["import", "forty.csv"]).troubles_with(&format!("slope_b '{x}' is none of"));
    folder.put("hundred.csv", format!("{header}{}", "\n".repeat(100)).as_bytes());
    folder.put("more.csv", format!("{header}{}", "\n".repeat(1_000_100)).as_bytes());
    folder.put("sheet", "x\n".repeat(107).as_bytes());
    let hundred = folder.mill(&["import", "hundred.csv"]);
    assert_eq!((hundred.status, hundred.err.lines().count()), (Some(2), 100));
    for (words, why, last) in [
        (&["import", "more.csv"][..], "more.csv: line 101: has 1 fields, and there are 5 columns", "more.csv: 1000000 more"),
        (&["order", "sheet", "r1.rec"], "sheet: line 100: 'x' is not two pigments", "sheet: 7 more"),
    ] {
        let ran = folder.mill(words);
        assert_eq!((ran.status, ran.err.lines().count()), (Some(2), 101));
        assert_eq!(ran.err.lines().nth(99), Some(format!("mill: {why}").as_str()));
        assert_eq!(ran.err.lines().nth(100), Some(format!("mill: {last} lines are bad").as_str()));
    }
}

/// With room for the table several times over, and not for a list of its lines or fields.
#[test]
fn long_tables_of_nothing_need_little_room() {
    let folder = folder("little_room");
    let cramped = |words: &[&str]| {
        let mut command = Command::new("/bin/sh");
        command.args(["-c", "ulimit -v 400000; exec \"$@\"", "sh", MILL]).args(words).current_dir(&folder.path);
        command.stdin(Stdio::null()).stdout(Stdio::piped()).stderr(Stdio::piped());
        Ran::of(command.spawn().unwrap(), words)
    };
    let header = b"time,a,b,slope_a,slope_b\n";
    for (fill, said) in [(b'\n', 101), (b',', 1)] {
        let mut table = vec![fill; 1 << 26];
        table[..header.len()].copy_from_slice(header);
        folder.put("wide", &table);
        let ran = cramped(&["import", "wide"]);
        assert_eq!((ran.status, ran.err.lines().count()), (Some(2), said), "{}", ran.err.len());
    }
}

/// No file may grow: every write to one fails, as on a full disk.
#[test]
fn where_nothing_can_be_written_nothing_is_lost() {
    let folder = folder("no_room");
    assert_eq!(folder.mill(&["add", "-m", "40", "kept", "one.rec"]).status, Some(0));
    folder.put("later.rec", &[1, 1, 0, 0, 5, 0, 0, 0, 5, 0, 0, 0, 1, 1, 0, 0]);
    let before = (folder.read("kept"), folder.names());
    let cramped = |words: &[&str]| {
        let mut command = Command::new("/bin/sh");
        command.args(["-c", "trap '' XFSZ; ulimit -f 0; exec \"$@\"", "sh", MILL]).args(words).current_dir(&folder.path);
        command.stdin(Stdio::null()).stdout(Stdio::piped()).stderr(Stdio::piped());
        Ran::of(command.spawn().unwrap(), words)
    };
    cramped(&["add", "kept", "later.rec"]).troubles("kept: not written: kept.mill-new: File too large");
    cramped(&["thin", "r1.rec", "-o", "kept2"]).troubles_with("kept2: not written: ");
    cramped(&["import", "one.csv", "-o", "one.rec", "--force"]).troubles_with("one.rec: not written: ");
    assert_eq!((folder.read("kept"), folder.names()), before);
    let fresh = cramped(&["add", "fresh", "later.rec"]);
    fresh.troubles("fresh: not written: fresh.mill-new: File too large");
    assert_eq!(folder.read("fresh"), None);
    assert_eq!(folder.read("fresh.marks"), None);
    let ran = folder.mill(&["add", "kept", "later.rec"]);
    assert_eq!((ran.status, ran.err.as_str()), (Some(0), ""));
}
