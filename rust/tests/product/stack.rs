//! Covers: the stack that the calls need: each on the deepest and widest inputs on a stack of just the bytes that the header names
//! for it, and the peak of each measured on a painted one (`cargo test --release stack -- --nocapture` prints it).

use crate::support::cases::begin;
use crate::support::recordings::{flat, put_top, with_tops};
use crate::support::small_stack::on_stack_of;
use crate::support::{header, painted};
use mill::sys::{
    mill_assured, mill_band, mill_degree, mill_entry, mill_find, mill_lab_degree, mill_lab_pair, mill_lab_question,
    mill_live_add, mill_live_entry, mill_live_kept, mill_live_restore, mill_live_save, mill_live_start, mill_order, mill_pair,
    mill_question, mill_report_add, mill_report_start, mill_thin, mill_version, MILL_MAX_ENTRIES, MILL_REPORT_BYTES,
};
use reference::recording::bytes;
use std::collections::BTreeMap;

/// A recording of 4,096 readings under which sets grow to 250 runs, with additions.
fn wide() -> Vec<u8> {
    let mut records = flat(4096);
    for (index, record) in records.iter_mut().enumerate() {
        record.value = [index as i64 * 37 % 250 * 2, index as i64 * 41 % 250 * 2 + 1_000];
    }
    for top in 0..250 {
        put_top(&mut records, 0, 10 + 16 * top);
        put_top(&mut records, 1, 14 + 16 * top);
        records[12 + 16 * top].pigment = 1;
    }
    bytes(&records)
}

/// The deepest texts: read whole before they are refused, or evaluated.
fn texts() -> Vec<String> {
    let nested =
        |open: &str, inner: &str, close: &str, count: usize| format!("{}{inner}{}", open.repeat(count), close.repeat(count));
    vec![
        "A=v".into(),
        nested("(", "A>=v", ")", 126),
        nested("(", "A>=v", ")", 16),
        nested("!", "A=v", "", 253),
        nested("!", "A=v", "", 31),
        nested("!(", "A=v", ")", 84),
        nested("F(", "A=v", ")", 84),
        nested("F(", "A=v", ")", 16),
        nested("G(", "!A=v", ")", 15),
        nested("U(A=v,", "A=v", ")", 31),
        nested("U(A=v,", "A=v", ")", 15),
        nested("W(", "A=v", ",A=v)", 15),
        nested("U(", "F(A=v)", ",F(B=v))", 9),
        nested("(A=v|", "A=v", ")", 15),
        nested("A=v|(A=v&", "A=v", ")", 7),
        nested("(A=v|", "A=v", ")", 41),
        format!("{}A=v", "A=v|".repeat(15)),
        format!("{}A=v", "A=v|".repeat(63)),
        format!("F(A=v)|F(B=v)&{}F(A=v)", "F(B=v)|".repeat(9)),
        "A=v|!(B=v&!(T=v|!(A=v&!(B=v|!(T=v)))))".into(),
        "peaks(A)|gaps(A)|steps(B)|lag".into(),
        "lag".into(),
        "gaps(A)".into(),
        format!("!{}lag", "peaks(A)|".repeat(15)),
        nested("!", "lag", "", 31),
        nested("!", "gaps(A)", "", 31),
        "dose(1)".into(),
        nested("!", "dose(1)", "", 31),
        nested("F(", "P=16", ")", 16),
        format!("{}P=1", "P=16|".repeat(15)),
        format!("A>{}", "1".repeat(254)),
        "x".into(),
        // Open to the last byte: no reading, and the deepest way to find that out.
        "(".repeat(256),
        "!".repeat(256),
        "!(".repeat(128),
        "F(".repeat(128),
        "U(".repeat(128),
        "(!".repeat(128),
        "A=v|(".repeat(51),
        "A=v&(".repeat(51),
        "A=v|A=v&(".repeat(28),
        "U(A=v,".repeat(42),
        "W(A=v|A=v,".repeat(25),
    ]
}

/// Texts of one listed question or atom, as they are and in as many brackets as a text may have open.
fn leaves() -> Vec<String> {
    let bare = [
        "A=v",
        "T<5",
        "A>=B",
        "fall(A)",
        "rise(B)",
        "P=16",
        "high(A)",
        "low(B)",
        "lowafter(A,1)",
        "capafter(B,256)",
        "peaks(A)",
        "dips(B)",
        "cross",
        "crossup",
        "dose(1)",
        "ampl(A)",
        "gaps(A)",
        "steps(B)",
        "lag",
    ];
    let bracketed = |leaf: &str| {
        let open = 16 - usize::from(leaf.contains('('));
        format!("{}{leaf}{}", "(".repeat(open), ")".repeat(open))
    };
    bare.iter().flat_map(|leaf| [leaf.to_string(), bracketed(leaf)]).collect()
}

/// A report that was begun with a text; one that is none where the text is refused.
fn report_of(text: &str) -> Vec<u8> {
    mill::Report::start(2, text.as_bytes(), 7).map_or(vec![0; MILL_REPORT_BYTES], |report| report.as_bytes().to_vec())
}

fn recordings() -> Vec<Vec<u8>> {
    vec![wide(), bytes(&with_tops(4096, [256, 256])), bytes(&with_tops(600, [60, 3])), bytes(&flat(1))]
}

const MARKS: [u8; 32] = [1, 0, 0, 0, 0, 1, 0, 0, 0, 2, 0, 0, 0, 3, 0, 0, 0, 4, 0, 0, 0, 5, 0, 0, 0, 6, 0, 0, 0, 15, 0, 0];

/// 32 lines: each of 16 pigments before the next, twice.
const SHEET: [u8; 64] = {
    let mut sheet = [0; 64];
    let mut at = 0;
    while at < 64 {
        sheet[at] = 1 + ((at / 2 + at % 2) % 16) as u8;
        at += 1;
    }
    sheet
};

/// A call with what it is called on.
enum Job {
    Question(Vec<u8>, String),
    Degree(Vec<u8>, String),
    Pair(Vec<u8>, i64),
    Thin(Vec<u8>),
    Band(Vec<u8>, String),
    Order(Vec<u8>),
    LabQuestion(Vec<u8>, String),
    LabDegree(Vec<u8>, String),
    LabPair(Vec<u8>, i64),
    ReportStart(String),
    /// With a report that was begun with the text; none where the text is refused.
    ReportAdd(Vec<u8>, Vec<u8>),
    /// With bytes in which the text stands as that of a report; the naming is refused, so that the text is read.
    ReportEnd(Vec<u8>),
    LiveStart,
    /// With a run.
    LiveAdd(Vec<u8>, Vec<u8>),
    LiveSave(Vec<u8>),
    LiveRestore(Vec<u8>),
    LiveKept(Vec<u8>),
    Entry(Vec<u8>),
    /// Of entries.
    Find(Vec<u8>),
    LiveEntry(Vec<u8>),
    Assured(String),
    Version,
    /// A call with a text, which is one listed question or atom.
    Listed(Box<Job>),
}

impl Job {
    /// The call's name, and the bytes of stack that the header names for it.
    fn call(&self) -> (&'static str, usize) {
        match self {
            Job::Question(..) => ("mill_question", header::stack("QUESTION")),
            Job::Degree(..) => ("mill_degree", header::stack("DEGREE")),
            Job::Pair(..) => ("mill_pair", header::stack("PAIR")),
            Job::Thin(_) => ("mill_thin", header::stack("THIN")),
            Job::Band(..) => ("mill_band", header::stack("BAND")),
            Job::Order(_) => ("mill_order", header::stack("ORDER")),
            Job::LabQuestion(..) => ("mill_lab_question", header::stack("LAB_QUESTION")),
            Job::LabDegree(..) => ("mill_lab_degree", header::stack("LAB_DEGREE")),
            Job::LabPair(..) => ("mill_lab_pair", header::stack("LAB_PAIR")),
            Job::ReportStart(_) | Job::ReportEnd(_) => ("mill_report_start", header::stack("REPORT_START")),
            Job::ReportAdd(..) => ("mill_report_add", header::stack("REPORT_ADD")),
            Job::LiveStart => ("mill_live_start", header::stack("LIVE_START")),
            Job::LiveAdd(..) => ("mill_live_add", header::stack("LIVE_ADD")),
            Job::LiveSave(_) => ("mill_live_save", header::stack("LIVE_SAVE")),
            Job::LiveRestore(_) => ("mill_live_restore", header::stack("LIVE_RESTORE")),
            Job::LiveKept(_) => ("mill_live_kept", header::stack("LIVE_KEPT")),
            Job::Entry(_) => ("mill_entry", header::stack("ENTRY")),
            Job::Find(_) => ("mill_find", header::stack("FIND")),
            Job::LiveEntry(_) => ("mill_live_entry", header::stack("LIVE_ENTRY")),
            Job::Assured(_) => ("mill_assured", header::stack("ASSURED")),
            Job::Version => ("mill_version", header::stack("VERSION")),
            Job::Listed(_) => ("a text of one listed question or atom", header::stack("LISTED")),
        }
    }
}

fn jobs() -> Vec<Job> {
    let mut jobs = vec![Job::Version];
    for recording in recordings() {
        for text in texts() {
            jobs.push(Job::Question(recording.clone(), text.clone()));
            jobs.push(Job::Degree(recording.clone(), text.clone()));
            jobs.push(Job::Band(recording.clone(), text.clone()));
            jobs.push(Job::ReportStart(text.clone()));
            jobs.push(Job::Assured(text.clone()));
            jobs.push(Job::ReportAdd(report_of(&text), recording.clone()));
            let mut stored = mill::Report::start(2, b"lag", 7).unwrap().as_bytes().to_vec();
            stored[48..52].copy_from_slice(&(text.len() as u32).to_le_bytes());
            stored[52..][..text.len()].copy_from_slice(text.as_bytes());
            jobs.push(Job::ReportAdd(stored.clone(), vec![0; 17]));
            jobs.push(Job::ReportEnd(stored));
            // Of A alone, and as it is.
            let of_a = text.replace("B=v", "A=v").replace("steps(B)", "steps(A)").replace("lag", "gaps(A)");
            for text in [of_a, text] {
                jobs.push(Job::LabQuestion(recording.clone(), text.clone()));
                jobs.push(Job::LabDegree(recording.clone(), text));
            }
        }
        for text in leaves() {
            let alone = [
                Job::Question(recording.clone(), text.clone()),
                Job::Degree(recording.clone(), text.clone()),
                Job::LabQuestion(recording.clone(), text.clone()),
                Job::LabDegree(recording.clone(), text.clone()),
                Job::Assured(text.clone()),
                Job::ReportStart(text.clone()),
                Job::ReportAdd(report_of(&text), recording.clone()),
                Job::Band(recording.clone(), text),
            ];
            jobs.extend(alone.map(|job| Job::Listed(Box::new(job))));
        }
        for text in ["lowafter(A,1)&capafter(A,256)".to_string(), "!".repeat(29) + "lowafter(A,1)", "!".repeat(31) + "peaks(A)"] {
            jobs.push(Job::LabQuestion(recording.clone(), text.clone()));
            jobs.push(Job::LabDegree(recording.clone(), text));
        }
        // A run of the readings so far, the next one behind it; the run is full, or has all readings.
        let mut run = mill::Live::start(&[1, 256, 512, 768, 1_024, 1_280, 1_536, 3_840]).unwrap();
        run.save(8).unwrap();
        let next = recording.chunks(16).find(|reading| run.add(reading).is_err()).unwrap_or(&recording[..15]);
        let without = Job::LiveAdd(mill::Live::start(&[]).unwrap().as_bytes().to_vec(), recording[..16].to_vec());
        let run = run.as_bytes().to_vec();
        let full = Job::LiveAdd(run.clone(), next.to_vec());
        jobs.extend([
            Job::LiveStart,
            without,
            full,
            Job::LiveSave(run.clone()),
            Job::LiveRestore(run.clone()),
            Job::LiveKept(run.clone()),
            Job::LiveEntry(run),
        ]);
        let mut run = mill::Live::start(&[]).unwrap();
        recording.chunks(16).take(100).for_each(|reading| run.add(reading).unwrap_or(()));
        let next = recording.chunks(16).nth(100).unwrap_or(&recording[..16]);
        jobs.push(Job::LiveAdd(run.as_bytes().to_vec(), next.to_vec()));
        jobs.push(Job::LabPair(recording.clone(), 16));
        jobs.push(Job::LabPair(recording.clone(), 5));
        for question in ["high(A)", "low(B)", "lowafter(A,100)", "capafter(B,100)", "ampl(A)"] {
            jobs.push(Job::Band(recording.clone(), format!("{}{question}{}", "(".repeat(15), ")".repeat(15))));
        }
        jobs.push(Job::Pair(recording.clone(), 16));
        jobs.push(Job::Pair(recording.clone(), 5));
        jobs.push(Job::Order(recording.clone()));
        jobs.push(Job::Entry(recording.clone()));
        jobs.push(Job::Find(mill::entry(&recording).unwrap().to_bytes().repeat(MILL_MAX_ENTRIES)));
        jobs.push(Job::Thin(recording));
    }
    jobs.push(Job::Entry(vec![]));
    jobs.push(Job::Find(vec![]));
    jobs
}

/// Calls the library and nothing else.
fn run(job: &Job, out: &mut [u8]) -> u64 {
    let (mut one, mut two) = (0u32, 0u32);
    // SAFETY: each pointer lies before as many bytes as its length says, or before its number.
    unsafe {
        match job {
            Job::Question(recording, text) => {
                mill_question(recording.as_ptr(), recording.len(), text.as_ptr(), text.len(), out.as_mut_ptr(), out.len())
            }
            Job::Degree(recording, text) => {
                let (mut distance, mut degree) = (0f64, 0f64);
                mill_degree(recording.as_ptr(), recording.len(), text.as_ptr(), text.len(), 7, &mut distance, &mut degree)
            }
            Job::Pair(recording, target) => mill_pair(recording.as_ptr(), recording.len(), 0, *target, &mut one, &mut two),
            Job::Thin(recording) => {
                mill_thin(recording.as_ptr(), recording.len(), MARKS.as_ptr(), MARKS.len(), out.as_mut_ptr(), out.len())
            }
            Job::Band(recording, text) => {
                let [mut low, mut high, mut lowest, mut highest] = [0; 4];
                let (at, length) = (recording.as_ptr(), recording.len());
                mill_band(at, length, text.as_ptr(), text.len(), 9, &mut low, &mut high, &mut lowest, &mut highest)
            }
            Job::Listed(job) => run(job, out),
            Job::LiveStart => mill_live_start(MARKS.as_ptr(), MARKS.len(), out.as_mut_ptr(), out.len()),
            Job::LiveAdd(live, reading) => {
                out[..live.len()].copy_from_slice(live);
                mill_live_add(out.as_mut_ptr(), out.len(), reading.as_ptr(), reading.len())
            }
            Job::LiveSave(live) => {
                out[..live.len()].copy_from_slice(live);
                mill_live_save(out.as_mut_ptr(), out.len(), 1)
            }
            Job::LiveRestore(live) => {
                out[..live.len()].copy_from_slice(live);
                mill_live_restore(out.as_mut_ptr(), out.len(), 8)
            }
            Job::LiveKept(live) => mill_live_kept(live.as_ptr(), live.len(), out.as_mut_ptr(), out.len()),
            Job::Entry(recording) => mill_entry(recording.as_ptr(), recording.len(), out.as_mut_ptr(), out.len()),
            Job::LiveEntry(live) => mill_live_entry(live.as_ptr(), live.len(), out.as_mut_ptr(), out.len()),
            Job::Version => mill_version(),
            Job::Assured(text) => mill_assured(text.as_ptr(), text.len(), MARKS.as_ptr(), MARKS.len()),
            Job::Find(entries) => mill_find(entries.as_ptr(), entries.len(), 1, 0, out.as_mut_ptr(), out.len()),
            Job::ReportStart(text) => mill_report_start(3, text.as_ptr(), text.len(), 7, out.as_mut_ptr(), out.len()),
            Job::ReportEnd(report) => {
                out[..report.len()].copy_from_slice(report);
                mill_report_start(0, b"".as_ptr(), 0, 7, out.as_mut_ptr(), out.len())
            }
            Job::ReportAdd(report, recording) => {
                let (mut distances, mut mean) = (0, 0.0);
                let (at, length, room) = (recording.as_ptr(), recording.len(), out.len());
                out[..report.len()].copy_from_slice(report);
                mill_report_add(out.as_mut_ptr(), room, at, length, &mut one, &mut two, &mut distances, &mut mean)
            }
            Job::LabQuestion(recording, text) => {
                let (at, length, room, out) = (recording.as_ptr(), recording.len(), out.len(), out.as_mut_ptr());
                mill_lab_question(at, length, MARKS.as_ptr(), MARKS.len(), text.as_ptr(), text.len(), out, room)
            }
            Job::LabDegree(recording, text) => {
                let (mut distance, mut degree) = (0f64, 0f64);
                let (at, length, marks) = (recording.as_ptr(), recording.len(), MARKS.as_ptr());
                mill_lab_degree(at, length, marks, MARKS.len(), text.as_ptr(), text.len(), 7, &mut distance, &mut degree)
            }
            Job::LabPair(recording, target) => mill_lab_pair(recording.as_ptr(), recording.len(), 0, *target, &mut one, &mut two),
            Job::Order(recording) => {
                mill_order(recording.as_ptr(), recording.len(), SHEET.as_ptr(), SHEET.len(), &mut one, &mut two)
            }
        }
    }
}

#[test]
fn every_call_on_the_stack_that_the_header_names() {
    crate::guarded::say_the_case_on_faults();
    let mut expected = Vec::new();
    for (case, job) in jobs().iter().enumerate() {
        begin("every call on the stack that the header names", case as u64);
        let (mut out, mut again) = (vec![0; 65_536], vec![0; 65_536]);
        let returned = run(job, &mut out);
        let (call, bytes) = job.call();
        let mut found = None;
        on_stack_of(bytes, &mut || found = Some(run(job, &mut again)));
        assert_eq!(found, Some(returned), "{call}, case {case}");
        assert!(out == again, "{call}, case {case}: the output");
        expected.push(returned);
    }
    assert!(expected.iter().any(|returned| *returned == 1) && expected.iter().any(|returned| *returned > 1_000));
    let refused = |number: u64| expected.iter().filter(|returned| **returned >> 32 == number).count();
    assert!(refused(0) > 40 && refused(7) > 20 && refused(8) > 4, "the jobs reach results and refusals 7 and 8");
}

#[test]
fn peak_of_every_call() {
    let mut peaks = BTreeMap::new();
    let mut out = vec![0; 65_536];
    for (case, job) in jobs().iter().enumerate() {
        begin("peak of every call", case as u64);
        let peak = painted::peak(&mut || {
            run(job, &mut out);
        });
        let (call, said) = job.call();
        let (most, _) = peaks.entry(call).or_insert((0, said));
        *most = peak.max(*most);
    }
    for (call, (peak, said)) in peaks {
        println!("{call}: {peak} bytes of stack at most, {said} in the header");
        assert!(peak > 0 && peak <= said, "{call} needs {peak} bytes of stack, and the header says {said}");
    }
}

/// The limit is real: a child process in which a call has less stack than it needs dies, and says at which case.
#[test]
fn a_stack_that_is_too_small_is_seen() {
    const LESS: &str = "MILL_LESS_STACK";
    let (recording, lag, gaps) = (bytes(&flat(1)), "!".repeat(31) + "lag", "!".repeat(31) + "gaps(A)");
    let live = mill::Live::start(&[]).unwrap().as_bytes().to_vec();
    let jobs = [
        (Job::Question(recording.clone(), "(".repeat(256)), 32_768),
        (Job::Degree(recording.clone(), "(".repeat(256)), 32_768),
        (Job::Pair(recording.clone(), 16), 512),
        (Job::Thin(recording.clone()), 4_096),
        (Job::Band(recording.clone(), "(".repeat(256)), 32_768),
        (Job::Order(recording.clone()), 128),
        (Job::LabQuestion(recording.clone(), "(".repeat(256)), 32_768),
        (Job::LabDegree(recording.clone(), "(".repeat(256)), 32_768),
        (Job::LabPair(recording.clone(), 16), 512),
        (Job::ReportStart("(".repeat(256)), 32_768),
        (Job::Assured("(".repeat(256)), 32_768),
        (Job::Question(recording.clone(), lag.clone()), 65_536),
        (Job::Degree(recording.clone(), lag.clone()), 65_536),
        (Job::LabQuestion(recording.clone(), gaps.clone()), 65_536),
        (Job::LabDegree(recording.clone(), gaps), 65_536),
        (Job::ReportAdd(mill::Report::start(2, lag.as_bytes(), 7).unwrap().as_bytes().to_vec(), recording), 65_536),
        (Job::LiveStart, 32),
        (Job::LiveAdd(live.clone(), flat(1)[0].bytes().to_vec()), 32),
        (Job::LiveSave(live.clone()), 32),
        (Job::LiveRestore(live.clone()), 32),
        (Job::LiveKept(live.clone()), 32),
        (Job::LiveEntry(live), 16),
        (Job::Entry(bytes(&flat(3))), 16),
        (Job::Find(vec![9; 96]), 16),
        (Job::Listed(Box::new(Job::Question(bytes(&flat(1)), "dose(1)".into()))), 8_192),
    ];
    if let Ok(which) = std::env::var(LESS) {
        let which: usize = which.parse().unwrap();
        crate::guarded::say_the_case_on_faults();
        begin("too small a stack", which as u64);
        let (job, bytes) = &jobs[which];
        let mut room = vec![0; 65_536];
        on_stack_of(*bytes, &mut || {
            run(job, &mut room);
        });
        return;
    }
    for (which, (job, _)) in jobs.iter().enumerate() {
        let child = std::process::Command::new(std::env::current_exe().unwrap())
            .args(["stack::a_stack_that_is_too_small_is_seen", "--exact", "--nocapture", "--test-threads=1"])
            .env(LESS, which.to_string())
            .output()
            .unwrap();
        let said = String::from_utf8_lossy(&child.stderr).into_owned();
        assert_eq!(child.status.code(), Some(101), "{}: {said}", job.call().0);
        assert!(said.contains(&format!("in case 'too small a stack:{which}'")), "{}: {said}", job.call().0);
    }
}

#[test]
fn the_painted_stack_sees_what_is_used() {
    #[inline(never)]
    fn use_some(bytes: usize) -> u8 {
        let mut space = [0u8; 50_000];
        std::hint::black_box(&mut space[..bytes]).fill(1);
        std::hint::black_box(&space)[bytes - 1]
    }
    let peak = painted::peak(&mut || assert_eq!(use_some(50_000), 1));
    assert!((50_000..60_000).contains(&peak), "{peak}");
    assert!(painted::peak(&mut || ()) < 1_000);
}
