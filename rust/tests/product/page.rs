//! Covers: the examples of `docs/QUESTIONS.md`, so that the page can't drift from the library.
//!
//! A fenced block whose first line is ```` ```mill ```` holds examples, one to a line: a text, ` => `, and its answer on R1.
//! An answer is `empty`; or runs in ascending order, parted by `, `, each a number or `low..high`, with `Lo` and `Hi` for the
//! axis ends; or `refused` with number and place. ```` ```mill kept ```` asks R1's kept readings without marks,
//! ```` ```mill kept 40 50 ```` those with these marks, ```` ```mill kept 40 with 20 50 ```` these with the readings at 20 and 50 put back.
//! ```` ```mill kept 40 lab 40 ```` asks them as a laboratory does that comes with the marks behind `lab`.
//! ```` ```mill assured 40 50 ```` asks whether texts are assured under these marks: `assured` or `no promise`.
//! ```` ```mill degree 51 ```` asks for degrees of this target: `met`,
//! `distance d, degree g` or `no value`. ```` ```mill band 5 ```` asks within this band: `certain` and a set, `; possible` and a
//! set. ```` ```mill order ```` checks order sheets, lines `a b` parted by `, `: `met`, or `line k broken at t`.
//! ```` ```mill report 31 R1 R2 ```` puts texts and this target to these recordings: `met m, empty n, distances d, mean g`, or `no mean`.
//! ```` ```mill live 40 ```` makes steps of a growing run with these marks, parted by `; `: times of readings, `save n` and `back n`; the
//! answer are the times of the readings then held, `none`, or what refused a step.
//! ```` ```mill live entry ```` makes steps without marks and tells the entry of the run after them.
//! ```` ```mill entry ```` tells entries: a text is a recording's name, or that and `kept` with marks behind it for its kept readings; the
//! answer are the entry's eight numbers, parted by `, `. ```` ```mill find R1 R2 ```` seeks in the entries of these recordings: a text is a
//! curve and a level; the answer are the numbers found, or `none`.
//! ```` ```mill R2 ```` to ```` ```mill R5 ````, with any of these behind it, ask R2 to R5, and
//! ```` ```mill R4 old ```` the readings that document 01's own rule kept of R4.
//! Blank lines, and lines that begin with `#`, say nothing. A block ```` ```ask ```` holds lines `$ echo 'text' | ask`, each with
//! what the program prints below it. Other fenced blocks are not looked at.

use crate::support::old_rule::{kept_by, Rule};
use crate::support::r1::{self, r1_bytes};
use crate::support::r2::{self, r2_bytes};
use crate::support::r3::{self, r3_bytes};
use crate::support::r4::{self, r4_bytes};
use crate::support::r5::r5_bytes;
use mill::{Added, Curve, Degree, Entry, Live, Order, Refusal, Report, Run, Set};
use reference::recording::{bytes, in_rules};

/// Of which recording.
#[derive(Clone, Copy, PartialEq)]
enum Recording {
    R1,
    R2,
    R3,
    R4,
    R5,
}

/// How an example is asked, and its answer written.
#[derive(Clone)]
enum Asked {
    OfFull,
    OfKept(Vec<u32>),
    /// Of those with these marks, with the readings at these times put back.
    OfPinned(Vec<u32>, Vec<u32>),
    /// Of those with these marks, as a laboratory that comes with those marks.
    OfLaboratory(Vec<u32>, Vec<u32>),
    OfOldList,
    /// Whether kept readings with these marks answer it as the recording did.
    Assured(Vec<u32>),
    Degree(i64),
    Band(i64),
    Order,
    /// A target, put to these recordings.
    Report(i64, Vec<Recording>),
    /// Steps of a growing run with these marks.
    Live(Vec<u32>),
    /// The same without marks, for the entry.
    LiveEntry,
    Entry,
    /// In the entries of these recordings.
    Find(Vec<Recording>),
    AtThePrompt,
}

struct Example {
    line: usize,
    recording: Recording,
    asked: Asked,
    text: String,
    answer: String,
}

/// Which block a line of the page is in.
enum Block {
    None,
    Other,
    Examples(Recording, Asked),
}

/// The examples of the page, or what is wrong with its form.
fn examples(page: &str) -> Result<Vec<Example>, String> {
    let mut found = Vec::new();
    let mut block = Block::None;
    for (index, line) in page.lines().enumerate() {
        let number = index + 1;
        if let Some(name) = line.trim_start().strip_prefix("```") {
            block = match block {
                Block::None => block_of(name.trim()).map_err(|why| format!("line {number}: {why}"))?,
                _ => Block::None,
            };
            continue;
        }
        let Block::Examples(recording, asked) = &block else { continue };
        let wrong = || format!("line {number} is no example: {line}");
        let (text, answer) = if let Asked::AtThePrompt = asked {
            match (line.strip_prefix("$ echo '"), found.last_mut()) {
                (Some(rest), _) => (rest.strip_suffix("' | ask").ok_or_else(wrong)?, ""),
                (None, Some(Example { asked: Asked::AtThePrompt, answer, .. })) => {
                    answer.push_str(line);
                    answer.push('\n');
                    continue;
                }
                (None, _) => return Err(wrong()),
            }
        } else if line.trim().is_empty() || line.starts_with('#') {
            continue;
        } else {
            line.split_once("=> ").ok_or_else(wrong)?
        };
        let (recording, asked) = (*recording, asked.clone());
        found.push(Example { line: number, recording, asked, text: text.trim().into(), answer: answer.trim().into() });
    }
    match block {
        Block::None => Ok(found),
        _ => Err("a fenced block is not closed".into()),
    }
}

/// The block that a fence with this name opens.
fn block_of(name: &str) -> Result<Block, String> {
    let words: Vec<&str> = name.split_whitespace().collect();
    let unread = |_| format!("numbers of '{name}'");
    let (recording, how) = match words[..] {
        ["mill", first, ref how @ ..] if recording_of(first).is_some() => (recording_of(first).unwrap(), how),
        ["mill", ref how @ ..] => (Recording::R1, how),
        ["ask"] => return Ok(Block::Examples(Recording::R1, Asked::AtThePrompt)),
        _ => return Ok(Block::Other),
    };
    let asked = match how {
        [] => Asked::OfFull,
        ["old"] => Asked::OfOldList,
        ["kept", numbers @ ..] => {
            let read = |words: &[&str]| words.iter().map(|word| word.parse()).collect::<Result<Vec<u32>, _>>().map_err(unread);
            match numbers.iter().position(|word| ["with", "lab"].contains(word)) {
                None => Asked::OfKept(read(numbers)?),
                Some(at) if numbers[at] == "lab" => Asked::OfLaboratory(read(&numbers[..at])?, read(&numbers[at + 1..])?),
                Some(at) => Asked::OfPinned(read(&numbers[..at])?, read(&numbers[at + 1..])?),
            }
        }
        ["assured", marks @ ..] => {
            let marks: Result<Vec<u32>, _> = marks.iter().map(|word| word.parse()).collect();
            Asked::Assured(marks.map_err(unread)?)
        }
        ["degree", target] => Asked::Degree(target.parse().map_err(unread)?),
        ["band", e] => Asked::Band(e.parse().map_err(unread)?),
        ["order"] => Asked::Order,
        ["entry"] => Asked::Entry,
        ["find", of @ ..] => {
            let of: Option<Vec<Recording>> = of.iter().map(|word| recording_of(word)).collect();
            Asked::Find(of.ok_or(format!("recordings of '{name}'"))?)
        }
        ["live", "entry"] => Asked::LiveEntry,
        ["live", marks @ ..] => {
            let marks: Result<Vec<u32>, _> = marks.iter().map(|word| word.parse()).collect();
            Asked::Live(marks.map_err(unread)?)
        }
        ["report", target, of @ ..] => {
            let of: Option<Vec<Recording>> = of.iter().map(|word| recording_of(word)).collect();
            Asked::Report(target.parse().map_err(unread)?, of.ok_or(format!("recordings of '{name}'"))?)
        }
        _ => return Err(format!("unknown block '{name}'")),
    };
    Ok(Block::Examples(recording, asked))
}

fn recording_of(word: &str) -> Option<Recording> {
    let all = [("R1", Recording::R1), ("R2", Recording::R2), ("R3", Recording::R3), ("R4", Recording::R4), ("R5", Recording::R5)];
    all.into_iter().find(|(name, _)| *name == word).map(|(_, recording)| recording)
}

fn bytes_of(recording: Recording) -> Vec<u8> {
    match recording {
        Recording::R1 => r1_bytes(),
        Recording::R2 => r2_bytes(),
        Recording::R3 => r3_bytes(),
        Recording::R4 => r4_bytes(),
        Recording::R5 => r5_bytes(),
    }
}

/// The report on these recordings, all but the last taken, as the page writes it.
fn report(text: &[u8], target: i64, recordings: &[Recording]) -> Result<String, Refusal> {
    let mut report = Report::start(recordings.len() as u32, text, target)?;
    let (last, others) = recordings.split_last().expect("a recording");
    for recording in others {
        assert_eq!(report.add(&bytes_of(*recording))?, Added::Taken);
    }
    let Added::Report(figures) = report.add(&bytes_of(*last))? else { panic!("the last gives the report") };
    let mean = figures.mean.map_or("no mean".into(), |mean| format!("mean {mean}"));
    Ok(format!("met {}, empty {}, distances {}, {mean}", figures.met, figures.empty, figures.distances))
}

/// The answer of the library, written as the page writes it.
fn answer(example: &Example) -> String {
    let recording = bytes_of(example.recording);
    let text = example.text.as_bytes();
    let written = match &example.asked {
        Asked::OfFull => mill::question(&recording, text).map(|set| on_the_page(set.runs())),
        Asked::OfKept(marks) => {
            let kept = mill::thin(&recording, marks).expect("accepted marks");
            mill::question(&kept, text).map(|set| on_the_page(set.runs()))
        }
        Asked::OfPinned(marks, pins) => {
            let kept = mill::thin(&recording, marks).expect("accepted marks");
            let pinned = |reading: &&[u8]| kept.chunks(16).any(|kept| kept == *reading) || pins.contains(&reading[0].into());
            let selection: Vec<u8> = recording.chunks(16).filter(pinned).flatten().copied().collect();
            assert_eq!(selection.len(), kept.len() + 16 * pins.len(), "readings that are there, and not kept");
            assert_eq!(mill::thin(&selection, marks).as_ref(), Ok(&kept), "thinned back");
            mill::question(&selection, text).map(|set| on_the_page(set.runs()))
        }
        Asked::OfLaboratory(marks, own) => {
            let kept = mill::thin(&recording, marks).expect("accepted marks");
            mill::lab_question(&kept, own, text).map(|set| on_the_page(set.runs()))
        }
        Asked::OfOldList => {
            let old = kept_by(Rule::Document01, &in_rules(&recording).unwrap(), &[]);
            mill::question(&bytes(&old), text).map(|set| on_the_page(set.runs()))
        }
        Asked::Assured(marks) => {
            let kept = mill::thin(&recording, marks).expect("accepted marks");
            let assured = mill::assured(text, marks);
            if assured == Ok(true) {
                assert_eq!(mill::question(&kept, text), mill::question(&recording, text), "{}", example.text);
            }
            assured.map(|assured| if assured { "assured" } else { "no promise" }.into())
        }
        Asked::Degree(target) => mill::degree(&recording, text, *target).map(|degree| match degree {
            Degree::Met => "met".into(),
            Degree::Short { distance, degree } => format!("distance {distance}, degree {degree}"),
            Degree::NoValue => "no value".into(),
        }),
        Asked::Band(e) => mill::band(&recording, text, *e).map(|band| {
            let set = |run: Option<Run>| on_the_page(&run.into_iter().collect::<Vec<_>>());
            format!("certain {}; possible {}", set(band.certain), set(band.possible))
        }),
        Asked::Order => mill::order(&recording, &sheet_of(&example.text)).map(|order| match order {
            Order::Met => "met".into(),
            Order::Broken { time, line } => format!("line {line} broken at {time}"),
        }),
        Asked::Report(target, recordings) => report(text, *target, recordings),
        Asked::Live(marks) => steps(&recording, marks, &example.text).and_then(|run| held(&run)),
        Asked::LiveEntry => steps(&recording, &[], &example.text).and_then(|run| run.entry()).map(eight),
        Asked::Entry => mill::entry(&readings_of(&example.text)).map(eight),
        Asked::Find(recordings) => found(recordings, &example.text),
        Asked::AtThePrompt => return at_the_prompt(mill::question(&recording, text)),
    };
    written.unwrap_or_else(refused)
}

/// The recording of this name, or what is kept of it with the marks behind `kept`.
fn readings_of(text: &str) -> Vec<u8> {
    let words: Vec<&str> = text.split_whitespace().collect();
    let recording = bytes_of(recording_of(words[0]).expect("a recording"));
    match words[1..] {
        [] => recording,
        ["kept", ref marks @ ..] => {
            let marks: Vec<u32> = marks.iter().map(|mark| mark.parse().expect("a mark")).collect();
            mill::thin(&recording, &marks).expect("accepted marks")
        }
        _ => panic!("'{text}' is no recording"),
    }
}

/// The numbers of an entry, in their order.
fn eight(entry: Entry) -> String {
    let Entry { first_time, last_time, greatest_a, least_a, greatest_b, least_b, tops_a, tops_b } = entry;
    format!("{first_time}, {last_time}, {greatest_a}, {least_a}, {greatest_b}, {least_b}, {tops_a}, {tops_b}")
}

/// The numbers of the recordings in which a curve comes up to a level, by their entries.
fn found(recordings: &[Recording], text: &str) -> Result<String, Refusal> {
    let entries: Vec<Entry> = recordings.iter().map(|recording| mill::entry(&bytes_of(*recording)).expect("readings")).collect();
    let (curve, level) = text.split_once(' ').expect("a curve and a level");
    let curve = if curve == "A" { Curve::A } else { Curve::B };
    let numbers = mill::find(&entries, curve, level.trim().parse().expect("a level"))?;
    let numbers: Vec<String> = numbers.iter().map(u32::to_string).collect();
    Ok(if numbers.is_empty() { "none".into() } else { numbers.join(", ") })
}

/// The run after the steps, which the page writes.
fn steps(recording: &[u8], marks: &[u32], steps: &str) -> Result<Live, Refusal> {
    let mut run = Live::start(marks)?;
    for step in steps.split(';') {
        let words: Vec<&str> = step.split_whitespace().collect();
        let number = |word: &str| word.parse::<u32>().expect("a number");
        match words[..] {
            ["save", name] => run.save(number(name))?,
            ["back", name] => run.restore(number(name))?,
            _ => {
                for time in words {
                    let there = |reading: &&[u8]| reading[..4] == number(time).to_le_bytes();
                    run.add(recording.chunks(16).find(there).expect("a reading of the recording"))?;
                }
            }
        }
    }
    Ok(run)
}

/// The times of the readings that a run holds.
fn held(run: &Live) -> Result<String, Refusal> {
    let times: Vec<String> = run.kept()?.chunks(16).map(|reading| reading[0].to_string()).collect();
    Ok(if times.is_empty() { "none".into() } else { times.join(", ") })
}

/// The lines of a sheet as the page writes them; none of the empty text.
fn sheet_of(text: &str) -> Vec<[u8; 2]> {
    let number = |word: Option<&str>| word.and_then(|word| word.parse().ok()).expect("a line of two numbers");
    let line = |line: &str| {
        let mut words = line.split_whitespace();
        [number(words.next()), number(words.next())]
    };
    text.split(',').filter(|line| !line.trim().is_empty()).map(line).collect()
}

fn on_the_page(runs: &[Run]) -> String {
    let number = |number: i32| match number {
        -2_000_000_000 => "Lo".to_string(),
        2_000_000_000 => "Hi".to_string(),
        other => other.to_string(),
    };
    let written = |run: &Run| match run.low == run.high {
        true => number(run.low),
        false => format!("{}..{}", number(run.low), number(run.high)),
    };
    match runs {
        [] => "empty".into(),
        _ => runs.iter().map(written).collect::<Vec<_>>().join(", "),
    }
}

/// A refusal as the page and the program write it.
fn refused(refusal: Refusal) -> String {
    format!("refused {} {}", refusal.number(), refusal.place())
}

/// The lines that the program prints.
fn at_the_prompt(outcome: Result<Set, Refusal>) -> String {
    match outcome {
        Ok(set) => {
            let lines: String = set.iter().map(|run| format!("{} {}\n", run.low, run.high)).collect();
            format!("runs {}\n{lines}", set.runs().len())
        }
        Err(refusal) => refused(refusal) + "\n",
    }
}

/// The examples whose answer is another than the library's.
fn wrong(examples: &[Example]) -> Vec<String> {
    let said = |example: &Example, found: &str| {
        format!("line {}: {} => {}, and not {}", example.line, example.text, found, example.answer)
    };
    examples
        .iter()
        .map(|example| (example, answer(example)))
        .filter(|(example, found)| example.answer != *found)
        .map(|(example, found)| said(example, &found))
        .collect()
}

#[test]
fn the_page_answers_as_the_library() {
    let path = concat!(env!("CARGO_MANIFEST_DIR"), "/../../docs/QUESTIONS.md");
    let page = std::fs::read_to_string(path).unwrap_or_else(|why| panic!("{path}: {why}"));
    let examples = examples(&page).unwrap_or_else(|why| panic!("{path}: {why}"));
    let names = [
        "high(",
        "low(",
        "lowafter(",
        "capafter(",
        "peaks(",
        "dips(",
        "cross",
        "crossup",
        "dose(",
        "P=",
        "ampl(",
        "gaps(",
        "steps(",
        "lag",
        "F(",
        "G(",
        "X(",
        "U(",
        "W(",
    ];
    let is = |example: &Example, recording: Recording, wanted: &str| example.recording == recording && example.text == wanted;
    let has = |recording: Recording, full: bool, wanted: &str| {
        examples.iter().any(|example| {
            let asked = if full { matches!(example.asked, Asked::OfFull) } else { matches!(example.asked, Asked::OfKept(_)) };
            asked && is(example, recording, wanted)
        })
    };
    for (text, _) in r1::ANSWERS {
        assert!(has(Recording::R1, true, text), "{path} has no example {text}");
    }
    // What R1's kept readings still answer, and what R2's do not.
    assert!(has(Recording::R1, false, r1::RIGHT_AFTER.0));
    for (text, ..) in r2::LOST {
        assert!(has(Recording::R2, true, text) && has(Recording::R2, false, text), "{path} has no two examples {text} of R2");
    }
    for (text, _) in r3::ANSWERS {
        assert!(has(Recording::R3, true, text), "{path} has no example {text} of R3");
    }
    for (text, ..) in r3::LOST {
        assert!(has(Recording::R3, true, text) && has(Recording::R3, false, text), "{path} has no two examples {text} of R3");
    }
    // A list of before Paper 5 that answers otherwise.
    let (lost, ..) = r4::LOST_BY_01[0];
    assert!(has(Recording::R4, true, lost) && has(Recording::R4, false, lost), "{path} has no two examples {lost} of R4");
    let of_old = |example: &Example| matches!(example.asked, Asked::OfOldList) && is(example, Recording::R4, lost);
    assert!(examples.iter().any(of_old), "{path} has no example {lost} of the old list");
    assert!(
        examples.iter().any(|example| matches!(example.asked, Asked::OfPinned(..))),
        "{path} has no example with readings put back"
    );
    for recording in [Recording::R2, Recording::R5] {
        let asks = |example: &Example| matches!(&example.asked, Asked::OfLaboratory(marks, own) if marks == own);
        let of_it = |example: &Example| example.recording == recording && asks(example);
        assert!(examples.iter().any(of_it), "{path} has no example of the laboratory");
    }
    assert!(examples.iter().any(|example| matches!(example.asked, Asked::Report(..))), "{path} has no example of a report");
    assert!(examples.iter().any(|example| matches!(example.asked, Asked::Live(_))), "{path} has no example of a growing run");
    assert!(examples.iter().any(|example| matches!(example.asked, Asked::Entry)), "{path} has no example of an entry");
    assert!(examples.iter().any(|example| matches!(example.asked, Asked::LiveEntry)), "{path} has no example of a run's entry");
    assert!(examples.iter().any(|example| matches!(example.asked, Asked::Find(_))), "{path} has no example of finding");
    for name in names {
        assert!(examples.iter().any(|example| example.text.contains(name)), "{path} has no example with {name}");
    }
    assert_eq!(wrong(&examples), Vec::<String>::new(), "{path}");
}

#[test]
fn right_and_wrong_examples_are_told_apart() {
    let page = "\
Text.

```mill
peaks(A) => 30, 70
high(A)  => Lo..90
lag => empty
A=v|A>90 => refused 9 9

# A remark.
F(A>v => refused 6 0
```

```
not => looked at
```

```mill kept
F(A=60&X(A=v)) => 80
```
```mill kept 40
F(T=v&A=55) => 50
F(T=v&A=55) => empty
```
```mill degree 51
peaks(A) => distance 19, degree 0.05
peaks(A) => distance 19, degree 0.06
high(A) => met
lag => no value
```
```mill R2
peaks(A) => 40
peaks(A) => 40, 60
```
```mill R2 kept 10
X(A=v) => 9
```
```mill R2 kept 10 with 50 70
F(T=v) => 0, 10, 20, 30, 40, 50, 60, 70, 80
F(T=v) => 50, 70
```
```mill R5 kept 10 lab 10
capafter(A,10) => 8..Hi
high(B) => refused 14 0
```
```mill R5 kept lab 10
capafter(A,10) => 7..Hi
```
```mill R3 kept
dose(16) => 40
dose(7) => 20, 60
```
```mill R4 kept
peaks(A) => 40
```
```mill R4 old
peaks(A) => empty
peaks(A) => 40
```
```mill band 5
high(A) => certain Lo..85; possible Lo..95
high(A) => certain Lo..85; possible Lo..94
```
```mill R3 order
7 16 => met
7 16, 16 7 => line 0 broken at 20
```
```mill report 31 R1 R2
peaks(A) => met 0, empty 0, distances 10, mean 0.3
lag => met 0, empty 2, distances 0, mean 1
```
```mill R2 live 10
0 10; save 1; 20; back 1 => 0, 10
0 10; save 1; 20; back 1; 0 => refused 3 1
```
```mill entry
R2 kept 10 => 0, 80, 10, 2, 0, 0, 1, 0
R2 => 0, 80, 10, 2, 0, 0, 2, 0
```
```mill find R1 R2 R1
A 90 => 0, 2
A 91 => none
A 11 => 0, 1, 2
B 2000000001 => refused 12 0
```
```mill R2 live entry
0 10; save 1; 20; back 1 => 0, 10, 10, 9, 0, 0, 0, 0
save 1; 0; back 1 => 0, 0, 10, 10, 0, 0, 0, 0
```
```ask
$ echo 'peaks(A)' | ask
runs 2
30 30
70 70
$ echo 'lag' | ask
runs 0
$ echo 'lag' | ask
runs 1
$ echo 'F(A>v' | ask
refused 6 0
```
";
    let found = examples(page).unwrap();
    assert_eq!(found.len(), 45);
    let wrong = wrong(&found);
    assert_eq!(wrong.len(), 16, "{wrong:?}");
    assert_eq!(wrong[0], "line 7: A=v|A>90 => 40, and not refused 9 9");
    assert_eq!(wrong[1], "line 22: F(T=v&A=55) => 50, and not empty");
    assert_eq!(wrong[2], "line 26: peaks(A) => distance 19, degree 0.05, and not distance 19, degree 0.06");
    assert_eq!(wrong[3], "line 32: peaks(A) => 40, and not 40, 60");
    assert_eq!(wrong[4], "line 39: F(T=v) => 0, 10, 20, 30, 40, 50, 60, 70, 80, and not 50, 70");
    assert_eq!(wrong[5], "line 46: capafter(A,10) => 8..Hi, and not 7..Hi");
    assert_eq!(wrong[6], "line 50: dose(7) => 20, and not 20, 60");
    assert_eq!(wrong[7], "line 57: peaks(A) => empty, and not 40");
    assert_eq!(wrong[8], "line 61: high(A) => certain Lo..85; possible Lo..95, and not certain Lo..85; possible Lo..94");
    assert_eq!(wrong[9], "line 65: 7 16, 16 7 => line 1 broken at 20, and not line 0 broken at 20");
    assert_eq!(wrong[10], "line 69: lag => met 0, empty 2, distances 0, no mean, and not met 0, empty 2, distances 0, mean 1");
    assert_eq!(wrong[11], "line 73: 0 10; save 1; 20; back 1; 0 => refused 3 2, and not refused 3 1");
    assert_eq!(wrong[12], "line 77: R2 => 0, 80, 10, 2, 0, 0, 1, 0, and not 0, 80, 10, 2, 0, 0, 2, 0");
    assert_eq!(wrong[13], "line 82: A 11 => 0, 2, and not 0, 1, 2");
    assert_eq!(wrong[14], "line 87: save 1; 0; back 1 => refused 4 0, and not 0, 0, 10, 10, 0, 0, 0, 0");
    assert_eq!(wrong[15], "line 96: lag => runs 0\n, and not runs 1\n");
    assert!(examples("```mill\nlag\n```\n").is_err());
    assert!(examples("```mill\nlag => empty\n").is_err());
    assert!(examples("```mill keep\n```\n").is_err());
    assert!(examples("```mill R6\n```\n").is_err());
    assert!(examples("```mill kept R2\n```\n").is_err());
    assert!(examples("```mill kept x\n```\n").is_err());
    assert!(examples("```mill kept 10 with x\n```\n").is_err());
    assert!(examples("```mill kept 10 lab x\n```\n").is_err());
    assert!(examples("```mill degree\n```\n").is_err());
    assert!(examples("```mill band x\n```\n").is_err());
    assert!(examples("```mill live x\n```\n").is_err());
    assert!(examples("```mill report x R1\n```\n").is_err());
    assert!(examples("```mill report 3 R9\n```\n").is_err());
    assert!(examples("```mill order 3\n```\n").is_err());
    assert!(examples("```mill entry R1\n```\n").is_err());
    assert!(examples("```mill find R9\n```\n").is_err());
    assert!(examples("```ask\nruns 0\n```\n").is_err());
}
