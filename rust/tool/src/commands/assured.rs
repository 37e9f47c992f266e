//! `mill assured`: whether kept readings answer a text as the recording did.

use super::Command;
use crate::arguments::Arguments;
use crate::assured::reason;
use crate::options::Opt;
use crate::output::Answer;
use crate::source::Kept;
use crate::trouble::Trouble;
use crate::{input, json, source};
use mill::Refusal;
use std::path::Path;

pub const COMMAND: Command = Command {
    name: "assured",
    operands: "TEXT [-m K]..\n       mill assured TEXT TIN",
    does: "Whether kept readings answer a text as the recording did.",
    about: "\
The answer is 'assured': under these marks, or those of TIN, every recording and
what is kept of it give TEXT the same answer or the same refusal. Or it is 'not
assured' and the reason: then nothing is promised, and the answers may be the same
or not. No recording is asked.
",
    takes: &[Opt::Mark, Opt::ExitCode],
    run,
};

fn run(arguments: &Arguments) -> Result<Answer, Trouble> {
    let (text, tin) = match arguments.count() {
        2.. => {
            let [text, tin] = arguments.operands("assured", ["TEXT", "TIN"])?;
            (text, Some(Path::new(tin)))
        }
        _ => (arguments.operands("assured", ["TEXT"])?[0], None),
    };
    let text = input::text(text)?;
    let marks = match tin {
        Some(tin) => marks_of(tin, &arguments.marks)?,
        None => arguments.marks.clone(),
    };
    let refused = |refusal: Refusal| Trouble::refused_alone(refusal).of_text(&text);
    let assured = mill::assured(&text, &marks).map_err(refused)?;
    Ok(said(arguments, (!assured).then(|| reason(&text, &marks))))
}

fn marks_of(tin: &Path, given: &[u32]) -> Result<Vec<u32>, Trouble> {
    let source = source::asked(tin)?;
    match &source.kept {
        Kept::Under { .. } => source.marks(tin, given),
        Kept::Doubtful(why) => Err(Trouble::of_file(tin, why)),
        Kept::Unknown => Err(Trouble::of_file(tin, "is no tin, and has no marks")),
    }
}

fn said(arguments: &Arguments, reason: Option<String>) -> Answer {
    let text = match (&reason, arguments.json) {
        (None, false) => "assured\n".to_string(),
        (Some(reason), false) => format!("not assured: {reason}\n"),
        (reason, true) => {
            let mut object = json::Object::new();
            object.truth("assured", reason.is_none());
            reason.iter().for_each(|reason| object.string("reason", reason));
            object.line()
        }
    };
    Answer::text(text).of_something(arguments, reason.is_none())
}
