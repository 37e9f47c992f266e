//! The options of the commands: their letters, their words, and what their pages say of them.

#[derive(Clone, Copy, PartialEq, Eq, Debug)]
pub enum Opt {
    Mark,
    Output,
    Force,
    Raw,
    Assured,
    ExitCode,
    Each,
    Csv,
    SkipRefused,
    Append,
    Delimiter,
    Decimal,
    Scale,
    Time,
    Columns,
    Slopes,
    Pieces,
    Into,
    Json,
    Help,
}

pub struct Form {
    pub opt: Opt,
    pub letter: Option<char>,
    pub word: &'static str,
    /// What stands for its value, where it has one.
    pub value: Option<&'static str>,
    pub about: &'static str,
}

const fn form(opt: Opt, letter: Option<char>, word: &'static str, value: Option<&'static str>, about: &'static str) -> Form {
    Form { opt, letter, word, value, about }
}

pub const FORMS: [Form; 20] = [
    form(Opt::Mark, Some('m'), "mark", Some("K"), "a mark, an after-time of the thinning; up to 8 times"),
    form(Opt::Output, Some('o'), "output", Some("FILE"), "write FILE, whole or not at all"),
    form(Opt::Force, None, "force", None, "with -o: write over a file that is there"),
    form(Opt::Raw, None, "raw", None, "bare bytes, without a head"),
    form(Opt::Assured, None, "assured", None, "give no answer that is not assured: status 1"),
    form(Opt::ExitCode, None, "exit-code", None, "status 3 where nothing is found, met or fits"),
    form(Opt::Each, None, "each", None, "a line for each recording"),
    form(Opt::Csv, None, "csv", None, "with --each: the lines as CSV"),
    form(Opt::SkipRefused, None, "skip-refused", None, "go on past a bad file, and say how many there are"),
    form(Opt::Append, None, "append", None, "add to the summary that FILE is"),
    form(Opt::Delimiter, None, "delimiter", Some("C"), "what parts the fields: a character, or tab"),
    form(Opt::Decimal, None, "decimal", Some("C"), "the decimal sign: . or ,"),
    form(Opt::Scale, None, "scale", Some("N"), "values times N, a power of ten, exactly"),
    form(Opt::Time, None, "time", Some("FORM"), "tenths, seconds, or clock, which is hh:mm:ss"),
    form(Opt::Columns, None, "columns", Some("MAP"), "column=NAME,.. as the table names them"),
    form(Opt::Slopes, None, "slopes", Some("DEAD"), "slopes from the values: steps over DEAD"),
    form(Opt::Pieces, None, "pieces", None, "with -o: FILE-1, FILE-2 .. of 4,096 readings each"),
    form(Opt::Into, None, "into", Some("TIN"), "take the readings into a tin, as 'mill add' does"),
    form(Opt::Json, None, "json", None, "the answer, or the refusal, as a line of JSON"),
    form(Opt::Help, Some('h'), "help", None, "this page"),
];

impl Opt {
    pub fn form(self) -> &'static Form {
        FORMS.iter().find(|form| form.opt == self).unwrap_or(&FORMS[0])
    }
}

impl Form {
    /// Its line on a page.
    pub fn line(&self) -> String {
        let letter = self.letter.map_or("    ".to_string(), |letter| format!("-{letter}, "));
        let value = self.value.map(|value| format!(" {value}")).unwrap_or_default();
        format!("  {:<21}{}\n", format!("{letter}--{}{value}", self.word), self.about)
    }
}
