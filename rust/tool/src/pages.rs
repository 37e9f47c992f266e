//! Pages of help that are of no one command, so that nobody needs the repository.

pub struct Page {
    pub name: &'static str,
    pub text: &'static str,
}

pub const PAGES: [Page; 4] = [
    Page { name: "questions", text: include_str!("pages/questions.txt") },
    Page { name: "tins", text: include_str!("pages/tins.txt") },
    Page { name: "tables", text: include_str!("pages/tables.txt") },
    Page { name: "refusals", text: include_str!("pages/refusals.txt") },
];

pub fn names() -> impl Iterator<Item = &'static str> {
    PAGES.iter().map(|page| page.name)
}

pub fn named(name: &str) -> Option<&'static str> {
    PAGES.iter().find(|page| page.name == name).map(|page| page.text)
}
