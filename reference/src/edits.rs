//! The list of cuts and substitutions as a table.

#[path = "../assembly.rs"]
#[allow(dead_code)]
mod assembly;

use assembly::{Edit, SOURCES};

/// Markdown, one table for each source file.
pub fn table() -> String {
    let mut text = String::new();
    for source in SOURCES {
        text +=
            &format!("\n## {}\n\n| where | what | becomes | times | reason |\n|---|---|---|---|---|\n", source.path);
        for row in source.rows {
            let [within, what, becomes, times] = cells(&row.edit);
            text += &format!("| {within} | {what} | {becomes} | {times} | {} |\n", reason(row.reason));
        }
    }
    text
}

fn cells(edit: &Edit) -> [String; 4] {
    let cut = || "cut".to_string();
    match *edit {
        Edit::Uses { times } => [place(""), code("use …;"), cut(), times.to_string()],
        Edit::Cut { within, anchor } => [place(within), code(anchor), cut(), "1".into()],
        Edit::CutEntry { within, anchor, times } => [place(within), code(anchor), cut(), times.to_string()],
        Edit::Replace { within, from, to, times } => [place(within), code(from), text_or_cut(to), times.to_string()],
        Edit::Call { within, name, holding, to, times } => {
            let arguments = if holding.is_empty() { "…)".into() } else { format!("…{holding}…)") };
            [place(within), code(&format!("{name}{arguments}")), code(to), times.to_string()]
        }
        Edit::Block { within, anchor, to } => [place(within), code(&format!("{anchor}{{…}}")), code(to), "1".into()],
    }
}

/// A number stands for the refusal that the error site gives.
fn reason(text: &str) -> String {
    if text.parse::<u32>().is_ok() {
        format!("refusal {text}")
    } else {
        text.into()
    }
}

fn place(within: &str) -> String {
    if within.is_empty() {
        "file".into()
    } else {
        code(within)
    }
}

fn text_or_cut(text: &str) -> String {
    if text.is_empty() {
        "cut".into()
    } else {
        code(text)
    }
}

fn code(text: &str) -> String {
    format!("`{}`", text.trim())
}

#[cfg(test)]
mod tests {
    use super::assembly::{assemble, SOURCES};

    #[test]
    fn the_page_holds_the_table() {
        let listed = include_str!("../CUTS.md");
        assert!(listed.contains(super::table().trim()), "put the output of `cargo run --bin edits` into CUTS.md");
    }

    #[test]
    fn a_missing_anchor_is_an_error() {
        for source in SOURCES {
            let why = assemble(source, "fn nothing() {}\n".into()).expect_err("no anchor is there");
            assert!(why.contains(source.path) && why.contains("expected"), "{why}");
        }
    }
}
