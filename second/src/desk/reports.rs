//! `report`: a page that is put together of what other commands print.

use super::asked::{find, picture, show, why, Ended};
use super::input::Input;
use super::wording::counted;
use super::{admit, check, mend, site_in, Done};
use crate::show::Form;

/// A page's beginning, up to its title; after its title; and its end.
const FIRST: &str = "<!DOCTYPE html>\n<html lang=\"en\">\n<head>\n\
    <meta charset=\"utf-8\"/>\n<meta name=\"viewport\" content=\"width=device-width\"/>\n<title>";
const LOOK: &str = "</title>\n<style>\n\
    @page { size: A4; margin: 15mm; }\n\
    body { font-family: sans-serif; line-height: 1.4; max-width: 60em; margin: 1em auto; padding: 0 1em; color: black; \
    background: white; }\n\
    h1 { font-size: 1.4em; overflow-wrap: anywhere; }\n\
    h2 { font-size: 1.1em; break-after: avoid; }\n\
    pre { font-size: 0.85em; white-space: pre-wrap; overflow-wrap: anywhere; }\n\
    svg { max-width: 100%; height: auto; }\n\
    .picture { break-inside: avoid; }\n\
    @media print { body { max-width: none; margin: 0; padding: 0; } pre { orphans: 4; widows: 4; } \
    svg { max-height: 240mm; } }\n\
    </style>\n</head>\n<body>\n<h1>";
const LAST: &str = "</body>\n</html>\n";
const FOUND: &str = "The plan, cell by cell";

/// The report of a site, or the refusal of one of its files.
pub fn report(site_file: Input, plan_file: Option<Input>, flow_sheet: Option<Input>, tries: u64) -> Ended {
    let site = match site_in(site_file) {
        Ok(site) => site,
        Err(words) => return Ended { words, status: 1, ..Ended::default() },
    };
    let name = escaped(site_file.name.rsplit('/').next().unwrap_or_default().as_bytes());
    let mut page = format!("{FIRST}{name}{LOOK}{name}</h1>\n<p>");
    page += &[(site.cells, "cell"), (site.slots, "slot"), (site.channels, "channel")]
        .map(|(many, thing)| counted(u64::from(many), thing))
        .join(", ");
    page += &format!(", rule {}</p>\n", site.rule);

    let reason = why(site_file, tries);
    page += &section("What can be said of the site", &reason.result);
    let found = (plan_file.is_none() && reason.status == 0).then(|| find(site_file, tries).result);
    let plan = plan_file.or(found.as_deref().map(|bytes| Input { name: "", bytes }));
    let mut words = String::new();
    let Some(plan) = plan else {
        page += &drawn(&picture(site_file, None).result);
        page += &format!("<section>\n<h2>{FOUND}</h2>\n<p>No plan is found.</p>\n</section>\n");
        return finished(page, words, site_file, flow_sheet, None);
    };
    let cells = show(site_file, Some(plan), Form::Cells);
    if cells.status != 0 {
        return cells;
    }
    words += &cells.words;
    let wrong = check(site_file, plan).err();
    if let Some(line) = &wrong {
        page += &section("The plan is not valid", line.as_bytes());
    }
    page += &drawn(&picture(site_file, Some(plan)).result);
    let heading = if plan_file.is_some() { "The given plan, cell by cell" } else { FOUND };
    page += &section(heading, &cells.result);
    finished(page, words, site_file, flow_sheet, wrong.map(|_| plan))
}

/// The flows, if they are given, the changes that mend a plan that is not valid, and the page's end.
fn finished(
    mut page: String,
    mut words: String,
    site_file: Input,
    flow_sheet: Option<Input>,
    wrong_plan: Option<Input>,
) -> Ended {
    match flow_sheet.map(|sheet| admit(site_file, sheet)) {
        None => {}
        Some(Ok(Done { result, .. })) => page += &section("The flows", &result),
        Some(Err(no)) => {
            words += &no;
            return Ended { words, status: 1, ..Ended::default() };
        }
    }
    if let Some(plan) = wrong_plan {
        let changes = mend(site_file, plan).map_or_else(|no| no, |done| done.words);
        page += &section("What mends the plan", changes.as_bytes());
    }
    page += LAST;
    Ended { result: page.into_bytes(), words, status: 0 }
}

fn drawn(picture: &[u8]) -> String {
    let picture = String::from_utf8_lossy(picture);
    format!("<section class=\"picture\">\n<h2>The site and its plan</h2>\n{picture}</section>\n")
}

fn section(heading: &str, text: &[u8]) -> String {
    format!("<section>\n<h2>{heading}</h2>\n<pre>{}</pre>\n</section>\n", escaped(text))
}

/// A text as text of a page. Rust tells which bytes are letters; those that are none are a ? each, and so are the bytes of
/// a control, and of the two letters that XML has not.
fn escaped(text: &[u8]) -> String {
    let mut page = String::new();
    for chunk in text.utf8_chunks() {
        for letter in chunk.valid().chars() {
            match letter {
                '<' => page += "&lt;",
                '>' => page += "&gt;",
                '&' => page += "&amp;",
                '"' => page += "&quot;",
                '\'' => page += "&#39;",
                '\n' | '\t' => page.push(letter),
                '\u{fffe}' | '\u{ffff}' => page += "???",
                _ if letter.is_control() => page += &"?".repeat(letter.len_utf8()),
                _ => page.push(letter),
            }
        }
        page += &"?".repeat(chunk.invalid().len());
    }
    page
}

#[cfg(test)]
mod tests {
    use super::escaped;

    #[test]
    fn bytes_that_are_no_letters() {
        assert_eq!(escaped(b"<b>R&D's \"x\"</b>\r\n\t\x7f"), "&lt;b&gt;R&amp;D&#39;s &quot;x&quot;&lt;/b&gt;?\n\t?");
        for (bytes, text) in [
            (&b"\xc3\xa5\xe2\x82\xac\xf0\x9f\x9a\x87"[..], "\u{e5}\u{20ac}\u{1f687}"),
            (b"\xe2\x82<", "??&lt;"),
            (b"\xc0\xbc", "??"),
            (b"\xe0\x80\xbc", "???"),
            (b"\xed\xa0\x80", "???"),
            (b"\xf4\x90\x80\x80", "????"),
            (b"\xef\xbf\xbf", "???"),
            (b"\xc2\x85", "??"),
        ] {
            assert_eq!(escaped(bytes), text);
        }
    }
}
