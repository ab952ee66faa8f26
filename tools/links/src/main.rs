//! `links ROOT` checks that every relative link in the Markdown files below ROOT leads to a file or folder. A link with `#PART` must
//! lead to a heading of its file. A name that a page cites from a source file must be defined there.

mod names;

use std::fs;
use std::path::{Path, PathBuf};
use std::process::ExitCode;

fn main() -> ExitCode {
    let Some(root) = std::env::args().nth(1) else {
        eprintln!("usage: links ROOT");
        return ExitCode::from(2);
    };
    let seen = check(Path::new(&root));
    for line in &seen.broken {
        println!("{line}");
    }
    println!(
        "links: {} pages, {} links, {} names, {} lead nowhere",
        seen.pages,
        seen.links,
        seen.names,
        seen.broken.len()
    );
    if seen.broken.is_empty() && seen.links > 0 {
        ExitCode::SUCCESS
    } else {
        ExitCode::FAILURE
    }
}

/// How many pages, relative links and cited names there are, and a line for each that leads nowhere.
#[derive(Debug, Default, PartialEq, Eq)]
struct Seen {
    pages: usize,
    links: usize,
    names: usize,
    broken: Vec<String>,
}

fn check(root: &Path) -> Seen {
    let mut pages = Vec::new();
    collect(root, &mut pages);
    pages.sort();
    let mut seen = Seen { pages: pages.len(), ..Seen::default() };
    for page in &pages {
        let text = fs::read_to_string(page).unwrap_or_default();
        let shown = page.strip_prefix(root).unwrap_or(page).display();
        for link in relative_links(&text) {
            seen.links += 1;
            if let Err(why) = follow(page, &text, &link) {
                seen.broken.push(format!("{shown}: {link}: {why}"));
            }
        }
        for cited in names::cited(&text) {
            seen.names += 1;
            if let Err(why) = names::look_up(page, &cited) {
                seen.broken.push(format!("{shown}: `{}` in {}: {why}", cited.name, cited.file));
            }
        }
    }
    seen
}

/// The Markdown files below a folder. Hidden folders, those named `target` and the folder `out` of a crate are skipped.
fn collect(folder: &Path, pages: &mut Vec<PathBuf>) {
    let Ok(entries) = fs::read_dir(folder) else { return };
    for entry in entries.flatten() {
        let path = entry.path();
        let name = entry.file_name().to_string_lossy().into_owned();
        if path.is_dir() {
            let built = name == "target" || name == "out" && is_crate(folder);
            if !built && !name.starts_with('.') {
                collect(&path, pages);
            }
        } else if name.ends_with(".md") {
            pages.push(path);
        }
    }
}

/// Is it the folder of a crate?
fn is_crate(folder: &Path) -> bool {
    folder.parent().is_some_and(|around| around.ends_with("crates"))
}

/// The targets of `[text](target)` that do not name another host. Code is skipped.
fn relative_links(text: &str) -> Vec<String> {
    let mut found = Vec::new();
    let lines = text.lines().filter(|line| !line.starts_with("    "));
    for line in lines {
        let plain: String = line.split('`').step_by(2).collect::<Vec<_>>().join("``");
        let mut rest = plain.as_str();
        while let Some(at) = rest.find("](") {
            rest = &rest[at + 2..];
            let Some(end) = rest.find(')') else { break };
            let target = &rest[..end];
            if !target.contains("://") && !target.starts_with("mailto:") {
                found.push(target.to_string());
            }
            rest = &rest[end..];
        }
    }
    found
}

fn follow(page: &Path, text: &str, link: &str) -> Result<(), String> {
    let (file, part) = link.split_once('#').map_or((link, None), |(file, part)| (file, Some(part)));
    let target = page.parent().unwrap_or(Path::new(".")).join(file);
    if !file.is_empty() && !target.exists() {
        return Err("no such file".into());
    }
    let Some(part) = part else { return Ok(()) };
    let there =
        if file.is_empty() { text.to_string() } else { fs::read_to_string(&target).map_err(|e| e.to_string())? };
    if headings(&there).iter().any(|heading| heading == part) {
        Ok(())
    } else {
        Err("no such heading".into())
    }
}

/// The headings of a page as links name them: in lower case, with `-` between words and other signs dropped.
fn headings(text: &str) -> Vec<String> {
    let title = |line: &str| line.trim_start_matches('#').trim().to_lowercase();
    let name = |c: char| match c {
        ' ' => Some('-'),
        c if c.is_alphanumeric() || c == '-' || c == '_' => Some(c),
        _ => None,
    };
    text.lines()
        .filter(|line| line.starts_with('#'))
        .map(|line| title(line).chars().filter_map(name).collect())
        .collect()
}

#[cfg(test)]
mod tests {
    use super::*;

    fn folder(name: &str, pages: &[(&str, &str)]) -> PathBuf {
        let root = std::env::temp_dir().join(format!("links-{}-{name}", std::process::id()));
        let _ = fs::remove_dir_all(&root);
        for (path, text) in pages {
            let path = root.join(path);
            fs::create_dir_all(path.parent().unwrap()).unwrap();
            fs::write(path, text).unwrap();
        }
        root
    }

    #[test]
    fn good_links_pass() {
        let root = folder(
            "good",
            &[
                ("A.md", "see [b](docs/B.md), [part](docs/B.md#the-part) and [here](#top)\n# Top\n"),
                ("docs/B.md", "## The part\n[up](../A.md) [all](..)\n"),
            ],
        );
        assert_eq!(check(&root), Seen { pages: 2, links: 5, ..Seen::default() });
    }

    #[test]
    fn a_missing_file_is_told() {
        let root = folder("file", &[("A.md", "[b](docs/B.md)")]);
        assert_eq!(check(&root).broken, ["A.md: docs/B.md: no such file"]);
    }

    #[test]
    fn a_missing_heading_is_told() {
        let root = folder("heading", &[("A.md", "[b](B.md#other)"), ("B.md", "# One\n")]);
        assert_eq!(check(&root).broken, ["A.md: B.md#other: no such heading"]);
    }

    #[test]
    fn a_missing_heading_of_the_page_itself_is_told() {
        let root = folder("own", &[("A.md", "[b](#other)\n# One")]);
        assert_eq!(check(&root).broken, ["A.md: #other: no such heading"]);
    }

    #[test]
    fn code_and_other_hosts_are_no_links() {
        let root = folder("code", &[("A.md", "`[b](nowhere)` and [c](https://example.org/x)\n\n    [d](nowhere)\n")]);
        assert_eq!(check(&root), Seen { pages: 1, ..Seen::default() });
    }

    #[test]
    fn what_is_built_is_passed_over() {
        let root =
            folder("built", &[("target/A.md", "[b](nowhere)"), (".git/B.md", "[b](nowhere)"), ("C.md", "[own](C.md)")]);
        assert_eq!(check(&root), Seen { pages: 1, links: 1, ..Seen::default() });
    }

    #[test]
    fn the_folder_out_of_a_crate_is_passed_over() {
        let nowhere = "[b](nowhere)";
        let root = folder("out", &[("crates/a/out/A.md", nowhere), ("crates/a/B.md", ""), ("docs/out/C.md", nowhere)]);
        let broken = vec!["docs/out/C.md: nowhere: no such file".to_string()];
        assert_eq!(check(&root), Seen { pages: 2, links: 1, broken, ..Seen::default() });
    }

    #[test]
    fn a_name_that_its_file_does_not_define_is_told() {
        let pages = [("A.md", "`leap` and `last` in [Day](Day.antt)"), ("Day.antt", "abbrev pub leap : A\n-- last\n")];
        let seen = check(&folder("names", &pages));
        assert_eq!((seen.names, seen.broken), (2, vec!["A.md: `last` in Day.antt: not defined there".to_string()]));
    }

    #[test]
    fn two_links_in_a_line_are_both_seen() {
        assert_eq!(relative_links("[a](x) then [b](y#z)"), vec!["x".to_string(), "y#z".to_string()]);
    }
}
