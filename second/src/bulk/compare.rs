//! Compares the program's answers with those of `second`.

use std::process::ExitStatus;

/// How the last line of a list begins, and the whole list of a capture that is too long.
const END: &[u8] = b"end\t";
const TOO_LONG: &[u8] = b"input too long\n";

/// What is asked, line by line. The lines of a group depend on each other, so a difference at one
/// of them is shown with the group's lines from its first line on.
pub struct Asked {
    lines: Vec<String>,
    /// For each line, the place where its group begins.
    begins: Vec<usize>,
}

impl Asked {
    pub fn of_groups(groups: Vec<Vec<String>>) -> Self {
        let mut asked = Asked {
            lines: Vec::new(),
            begins: Vec::new(),
        };
        for group in groups {
            let begin = asked.lines.len();
            asked.lines.extend(group);
            asked.begins.resize(asked.lines.len(), begin);
        }
        asked
    }

    pub fn lines(&self) -> impl Iterator<Item = &String> {
        self.lines.iter()
    }

    /// All lines, as a program reads them.
    pub fn text(&self) -> String {
        self.lines.iter().flat_map(|line| [line, "\n"]).collect()
    }

    /// The line at this place and the lines of its group before it, as they are printed.
    fn shown(&self, place: usize) -> String {
        let lines = &self.lines[self.begins[place]..=place];
        lines
            .iter()
            .map(|line| format!("asked   {line}\n"))
            .collect()
    }
}

/// The lines of an output, each with its LF. The last one may have no LF.
pub fn lines(output: &[u8]) -> Vec<&[u8]> {
    output.split_inclusive(|&code| code == b'\n').collect()
}

/// Cuts the program's lines into answers: each answer gets as many lines as ours has, as far as
/// there are lines. If lines are left, they follow as one more entry.
pub fn cut_by_count<'a>(lines: &'a [&'a [u8]], own: &[Vec<String>]) -> Vec<&'a [&'a [u8]]> {
    let mut rest = lines;
    let mut given = Vec::new();
    for answer in own {
        let (first, others) = rest.split_at(answer.len().min(rest.len()));
        given.push(first);
        rest = others;
    }
    if !rest.is_empty() {
        given.push(rest);
    }
    given
}

/// Cuts the output into lists, one after the other. Lines after the last complete list form one
/// more entry.
pub fn cut_by_end<'a>(lines: &'a [&'a [u8]]) -> Vec<&'a [&'a [u8]]> {
    lines
        .split_inclusive(|line| line.starts_with(END) || *line == TOO_LONG)
        .collect()
}

/// The differences, as they are printed. In each group only the first line that is answered
/// differently counts. If the program's answers stop early, that counts once.
pub fn differences(asked: &Asked, own: &[Vec<String>], given: &[&[&[u8]]]) -> Vec<String> {
    let mut differences = Vec::new();
    let mut reported = None;
    for (place, answer) in own.iter().enumerate() {
        let lines = given.get(place).copied().unwrap_or_default();
        let pairs = differing(lines, answer);
        let begin = asked.begins[place];
        if pairs.is_empty() || reported == Some(begin) {
            continue;
        }
        reported = Some(begin);
        differences.push(asked.shown(place) + &pairs);
        if lines.is_empty() {
            return differences;
        }
    }
    if let Some(more) = given.get(own.len()..).filter(|more| !more.is_empty()) {
        let lines = more.iter().map(|lines| lines.len()).sum::<usize>();
        differences.push(format!("program {lines} lines more than were asked for\n"));
    }
    differences
}

/// The lines at which the two answers differ.
fn differing(given: &[&[u8]], own: &[String]) -> String {
    let mut text = String::new();
    for place in 0..given.len().max(own.len()) {
        let (theirs, ours) = (given.get(place), own.get(place));
        let is_same = match (theirs, ours) {
            (Some(theirs), Some(ours)) => theirs.strip_suffix(b"\n") == Some(ours.as_bytes()),
            _ => false,
        };
        if !is_same {
            let theirs = theirs.map_or("(nothing)".to_string(), |line| shown(line));
            let ours = ours.map_or("(nothing)", String::as_str);
            text.push_str(&format!("program {theirs}\nsecond  {ours}\n"));
        }
    }
    text
}

/// A line of the program, as it is printed. It may contain tabs.
fn shown(line: &[u8]) -> String {
    match line.strip_suffix(b"\n") {
        Some(text) => String::from_utf8_lossy(text).into_owned(),
        None => format!("{} (without LF)", String::from_utf8_lossy(line)),
    }
}

/// How the program ended, if it failed.
pub fn bad_end(status: &ExitStatus) -> Option<String> {
    (!status.success()).then(|| format!("program ended with {status}\n"))
}

#[cfg(test)]
mod tests {
    use super::*;

    fn asked(groups: &[&[&str]]) -> Asked {
        let group = |lines: &&[&str]| lines.iter().map(|line| line.to_string()).collect();
        Asked::of_groups(groups.iter().map(group).collect())
    }

    fn own(answers: &[&[&str]]) -> Vec<Vec<String>> {
        let answer = |lines: &&[&str]| lines.iter().map(|line| line.to_string()).collect();
        answers.iter().map(answer).collect()
    }

    fn compared(asked: &Asked, own: &[Vec<String>], output: &[u8]) -> Vec<String> {
        let lines = lines(output);
        differences(asked, own, &cut_by_count(&lines, own))
    }

    #[test]
    fn what_a_program_reads() {
        assert_eq!(asked(&[&["a", "b"], &[], &["c"]]).text(), "a\nb\nc\n");
    }

    #[test]
    fn the_same_answers_do_not_differ() {
        let (asked, own) = (
            asked(&[&["a"], &["b"], &["c"]]),
            own(&[&["1"], &[], &["2", "3"]]),
        );
        assert!(compared(&asked, &own, b"1\n2\n3\n").is_empty());
    }

    #[test]
    fn one_line_that_differs() {
        let (asked, own) = (
            asked(&[&["a"], &["b"], &["c"]]),
            own(&[&["1"], &["2"], &["3", "4"]]),
        );
        assert_eq!(
            compared(&asked, &own, b"1\nx\n3\n4\n"),
            ["asked   b\nprogram x\nsecond  2\n"]
        );
        // Of an answer with several lines, only the lines that differ are shown.
        assert_eq!(
            compared(&asked, &own, b"1\n2\n3\n5\n"),
            ["asked   c\nprogram 5\nsecond  4\n"]
        );
    }

    #[test]
    fn a_group_is_shown_up_to_its_first_difference() {
        let asked = asked(&[&["a", "b", "c"], &["d", "e"]]);
        let own = own(&[&["1"], &["2"], &["3"], &["4"], &["5"]]);
        assert_eq!(
            compared(&asked, &own, b"1\nx\ny\n4\nz\n"),
            [
                "asked   a\nasked   b\nprogram x\nsecond  2\n",
                "asked   d\nasked   e\nprogram z\nsecond  5\n",
            ]
        );
    }

    #[test]
    fn answers_that_are_missing_count_once() {
        let (asked, own) = (
            asked(&[&["a"], &["b"], &["c"]]),
            own(&[&["1"], &["2"], &["3"]]),
        );
        assert_eq!(
            compared(&asked, &own, b"1\n"),
            ["asked   b\nprogram (nothing)\nsecond  2\n"]
        );
        // A last line without LF counts as different.
        assert_eq!(
            compared(&asked, &own, b"1\n2\n3"),
            ["asked   c\nprogram 3 (without LF)\nsecond  3\n"]
        );
    }

    #[test]
    fn answers_that_nobody_asked_for() {
        let (asked, own) = (asked(&[&["a"]]), own(&[&["1"]]));
        assert_eq!(
            compared(&asked, &own, b"1\n2\n3\n"),
            ["program 2 lines more than were asked for\n"]
        );
    }

    #[test]
    fn lists_are_cut_at_their_ends() {
        let output = b"h\n0\t1\nend\t1\ninput too long\nh\nend\t2\nrest\n";
        let lines = lines(output);
        let lists = cut_by_end(&lines);
        let lengths: Vec<usize> = lists.iter().map(|list| list.len()).collect();
        assert_eq!(lengths, [3, 1, 2, 1]);
    }

    #[test]
    fn a_list_that_differs() {
        let asked = asked(&[&["11"], &["12"]]);
        let own = own(&[&["h", "0\ta", "end\t1"], &["h", "end\t0"]]);
        let lines = lines(b"h\nend\t0\nh\nend\t0\n");
        assert_eq!(
            differences(&asked, &own, &cut_by_end(&lines)),
            ["asked   11\nprogram end\t0\nsecond  0\ta\nprogram (nothing)\nsecond  end\t1\n"]
        );
    }
}
