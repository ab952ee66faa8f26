//! The arguments of `rei2list`, and the command `list` around it.

use std::fs::{self, File};
use std::os::unix::fs::symlink;
use std::process::{Command, Stdio};

use rei2list_tests::{bytes_of, command, file, room, root, sample_list, seen, shell, text_of, Seen};

fn said(out: &str, err: &str, done: bool) -> Seen {
    Seen { out: out.into(), err: err.into(), done }
}

#[test]
fn help_says_how_to_use_it_and_reads_nothing() {
    let help = seen(&mut command("run", ["rei2list", "--help"]), File::open("/").expect("a folder"));
    assert!(help.out.starts_with("usage: rei2list < CAPTURE > LIST\n"), "{help:?}");
    assert!(help.out.lines().count() > 3 && help.out.ends_with('\n'), "{help:?}");
    assert_eq!(help.err, "");
}

#[test]
fn any_other_argument_is_refused_in_one_line() {
    let long = "x".repeat(5000);
    let others: [&[&str]; 9] = [
        &["samples/example.capture"],
        &[""],
        &["-"],
        &["-h"],
        &["--helpx"],
        &["--hel"],
        &["--Help"],
        &["--help", "--help"],
        &[&long],
    ];
    for words in others {
        let words = ["rei2list"].iter().chain(words);
        let line = "rei2list: the only argument is --help; the capture is read from standard input\n";
        assert_eq!(seen(&mut command("run", words), file("samples/example.capture")), said("", line, true));
    }
}

#[test]
fn a_file_or_standard_input_is_listed() {
    let list = |words: &[&str]| seen(&mut command("list", words), file("samples/example.capture"));
    let note = "list: frames refused: 1; docs/capture.md says how to see why\n";
    for words in [&["samples/example.capture"] as &[&str], &[], &["-"]] {
        assert_eq!(list(words), said(&sample_list(), note, true));
    }
}

/// Words apart: the pages show tabs as blanks.
#[test]
fn the_pages_show_the_lists_of_the_samples() {
    let rows = |text: &str| {
        text.lines().map(|line| line.split_whitespace().map(String::from).collect()).collect::<Vec<Vec<_>>>()
    };
    for (page, list) in [("README.md", sample_list()), ("docs/rei2list.md", text_of("samples/two-stopwatches.list"))] {
        let wanted = rows(&list);
        let shown = rows(&text_of(page));
        assert!(shown.windows(wanted.len()).any(|lines| lines == wanted), "{page} does not have:\n{list}");
    }
}

#[test]
fn a_list_without_refused_frames_has_no_note() {
    let capture = room("two words").join("a capture");
    fs::write(&capture, &bytes_of("samples/example.capture")[..201]).expect("a capture");
    let rows = sample_list().replace("end\t2\t3\t0\t1\n", "end\t2\t3\t0\t0\n");
    assert_eq!(seen(&mut command("list", [&capture]), Stdio::null()), said(&rows, "", true));
}

#[test]
fn a_file_is_found_from_where_the_user_is_and_list_by_a_link() {
    let link = room("link").join("list");
    symlink(root().join("list").canonicalize().expect("a file"), &link).expect("a link");
    for program in [root().join("list").canonicalize().expect("a file"), link] {
        let mut list = Command::new(program);
        list.arg("example.capture").current_dir(root().join("samples"));
        assert_eq!(seen(&mut list, Stdio::null()).out, sample_list());
    }
}

#[test]
fn a_missing_kit_is_reported() {
    // A PATH with the two commands that come before rt.
    let bin = room("bin");
    for name in ["dirname", "readlink"] {
        let found = seen(&mut shell(&format!("command -v {name}")), Stdio::null()).out;
        symlink(found.trim_end(), bin.join(name)).expect("a link");
    }
    let without_kit = seen(command("list", ["samples/example.capture"]).env("PATH", &bin), Stdio::null());
    assert_eq!(without_kit, said("", "list: rt, the command of the Rattle kit, is not on the PATH\n", false));
}

#[test]
fn what_is_not_a_whole_list_has_its_status() {
    let long = room("long").join("capture");
    fs::write(&long, vec![b' '; 32_769]).expect("a capture");
    let long = long.to_str().expect("a name");
    let list = |words: &[&str]| seen(&mut command("list", words), Stdio::null());
    assert_eq!(
        list(&[long]),
        said(
            "input too long\n",
            "list: the capture has more than 32,768 bytes; docs/capture.md says how to split it\n",
            false
        )
    );
    assert_eq!(list(&["no-such-file"]), said("", "list: no-such-file: no such file\n", false));
    assert_eq!(list(&["/"]), said("", "list: /: is a directory\n", false));
    for words in [&["a", "b"] as &[&str], &["-x"], &["--halp"]] {
        let refused = list(words);
        assert!(refused.err.starts_with("usage: list [CAPTURE] > LIST\n") && !refused.done, "{refused:?}");
        assert_eq!(refused.out, "");
    }
    let help = list(&["--help"]);
    assert!(help.out.starts_with("usage: list [CAPTURE] > LIST\n") && help.done && help.err.is_empty(), "{help:?}");
    let full = File::options().write(true).open("/dev/full").expect("a full device");
    let unwritten = seen(command("list", ["samples/example.capture"]).stdout(full), Stdio::null());
    assert!(!unwritten.done && unwritten.err.contains("No space left on device"), "{unwritten:?}");
}
