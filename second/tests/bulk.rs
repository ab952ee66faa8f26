//! The comparison in bulk against answerers, some right and some wrong. They take the place of the
//! proved programs and answer with `second` itself, most of them with a line changed.

use std::collections::BTreeSet;
use std::env;
use std::fs;
use std::path::{Path, PathBuf};
use std::process::{self, Command, Output};

const SECOND: &str = env!("CARGO_BIN_EXE_second");

/// What is started in place of the proved programs.
const ANSWERER: &str = concat!(env!("CARGO_MANIFEST_DIR"), "/tests/answerer");

/// A directory for one test. It is removed at the end.
struct Room(PathBuf);

impl Room {
    fn new(name: &str) -> Self {
        let path = env::temp_dir().join(format!("second-bulk-{name}-{}", process::id()));
        fs::create_dir(&path).expect("a directory");
        Room(path)
    }

    fn path(&self) -> &Path {
        &self.0
    }

    /// A run against programs that do what these shell commands say.
    fn bulk(&self, programs: Programs, options: &str) -> Output {
        self.command(ANSWERER.as_ref(), options)
            .env("CASES", programs.cases)
            .env("SCRIPTS", programs.scripts)
            .env("LISTS", programs.lists)
            .env("SECOND", SECOND)
            .env("ROOM", self.path())
            .output()
            .expect("the second reader runs")
    }

    fn command(&self, run: &Path, options: &str) -> Command {
        let mut command = Command::new(SECOND);
        command.arg("bulk").args([run, self.path()]);
        command.args(options.split(' '));
        command
    }

    /// The lines of a file in the room.
    fn lines(&self, name: &str) -> Vec<String> {
        let text = fs::read_to_string(self.0.join(name)).expect("a file");
        text.lines().map(str::to_string).collect()
    }
}

impl Drop for Room {
    fn drop(&mut self) {
        // If something is left of the directory, it does no harm.
        let _ = fs::remove_dir_all(&self.0);
    }
}

/// What each of the programs does, as a shell command.
#[derive(Clone, Copy)]
struct Programs {
    cases: &'static str,
    scripts: &'static str,
    lists: &'static str,
}

impl Programs {
    fn with_cases(self, cases: &'static str) -> Self {
        Programs { cases, ..self }
    }

    fn with_scripts(self, scripts: &'static str) -> Self {
        Programs { scripts, ..self }
    }

    fn with_lists(self, lists: &'static str) -> Self {
        Programs { lists, ..self }
    }
}

const RIGHT: Programs = Programs {
    cases: "exec $SECOND answers",
    scripts: "exec $SECOND answers",
    lists: "exec $SECOND lists \"$@\"",
};

/// Programs that must not be asked. They fail if they are.
const NONE: Programs = Programs {
    cases: "exit 1",
    scripts: "exit 1",
    lists: "exit 1",
};

const FRAMES: &str = "--seed 3 --frames 40 --scripts 0 --captures 0";
const SCRIPTS: &str = "--seed 3 --frames 0 --scripts 5 --captures 0";
const CAPTURES: &str = "--seed 3 --frames 0 --scripts 0 --captures 5";
const ALL: &str = "--seed 3 --frames 40 --scripts 5 --captures 5";

fn printed(output: &Output) -> String {
    String::from_utf8(output.stdout.clone()).expect("text")
}

/// The differences that were printed, each without its first line.
fn differences(output: &Output, heading: &str) -> Vec<String> {
    let text = printed(output);
    let (differences, _) = text.split_once("frames read: ").expect("a summary");
    let heading = format!("{heading}\n");
    let mut parts = differences.split(heading.as_str());
    assert_eq!(parts.next(), Some(""));
    parts.map(str::to_string).collect()
}

/// The lines that were asked, as a difference shows them.
fn asked(lines: &[String]) -> String {
    let shown = lines.iter().map(|line| format!("asked   {line}\n"));
    shown.collect()
}

/// The places where scripts begin.
fn begins(lines: &[String]) -> Vec<usize> {
    let is_first = |line: &String| line.starts_with("lend ") || line.starts_with("mixes");
    (0..lines.len())
        .filter(|&place| is_first(&lines[place]))
        .collect()
}

/// The words that the lines of a file in the room begin with.
fn words(room: &Room, name: &str) -> BTreeSet<String> {
    let lines = room.lines(name);
    let word = |line: &String| line.split(' ').next().map(str::to_string);
    lines.iter().filter_map(word).collect()
}

#[test]
fn right_answers_do_not_differ() {
    let room = Room::new("right");
    let options = "--seed 9 --frames 7000 --scripts 30 --captures 30";
    let output = room.bulk(RIGHT, options);
    assert_eq!(output.status.code(), Some(0));
    let text = printed(&output);
    assert!(text.starts_with("frames read: 7000; accepted "), "{text}");
    assert!(text.contains("\nscripts: 30\n"), "{text}");
    assert!(text.contains("\ncaptures: 30, of which "), "{text}");
    assert!(
        text.contains("\nseeds: 9 to 9; go on with --seed 10\n3 pieces in "),
        "{text}"
    );
    assert!(text.ends_with("\ndifferences: 0\n"), "{text}");
    let progress = String::from_utf8(output.stderr).expect("text");
    assert_eq!(progress.lines().count(), 3);
    assert!(progress.starts_with("1 pieces (the last: frames of seed 9), 7000 frames, "));
}

#[test]
fn each_program_is_asked_its_own() {
    const SCRIPT_WORDS: [&str; 16] = [
        "lend",
        "bits",
        "count",
        "seat",
        "mark",
        "cell",
        "tally",
        "open",
        "reply",
        "reset",
        "used",
        "held",
        "look",
        "looks",
        "mixes",
        "mixes-by-address",
    ];
    let room = Room::new("own");
    let programs = Programs {
        cases: "tee -a $ROOM/cases | $SECOND answers",
        scripts: "tee -a $ROOM/scripts | $SECOND answers",
        lists: "printf '%s\\n' \"$@\" >>$ROOM/lists; exec $SECOND lists \"$@\"",
    };
    let options = "--seed 3 --frames 2000 --scripts 150 --captures 5";
    let output = room.bulk(programs, options);
    assert_eq!(output.status.code(), Some(0));
    let is_of_frames = |word: &String| {
        let begins = ["read-", "write-", "damage-"];
        begins.iter().any(|begin| word.starts_with(begin))
    };
    let words_of_frames = words(&room, "cases");
    assert!(words_of_frames.iter().all(is_of_frames));
    assert!(!words_of_frames.is_empty());
    assert_eq!(
        words(&room, "scripts"),
        SCRIPT_WORDS.map(String::from).into()
    );
    assert_eq!(begins(&room.lines("scripts")).len(), 150);
    assert_eq!(room.lines("lists"), ["0", "1", "2", "3", "4"]);
}

/// Two of the programs are right. The third is wrong about the first thing it is asked.
#[test]
fn one_wrong_program_of_three() {
    const WRONG: &str = "$SECOND answers | sed '1s/.*/wrong/'";
    const WRONG_LISTS: &str = "$SECOND lists \"$@\" | sed '1s/.*/wrong/'";
    let room = Room::new("three");
    for (subject, programs) in [
        ("frames", RIGHT.with_cases(WRONG)),
        ("scripts", RIGHT.with_scripts(WRONG)),
        ("captures", RIGHT.with_lists(WRONG_LISTS)),
    ] {
        let output = room.bulk(programs, ALL);
        assert_eq!(output.status.code(), Some(1));
        let differences = differences(&output, &format!("difference: {subject}, seed 3"));
        assert_eq!(differences.len(), 1);
        let [asked, program, second] = differences[0].lines().collect::<Vec<_>>()[..] else {
            panic!("{differences:?}");
        };
        assert!(asked.starts_with("asked   "), "{asked}");
        assert_eq!(program, "program wrong");
        assert!(second.starts_with("second  "), "{second}");
    }
}

/// The fifth answer is changed.
#[test]
fn one_wrong_answer_about_a_frame() {
    let room = Room::new("frame");
    let wrong = "tee $ROOM/read | $SECOND answers | tee $ROOM/right | sed '5s/.*/9 9/'";
    let output = room.bulk(NONE.with_cases(wrong), FRAMES);
    assert_eq!(output.status.code(), Some(1));
    let case = &room.lines("read")[4];
    let right = &room.lines("right")[4];
    let expected = format!("asked   {case}\nprogram 9 9\nsecond  {right}\n");
    assert_eq!(
        differences(&output, "difference: frames, seed 3"),
        [expected]
    );
    assert!(printed(&output).ends_with("\ndifferences: 1\n"));
}

/// The third line of the second script is answered wrongly, and so is the line after it.
#[test]
fn one_wrong_script() {
    let room = Room::new("script");
    let wrong =
        "cat >$ROOM/read; begin=$(grep -nE '^(lend |mixes)' $ROOM/read | sed -n '2s/:.*//p'); \
                 before=$(head -n $((begin + 1)) $ROOM/read | $SECOND answers | wc -l); \
                 third=$((before + 1)); echo $third >$ROOM/third; \
                 $SECOND answers <$ROOM/read | tee $ROOM/right | \
                 sed \"${third}s/.*/wrong/;$((third + 1))s/.*/wrong/\"";
    let output = room.bulk(NONE.with_scripts(wrong), SCRIPTS);
    assert_eq!(output.status.code(), Some(1));
    let (read, right) = (room.lines("read"), room.lines("right"));
    let begins = begins(&read);
    assert_eq!(begins.len(), 5);
    let asked = asked(&read[begins[1]..begins[1] + 3]);
    // A line before it may have an answer of several lines.
    let third: usize = room.lines("third")[0].parse().expect("a number");
    let right = &right[third - 1];
    let expected = format!("{asked}program wrong\nsecond  {right}\n");
    assert_eq!(
        differences(&output, "difference: scripts, seed 3"),
        [expected]
    );
    assert!(printed(&output).ends_with("\ndifferences: 1\n"));
}

/// The last line of the third list has wrong counts.
#[test]
fn one_wrong_list() {
    let room = Room::new("list");
    let wrong = "for file in \"$@\"; do if [ $file = 2 ]; then \
                 $SECOND lists $file | sed '$s/.*/end\\t0\\t0\\t0\\t99999/'; \
                 else $SECOND lists $file; fi; done";
    let output = room.bulk(NONE.with_lists(wrong), CAPTURES);
    assert_eq!(output.status.code(), Some(1));
    let capture = fs::read(room.path().join("captures/2")).expect("a capture");
    let hex: String = capture.iter().map(|byte| format!("{byte:02x}")).collect();
    let list = Command::new(SECOND)
        .args(["lists", "captures/2"])
        .current_dir(room.path())
        .output()
        .expect("a list");
    let list = String::from_utf8(list.stdout).expect("text");
    let last = list.lines().last().expect("a line");
    let expected = format!("asked   {hex}\nprogram end\t0\t0\t0\t99999\nsecond  {last}\n");
    assert_eq!(
        differences(&output, "difference: captures, seed 3"),
        [expected]
    );
}

/// Two answers and no more, and an exit status that reports the failure.
const EARLY: &str = "cat >$ROOM/read; $SECOND answers <$ROOM/read >$ROOM/right; \
                     head -n 2 $ROOM/right; exit 7";
const EARLY_END: &str = "program ended with exit status: 7\n";

#[test]
fn a_program_that_ends_early() {
    let room = Room::new("early");
    let output = room.bulk(NONE.with_cases(EARLY), FRAMES);
    assert_eq!(output.status.code(), Some(1));
    let case = &room.lines("read")[2];
    let right = &room.lines("right")[2];
    let missing = format!("asked   {case}\nprogram (nothing)\nsecond  {right}\n");
    assert_eq!(
        differences(&output, "difference: frames, seed 3"),
        [&missing, EARLY_END]
    );
}

#[test]
fn a_program_that_ends_early_in_a_script() {
    let room = Room::new("early-script");
    let output = room.bulk(NONE.with_scripts(EARLY), SCRIPTS);
    assert_eq!(output.status.code(), Some(1));
    let asked = asked(&room.lines("read")[..3]);
    let right = &room.lines("right")[2];
    let missing = format!("{asked}program (nothing)\nsecond  {right}\n");
    assert_eq!(
        differences(&output, "difference: scripts, seed 3"),
        [&missing, EARLY_END]
    );
}

#[test]
fn a_program_that_says_too_much() {
    const MUCH: &str = "$SECOND answers; echo 0 0";
    let (cases, scripts) = (NONE.with_cases(MUCH), NONE.with_scripts(MUCH));
    let room = Room::new("much");
    for (subject, programs, options) in [("frames", cases, FRAMES), ("scripts", scripts, SCRIPTS)] {
        let output = room.bulk(programs, options);
        assert_eq!(output.status.code(), Some(1));
        assert_eq!(
            differences(&output, &format!("difference: {subject}, seed 3")),
            ["program 1 lines more than were asked for\n"]
        );
    }
}

/// A program that would run for ten minutes. It makes the file that stops the run, and what was
/// done until then is reported.
const STOPPED: &str = "touch $ROOM/stop; exec sleep 600";

#[test]
fn a_run_that_is_stopped() {
    let room = Room::new("stopped");
    let output = room.bulk(RIGHT.with_lists(STOPPED), ALL);
    assert_eq!(output.status.code(), Some(3));
    let text = printed(&output);
    assert!(text.starts_with("frames read: 40; "), "{text}");
    assert!(text.contains("\nscripts: 5\n"), "{text}");
    assert!(
        text.contains("\ncaptures: 0, of which 0 too long\n"),
        "{text}"
    );
    assert!(
        text.contains("\nseeds: 3 to 3 (stopped); go on with --seed 3\n"),
        "{text}"
    );
}

#[test]
fn a_run_that_is_stopped_at_its_scripts() {
    let room = Room::new("stopped-script");
    let output = room.bulk(NONE.with_cases(RIGHT.cases).with_scripts(STOPPED), ALL);
    assert_eq!(output.status.code(), Some(3));
    let text = printed(&output);
    assert!(text.starts_with("frames read: 40; "), "{text}");
    assert!(text.contains("\nscripts: 0\n"), "{text}");
    assert!(
        text.contains("\nseeds: 3 to 3 (stopped); go on with --seed 3\n"),
        "{text}"
    );
}

#[test]
fn nothing_to_start() {
    let room = Room::new("nothing");
    let missing = room.path().join("missing");
    let output = room.command(&missing, FRAMES).output();
    let output = output.expect("the second reader runs");
    assert_eq!(output.status.code(), Some(2));
    let complaint = String::from_utf8(output.stderr).expect("text");
    assert!(
        complaint.starts_with(&format!("second: {}: ", missing.display())),
        "{complaint}"
    );
}
