//! The commands of docs/capture.md, on a line of the system in place of the serial one.

use std::fs;
use std::io::Write;
use std::path::Path;
use std::process::Stdio;
use std::thread;
use std::time::{Duration, Instant};

use rei2list_tests::{line, of_the_page, rei2list_of, room, root, sample, sample_list, seen, shell, text_of, HEADING};

const SET_UP: &str = "stty -F /dev/ttyUSB0 SPEED raw -echo clocal";
const COPY_REQUESTS: &str = r#"LC_ALL=C awk 'BEGIN { RS = ORS = "\r" } match($0, /\021[^\021\022\023]*$/) { print substr($0, RSTART) }' race.capture > requests.capture"#;
const RECORD: &str = "cat /dev/ttyUSB0 > race.capture";

/// What is recorded of these bytes, after the port was set up with a line of shell. The recording ends when as many bytes have come.
fn recorded(set_up: &str, port: &str, master: &mut fs::File, bytes: &[u8]) -> Vec<u8> {
    let done = seen(&mut shell(set_up), Stdio::null());
    assert!(done.done, "{done:?}");
    let capture = room("recorded").join("race.capture");
    let record = of_the_page(RECORD, &[("/dev/ttyUSB0", port), ("race.capture", capture.to_str().expect("a name"))]);
    let mut recording = shell(&format!("exec {record}")).spawn().expect("a recording");
    master.write_all(bytes).expect("the bytes are sent");
    wait_for(|| size(&capture) >= bytes.len() as u64);
    recording.kill().expect("the recording ends");
    recording.wait().expect("the recording ends");
    fs::read(&capture).expect("a capture")
}

/// Waits until something has happened, but not for ever.
fn wait_for(mut happened: impl FnMut() -> bool) {
    let began = Instant::now();
    while !happened() && began.elapsed() < Duration::from_secs(20) {
        thread::sleep(Duration::from_millis(20));
    }
}

fn size(path: &Path) -> u64 {
    fs::metadata(path).map_or(0, |data| data.len())
}

/// Both recordings in one test, since they share the port.
#[test]
fn a_raw_line_is_recorded_as_it_is_and_cr_as_lf_cuts_every_frame() {
    let (mut master, port) = line();
    let port = port.to_str().expect("a name");
    let _open = set_up(port);
    let raw = of_the_page(SET_UP, &[("/dev/ttyUSB0", port), ("SPEED", "9600")]);
    let good = recorded(&raw, port, &mut master, &sample());
    assert_eq!(good, sample());
    assert_eq!(rei2list_of("raw", &good).out, sample_list());

    let changed = recorded(&format!("{raw} icrnl"), port, &mut master, &sample());
    assert_eq!(changed, sample().iter().map(|&byte| if byte == 13 { 10 } else { byte }).collect::<Vec<_>>());
    let list = rei2list_of("changed", &changed);
    assert_eq!(list.out, format!("{HEADING}end\t0\t0\t0\t6\n"));
    assert_eq!(list.err, "");
}

/// The port while it is open here, set up as the page says: its settings stay.
fn set_up(port: &str) -> fs::File {
    let open = fs::File::options().read(true).write(true).open(port).expect("the port");
    let done = seen(&mut shell(&of_the_page(SET_UP, &[("/dev/ttyUSB0", port), ("SPEED", "9600")])), Stdio::null());
    assert!(done.done, "{done:?}");
    open
}

#[test]
fn a_line_is_watched_while_it_is_recorded() {
    let room = room("watched");
    let (mut master, port) = line();
    let port = port.to_str().expect("a name");
    let open = set_up(port);
    let start = root().canonicalize().expect("the root").join("tests/c/start");
    assert!(root().join("target/c/watch").exists(), "watch is not built: examples/watch/build");

    fs::write(room.join("requests.capture"), &sample()[..48]).expect("requests");
    let others = [("/dev/ttyUSB0", port), ("tests/c/start", start.to_str().expect("a name"))];
    let watch = of_the_page("cat requests.capture /dev/ttyUSB0 | tee race.capture | tests/c/start watch", &others);
    let printed = fs::File::create(room.join("printed")).expect("a file");
    // When the line ends, cat complains on standard error.
    let mut watching = shell(&watch).current_dir(&room).stdout(printed).stderr(Stdio::null()).spawn().expect("a watch");
    master.write_all(&sample()[48..]).expect("the bytes are sent");

    // A line for each frame, before the line ends, with the reason for the one that is refused.
    let expected = text_of("examples/watch/expected");
    let frames: String = expected.lines().take(9).map(|line| format!("{line}\n")).collect();
    assert!(frames.ends_with("201 reply refused, 14 ENDED\n"));
    let so_far = || fs::read_to_string(room.join("printed")).expect("text");
    wait_for(|| so_far().len() >= frames.len());
    assert_eq!(so_far(), frames);
    assert_eq!(fs::read(room.join("race.capture")).expect("a capture"), sample());
    drop((open, master));
    let mut ended = None;
    wait_for(|| {
        ended = watching.try_wait().expect("a watch");
        ended.is_some()
    });
    assert!(ended.is_some(), "the watch does not end with the line");
}

#[test]
fn requests_in_front_are_in_the_capture() {
    let room = room("front");
    let ask = of_the_page(r"printf '\021R 100700000P000002000S\r' > requests.capture", &[]);
    let join = of_the_page("cat requests.capture race.capture > whole.capture", &[]);
    // The sample without its two requests.
    fs::write(room.join("race.capture"), &sample()[48..]).expect("a capture");
    let done = seen(shell(&format!("{ask} && {join}")).current_dir(&room), Stdio::null());
    assert!(done.done, "{done:?}");
    let list = rei2list_of("front-list", &fs::read(room.join("whole.capture")).expect("a capture"));
    let rows: Vec<_> = sample_list().lines().skip(1).take(2).map(String::from).collect();
    // One request, its two replies, and two replies to the other request, which is not there.
    assert_eq!(list.out, format!("{HEADING}{}\nend\t1\t2\t0\t2\n", rows.join("\n")));
}

/// A long capture: two requests, and so many replies to them by turns, each with a line feed after it, as the stopwatch sends them.
fn long_capture(replies: usize) -> Vec<u8> {
    let mut capture = sample()[..48].to_vec();
    for bib in 0..replies {
        let key = if bib % 2 == 0 { "100007" } else { "A00012" };
        let fields = format!("{key}{bib:05}000002000000P000000000000000000  ");
        capture.extend(format!("\x12R SOR{fields}\r\n").bytes());
    }
    capture
}

fn bibs(list: &str, seat: &str) -> Vec<usize> {
    let rows = list.lines().map(|line| line.split('\t').collect::<Vec<_>>());
    rows.filter(|row| row[0] == seat).map(|row| row[4].parse().expect("a bib")).collect()
}

#[test]
fn the_pieces_of_a_long_capture_have_all_its_replies() {
    let replies = 700;
    let room = room("long");
    fs::write(room.join("race.capture"), long_capture(replies)).expect("a capture");
    let list = root().canonicalize().expect("the root").join("list");
    let lines = [
        of_the_page(COPY_REQUESTS, &[]),
        of_the_page("rm -f piece.*", &[]),
        of_the_page(r#"split -t "$(printf '\r')" -l 200 race.capture piece."#, &[]),
        of_the_page(
            r#"for piece in piece.??; do cat requests.capture "$piece" | ./list > "$piece.tsv"; done"#,
            &[("./list", list.to_str().expect("a name"))],
        ),
        of_the_page("grep -h '^[0-9]' piece.??.tsv | sort -s -n -k 1,1 > rows.tsv", &[]),
    ];
    let done = seen(shell(&format!("set -e\n{}", lines.join("\n"))).current_dir(&room), Stdio::null());
    assert!(done.done, "{done:?}");
    assert_eq!(fs::read(room.join("requests.capture")).expect("requests"), &sample()[..48]);

    let pieces = ["aa", "ab", "ac", "ad"].map(|piece| room.join(format!("piece.{piece}.tsv")));
    let lists = pieces.map(|piece| fs::read_to_string(piece).expect("a list"));
    // Of 702 frames the first piece has both requests a second time; the last has 102.
    let ends = lists.each_ref().map(|list| list.lines().last().expect("an end line").to_string());
    assert_eq!(ends, ["end\t2\t198\t0\t2", "end\t2\t200\t0\t0", "end\t2\t200\t0\t0", "end\t2\t102\t0\t0"]);
    let rows = fs::read_to_string(room.join("rows.tsv")).expect("rows");
    assert_eq!(rows.lines().count(), replies);
    for (seat, first) in [("0", 0), ("1", 1)] {
        assert_eq!(bibs(&rows, seat), (first..replies).step_by(2).collect::<Vec<_>>());
    }
}

/// As the finder sees them: after other bytes, after a frame that they cut, and not if they are cut themselves.
#[test]
fn requests_are_copied_wherever_they_begin() {
    let room = room("copied");
    let capture = [
        &sample()[48..99],
        b"  ",
        &sample()[..24],
        &sample()[48..70],
        &sample()[24..48],
        &sample()[..10],
        &sample()[48..99],
    ];
    fs::write(room.join("race.capture"), capture.concat()).expect("a capture");
    let done = seen(shell(&of_the_page(COPY_REQUESTS, &[])).current_dir(&room), Stdio::null());
    assert!(done.done, "{done:?}");
    assert_eq!(fs::read(room.join("requests.capture")).expect("requests"), &sample()[..48]);
}

#[test]
fn a_capture_is_cut_at_a_place() {
    let room = room("places");
    fs::write(room.join("race.capture"), long_capture(300)).expect("a capture");
    let lines = ["head -c 9000 race.capture > first.capture", "tail -c +9001 race.capture > second.capture"];
    let done = seen(shell(&lines.map(|line| of_the_page(line, &[])).join("\n")).current_dir(&room), Stdio::null());
    assert!(done.done, "{done:?}");
    let part = |name| fs::read(room.join(name)).expect("a capture");
    assert_eq!(part("first.capture"), &long_capture(300)[..9000]);
    assert_eq!(part("second.capture"), &long_capture(300)[9000..]);
}
