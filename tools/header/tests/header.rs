//! Runs the tool on small crates and a header, as they are and with one edit each, and compares what it prints.

use std::path::PathBuf;
use std::process::Command;
use std::sync::atomic::{AtomicUsize, Ordering};
use std::{env, fs, process};

/// The files without differences, each with its path and its text.
const FILES: [(&str, &str); 26] = [
    ("crates/rei2/src/lib.rt", "#![tactic(auto)]\n\npub mod calls;\n"),
    ("crates/rei2/src/calls.rt", CALLS),
    ("crates/rei2/src/names.rt", "pub const NAME_SIZE: usize = 14;\n"),
    ("crates/rei2/specs/Names.antt", "abbrev pub name_size : ℕ\nname_size = 14\n"),
    ("crates/rei2/specs/Cases.antt", LENT),
    ("crates/desk/src/state.rt", STATE),
    ("crates/desk/src/limits.rt", SIZES),
    ("rei2.h", HEADER),
    ("crates/desk/specs/Limits.antt", LIMITS),
    ("crates/desk/specs/Tally.antt", "abbrev pub letter_count : ℕ\nletter_count = 4\n\nstatus_count = 2\n"),
    ("crates/frames/src/request.rt", "pub const REQUEST_LEAD: u8 = 0x11;\npub const REQUEST_SIZE: usize = 24;\n"),
    ("crates/frames/src/reply.rt", REPLY),
    ("crates/frames/src/dynamic.rt", DYNAMIC),
    ("crates/frames/specs/Request.antt", REQUEST_KIND),
    ("crates/frames/specs/Reply.antt", REPLY_KIND),
    ("crates/frames/specs/Dynamic.antt", "dynamic = record { lead = 19; size = 46 }\n\nother = record { size = 7 }\n"),
    ("crates/digits/src/refusal.rt", TABLE),
    ("crates/digits/specs/Refusals.antt", REFUSALS),
    ("crates/listing/src/lib.rt", LISTING),
    ("crates/listing/src/line.rt", LINE),
    ("crates/listing/specs/Listing.antt", "abbrev pub most_input : ℕ\nmost_input = 32768\n"),
    ("crates/listing/specs/Cases.antt", "pub record Worked : Type 0 where\n  pub longest : longest_list ≡ 14170\n"),
    ("crates/rei2/specs/Reply.antt", NUMBERS),
    ("crates/rei2/specs/Calls.antt", FOUND),
    ("crates/rei2list/src/main.rt", PROGRAM),
    ("crates/lists/src/main.rt", PROGRAM_BY_NAMES),
];

const LIMITS: &str = "-- Limits.
abbrev pub seat_count : ℕ
seat_count = 16

unfoldable pub most_cells : ℕ
most_cells = 256

abbrev pub cell_size : ℕ
cell_size = reply.size -- bytes
";

const LENT: &str = "pub record Lends : Type 0 where
  pub limits-are : limits ≡ record { in = record { «cell_size» = 9 }; «cell_size» = 51; marks = 256 }
";

const REPLY: &str = "pub const REPLY_LEAD: u8 = 18;
pub const REPLY_SIZE: usize = CELL_SIZE;
const CELL_SIZE: usize = 5_1;
pub const LETTERS: usize = 4;
pub const STATUSES: usize = 2;
pub const STATUS_R: u8 = b'R';
pub const STATUS_E: u8 = b'E';

pub fn letter_place(letter: u8) -> Option<usize>
    ensures { result ≡ letter_found letter }
{
    match letter {
        b'0' => Some(0),
        b'X' => Some(1),
        b'a' => Some(2),
        b'A' => Some(3),
        _ => None,
    }
}

pub fn status_place(status: u8) -> Option<usize> {
    match status {
        STATUS_R => Some(0),
        STATUS_E => Some(1),
        _ => None,
    }
}
";

const REQUEST_KIND: &str = "abbrev pub request : Kind R
request = record {
  lead = 17;
  size = 24;
  of = λ v.
      record { size = 9; lead = 8 };
}
";

const REPLY_KIND: &str = "unfoldable pub reply : Kind R
reply = record {
  of = record { lead = 1; size = 2 };
  lead = 18;
  size = 51
}
";

const TABLE: &str = "pub const KIND: u32 = 1;
pub const FIELD: u32 = 2;
pub const ROOM: u32 = 3;
pub const IN_USE: u32 = 4;
pub const PAGE: u32 = 7;
// pub const OLD: u32 = 5;

pub fn plain(number: u32) -> Refusal {
    placed(number, 0)
}
";

const REFUSALS: &str = "-- without an offset
plain number = placed number 0

-- another lead byte
abbrev pub KIND : Refusal
KIND = plain 1

abbrev pub FIELD : ℕ → Refusal
FIELD = placed 2

abbrev pub ROOM : Refusal
ROOM =
    plain 3

IN_USE = plain 4

PAGE = placed 7
{- NO_SEAT = plain 5
OLD = plain 6 -}

abbrev pub most : ℕ
most = 9
";

const SIZES: &str = "pub const SEATS: usize = 16;
pub const CELLS: usize = 256;
pub const CELL_SIZE: usize = 51;
";

const LISTING: &str = r#"pub const TEXT: [u8; 3] = *b"a;b";
// const MOST_INPUT: usize = 1;
use desk::limits::CELLS;
use line::ROW;
pub const MOST_INPUT: usize = 32768;
pub const LONGEST_LIST: usize = 62 + CELLS * ROW + 2 * (2 * (1 + 5) + 2);
"#;

const LINE: &str = "use frames::{dynamic::{DYNAMIC_SIZE, field}, reply};
pub const ROW: usize = 11 + (field::SPARE - field::STATUS - 2) + 1 + DIGITS;
const DIGITS: usize = 2;
";

const DYNAMIC: &str = "pub const DYNAMIC_LEAD: u8 = 19;
pub const DYNAMIC_SIZE: usize = 46;

pub mod field {
    pub const STATUS: usize = 5;
    pub const SPARE: usize = STATUS + 43;
}
";

const FOUND: &str = "frame_answer (Some (OnTheWay start)) = record { kind = 1; start = start }
frame_answer None = record { start = 0; kind = 0 }
";

const NUMBERS: &str = "abbrev pub numbers_of : Timing → TimingNumbers
numbers_of (Clock ticks) = record { kind = 1; ticks = ticks; net = pos 0 }
numbers_of (Net value) =
    record { ticks = 0; in = record { kind = 9 }; kind = 2; net = value }
numbers_of Raw = record { kind = 0; ticks = 0; net = pos 0 }

back n = cond (eqb n.kind 0) Raw (Net 3)
";

const PROGRAM: &str = "fn main() {
    let mut input = [0u8; 32769];
    let mut cells: [u8; 13056] = [0; 13056];
    let mut marks = [0; 256];
    let mut out = [0u8; 14170];
    let other = [0; 3];
}
";

const PROGRAM_BY_NAMES: &str = "use desk::limits::{CELLS, CELL_SIZE};
use listing::LONGEST_LIST;
use std::io::{self, Read, Write};

fn main(rt: HostRuntime) {
    let mut input = [0u8; listing::MOST_INPUT + 1];
    let mut cells = [0; CELLS * CELL_SIZE];
    let marks = [0; desk::limits::CELLS];
    let mut out = [0u8; LONGEST_LIST];
}
";

const CALLS: &str = r#"// Calls with `#[unsafe(no_mangle)] pub extern "C" fn rei2_in_a_comment()`.
ghost use Rattle.std.specs.Prelude.{◌≡◌};
ghost use Rattle.desk.specs.declared.state.{Desk, Seat};

use crate::lib::Unused;
use desk::state::{self as desk_state, Desk, Seat};
use frames::reply::{LETTERS, STATUSES};

#[repr(C)]
#[derive(Clone, Copy)]
pub struct DeskAnswer {
    pub desk: Desk,
    pub number: u32,
    pub seat: usize,
}

#[unsafe(no_mangle)]
pub extern "C" fn rei2_take(
    seats: &mut [Seat],
    desk: Desk,
    frame: &[u8],
) -> DeskAnswer
    ensures seat { result ≡ taken frame.now "(" }
    ensures row { TookOne seats.old result.seat seats.new }
{
    helper(b"){", b'"', b'\'', b'\x22')
}

#[unsafe(no_mangle)]
pub extern "C" fn rei2_look(desk: Desk, at: i64, tally: &[[u32; STATUSES]; LETTERS]) -> u32 {
    0
}

#[unsafe(no_mangle)]
pub extern "C" fn rei2_nothing() {}

fn helper(out: &mut [u8]) -> u32 {
    0
}
"#;

const STATE: &str = r#"
#[derive(Clone, Copy)]
#[repr(C)]
pub struct Desk {
    pub bits: u64,
    pub raw: [u8; 10],
}

#[repr(C)]
#[derive(Clone, Copy)]
pub struct Seat {
    pub requester: u32,
    pub held: u32,
}

pub struct Inner {
    pub row: [Seat; 16],
}
"#;

const HEADER: &str = r#"/* A small header; void rei2_in_a_comment(void); */
#ifndef REI2_H
#define REI2_H
#include <stdint.h>
#define REI2_LONG(x) \
    int rei2_in_a_macro(x);
#define REI2_LETTER_ORDER "0XaA"
#define REI2_STATUS_ORDER "RE"

enum rei2_limit {
    REI2_SEATS = 16, /* seats */
    REI2_CELLS = 256,
    REI2_CELL_SIZE = 51,
    REI2_LETTERS = 4,
    REI2_STATUSES = 2,
    REI2_REQUEST_SIZE = 24,
    REI2_REPLY_SIZE = 51,
    REI2_DYNAMIC_SIZE = 46,
    REI2_REQUEST_LEAD = 17,
    REI2_REPLY_LEAD = 0x12,
    REI2_DYNAMIC_LEAD = 19,
    REI2_MOST_INPUT = 32768,
    REI2_LONGEST_LIST = 14170,
    REI2_NAME_SIZE = 14
};
enum rei2_refusal { REI2_DONE = 0, REI2_KIND = 1, REI2_FIELD = 2, REI2_ROOM = 3, REI2_IN_USE = 4 };
enum rei2_timing { REI2_RAW = 0, REI2_CLOCK = 1, REI2_NET = 2, };
enum rei2_found { REI2_NOTHING = 0, REI2_ON_THE_WAY = 1 };

typedef struct rei2_seat {
    uint32_t requester;
    uint32_t held;
} rei2_seat;

typedef struct rei2_desk {
    uint64_t bits;
    uint8_t raw[10];
} rei2_desk;

typedef struct rei2_desk_answer {
    rei2_desk desk;
    uint32_t number;
    size_t seat;
} rei2_desk_answer;

REI2_SIZE(rei2_seat, 8);
REI2_OFFSET(rei2_seat, requester, 0);
REI2_OFFSET(rei2_seat, held, 4);
REI2_SIZE(rei2_desk, 24);
REI2_OFFSET(rei2_desk, bits, 0);
REI2_OFFSET(rei2_desk, raw, 8);
REI2_SIZE(rei2_desk_answer, 40);
REI2_OFFSET(rei2_desk_answer, desk, 0);
REI2_OFFSET(rei2_desk_answer, number, 24);
REI2_OFFSET(rei2_desk_answer, seat, 32);

#ifdef __cplusplus
extern "C" {
#endif

rei2_desk_answer rei2_take(rei2_seat *seats, size_t seats_len, rei2_desk desk,
                           const uint8_t *frame, size_t frame_len);
uint32_t rei2_look(rei2_desk desk, int64_t at, uint32_t tally[REI2_LETTERS][REI2_STATUSES]);
void rei2_nothing(void);

#ifdef __cplusplus
}
#endif
#endif
"#;

const RIGHT: &str = "header: 3 functions, 3 structs, 24 constants, 0 differences\n";

/// A folder for one test, which is removed at its end.
struct Folder(PathBuf);

impl Folder {
    /// The files without differences, but with `old` in the file `path` replaced by `new`.
    fn edited(path: &str, old: &str, new: &str) -> Folder {
        let folder = Folder::right();
        let path = folder.0.join(path);
        let text = fs::read_to_string(&path).expect("the file is read");
        assert_eq!(text.matches(old).count(), 1, "the text stands once: {old}");
        fs::write(path, text.replace(old, new)).expect("the file is written");
        folder
    }

    fn right() -> Folder {
        static MADE: AtomicUsize = AtomicUsize::new(0);
        let number = MADE.fetch_add(1, Ordering::Relaxed);
        let folder = Folder(env::temp_dir().join(format!("header-test-{}-{number}", process::id())));
        for (path, text) in FILES {
            let path = folder.0.join(path);
            fs::create_dir_all(path.parent().expect("a file has a folder")).expect("a folder is made");
            fs::write(path, text).expect("a file is written");
        }
        folder
    }

    /// Runs the tool in the folder. Returns its status, what it prints, and what it prints as errors.
    fn run(&self, words: &[&str]) -> (i32, String, String) {
        run(Command::new(env!("CARGO_BIN_EXE_header")).current_dir(&self.0).args(words))
    }

    /// Writes an archive whose index has these names.
    fn archive(&self, names: &[&str]) {
        let text: String = names.iter().map(|name| format!("{name}\0")).collect();
        let count = u32::try_from(names.len()).expect("a small number").to_be_bytes();
        let index = [&count[..], &vec![0; 4 * names.len()], text.as_bytes()].concat();
        let head = format!("{:<16}{:<12}{:<6}{:<6}{:<8}{:<10}`\n", "/", 0, 0, 0, 0, index.len());
        let bytes = [b"!<arch>\n", head.as_bytes(), &index].concat();
        fs::write(self.0.join("librei2.a"), bytes).expect("the archive is written");
    }
}

impl Drop for Folder {
    fn drop(&mut self) {
        let _ = fs::remove_dir_all(&self.0);
    }
}

fn run(command: &mut Command) -> (i32, String, String) {
    let done = command.output().expect("the tool runs");
    let text = |bytes| String::from_utf8(bytes).expect("the tool prints UTF-8");
    (done.status.code().expect("the tool ends by itself"), text(done.stdout), text(done.stderr))
}

/// Asserts that with this edit the tool prints exactly these differences.
#[track_caller]
fn differs_in(path: &str, old: &str, new: &str, wanted: &[&str]) {
    let (status, printed, errors) = Folder::edited(path, old, new).run(&["crates", "rei2.h"]);
    let lines: Vec<&str> = printed.lines().collect();
    let (last, differences) = lines.split_last().expect("the tool prints a line");
    assert_eq!((differences, errors.as_str()), (wanted, ""));
    assert!(last.ends_with(&format!(" {} differences", wanted.len())), "{last}");
    assert_eq!(status, i32::from(!wanted.is_empty()));
}

/// The same with an edit of the header.
#[track_caller]
fn differs(old: &str, new: &str, wanted: &[&str]) {
    differs_in("rei2.h", old, new, wanted);
}

/// Asserts that the tool prints exactly these differences for an archive with these names.
#[track_caller]
fn archive_differs(names: &[&str], wanted: &[&str]) {
    let folder = Folder::right();
    folder.archive(names);
    let (status, printed, errors) = folder.run(&["crates", "rei2.h", "librei2.a"]);
    let mut lines: String = wanted.iter().map(|line| format!("{line}\n")).collect();
    lines += &RIGHT.replace(" 0 ", &format!(" {} ", wanted.len()));
    assert_eq!((status, printed, errors), (i32::from(!wanted.is_empty()), lines, String::new()));
}

// What passes.

#[test]
fn the_right_header_passes() {
    assert_eq!(Folder::right().run(&["crates", "rei2.h"]), (0, RIGHT.to_string(), String::new()));
}

#[test]
fn order_of_declarations_and_blanks_do_not_matter() {
    let look = "uint32_t rei2_look(rei2_desk desk, int64_t at, uint32_t tally[REI2_LETTERS][REI2_STATUSES]);\n";
    let folder = Folder::edited("rei2.h", look, "");
    let text = fs::read_to_string(folder.0.join("rei2.h")).expect("the header is read");
    let moved = text.replace("void rei2_nothing(void);\n", &format!("void\nrei2_nothing( void ) ;\n{look}"));
    fs::write(folder.0.join("rei2.h"), moved).expect("the header is written");
    assert_eq!(folder.run(&["crates", "rei2.h"]), (0, RIGHT.to_string(), String::new()));
}

// Functions.

#[test]
fn a_function_is_missing() {
    differs("void rei2_nothing(void);", "", &["rei2_nothing: the header lacks this function"]);
}

#[test]
fn a_function_too_many() {
    let two = "void rei2_nothing(void);\nvoid rei2_helper(void);";
    differs("void rei2_nothing(void);", two, &["rei2_helper: no function that is exported"]);
}

#[test]
fn a_function_has_another_name() {
    let wanted = ["rei2_look: the header lacks this function", "rei2_see: no function that is exported"];
    differs("rei2_look(", "rei2_see(", &wanted);
}

#[test]
fn a_function_stands_twice() {
    let two = "void rei2_nothing(void);\nvoid rei2_nothing(void);";
    differs("void rei2_nothing(void);", two, &["rei2_nothing: is declared twice"]);
}

#[test]
fn another_result() {
    differs("uint32_t rei2_look", "uint64_t rei2_look", &["rei2_look: gives uint32_t, in the header uint64_t"]);
}

#[test]
fn a_result_of_nothing() {
    differs("rei2_desk_answer rei2_take", "void rei2_take", &["rei2_take: gives rei2_desk_answer, in the header void"]);
}

#[test]
fn const_is_missing() {
    let wanted = ["rei2_take: parameter 4 is `const uint8_t *frame`, in the header `uint8_t *frame`"];
    differs("const uint8_t *frame", "uint8_t *frame", &wanted);
}

#[test]
fn const_too_many() {
    let wanted = ["rei2_take: parameter 1 is `rei2_seat *seats`, in the header `const rei2_seat *seats`"];
    differs("rei2_seat *seats", "const rei2_seat *seats", &wanted);
}

#[test]
fn a_count_has_another_name() {
    let wanted = ["rei2_take: parameter 5 is `size_t frame_len`, in the header `size_t frame_size`"];
    differs("frame_len", "frame_size", &wanted);
}

#[test]
fn a_count_has_another_type() {
    let wanted = ["rei2_take: parameter 2 is `size_t seats_len`, in the header `uint32_t seats_len`"];
    differs("size_t seats_len", "uint32_t seats_len", &wanted);
}

#[test]
fn a_count_is_missing() {
    let wanted = ["rei2_take: parameter 5 is `size_t frame_len`, in the header `nothing`"];
    differs(", size_t frame_len", "", &wanted);
}

#[test]
fn parameters_change_places() {
    let wanted = [
        "rei2_look: parameter 1 is `rei2_desk desk`, in the header `int64_t at`",
        "rei2_look: parameter 2 is `int64_t at`, in the header `rei2_desk desk`",
    ];
    differs("rei2_desk desk, int64_t at", "int64_t at, rei2_desk desk", &wanted);
}

#[test]
fn a_parameter_has_another_type() {
    let wanted = ["rei2_look: parameter 2 is `int64_t at`, in the header `uint64_t at`"];
    differs("int64_t at", "uint64_t at", &wanted);
}

#[test]
fn a_struct_by_pointer() {
    let wanted = ["rei2_look: parameter 1 is `rei2_desk desk`, in the header `rei2_desk *desk`"];
    differs("rei2_look(rei2_desk desk", "rei2_look(rei2_desk *desk", &wanted);
}

#[test]
fn a_parameter_too_many() {
    let wanted = ["rei2_nothing: parameter 1 is `nothing`, in the header `int of`"];
    differs("rei2_nothing(void)", "rei2_nothing(int of)", &wanted);
}

// An array of arrays.

const TALLY: &str = "uint32_t tally[REI2_LETTERS][REI2_STATUSES]";

#[test]
fn an_array_of_arrays_by_numbers() {
    differs(TALLY, "uint32_t tally[4][0x2]", &[]);
    differs_in("crates/rei2/src/calls.rt", "[[u32; STATUSES]; LETTERS]", "[[u32; 2]; 2 * STATUSES]", &[]);
}

#[test]
fn an_array_of_arrays_that_may_change_is_declared_alike() {
    differs_in("crates/rei2/src/calls.rt", "tally: &[[", "tally: &mut [[", &[]);
}

#[test]
fn an_array_of_arrays_is_declared_otherwise() {
    for (other, shown) in [
        ("uint32_t tally[REI2_STATUSES][REI2_LETTERS]", "uint32_t tally[2][4]"),
        ("uint32_t tally[REI2_LETTERS][3]", "uint32_t tally[4][3]"),
        ("uint64_t tally[REI2_LETTERS][REI2_STATUSES]", "uint64_t tally[4][2]"),
        ("uint32_t counts[REI2_LETTERS][REI2_STATUSES]", "uint32_t counts[4][2]"),
        ("const uint32_t tally[REI2_LETTERS][REI2_STATUSES]", "const uint32_t tally[4][2]"),
        ("uint32_t *tally", "uint32_t *tally"),
    ] {
        let wanted = format!("rei2_look: parameter 3 is `uint32_t tally[4][2]`, in the header `{shown}`");
        differs(TALLY, other, &[&wanted]);
    }
}

#[test]
fn an_array_of_arrays_changes_in_the_source() {
    for (other, shown) in [
        ("[[u32; LETTERS]; STATUSES]", "uint32_t tally[2][4]"),
        ("[[u8; STATUSES]; LETTERS]", "uint8_t tally[4][2]"),
        ("[[u32; STATUSES]; LETTERS + 1]", "uint32_t tally[5][2]"),
    ] {
        let wanted = format!("rei2_look: parameter 3 is `{shown}`, in the header `uint32_t tally[4][2]`");
        differs_in("crates/rei2/src/calls.rt", "[[u32; STATUSES]; LETTERS]", other, &[&wanted]);
    }
    let wanted = [
        "rei2_look: parameter 3 is `uint32_t tally[9][2]`, in the header `uint32_t tally[4][2]`",
        "REI2_LETTERS: 9 in frames/src/reply.rt (LETTERS), 4 in the header",
    ];
    differs_in("crates/frames/src/reply.rt", "LETTERS: usize = 4", "LETTERS: usize = 9", &wanted);
}

#[test]
fn an_array_of_arrays_that_is_not_read_is_told() {
    let wanted = [
        "header, line 63: not read: uint32_t rei2_look ( rei2_desk desk , int64_t at , uint32_t tally [",
        "rei2_look: the header lacks this function",
    ];
    for other in ["uint32_t tally[ROWS][2]", "uint32_t tally[4]", "uint32_t tally[4][2][1]", "uint32_t tally[][2]"] {
        differs(TALLY, other, &wanted);
    }
    let wanted = [
        "rei2_look: a length is not read: ROWS or STATUSES",
        "rei2_look: parameter 3 is `nothing`, in the header `uint32_t tally[4][2]`",
    ];
    differs_in("crates/rei2/src/calls.rt", "; LETTERS]", "; ROWS]", &wanted);
}

// Orders.

#[test]
fn an_order_differs_in_the_header() {
    let wanted = ["REI2_LETTER_ORDER: \"0XaA\" in frames/src/reply.rt (letter_place), \"0XAa\" in the header"];
    differs("\"0XaA\"", "\"0XAa\"", &wanted);
    let wanted = ["REI2_STATUS_ORDER: \"RE\" in frames/src/reply.rt (status_place), \"REZ\" in the header"];
    differs("\"RE\"", "\"REZ\"", &wanted);
    let wanted = ["REI2_STATUS_ORDER: the header defines no such string"];
    differs("#define REI2_STATUS_ORDER \"RE\"\n", "", &wanted);
    differs("REI2_STATUS_ORDER \"RE\"", "REI2_STATUS_ORDER RE", &wanted);
}

#[test]
fn an_order_differs_in_the_source() {
    let wanted = ["REI2_LETTER_ORDER: \"0YaA\" in frames/src/reply.rt (letter_place), \"0XaA\" in the header"];
    differs_in("crates/frames/src/reply.rt", "b'X' =>", "b'Y' =>", &wanted);
    let wanted = ["REI2_STATUS_ORDER: \"RZ\" in frames/src/reply.rt (status_place), \"RE\" in the header"];
    differs_in("crates/frames/src/reply.rt", "STATUS_E: u8 = b'E'", "STATUS_E: u8 = b'Z'", &wanted);
}

#[test]
fn an_order_that_is_not_read_is_told() {
    let wanted =
        ["REI2_LETTER_ORDER: no letters with the places 0, 1, 2 and so on in frames/src/reply.rt (letter_place)"];
    for (old, new) in [
        ("b'a' => Some(2)", "b'a' => Some(3)"),
        ("b'a' => Some(2)", "b'a' | b'b' => Some(2)"),
        ("b'a' => Some(2)", "LETTER => Some(2)"),
        ("fn letter_place(", "fn letter_index("),
    ] {
        differs_in("crates/frames/src/reply.rt", old, new, &wanted);
    }
}

// Structs.

#[test]
fn a_struct_is_missing() {
    let old = "typedef struct rei2_seat {\n    uint32_t requester;\n    uint32_t held;\n} rei2_seat;";
    differs(old, "", &["rei2_seat: the header lacks this struct"]);
}

#[test]
fn a_struct_too_many() {
    let two = "typedef struct rei2_row {\n    uint8_t a;\n} rei2_row;\nREI2_SIZE(rei2_row, 1);\n\
               REI2_OFFSET(rei2_row, a, 0);\nvoid rei2_nothing(void);";
    differs("void rei2_nothing(void);", two, &["rei2_row: no struct of an exported function"]);
}

#[test]
fn a_field_has_another_type() {
    let wanted = ["rei2_desk: field 1 is `uint64_t bits`, in the header `uint32_t bits`"];
    differs("uint64_t bits;", "uint32_t bits;", &wanted);
}

#[test]
fn an_array_has_another_length() {
    let wanted = ["rei2_desk: field 2 is `uint8_t raw[10]`, in the header `uint8_t raw[8]`"];
    differs("raw[10]", "raw[8]", &wanted);
}

#[test]
fn fields_change_places() {
    let wanted = [
        "rei2_seat: field 1 is `uint32_t requester`, in the header `uint32_t held`",
        "rei2_seat: field 2 is `uint32_t held`, in the header `uint32_t requester`",
    ];
    differs("uint32_t requester;\n    uint32_t held;", "uint32_t held;\n    uint32_t requester;", &wanted);
}

#[test]
fn a_field_is_missing() {
    let wanted = ["rei2_desk_answer: field 3 is `size_t seat`, in the header `nothing`"];
    differs("    size_t seat;\n", "", &wanted);
}

#[test]
fn a_field_too_many() {
    let wanted = [
        "rei2_seat: field 3 is `nothing`, in the header `uint32_t ended`",
        "rei2_seat: the offset of ended is not asserted",
    ];
    differs("uint32_t held;", "uint32_t held;\n    uint32_t ended;", &wanted);
}

#[test]
fn an_assertion_is_missing() {
    differs("REI2_SIZE(rei2_desk, 24);", "", &["rei2_desk: its size is not asserted"]);
    differs("REI2_OFFSET(rei2_seat, held, 4);", "", &["rei2_seat: the offset of held is not asserted"]);
}

#[test]
fn what_is_not_read_is_told() {
    let wanted = ["header, line 63: not read: extern int rei2_errors ;"];
    differs("uint32_t rei2_look", "extern int rei2_errors;\nuint32_t rei2_look", &wanted);
    let wanted = [
        "header, line 30: not read: typedef struct rei2_seat { uint32_t requester ; uint32_t held , more ;",
        "rei2_seat: the header lacks this struct",
    ];
    differs("uint32_t held;", "uint32_t held, more;", &wanted);
}

// The source.

#[test]
fn a_slice_becomes_mutable() {
    let wanted = ["rei2_take: parameter 4 is `uint8_t *frame`, in the header `const uint8_t *frame`"];
    differs_in("crates/rei2/src/calls.rt", "frame: &[u8]", "frame: &mut [u8]", &wanted);
}

#[test]
fn a_function_more_is_exported() {
    let more = "#[unsafe(no_mangle)]\npub extern \"C\" fn rei2_more(x: u8) -> u8 {\n    x\n}\n\nfn helper(";
    differs_in("crates/rei2/src/calls.rt", "fn helper(", more, &["rei2_more: the header lacks this function"]);
}

#[test]
fn a_function_without_its_mark() {
    let wanted = ["rei2_nothing: is not exported: `#[unsafe(no_mangle)] pub extern \"C\"` is asked for"];
    let old = "#[unsafe(no_mangle)]\npub extern \"C\" fn rei2_nothing";
    differs_in("crates/rei2/src/calls.rt", old, "pub extern \"C\" fn rei2_nothing", &wanted);
    differs_in("crates/rei2/src/calls.rt", old, "#[unsafe(no_mangle)]\npub fn rei2_nothing", &wanted);
    differs_in("crates/rei2/src/calls.rt", old, "#[no_mangle]\npub extern \"C\" fn rei2_nothing", &wanted);
    let wanted = ["rei2_nothing: its parameters are not read: <", "rei2_nothing: no function that is exported"];
    differs_in("crates/rei2/src/calls.rt", "rei2_nothing()", "rei2_nothing<'a>()", &wanted);
}

#[test]
fn a_struct_without_its_layout() {
    let wanted =
        ["rei2_seat: desk::state has no `#[repr(C)] struct Seat`", "rei2_seat: no struct of an exported function"];
    differs_in(
        "crates/desk/src/state.rt",
        "#[repr(C)]\n#[derive(Clone, Copy)]\npub struct Seat",
        "#[derive(Clone, Copy)]\npub struct Seat",
        &wanted,
    );
}

#[test]
fn a_struct_of_another_crate_moves_a_field() {
    let wanted = ["rei2_desk: field 1 is `uint32_t bits`, in the header `uint64_t bits`"];
    differs_in("crates/desk/src/state.rt", "bits: u64", "bits: u32", &wanted);
}

#[test]
fn an_import_is_read_in_each_form() {
    let calls = "crates/rei2/src/calls.rt";
    let imports = "use desk::state::{self as desk_state, Desk, Seat};\nuse frames::reply::{LETTERS, STATUSES};\n";
    for other in [
        "use desk::state::Desk;\nuse desk::state::Seat;\nuse frames::reply::LETTERS;\nuse frames::reply::STATUSES;\n",
        "use desk::{state::{Seat, Desk}};\nuse frames::{reply::{STATUSES, LETTERS,}, request};\n",
        "use desk::{state::Desk, state::{Seat,},};\npub(crate) use frames::reply::{LETTERS, STATUSES};\n",
    ] {
        differs_in(calls, imports, other, &[]);
    }
    let renamed = CALLS.replace(" Seat}", " Seat as Row}").replace("[Seat]", "[Row]");
    let renamed = renamed.replace("{LETTERS,", "{LETTERS as ROWS,").replace("; LETTERS]", "; ROWS]");
    differs_in(calls, CALLS, &renamed, &[]);
    let wanted =
        ["rei2_seat: rei2::calls has no `#[repr(C)] struct Seat`", "rei2_seat: no struct of an exported function"];
    for other in ["Desk};", "Desk, *};", "Desk, Seat as Row};"] {
        differs_in(calls, "Desk, Seat};\nuse frames", &format!("{other}\nuse frames"), &wanted);
    }
}

// Constants.

#[test]
fn a_limit_has_another_number_in_the_header() {
    let wanted = [
        "REI2_SEATS: 16 in desk/src/limits.rt (SEATS), 17 in the header",
        "REI2_SEATS: 16 in desk/specs/Limits.antt (seat_count), 17 in the header",
    ];
    differs("REI2_SEATS = 16", "REI2_SEATS = 17", &wanted);
    let wanted = [
        "REI2_REPLY_LEAD: 18 in frames/src/reply.rt (REPLY_LEAD), 19 in the header",
        "REI2_REPLY_LEAD: 18 in frames/specs/Reply.antt (reply.lead), 19 in the header",
    ];
    differs("REI2_REPLY_LEAD = 0x12", "REI2_REPLY_LEAD = 0x13", &wanted);
}

#[test]
fn a_limit_has_another_number_in_a_source() {
    let wanted = ["REI2_SEATS: 64 in desk/src/limits.rt (SEATS), 16 in the header"];
    differs_in("crates/desk/src/limits.rt", "SEATS: usize = 16", "SEATS: usize = 64", &wanted);
    let wanted = ["REI2_REPLY_SIZE: 52 in frames/src/reply.rt (REPLY_SIZE), 51 in the header"];
    differs_in("crates/frames/src/reply.rt", "5_1", "5_2", &wanted);
    differs_in("crates/frames/src/reply.rt", "= CELL_SIZE", "= CELL_SIZE + 1", &wanted);
}

#[test]
fn a_limit_has_another_number_in_a_definition() {
    let wanted = ["REI2_CELLS: 255 in desk/specs/Limits.antt (most_cells), 256 in the header"];
    differs_in("crates/desk/specs/Limits.antt", "most_cells = 256", "most_cells = 255", &wanted);
    let wanted = ["REI2_REQUEST_SIZE: 25 in frames/specs/Request.antt (request.size), 24 in the header"];
    differs_in("crates/frames/specs/Request.antt", "size = 24", "size = 25", &wanted);
    let wanted = ["REI2_REPLY_SIZE: 50 in frames/specs/Reply.antt (reply.size), 51 in the header"];
    differs_in("crates/frames/specs/Reply.antt", "size = 51", "size = 50", &wanted);
    let wanted = ["REI2_NAME_SIZE: 13 in rei2/specs/Names.antt (name_size), 14 in the header"];
    differs_in("crates/rei2/specs/Names.antt", "name_size = 14", "name_size = 13", &wanted);
}

#[test]
fn a_limit_has_another_number_in_a_case() {
    let wanted = ["REI2_LONGEST_LIST: 1417 in listing/specs/Cases.antt (longest_list ≡), 14170 in the header"];
    differs_in("crates/listing/specs/Cases.antt", "≡ 14170", "≡ 1417", &wanted);
    let wanted = ["REI2_CELL_SIZE: 50 in rei2/specs/Cases.antt (limits ≡ .cell_size), 51 in the header"];
    differs_in("crates/rei2/specs/Cases.antt", "= 51", "= 50", &wanted);
    let wanted = ["REI2_CELL_SIZE: no single number in rei2/specs/Cases.antt (limits ≡ .cell_size)"];
    differs_in("crates/rei2/specs/Cases.antt", "limits ≡ record", "others ≡ record", &wanted);
    differs_in("crates/rei2/specs/Cases.antt", "limits ≡ record", "limits ≡ f record", &wanted);
    let wanted = ["REI2_LONGEST_LIST: no single number in listing/specs/Cases.antt (longest_list ≡)"];
    differs_in("crates/listing/specs/Cases.antt", "≡ 14170", "≡ size", &wanted);
    let twice = "longest_list ≡ 14170\n  pub again : longest_list ≡ 14170";
    differs_in("crates/listing/specs/Cases.antt", "longest_list ≡ 14170", twice, &wanted);
}

#[test]
fn a_limit_by_a_formula() {
    let lengths = |length: &str| format!("lists/src/main.rt: out has {length}, by the header 14170");
    for (old, new, length) in [
        ("2 * (2 * (1 + 5) + 2)", "2 * 2 * (1 + 5) + 2", "14168"),
        ("* ROW", "* (ROW)", ""),
        ("* ROW", "* ((line::ROW))", ""),
        ("(1 + 5)", "1 + 5", "14160"),
    ] {
        let wanted = [
            format!("REI2_LONGEST_LIST: {length} in listing/src/lib.rt (LONGEST_LIST), 14170 in the header"),
            lengths(length),
        ];
        let wanted: Vec<&str> = wanted.iter().map(String::as_str).collect();
        differs_in("crates/listing/src/lib.rt", old, new, if length.is_empty() { &[] } else { &wanted });
    }
    let unread = [
        "REI2_LONGEST_LIST: no single number in listing/src/lib.rt (LONGEST_LIST)".to_string(),
        lengths("a length that is not read"),
    ];
    let unread: Vec<&str> = unread.iter().map(String::as_str).collect();
    differs_in("crates/listing/src/line.rt", "field::STATUS", "field::STATE", &unread);
    differs_in("crates/listing/src/line.rt", "field::STATUS", "other::STATUS", &unread);
    differs_in("crates/listing/src/line.rt", "field::STATUS - 2", "field::STATUS - 44", &unread);
    differs_in("crates/frames/src/dynamic.rt", "mod field {", "mod fields {", &unread);
    differs_in("crates/listing/src/lib.rt", "(1 + 5)", "(1 + 5) 2", &unread);
    differs_in("crates/listing/src/lib.rt", "(1 + 5)", "()", &unread);
    differs_in("crates/listing/src/lib.rt", "use line::ROW;", "use lines::ROW;", &unread);
}

#[test]
fn a_limit_has_no_number() {
    let wanted = ["REI2_LONGEST_LIST: no single number in listing/src/lib.rt (LONGEST_LIST)"];
    let lengths = "lists/src/main.rt: out has a length that is not read, by the header 14170";
    let both = [wanted[0], lengths];
    differs_in("crates/listing/src/lib.rt", "const LONGEST_LIST", "const LONGEST", &both);
    differs_in("crates/listing/src/lib.rt", "const LONGEST_LIST", "// const LONGEST_LIST", &both);
    let again = "const LONGEST_LIST: usize = 1;\nconst LONGEST_LIST";
    differs_in("crates/listing/src/lib.rt", "const LONGEST_LIST", again, &both);
    let wanted = ["REI2_SEATS: no single number in desk/specs/Limits.antt (seat_count)"];
    for other in
        ["seat_counts = 16", "-- seat_count = 16", "seat_count = f 16", "  seat_count = 16", "{-\nseat_count = 16\n-}"]
    {
        differs_in("crates/desk/specs/Limits.antt", "seat_count = 16", other, &wanted);
    }
    differs_in("crates/desk/specs/Limits.antt", "seat_count = 16", "seat_count = 16\nseat_count = 16", &wanted);
    let wanted = ["REI2_DYNAMIC_SIZE: no single number in frames/specs/Dynamic.antt (dynamic.size)"];
    differs_in("crates/frames/specs/Dynamic.antt", "; size = 46", "; size = 46 + 0", &wanted);
    differs_in("crates/frames/specs/Dynamic.antt", "; size = 46", "", &wanted);
}

#[test]
fn a_constant_is_missing_in_the_header() {
    let wanted = ["REI2_REPLY_SIZE: enum rei2_limit of the header lacks this constant"];
    differs("    REI2_REPLY_SIZE = 51,\n", "", &wanted);
    differs(", REI2_ROOM = 3", "", &["REI2_ROOM: enum rei2_refusal of the header lacks this constant"]);
    differs("REI2_CLOCK = 1,", "", &["REI2_CLOCK: enum rei2_timing of the header lacks this constant"]);
    differs(", REI2_ON_THE_WAY = 1", "", &["REI2_ON_THE_WAY: enum rei2_found of the header lacks this constant"]);
}

#[test]
fn a_constant_too_many() {
    differs(
        "REI2_SEATS = 16,",
        "REI2_SEATS = 16, REI2_SEAT_SIZE = 16,",
        &["REI2_SEAT_SIZE: not compared: no number is known that it stands for"],
    );
    differs(
        "REI2_DONE = 0,",
        "REI2_DONE = 0, REI2_PAGE = 5,",
        &["REI2_PAGE: not compared: no number is known that it stands for"],
    );
    differs(
        "REI2_RAW = 0,",
        "REI2_RAW = 0, REI2_MARK = 3,",
        &["REI2_MARK: not compared: no number is known that it stands for"],
    );
    let more = "enum rei2_more { REI2_ONE = 1, REI2_SEATS = 16 };\nenum rei2_found {";
    let wanted = [
        "REI2_SEATS: is declared twice",
        "REI2_ONE: not compared: no number is known that it stands for",
        "REI2_SEATS: not compared: no number is known that it stands for",
    ];
    differs("enum rei2_found {", more, &wanted);
    let wanted = ["REI2_ONE: not compared: no number is known that it stands for"];
    differs("enum rei2_found {", "enum { REI2_ONE = 1 };\nenum rei2_found {", &wanted);
}

#[test]
fn a_constant_that_is_not_read_is_told() {
    let lacks = |name: &str| format!("REI2_{name}: enum rei2_found of the header lacks this constant");
    for other in ["REI2_NOTHING,", "REI2_NOTHING = 1 - 1,", "REI2_NOTHING = ZERO,"] {
        let (status, printed, _) = Folder::edited("rei2.h", "REI2_NOTHING = 0,", other).run(&["crates", "rei2.h"]);
        let lines: Vec<&str> = printed.lines().collect();
        assert!(lines[0].starts_with("header, line 28: not read: enum rei2_found { REI2_NOTHING "), "{}", lines[0]);
        assert_eq!(lines[1..3], [lacks("ON_THE_WAY"), lacks("NOTHING")]);
        assert_eq!((status, lines.len()), (1, 4));
    }
}

#[test]
fn a_refusal_has_another_number() {
    let wanted = [
        "REI2_IN_USE: 4 in digits/src/refusal.rt (IN_USE), 5 in the header",
        "REI2_IN_USE: 4 in digits/specs/Refusals.antt (IN_USE), 5 in the header",
    ];
    differs("REI2_IN_USE = 4", "REI2_IN_USE = 5", &wanted);
    let wanted = ["REI2_FIELD: 8 in digits/specs/Refusals.antt (FIELD), 2 in the header"];
    differs_in("crates/digits/specs/Refusals.antt", "placed 2", "placed 8", &wanted);
    let wanted = ["REI2_FIELD: 8 in digits/src/refusal.rt (FIELD), 2 in the header"];
    differs_in("crates/digits/src/refusal.rt", "FIELD: u32 = 2", "FIELD: u32 = 8", &wanted);
    let wanted = ["REI2_DONE: 0 in the answer of a call that was done, 9 in the header"];
    differs("REI2_DONE = 0", "REI2_DONE = 9", &wanted);
}

#[test]
fn a_refusal_is_only_on_one_side() {
    let lacks = "REI2_NO_SEAT: enum rei2_refusal of the header lacks this constant";
    differs_in(
        "crates/digits/specs/Refusals.antt",
        "IN_USE = plain 4",
        "IN_USE = plain 4\nNO_SEAT = plain 5",
        &[lacks],
    );
    let more = "pub const NO_SEAT: u32 = 5;\npub const IN_USE";
    differs_in("crates/digits/src/refusal.rt", "pub const IN_USE", more, &[lacks]);
    let wanted = ["REI2_ROOM: no single number in digits/specs/Refusals.antt (ROOM)"];
    differs_in("crates/digits/specs/Refusals.antt", "ROOM =\n    plain 3", "ROOM = KIND", &wanted);
    let wanted = ["REI2_ROOM: no single number in digits/src/refusal.rt (ROOM)"];
    differs_in("crates/digits/src/refusal.rt", "pub const ROOM: u32 = 3;", "", &wanted);
}

#[test]
fn a_refusal_that_is_not_exported_has_one_number() {
    let wanted = ["PAGE: 8 in digits/src/refusal.rt (PAGE), 7 in digits/specs/Refusals.antt (PAGE)"];
    differs_in("crates/digits/src/refusal.rt", "PAGE: u32 = 7", "PAGE: u32 = 8", &wanted);
    let wanted = ["PAGE: 7 in digits/src/refusal.rt (PAGE), no single number in digits/specs/Refusals.antt (PAGE)"];
    differs_in("crates/digits/specs/Refusals.antt", "PAGE = placed 7", "PAGE = placed n", &wanted);
    let wanted = ["PAGE: no single number in digits/src/refusal.rt (PAGE), 7 in digits/specs/Refusals.antt (PAGE)"];
    differs_in("crates/digits/src/refusal.rt", "pub const PAGE: u32 = 7;\n", "", &wanted);
    let wanted = ["REI2_PAGE: not compared: no number is known that it stands for"];
    differs("REI2_DONE = 0,", "REI2_DONE = 0, REI2_PAGE = 7,", &wanted);
}

#[test]
fn a_kind_has_another_number() {
    let wanted = [
        "REI2_CLOCK: 1 in rei2/specs/Reply.antt (numbers_of Clock), 0 in the header",
        "REI2_RAW: 0 in rei2/specs/Reply.antt (numbers_of Raw), 1 in the header",
    ];
    differs("REI2_RAW = 0, REI2_CLOCK = 1", "REI2_RAW = 1, REI2_CLOCK = 0", &wanted);
    let wanted = ["REI2_NET: 3 in rei2/specs/Reply.antt (numbers_of Net), 2 in the header"];
    differs_in("crates/rei2/specs/Reply.antt", "kind = 2", "kind = 3", &wanted);
    let wanted = ["REI2_ON_THE_WAY: 2 in rei2/specs/Calls.antt (frame_answer OnTheWay), 1 in the header"];
    differs_in("crates/rei2/specs/Calls.antt", "kind = 1", "kind = 2", &wanted);
    let wanted = ["REI2_NET: no single number in rei2/specs/Reply.antt (numbers_of Net)"];
    differs_in("crates/rei2/specs/Reply.antt", "kind = 2", "kind = two", &wanted);
}

#[test]
fn a_kind_by_name_has_its_definitions_number() {
    let named = |number: &str| format!("abbrev pub TWO : ℕ\nTWO = {number}\n\nabbrev pub numbers_of :");
    let text =
        |number: &str| NUMBERS.replace("abbrev pub numbers_of :", &named(number)).replace("kind = 2", "kind = TWO");
    differs_in("crates/rei2/specs/Reply.antt", NUMBERS, &text("2"), &[]);
    let wanted = ["REI2_NET: 3 in rei2/specs/Reply.antt (numbers_of Net), 2 in the header"];
    differs_in("crates/rei2/specs/Reply.antt", NUMBERS, &text("3"), &wanted);
}

#[test]
fn a_kind_is_only_on_one_side() {
    let more = "numbers_of Raw = record { kind = 0; ticks = 0; net = pos 0 }\nnumbers_of Mark = record { kind = 3 }";
    let wanted = ["REI2_MARK: enum rei2_timing of the header lacks this constant"];
    differs_in("crates/rei2/specs/Reply.antt", more.lines().next().expect("a line"), more, &wanted);
    let wanted = ["REI2_NOTHING: not compared: no number is known that it stands for"];
    differs_in("crates/rei2/specs/Calls.antt", "frame_answer None", "answer None", &wanted);
}

#[test]
fn an_array_of_a_program_has_another_length() {
    for (array, old, new, right) in [
        ("input", "32769", "32768", "32769"),
        ("cells", "[0; 13056]", "[0; 13057]", "13056"),
        ("marks", "[0; 256]", "[0; 25]", "256"),
        ("out", "[0u8; 14170]", "[0u8; 14169]", "14170"),
    ] {
        let length: String = new.split("; ").last().expect("a length").chars().filter(char::is_ascii_digit).collect();
        let wanted = format!("rei2list/src/main.rt: {array} has {length}, by the header {right}");
        differs_in("crates/rei2list/src/main.rt", old, new, &[&wanted]);
    }
    let wanted = ["lists/src/main.rt: cells has 307, by the header 13056"];
    differs_in("crates/lists/src/main.rt", "CELLS * CELL_SIZE", "CELLS + CELL_SIZE", &wanted);
    let wanted = ["lists/src/main.rt: marks has 51, by the header 256"];
    differs_in("crates/lists/src/main.rt", "desk::limits::CELLS]", "desk::limits::CELL_SIZE]", &wanted);
}

#[test]
fn an_array_of_a_program_is_not_found() {
    let wanted = ["lists/src/main.rt: makes no array marks"];
    differs_in("crates/lists/src/main.rt", "let marks", "let places", &wanted);
    let wanted = ["lists/src/main.rt: out has a length that is not read, by the header 14170"];
    differs_in("crates/lists/src/main.rt", "; LONGEST_LIST]", "; LONGEST]", &wanted);
    differs_in("crates/lists/src/main.rt", "[0u8; LONGEST_LIST]", "io::buffer()", &wanted);
}

#[test]
fn an_array_is_made_twice() {
    let two = "let mut marks = [0; 256];\n    let mut marks = [0; 255];";
    let wanted = ["rei2list/src/main.rt: marks has 255, by the header 256"];
    differs_in("crates/rei2list/src/main.rt", "let mut marks = [0; 256];", two, &wanted);
}

// The archive.

#[test]
fn the_right_archive_passes() {
    archive_differs(&["rei2_look", "rei2_nothing", "rei2_take"], &[]);
}

#[test]
fn an_archive_lacks_a_function() {
    archive_differs(&["rei2_look", "rei2_take"], &["rei2_nothing: the archive lacks this function"]);
}

#[test]
fn an_archive_has_a_function_more() {
    let names = ["rei2_look", "rei2_nothing", "rei2_take", "helper"];
    archive_differs(&names, &["helper: in the archive, and not exported by the crate"]);
}

// When it cannot be run.

#[test]
fn it_cannot_tell() {
    let folder = Folder::right();
    let told = |words: &[&str]| {
        let (status, printed, errors) = folder.run(words);
        assert_eq!((status, printed.as_str()), (2, ""));
        errors
    };
    assert_eq!(told(&["crates"]), "header: usage: header CRATES HEADER [ARCHIVE]\n");
    assert!(told(&["crates", "other.h"]).starts_with("header: other.h: cannot be read"));
    assert!(told(&["nowhere", "rei2.h"]).starts_with("header: nowhere/rei2/src: cannot be read"));
    let limits = folder.0.join("crates/desk/specs/Limits.antt");
    fs::remove_file(&limits).expect("the file is removed");
    assert!(told(&["crates", "rei2.h"]).starts_with("header: crates/desk/specs/Limits.antt: cannot be read"));
    fs::write(limits, LIMITS).expect("the file is written");
    let no_archive = "header: rei2.h: cannot be read: it is no archive with a symbol index\n";
    assert_eq!(told(&["crates", "rei2.h", "rei2.h"]), no_archive);
}

#[test]
fn nothing_exported_is_no_success() {
    let folder = Folder::right();
    fs::write(folder.0.join("crates/rei2/src/calls.rt"), "fn helper() {}\n").expect("the file is written");
    let constants = HEADER.find("typedef").expect("the structs come behind the constants");
    fs::write(folder.0.join("rei2.h"), &HEADER[..constants]).expect("the header is written");
    let (status, printed, _) = folder.run(&["crates", "rei2.h"]);
    assert_eq!((status, printed.as_str()), (1, "header: 0 functions, 0 structs, 24 constants, 0 differences\n"));
}
