use super::*;

const REQUEST: &[u8] = b"\x11R 100700000P000002000S\r";
const OTHER_REQUEST: &[u8] = b"\x11R A012000411255001000S\r";
const FIRST: &[u8] = b"\x12R SOR10000700015000002000000P000000000000000000  \r";
const SECOND: &[u8] = b"\x12R SOEA000120004100000101525510001125400+0000000  \r";
const THIRD: &[u8] = b"\x12R SOE10000700022000002000000P000000000000000000  \r";
const DYNAMIC: &[u8] = b"\x13R 1a000150000020004125500301234567898200100S\r";

/// The list without its heading.
fn after_heading(capture: &[u8]) -> String {
    let list = list(capture);
    let rest = list.strip_prefix(HEADING).expect("the heading is first");
    String::from_utf8(rest.to_vec()).expect("text")
}

fn check(frames: &[&[u8]], expected: &str) {
    assert_eq!(after_heading(&frames.concat()), expected);
}

fn request(requester: u8) -> Vec<u8> {
    let mut frame = REQUEST.to_vec();
    frame[crate::request::at::REQUESTER] = requester;
    frame
}

/// A reply to the request of this requester. Its bib tells it apart from others.
fn reply(requester: u8, bib: usize) -> Vec<u8> {
    let mut frame = FIRST.to_vec();
    frame[at::REQUESTER] = requester;
    frame[at::BIB..at::GROUP].copy_from_slice(format!("{bib:05}").as_bytes());
    frame
}

fn with_address(frame: &[u8], address: u8) -> Vec<u8> {
    let mut frame = frame.to_vec();
    frame[at::ADDRESS] = address;
    frame
}

/// The seat and the bib of each row.
fn seats_and_bibs(capture: &[u8]) -> Vec<(usize, usize)> {
    let rest = after_heading(capture);
    let rows = rest.lines().filter(|line| !line.starts_with("end"));
    rows.map(|row| {
        let fields: Vec<&str> = row.split('\t').collect();
        assert_eq!(fields.len(), 13);
        let [seat, bib] = [fields[0], fields[4]].map(|field| field.parse().expect("digits"));
        (seat, bib)
    })
    .collect()
}

#[test]
fn the_example() {
    let capture = [REQUEST, OTHER_REQUEST, FIRST, SECOND, THIRD, SECOND].concat();
    let expected = "\
        seat\tfrom\taddr\tnumber\tbib\tgroup\trun\tphys\tlog\tinfo\ttime\tdate\tstatus\n\
        0\t1\t-\t007\t00015\t000\t002\t000\t000\tP\t0000000000\t00000000\tR\n\
        0\t1\t-\t007\t00022\t000\t002\t000\t000\tP\t0000000000\t00000000\tE\n\
        1\tA\t-\t012\t00041\t000\t001\t015\t255\t1\t0001125400\t+0000000\tE\n\
        end\t2\t3\t0\t1\n";
    assert_eq!(String::from_utf8(list(&capture)).as_deref(), Ok(expected));
}

#[test]
fn without_frames_there_are_the_heading_and_the_counts() {
    for capture in [&b""[..], b"\n", b"\r\r", b"R 1\x10\x14\xff"] {
        check(&[capture], "end\t0\t0\t0\t0\n");
    }
}

#[test]
fn every_count_has_its_place() {
    check(&[REQUEST], "end\t1\t0\t0\t0\n");
    check(&[DYNAMIC], "end\t0\t0\t1\t0\n");
    check(&[FIRST], "end\t0\t0\t0\t1\n");
    check(&[REQUEST, b"\n", DYNAMIC, DYNAMIC], "end\t1\t0\t2\t0\n");
    // A dynamic request opens nothing.
    check(&[DYNAMIC, FIRST], "end\t0\t0\t1\t1\n");
}

#[test]
fn cut_frames_are_refused() {
    check(&[&REQUEST[..23]], "end\t0\t0\t0\t1\n");
    check(&[&DYNAMIC[..1], REQUEST], "end\t1\t0\t0\t1\n");
    check(&[b"\x11\x12\x13"], "end\t0\t0\t0\t3\n");
}

#[test]
fn frames_go_by_their_lead_byte() {
    for (frame, own) in [(REQUEST, 0x11), (DYNAMIC, 0x13)] {
        for lead in [0x11, 0x12, 0x13] {
            let mut other = frame.to_vec();
            other[0] = lead;
            let refused = after_heading(&other) == "end\t0\t0\t0\t1\n";
            assert_eq!(refused, lead != own);
        }
    }
    let mut desk = empty_desk();
    for frame in [&b""[..], b"\r", b"R\r", b"H\r", b"\x14\r"] {
        assert_eq!(serve(&mut desk, frame), Err(Refusal::Kind));
    }
}

#[test]
fn the_longest_capture_has_32768_bytes() {
    let mut capture = REQUEST.to_vec();
    for length in [32_767, 32_768] {
        capture.resize(length, b'\n');
        check(&[&capture], "end\t1\t0\t0\t0\n");
    }
    for length in [32_769, 40_000] {
        capture.resize(length, b'\n');
        assert_eq!(list(&capture), b"input too long\n");
    }
}

#[test]
fn fields_are_as_the_frame_has_them() {
    let request = b"\x11R9z00000000K000000000T\r";
    let clock = b"\x12R9GmRz0000059999199250547240K235959999929022024xy\r";
    let raw = b"\x12R9GmEz0000012345067089123245X ~         ~~    ~~ \r";
    check(
        &[request, clock, raw],
        "0\tz\t9\t000\t59999\t199\t250\t547\t240\tK\t2359599999\t29022024\tR\n\
         0\tz\t9\t000\t12345\t067\t089\t123\t245\tX\t ~        \t ~~    ~\tE\n\
         end\t1\t2\t0\t0\n",
    );
}

#[test]
fn each_address_has_its_rows() {
    let capture: Vec<u8> = b" 0123456789"
        .iter()
        .flat_map(|&address| {
            [request(b'1'), reply(b'1', 15)].map(|frame| with_address(&frame, address))
        })
        .flatten()
        .collect();
    let mut expected = String::new();
    for (seat, shown) in "-0123456789".chars().enumerate() {
        let row = format!("{seat}\t1\t{shown}\t007\t00015\t000\t002\t000\t000\tP");
        expected.push_str(&format!("{row}\t0000000000\t00000000\tR\n"));
    }
    check(&[&capture], &format!("{expected}end\t11\t11\t0\t0\n"));
}

#[test]
fn a_reply_with_another_address_is_a_stray() {
    check(&[REQUEST, &with_address(FIRST, b'0')], "end\t1\t0\t0\t1\n");
    check(&[&with_address(REQUEST, b'0'), FIRST], "end\t1\t0\t0\t1\n");
}

/// The `-` of the column is not an address.
#[test]
fn a_wrong_address_is_refused_in_every_kind() {
    for address in *b"\x1f!-/:" {
        for frame in [REQUEST, FIRST, DYNAMIC] {
            let wrong = with_address(frame, address);
            check(&[OTHER_REQUEST, &wrong], "end\t1\t0\t0\t1\n");
        }
    }
    check(&[&with_address(DYNAMIC, b'9')], "end\t0\t0\t1\t0\n");
}

#[test]
fn the_number_has_three_digits() {
    for number in ["000", "007", "070", "999"] {
        let request = format!("\x11R 1{number}00000P000002000S\r");
        let reply = format!("\x12R SOZ100{number}00015000000000000P0000000000--------  \r");
        let row =
            format!("0\t1\t-\t{number}\t00015\t000\t000\t000\t000\tP\t0000000000\t--------\tZ\n");
        check(
            &[request.as_bytes(), reply.as_bytes()],
            &format!("{row}end\t1\t1\t0\t0\n"),
        );
    }
}

/// Rows are ordered by seat, and within a seat as they came. They are not sorted by bib or by
/// requester.
#[test]
fn rows_are_by_seat_and_in_order() {
    let mut capture = [request(b'z'), request(b'A'), request(b'1')].concat();
    for (requester, bib) in [(b'1', 9), (b'A', 30), (b'z', 5), (b'A', 10), (b'z', 4)] {
        capture.extend(reply(requester, bib));
    }
    // A seat that is opened late, and a seat without records.
    capture.extend(
        [
            request(b'0'),
            request(b'2'),
            reply(b'2', 1),
            reply(b'A', 20),
        ]
        .concat(),
    );
    let expected = [(0, 5), (0, 4), (1, 30), (1, 10), (1, 20), (2, 9), (4, 1)];
    assert_eq!(seats_and_bibs(&capture), expected);
}

#[test]
fn two_hundred_and_fifty_six_replies_are_collected() {
    for (replies, refused) in [(255, 0), (256, 0), (257, 1)] {
        let mut capture = request(b'1');
        for bib in (1..=replies).rev() {
            capture.extend(reply(b'1', bib));
        }
        let collected = replies - refused;
        let counts = format!("end\t1\t{collected}\t0\t{refused}\n");
        assert!(after_heading(&capture).ends_with(&counts));
        let expected: Vec<(usize, usize)> = (1..=replies)
            .rev()
            .take(collected)
            .map(|bib| (0, bib))
            .collect();
        assert_eq!(seats_and_bibs(&capture), expected);
    }
}

#[test]
fn seventeen_requests() {
    let requesters = b'A'..=b'Q';
    let requests: Vec<u8> = requesters.clone().flat_map(request).collect();
    check(&[&requests], "end\t16\t0\t0\t1\n");
    let replies: Vec<u8> = requesters.rev().flat_map(|code| reply(code, 1)).collect();
    let capture = [requests, replies].concat();
    let expected: Vec<(usize, usize)> = (0..16).map(|seat| (seat, 1)).collect();
    assert_eq!(seats_and_bibs(&capture), expected);
    let list = after_heading(&capture);
    assert!(list.contains("\n15\tP\t-\t007\t00001\t"));
    assert!(list.ends_with("end\t16\t16\t0\t2\n"));
}

/// The desk has the first two counts too, because nothing leaves it.
#[test]
fn the_desk_has_what_was_opened_and_collected() {
    let frames = [REQUEST, FIRST, REQUEST, SECOND, OTHER_REQUEST, SECOND];
    let played = Played::of(&[&frames.concat()[..], THIRD, FIRST, &DYNAMIC[..9]].concat());
    assert_eq!(played.count(Fate::Opened), 2);
    assert_eq!(played.desk.seats_in_use(), 2);
    assert_eq!(played.count(Fate::Collected), 3);
    assert_eq!(played.desk.count, 3);
    assert_eq!(played.count(Fate::Refused), 4);
}
