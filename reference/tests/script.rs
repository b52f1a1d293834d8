//! linkplay.md: the format of scripts and of what is written.

mod common;

use common::*;
use reference::play::Lent;

#[test]
fn a_send_from_its_copy_to_its_acknowledgement() {
    plays(
        "send 00 07\nticks 1600\nbyte 06\n",
        &[
            "send at=0 rx=nothing tx=copy:1 session=nothing reset=none line=01030007FB up=-",
            "byte at=1600 rx=nothing tx=acked:1 session=nothing reset=none line=- up=-",
        ],
    );
}

#[test]
fn every_word_of_the_four_parts() {
    plays(
        "session 07\nbytes 06\nbytes 01 03 01 07 FA\nbytes 01 03 01 07 fa\nbytes 01 03 02 07 F9\n\
         byte 55\nbytes 01 00\nbytes 01 03 00 07 00\nbyte 15\n",
        &[
            "session at=0 rx=nothing tx=copy:1 session=nothing reset=none line=01030007FB up=-",
            "bytes at=0 taken=1 rx=nothing tx=acked:1 session=waiting reset=none line=- up=-",
            "bytes at=0 taken=5 rx=frame tx=nothing session=response:1 reset=none line=06 up=0107",
            "bytes at=0 taken=5 rx=strayresponse tx=nothing session=nothing reset=none line=06 up=0107",
            "bytes at=0 taken=5 rx=reserved tx=nothing session=nothing reset=none line=06 up=-",
            "byte at=0 rx=skipped tx=nothing session=nothing reset=none line=- up=-",
            "bytes at=0 taken=2 rx=badlen tx=nothing session=nothing reset=none line=- up=-",
            "bytes at=0 taken=5 rx=badsum tx=nothing session=nothing reset=none line=15 up=-",
            "byte at=0 rx=nothing tx=stray session=nothing reset=none line=- up=-",
        ],
    );
}

#[test]
fn ends_restarts_and_the_count_of_ticks() {
    plays(
        "openspaced\nsession 07\nticks 9704\nsession 07\nbyte 06\nticks 5000\nsession 07\nrestart\n\
         send 01 07\nrestart\nbyte 01\nsend 00 07\nticks 1501\nrestart\nrestart\n\
         bytes 01 03 00 07 00\nbytes 01 03 00 07 00\nbytes 01 03 00 07 00\n",
        &[
            "session at=0 rx=nothing tx=copy:1 session=nothing reset=none line=01030007FB up=-",
            "tick at=1601 rx=nothing tx=backoff:100 session=nothing reset=none line=- up=-",
            "tick at=1701 rx=nothing tx=copy:2 session=nothing reset=none line=01030007FB up=-",
            "tick at=3302 rx=nothing tx=backoff:1100 session=nothing reset=none line=- up=-",
            "tick at=4402 rx=nothing tx=copy:3 session=nothing reset=none line=01030007FB up=-",
            "tick at=6003 rx=nothing tx=backoff:2100 session=nothing reset=none line=- up=-",
            "tick at=8103 rx=nothing tx=copy:4 session=nothing reset=none line=01030007FB up=-",
            "tick at=9704 rx=nothing tx=failed:4 session=notsent:4 reset=delivery line=- up=-",
            "session at=9704 rx=nothing tx=copy:1 session=nothing reset=none line=01030007FB up=-",
            "byte at=9704 rx=nothing tx=acked:1 session=waiting reset=none line=- up=-",
            "tick at=14704 rx=nothing tx=nothing session=noresponse:1 reset=none line=- up=-",
            "session at=14704 rx=nothing tx=copy:1 session=nothing reset=none line=01030007FB up=-",
            "restart at=14704 rx=nothing tx=nothing session=abandoned reset=none line=15 up=-",
            "send at=14704 rx=nothing tx=copy:1 session=nothing reset=none line=01030107FA up=-",
            "restart at=14704 rx=nothing tx=abandoned session=nothing reset=none line=15 up=-",
            "byte at=14704 rx=nothing tx=nothing session=nothing reset=none line=- up=-",
            "send at=14704 rx=nothing tx=due session=nothing reset=none line=- up=-",
            "tick at=16205 rx=abort tx=copy:1 session=nothing reset=none line=01030007FB up=-",
            "restart at=16205 rx=nothing tx=abandoned session=nothing reset=none line=15 up=-",
            "restart at=16205 rx=nothing tx=nothing session=nothing reset=none line=15 up=-",
            "bytes at=16205 taken=5 rx=badsum tx=nothing session=nothing reset=none line=15 up=-",
            "bytes at=16205 taken=5 rx=badsum tx=nothing session=nothing reset=none line=15 up=-",
            "bytes at=16205 taken=5 rx=badsum tx=nothing session=nothing reset=sums line=15 up=-",
        ],
    );
}

/// A play begins as after `open`.
#[test]
fn a_session_that_is_not_sent_in_the_new_mode() {
    for begin in ["", "open\n", "opensooner\n"] {
        plays(
            &format!("{begin}session 07\nticks 6903\ntick\n"),
            &[
                "session at=0 rx=nothing tx=copy:1 session=nothing reset=none line=01030007FB up=-",
                "tick at=1601 rx=nothing tx=copy:2 session=nothing reset=none line=01030007FB up=-",
                "tick at=3202 rx=nothing tx=copy:3 session=nothing reset=none line=01030007FB up=-",
                "tick at=4803 rx=nothing tx=backoff:500 session=nothing reset=none line=- up=-",
                "tick at=5303 rx=nothing tx=copy:4 session=nothing reset=none line=01030007FB up=-",
                "tick at=6904 rx=nothing tx=failed:4 session=notsent:4 reset=delivery line=- up=-",
            ],
        );
    }
}

#[test]
fn a_tick_has_a_line_and_of_ticks_those_that_say_something() {
    let nothing = "tick at=1 rx=nothing tx=nothing session=nothing reset=none line=- up=-";
    plays("tick\n", &[nothing]);
    plays("ticks 1\n", &[]);
    plays("ticks 0\n", &[]);
    plays("ticks 000000000\n", &[]);
    plays(
        "ticks 3\ntick\n",
        &["tick at=4 rx=nothing tx=nothing session=nothing reset=none line=- up=-"],
    );
}

#[test]
fn refused_ticks_have_a_line_each_and_are_not_counted() {
    plays(
        "tick\nroom 257 254\nticks 2\ntick\nroom 258 254\ntick\n",
        &[
            "tick at=1 rx=nothing tx=nothing session=nothing reset=none line=- up=-",
            "tick at=1 refused=1",
            "tick at=1 refused=1",
            "tick at=1 refused=1",
            "tick at=2 rx=nothing tx=nothing session=nothing reset=none line=- up=-",
        ],
    );
}

#[test]
fn rooms_hold_until_changed_and_refuse_every_call() {
    for room in ["257 254", "258 253", "0 0", "600 0", "0 600"] {
        let script = format!(
            "room {room}\nsend 02 07\nsession 07\nbyte 06\nbytes 06\nbytes\ntick\nrestart\nroom 600 600\nbytes\n"
        );
        plays(
            &script,
            &[
                "send at=0 refused=1",
                "session at=0 refused=1",
                "byte at=0 refused=1",
                "bytes at=0 refused=1",
                "bytes at=0 refused=1",
                "tick at=0 refused=1",
                "restart at=0 refused=1",
                "bytes at=0 taken=0 rx=nothing tx=nothing session=nothing reset=none line=- up=-",
            ],
        );
    }
}

#[test]
fn refusals_of_sends_by_number() {
    let long = " 00".repeat(253);
    let script = format!(
        "send 02 07\nsend 01 07{long}\nsession 07{long}\nsend 00 07\nsend 02 07\nsession 07{long}\n"
    );
    plays(
        &script,
        &[
            "send at=0 refused=3",
            "send at=0 refused=4",
            "session at=0 refused=4",
            "send at=0 rx=nothing tx=copy:1 session=nothing reset=none line=01030007FB up=-",
            "send at=0 refused=2",
            "session at=0 refused=2",
        ],
    );
}

#[test]
fn bytes_that_a_run_did_not_take_are_not_given() {
    plays(
        "bytes 06 01\nbyte 55\nbytes 55 01\nbyte 02\n",
        &[
            "bytes at=0 taken=1 rx=nothing tx=stray session=nothing reset=none line=- up=-",
            "byte at=0 rx=skipped tx=nothing session=nothing reset=none line=- up=-",
            "bytes at=0 taken=2 rx=nothing tx=nothing session=nothing reset=none line=- up=-",
            "byte at=0 rx=badlen tx=nothing session=nothing reset=none line=- up=-",
        ],
    );
}

#[test]
fn frames_built_and_read() {
    plays(
        "build 00 07\nbuildroom 5 00 07\nbuildroom 4 00 07\nbuildroom 600 01 02 aB\nbuild 02 07\n\
         read 01 03 00 07 FB\nread 01 04 01 02 ab 53\nread\nread 00\nread 01\nread 01 02\n\
         read 01 03\nread 01 03 00 07 FB 00\nread 01 03 00 07 FA\nread 01 03 02 07 F9\n",
        &[
            "build ok 01030007FB",
            "build ok 01030007FB",
            "build refused=1",
            "build ok 01040102AB53",
            "build refused=3",
            "read ok type=00 command=07 parameters=-",
            "read ok type=01 command=02 parameters=AB",
            "read refused=5",
            "read refused=6",
            "read refused=5",
            "read refused=7",
            "read refused=5",
            "read refused=8",
            "read refused=9",
            "read refused=3",
        ],
    );
    let long = " 00".repeat(253);
    plays(&format!("build 00 07{long}\n"), &["build refused=4"]);
}

#[test]
fn bodies_read_and_written() {
    let mask = " 00".repeat(28);
    let script = format!(
        "capabilities 01 07 01 02 03 04 05 06 07 08\n\
         capabilities 01 07 01 02 03 04 05 06 07 08 81 01\n\
         capabilities\n\
         nodes 01 02 05 08 1D 05{mask} 05 01\n\
         nodes 01 02 05 08 00 05 01\n\
         nodesroom 231 01 02 05 08 00 05 01\n\
         nodesroom 232 01 02 05 08 1C 05 01\n\
         timeouts 1500 150\n\
         timeoutsroom 7 0 2550\n\
         timeoutsroom 6 0 2550\n\
         timeoutsroom 0 0 2560\n\
         timeouts 1505 0\n\
         timeoutsres 01 06 96 0F\n\
         timeoutsres 00 06 96 0F\n"
    );
    plays(
        &script,
        &[
            "capabilities ok fixed=0102030405060708 count=0 functions=-",
            "capabilities ok fixed=0102030405060708 count=3 functions=010809",
            "capabilities refused=10",
            "nodes ok version=05 capabilities=08 nodes=0103 chip=05 chipversion=01",
            "nodes ok version=05 capabilities=08 nodes=- chip=05 chipversion=01",
            "nodes refused=1",
            "nodes refused=10",
            "timeouts ok 01050006960F65",
            "timeouts ok 0105000600FF03",
            "timeouts refused=1",
            "timeouts refused=11",
            "timeouts refused=11",
            "timeoutsres ok 1500 150",
            "timeoutsres refused=10",
        ],
    );
}

#[test]
fn empty_lines_and_comments_are_passed_over() {
    plays("", &[]);
    plays("\n\n# tick\n#\n#tick\n", &[]);
    // # counts only as the first byte.
    plays(" # tick\ntick # one\n", &["error", "error"]);
}

#[test]
fn a_last_line_without_newline_counts() {
    let line = "byte at=0 rx=skipped tx=nothing session=nothing reset=none line=- up=-";
    plays("byte 55", &[line]);
    plays("byte 55\n", &[line]);
    plays("byte 55\nbyte 5", &[line, "error"]);
}

/// An unknown word, a word missing or left over, two spaces, a number out of
/// form.
#[rustfmt::skip]
const OUT_OF_FORM: &[&str] = &[
    "tock", "TICK", "tick 1", "tick ", " tick", " ", "tick\r", "\r", "tick\t", "ticks",
    "ticks ", "ticks x", "ticks -1", "ticks +1", "ticks 1000000000", "ticks 0000000001",
    "ticks 1 1", "ticks 1 ", "byte", "byte 6", "byte 006", "byte 0x06", "byte 0g", "byte 06 06",
    "byte  06", "byte 06 ", "byte +6", "bytes ", "bytes 6", "bytes 55  55", "bytes 55 ", "send",
    "send 00", "send 00 7", "send 00 07 ", "session", "session 7", "restart 1", "restart ",
    "room", "room 258", "room 601 254", "room 258 601", "room 258 254 1", "room 0000000000 0",
    "room 0 0 ", "build", "build 00", "buildroom 5 00", "buildroom 601 00 07", "read ",
    "read 1", "capabilities ", "nodes ", "nodesroom", "nodesroom 601", "nodesroom 1000000000",
    "timeouts", "timeouts 10", "timeouts 10 10 10", "timeouts 1000000000 10",
    "timeoutsroom 7 10", "timeoutsroom 601 10 10", "timeoutsres ", "timeoutsres 0x", "\u{e9}",
    "byte \u{b2}0", "linecount", "open 1", "open ", " open", "Open", "opened", "opensooner x",
    "openspaced 0", "openspaced ", "open sooner",
];

#[test]
fn every_other_line_is_an_error_and_changes_nothing() {
    for line in OUT_OF_FORM {
        let script = format!("byte 01\n{line}\nbyte 02\n");
        plays(
            &script,
            &[
                "byte at=0 rx=nothing tx=nothing session=nothing reset=none line=- up=-",
                "error",
                "byte at=0 rx=badlen tx=nothing session=nothing reset=none line=- up=-",
            ],
        );
    }
}

#[test]
fn numbers_have_1_to_9_digits_and_may_begin_with_0() {
    plays(
        "room 000000258 000000254\nbytes\ntimeouts 000000010 0\ntimeouts 999999999 0\nnodesroom 000000231\n",
        &[
            "bytes at=0 taken=0 rx=nothing tx=nothing session=nothing reset=none line=- up=-",
            "timeouts ok 010500060100FD",
            "timeouts refused=11",
            "nodes refused=1",
        ],
    );
}

#[test]
fn lines_of_4096_and_4097_bytes() {
    // read and 1,364 bytes: 4 + 3 * 1,364 = 4,096.
    let most = format!("read{}", " 02".repeat(1_364));
    assert_eq!(most.len(), 4_096);
    plays(
        &format!("{most}\ntimeouts 0 5\n"),
        &["read refused=6", "timeouts refused=11"],
    );
    plays(&most, &["read refused=6"]);
    // One byte more, in form but for its size: 5 + 3 * 1,364.
    let over = format!("bytes{}", " 02".repeat(1_364));
    assert_eq!(over.len(), 4_097);
    plays(
        &format!("{over}\ntimeouts 0 5\n"),
        &["error", "timeouts refused=11"],
    );
    plays(&over, &["error"]);
    // Far more is still one error.
    let far = "bytes 02 ".repeat(100_000);
    plays(
        &format!("{far}\ntimeouts 0 5\n"),
        &["error", "timeouts refused=11"],
    );
}

#[test]
fn a_comment_of_4096_bytes_is_passed_over() {
    let comment = "#".repeat(4_096);
    plays(&format!("{comment}\n"), &[]);
}

#[test]
fn a_run_of_1363_bytes_fits_in_a_line() {
    let script = format!("bytes{}\n", " 02".repeat(1_363));
    plays(
        &script,
        &["bytes at=0 taken=1363 rx=skipped tx=nothing session=nothing reset=none line=- up=-"],
    );
}

#[test]
fn a_byte_written_beyond_those_reported_is_seen() {
    for size in [1, 7, 258, 600] {
        for place in [0, size / 2, size - 1] {
            let mut lent = Lent::new(size);
            assert!(!lent.spilled(0));
            let byte = &mut lent.lend()[place];
            *byte = !*byte;
            // Seen if it lies beyond what is reported, and only then.
            assert!(lent.spilled(0));
            assert!(lent.spilled(place));
            assert!(!lent.spilled(place + 1));
            lent.restore(place + 1);
            assert!(!lent.spilled(0));
        }
    }
}

#[test]
fn a_spill_is_cleared_for_the_next_call() {
    let mut lent = Lent::new(10);
    lent.lend()[9] ^= 0xFF;
    lent.lend()[2] ^= 0xFF;
    assert!(lent.spilled(3));
    lent.restore(3);
    assert!(!lent.spilled(0));
}
