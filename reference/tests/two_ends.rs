//! linkplay.md, P5: `module` before a call, and `pass` between the two ends.

mod common;

use common::*;

/// A line of a call, its parts that say nothing left out of the words.
fn line(head: &str, rx: &str, tx: &str, out: &str, up: &str) -> String {
    format!("{head} rx={rx} tx={tx} session=nothing reset=none line={out} up={up}")
}

/// `module` stands before the output of every call.
#[test]
fn every_call_of_the_stand_in() {
    plays(
        "module send 00 02\nmodule bytes 01 03 00 07 FB\nmodule byte 06\nmodule session 07\n\
         module bytes 55 01 03 01 07 FA 06\nmodule bytes 06\nmodule tick\nmodule ticks 4999\n\
         module ticks 2\nmodule restart\nmodule bytes\nmodule send 02 07\n",
        &[
            "module send at=0 rx=nothing tx=copy:1 session=nothing reset=none line=01030002FE up=-",
            "module bytes at=0 taken=5 rx=cancelled tx=nothing session=nothing reset=none line=18 up=-",
            "module byte at=0 rx=nothing tx=acked:1 session=nothing reset=none line=- up=-",
            "module session at=0 rx=nothing tx=copy:1 session=nothing reset=none line=01030007FB up=-",
            "module bytes at=0 taken=6 rx=cancelled tx=nothing session=nothing reset=none line=18 up=-",
            "module bytes at=0 taken=1 rx=nothing tx=acked:1 session=waiting reset=none line=- up=-",
            "module tick at=1 rx=nothing tx=nothing session=nothing reset=none line=- up=-",
            "module tick at=5000 rx=nothing tx=nothing session=noresponse:1 reset=none line=- up=-",
            "module restart at=5002 rx=nothing tx=nothing session=nothing reset=none line=15 up=-",
            "module bytes at=5002 taken=0 rx=nothing tx=nothing session=nothing reset=none line=- up=-",
            "module send at=5002 refused=3",
        ],
    );
}

#[test]
fn each_end_has_its_own_link_and_its_own_ticks() {
    plays(
        "send 00 07\nmodule ticks 30\ntick\nmodule tick\nbyte 06\nmodule byte 06\nmodule restart\ntick\n\
         module byte 01\nbyte 55\nmodule byte 00\n",
        &[
            &line("send at=0", "nothing", "copy:1", "01030007FB", "-"),
            &line("tick at=1", "nothing", "nothing", "-", "-"),
            &line("module tick at=31", "nothing", "nothing", "-", "-"),
            &line("byte at=1", "nothing", "acked:1", "-", "-"),
            &line("module byte at=31", "nothing", "stray", "-", "-"),
            &line("module restart at=31", "nothing", "nothing", "15", "-"),
            &line("tick at=2", "nothing", "nothing", "-", "-"),
            &line("module byte at=31", "nothing", "nothing", "-", "-"),
            &line("byte at=2", "skipped", "nothing", "-", "-"),
            &line("module byte at=31", "badlen", "nothing", "-", "-"),
        ],
    );
}

#[test]
fn the_room_holds_for_both() {
    plays(
        "room 257 254\nbyte 06\nmodule byte 06\nmodule send 02 07\nmodule session 07\nmodule bytes\n\
         module ticks 2\nmodule tick\nmodule restart\nroom 258 254\nmodule tick\n",
        &[
            "byte at=0 refused=1",
            "module byte at=0 refused=1",
            "module send at=0 refused=1",
            "module session at=0 refused=1",
            "module bytes at=0 refused=1",
            "module tick at=0 refused=1",
            "module tick at=0 refused=1",
            "module tick at=0 refused=1",
            "module restart at=0 refused=1",
            "module tick at=1 rx=nothing tx=nothing session=nothing reset=none line=- up=-",
        ],
    );
}

/// `module` alone, twice, before any other word, or before a call out of form;
/// `pass` with a word behind it; writers with words missing or left over.
#[rustfmt::skip]
const OUT_OF_FORM: &[&str] = &[
    "module", "module ", " module tick", "module  tick", "module tick ", "module module tick",
    "module module", "module room 258 254", "module pass", "module build 00 07",
    "module buildroom 9 00 07", "module read", "module capabilities", "module nodes",
    "module nodesroom 232", "module timeouts 0 0", "module timeoutsroom 7 0 0",
    "module timeoutsres", "module writetimeouts 0 0", "module writecapabilities 0 0 0 0 0 0 0 0",
    "module # tick", "module tock", "Module tick", "MODULE tick", "module Tick", "modules tick",
    "module\ttick", "module tick\r", "module tick 1", "module ticks", "module ticks x",
    "module ticks 1 1", "module ticks 1000000000", "module byte", "module byte 6",
    "module byte 06 06", "module bytes ", "module bytes 6", "module send", "module send 00",
    "module session", "module restart 1", "tick module", "pass 1", "pass ", " pass", "pass pass",
    "PASS", "passes", "pass\r", "pass 06",
    "writecapabilities", "writecapabilities 01 02 03 04 05 06 07",
    "writecapabilities 01 02 03 04 05 06 07 8", "writecapabilities 01 02 03 04 05 06 07 08 ",
    "writecapabilitiesroom", "writecapabilitiesroom 254 01 02 03 04 05 06 07",
    "writecapabilitiesroom 601 01 02 03 04 05 06 07 08", "writenodes", "writenodes 05 00 05",
    "writenodes 05 00 05 00 1", "writenodesroom 254 05 00 05", "writenodesroom 601 05 00 05 00",
    "writetimeouts", "writetimeouts 10", "writetimeouts 10 10 10", "writetimeouts 1000000000 0",
    "writetimeoutsroom 254 10", "writetimeoutsroom 601 10 10", "writetimeoutsroom 254 10 10 10",
    "cancelled",
];

#[test]
fn every_other_line_is_an_error_and_changes_nothing() {
    for malformed in OUT_OF_FORM {
        let script = format!("restart\nmodule byte 01\n{malformed}\nmodule byte 02\npass\n");
        plays(
            &script,
            &[
                &line("restart at=0", "nothing", "nothing", "15", "-"),
                &line("module byte at=0", "nothing", "nothing", "-", "-"),
                "error",
                &line("module byte at=0", "badlen", "nothing", "-", "-"),
                &line("module bytes at=0 taken=1", "nothing", "stray", "-", "-"),
            ],
        );
    }
}

#[test]
fn a_line_with_module_has_at_most_4096_bytes() {
    // 12 + 3 * 1,361 = 4,095 bytes; a word more are 4,098.
    let most = format!("module bytes{}", " 02".repeat(1_361));
    assert_eq!(most.len(), 4_095);
    plays(
        &most,
        &[&line(
            "module bytes at=0 taken=1361",
            "skipped",
            "nothing",
            "-",
            "-",
        )],
    );
    plays(&format!("{most} 02"), &["error"]);
}

#[test]
fn nothing_to_give_prints_nothing() {
    plays("pass\npass\nticks 9\nmodule ticks 9\npass\n", &[]);
    // Calls that put out nothing give nothing.
    plays(
        "byte 55\npass\nmodule byte 55\npass\n",
        &[
            &line("byte at=0", "skipped", "nothing", "-", "-"),
            &line("module byte at=0", "skipped", "nothing", "-", "-"),
        ],
    );
}

/// The host's bytes first; answers wait for the next pass.
#[test]
fn a_request_goes_over_and_its_ack_comes_back() {
    plays(
        "session 0b 08\npass\npass\npass\nmodule send 01 0b 08 01\npass\npass\npass\n",
        &[
            "session at=0 rx=nothing tx=copy:1 session=nothing reset=none line=0104000B08F8 up=-",
            "module bytes at=0 taken=6 rx=frame tx=nothing session=nothing reset=none line=06 up=000B08",
            "bytes at=0 taken=1 rx=nothing tx=acked:1 session=waiting reset=none line=- up=-",
            "module send at=0 rx=nothing tx=copy:1 session=nothing reset=none line=0105010B0801F9 up=-",
            "bytes at=0 taken=7 rx=frame tx=nothing session=response:1 reset=none line=06 up=010B0801",
            "module bytes at=0 taken=1 rx=nothing tx=acked:1 session=nothing reset=none line=- up=-",
        ],
    );
}

/// Both send before either is given anything.
#[test]
fn both_send_at_once() {
    plays(
        "send 00 07\nmodule send 00 02\npass\npass\npass\n",
        &[
            &line("send at=0", "nothing", "copy:1", "01030007FB", "-"),
            &line("module send at=0", "nothing", "copy:1", "01030002FE", "-"),
            &line(
                "module bytes at=0 taken=5",
                "cancelled",
                "nothing",
                "18",
                "-",
            ),
            &line("bytes at=0 taken=5", "frame", "nothing", "06", "0002"),
            &line("module bytes at=0 taken=1", "nothing", "acked:1", "-", "-"),
            &line("bytes at=0 taken=1", "nothing", "backoff:100", "-", "-"),
        ],
    );
}

#[test]
fn all_that_was_put_out_goes_in_runs_until_it_is_taken() {
    // Two restarts and a copy: three runs, since each says something.
    plays(
        "restart\nrestart\nsend 00 07\npass\npass\n",
        &[
            &line("restart at=0", "nothing", "nothing", "15", "-"),
            &line("restart at=0", "nothing", "nothing", "15", "-"),
            &line("send at=0", "nothing", "copy:1", "01030007FB", "-"),
            &line("module bytes at=0 taken=1", "nothing", "stray", "-", "-"),
            &line("module bytes at=0 taken=1", "nothing", "stray", "-", "-"),
            &line(
                "module bytes at=0 taken=5",
                "frame",
                "nothing",
                "06",
                "0007",
            ),
            &line("bytes at=0 taken=1", "nothing", "acked:1", "-", "-"),
        ],
    );
}

#[test]
fn what_each_call_puts_out_is_given() {
    // byte, bytes, tick, each tick of ticks, restart, send, session; of both.
    plays(
        "openspaced\nbyte 01\nsend 00 07\nticks 1501\nticks 1701\nrestart\npass\n",
        &[
            &line("byte at=0", "nothing", "nothing", "-", "-"),
            &line("send at=0", "nothing", "due", "-", "-"),
            &line("tick at=1501", "abort", "copy:1", "01030007FB", "-"),
            &line("tick at=3102", "nothing", "backoff:100", "-", "-"),
            &line("tick at=3202", "nothing", "copy:2", "01030007FB", "-"),
            &line("restart at=3202", "nothing", "abandoned", "15", "-"),
            &line(
                "module bytes at=0 taken=5",
                "frame",
                "nothing",
                "06",
                "0007",
            ),
            &line(
                "module bytes at=0 taken=5",
                "frame",
                "nothing",
                "06",
                "0007",
            ),
            &line("module bytes at=0 taken=1", "nothing", "stray", "-", "-"),
        ],
    );
    plays(
        "module bytes 01 03 00 07 FB\nmodule session 02\nmodule byte 15\nmodule ticks 99\nmodule tick\npass\n",
        &[
            &line("module bytes at=0 taken=5", "frame", "nothing", "06", "0007"),
            &line("module session at=0", "nothing", "copy:1", "01030002FE", "-"),
            &line("module byte at=0", "nothing", "backoff:100", "-", "-"),
            &line("module tick at=100", "nothing", "copy:2", "01030002FE", "-"),
            &line("bytes at=0 taken=1", "nothing", "stray", "-", "-"),
            &line("bytes at=0 taken=5", "frame", "nothing", "06", "0002"),
            &line("bytes at=0 taken=5", "frame", "nothing", "06", "0002"),
        ],
    );
}

/// In the new mode the tick of the loss puts out the next copy.
#[test]
fn what_the_tick_of_a_loss_puts_out_is_given() {
    plays(
        "send 00 07\nticks 1601\nmodule send 00 02\nmodule ticks 1601\npass\n",
        &[
            &line("send at=0", "nothing", "copy:1", "01030007FB", "-"),
            &line("tick at=1601", "nothing", "copy:2", "01030007FB", "-"),
            &line("module send at=0", "nothing", "copy:1", "01030002FE", "-"),
            &line(
                "module tick at=1601",
                "nothing",
                "copy:2",
                "01030002FE",
                "-",
            ),
            &line(
                "module bytes at=1601 taken=5",
                "cancelled",
                "nothing",
                "18",
                "-",
            ),
            &line(
                "module bytes at=1601 taken=5",
                "cancelled",
                "nothing",
                "18",
                "-",
            ),
            &line("bytes at=1601 taken=5", "frame", "nothing", "06", "0002"),
            &line("bytes at=1601 taken=5", "frame", "nothing", "06", "0002"),
        ],
    );
}

#[test]
fn a_refused_call_puts_out_nothing() {
    plays(
        "room 0 0\nrestart\nmodule restart\nroom 258 254\npass\n",
        &["restart at=0 refused=1", "module restart at=0 refused=1"],
    );
}

#[test]
fn a_refused_run_drops_the_rest() {
    plays(
        "restart\nrestart\nsend 00 07\nmodule restart\nmodule restart\nroom 258 253\npass\nroom 258 254\npass\n",
        &[
            &line("restart at=0", "nothing", "nothing", "15", "-"),
            &line("restart at=0", "nothing", "nothing", "15", "-"),
            &line("send at=0", "nothing", "copy:1", "01030007FB", "-"),
            &line("module restart at=0", "nothing", "nothing", "15", "-"),
            &line("module restart at=0", "nothing", "nothing", "15", "-"),
            "module bytes at=0 refused=1",
            "bytes at=0 refused=1",
        ],
    );
}

/// Copies of 257 bytes from one end, with a restart before each, and what they
/// print.
fn copies(end: &str, number: usize) -> (String, Vec<String>) {
    let (mut script, mut lines) = (String::new(), Vec::new());
    for before in 0..number {
        script += &format!("{end}restart\n{end}send 00 07{}\n", " 55".repeat(252));
        let tx = if before == 0 { "nothing" } else { "abandoned" };
        lines.push(line(
            &format!("{end}restart at=0"),
            "nothing",
            tx,
            "15",
            "-",
        ));
        // FF xor Length FF xor 00 xor 07, and 55 an even number of times.
        let frame = format!("01FF0007{}07", "55".repeat(252));
        lines.push(line(
            &format!("{end}send at=0"),
            "nothing",
            "copy:1",
            &frame,
            "-",
        ));
    }
    (script, lines)
}

/// What the other end prints for them.
fn given(other: &str, number: usize) -> Vec<String> {
    let mut lines = Vec::new();
    for _ in 0..number {
        let head = format!("{other}bytes at=0 taken=1");
        lines.push(line(&head, "nothing", "stray", "-", "-"));
        let head = format!("{other}bytes at=0 taken=257");
        let up = format!("0007{}", "55".repeat(252));
        lines.push(line(&head, "frame", "nothing", "06", &up));
    }
    lines
}

/// Plays a script and compares line by line, since these are long.
fn plays_all(script: &str, expected: &[String]) {
    for (place, (line, other)) in played(script).iter().zip(expected).enumerate() {
        assert_eq!(line, other, "line {place}");
    }
    assert_eq!(played(script).len(), expected.len());
}

/// What does not fit whole is not kept, from either end; what fits behind it
/// is. It is told once.
#[test]
fn a_copy_that_does_not_fit_is_lost() {
    for (end, other, back) in [("", "module ", ""), ("module ", "", "module ")] {
        // Three times 258 bytes are 774. A restart makes 775, and the fourth
        // copy would make 1,032. The restart behind it is the 776th.
        let (mut script, mut expected) = copies(end, 4);
        script += &format!("{end}restart\npass\npass\npass\n");
        expected.push(line(
            &format!("{end}restart at=0"),
            "nothing",
            "abandoned",
            "15",
            "-",
        ));
        expected.push("pass lost".to_string());
        expected.extend(given(other, 3));
        let stray = line(
            &format!("{other}bytes at=0 taken=1"),
            "nothing",
            "stray",
            "-",
            "-",
        );
        expected.extend([stray.clone(), stray]);
        // The three ACKs, of which none is awaited; then nothing is left.
        let stray = line(
            &format!("{back}bytes at=0 taken=1"),
            "nothing",
            "stray",
            "-",
            "-",
        );
        expected.extend([stray.clone(), stray.clone(), stray]);
        plays_all(&script, &expected);
    }
}

/// Bytes that bring what an end has put out to 1,024: three copies with their
/// restarts are 774, a restart and a copy of 249 bytes the rest.
fn filled(end: &str) -> (String, Vec<String>) {
    let (mut script, mut lines) = copies(end, 3);
    script += &format!("{end}restart\n{end}send 00 07{}\n", " 55".repeat(244));
    lines.push(line(
        &format!("{end}restart at=0"),
        "nothing",
        "abandoned",
        "15",
        "-",
    ));
    // FF xor Length F7 xor 00 xor 07.
    let frame = format!("01F70007{}0F", "55".repeat(244));
    lines.push(line(
        &format!("{end}send at=0"),
        "nothing",
        "copy:1",
        &frame,
        "-",
    ));
    (script, lines)
}

fn given_filled(other: &str) -> Vec<String> {
    let mut lines = given(other, 3);
    let head = format!("{other}bytes at=0 taken=1");
    lines.push(line(&head, "nothing", "stray", "-", "-"));
    let head = format!("{other}bytes at=0 taken=249");
    let up = format!("0007{}", "55".repeat(244));
    lines.push(line(&head, "frame", "nothing", "06", &up));
    lines
}

#[test]
fn as_many_as_1024_bytes_are_kept_and_no_more() {
    for (end, other) in [("", "module "), ("module ", "")] {
        let (script, lines) = filled(end);
        let whole = [lines.clone(), given_filled(other)].concat();
        plays_all(&format!("{script}pass\n"), &whole);
        // One byte more is lost.
        let over = format!("{script}{end}restart\npass\n");
        let last = line(
            &format!("{end}restart at=0"),
            "nothing",
            "abandoned",
            "15",
            "-",
        );
        let lost = vec![last, "pass lost".to_string()];
        plays_all(&over, &[lines, lost, given_filled(other)].concat());
    }
}

/// Both ends lose something: it is said once, before all other lines.
#[test]
fn both_directions_lost_is_said_once() {
    let (host, host_lines) = filled("");
    let (module, module_lines) = filled("module ");
    let script = format!("{host}{module}restart\nmodule restart\npass\n");
    let restarts = vec![
        line("restart at=0", "nothing", "abandoned", "15", "-"),
        line("module restart at=0", "nothing", "abandoned", "15", "-"),
        "pass lost".to_string(),
    ];
    let expected = [
        host_lines,
        module_lines,
        restarts,
        given_filled("module "),
        given_filled(""),
    ];
    plays_all(&script, &expected.concat());
}

/// A refused run drops what was kept, and the loss is said all the same.
#[test]
fn a_loss_is_said_before_a_refused_run() {
    let (script, lines) = filled("");
    let script = format!("{script}restart\nroom 0 0\npass\npass\nroom 258 254\npass\n");
    let rest = vec![
        line("restart at=0", "nothing", "abandoned", "15", "-"),
        "pass lost".to_string(),
        "module bytes at=0 refused=1".to_string(),
    ];
    plays_all(&script, &[lines, rest].concat());
}

/// An old script prints what it printed: what the host puts out is kept for a
/// pass that never comes, and nothing is said of it.
#[test]
fn without_pass_nothing_is_said_of_what_is_lost() {
    let (script, lines) = copies("", 9);
    plays_all(&script, &lines);
}
