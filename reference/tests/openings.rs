//! linkplay.md, P4: `open`, `opensooner` and `openspaced`, each behind `module`
//! too.

mod common;

use common::*;
use reference::choice::Mode;

/// A line of a call, its parts that say nothing left out of the words.
fn line(head: &str, rx: &str, tx: &str, out: &str) -> String {
    format!("{head} rx={rx} tx={tx} session=nothing reset=none line={out} up=-")
}

/// The loss of a send of 5 bytes, on tick 1,601, and 100 ticks more.
fn loss(end: &str, mode: Mode) -> Vec<String> {
    let tick = |at| format!("{end}tick at={at}");
    let sent = line(
        &format!("{end}send at=0"),
        "nothing",
        "copy:1",
        "01030007FB",
    );
    let copy = |at: u32| line(&tick(at), "nothing", "copy:2", "01030007FB");
    match mode {
        Mode::Sooner => vec![sent, copy(1_601)],
        Mode::Spaced => vec![
            sent,
            line(&tick(1_601), "nothing", "backoff:100", "-"),
            copy(1_701),
        ],
    }
}

#[test]
fn each_verb_opens_its_end_in_its_mode() {
    for (verb, mode) in [
        ("", Mode::Sooner),
        ("open\n", Mode::Sooner),
        ("opensooner\n", Mode::Sooner),
        ("openspaced\n", Mode::Spaced),
        ("openspaced\nopen\n", Mode::Sooner),
        ("openspaced\nopensooner\n", Mode::Sooner),
        ("open\nopenspaced\n", Mode::Spaced),
        ("openspaced\nrestart\nrestart\n", Mode::Spaced),
    ] {
        for end in ["", "module "] {
            let verbs: String = verb.lines().map(|verb| format!("{end}{verb}\n")).collect();
            let script = format!("{verbs}{end}send 00 07\n{end}ticks 1701\n");
            let lines = played(&script);
            let restarts = verb.matches("restart").count();
            assert_eq!(lines[restarts..], loss(end, mode), "{verbs}");
        }
    }
}

/// An end in one mode leaves the other end in its own.
#[test]
fn each_end_has_its_own_mode() {
    for (verbs, host, module) in [
        ("openspaced\n", Mode::Spaced, Mode::Sooner),
        ("module openspaced\n", Mode::Sooner, Mode::Spaced),
        (
            "openspaced\nmodule opensooner\n",
            Mode::Spaced,
            Mode::Sooner,
        ),
        (
            "opensooner\nmodule openspaced\n",
            Mode::Sooner,
            Mode::Spaced,
        ),
    ] {
        let script =
            format!("{verbs}send 00 07\nticks 1701\nmodule send 00 07\nmodule ticks 1701\n");
        let expected = [loss("", host), loss("module ", module)].concat();
        assert_eq!(played(&script), expected);
    }
}

/// T is 0 again, at that end alone, and nothing is printed.
#[test]
fn the_ticks_of_that_end_are_0_again() {
    for verb in ["open", "opensooner", "openspaced"] {
        plays(
            &format!("ticks 9\nmodule ticks 5\n{verb}\ntick\nmodule tick\nmodule {verb}\ntick\nmodule tick\n"),
            &[
                &line("tick at=1", "nothing", "nothing", "-"),
                &line("module tick at=6", "nothing", "nothing", "-"),
                &line("tick at=2", "nothing", "nothing", "-"),
                &line("module tick at=1", "nothing", "nothing", "-"),
            ],
        );
    }
}

/// A fresh link: no frame, no send or session, no bad sums. Nothing is put
/// out and nothing is abandoned.
#[test]
fn an_opened_end_is_fresh() {
    for verb in ["open", "opensooner", "openspaced"] {
        for end in ["", "module "] {
            let script = format!(
                "{end}bytes 01 03 00 07 FA\n{end}bytes 01 03 00 07 FA\n{end}session 07\n{end}byte 01\n\
                 {end}{verb}\n{end}byte 55\n{end}byte 06\n{end}bytes 01 03 00 07 FA\n{end}send 01 02\n{end}{verb}\n{end}ticks 9999\n"
            );
            let head = |call: &str| format!("{end}{call}");
            plays(
                &script,
                &[
                    &line(&head("bytes at=0 taken=5"), "badsum", "nothing", "15"),
                    &line(&head("bytes at=0 taken=5"), "badsum", "nothing", "15"),
                    &line(&head("session at=0"), "nothing", "copy:1", "01030007FB"),
                    &line(&head("byte at=0"), "nothing", "nothing", "-"),
                    &line(&head("byte at=0"), "skipped", "nothing", "-"),
                    &line(&head("byte at=0"), "nothing", "stray", "-"),
                    &line(&head("bytes at=0 taken=5"), "badsum", "nothing", "15"),
                    &line(&head("send at=0"), "nothing", "copy:1", "01030102FF"),
                ],
            );
        }
    }
}

/// The room stays as it was said, and an opening does not look at it.
#[test]
fn an_opening_does_not_look_at_the_room() {
    plays(
        "tick\nroom 0 0\nopenspaced\ntick\nmodule open\nmodule tick\nroom 258 254\nsend 00 07\nticks 1601\n",
        &[
            &line("tick at=1", "nothing", "nothing", "-"),
            "tick at=0 refused=1",
            "module tick at=0 refused=1",
            &line("send at=0", "nothing", "copy:1", "01030007FB"),
            &line("tick at=1601", "nothing", "backoff:100", "-"),
        ],
    );
}

/// What an end had put out is dropped when it is opened; what the other had
/// put out to it stays.
#[test]
fn an_opening_drops_what_that_end_had_put_out() {
    let restart = line("restart at=0", "nothing", "nothing", "15");
    let module_restart = format!("module {restart}");
    let to_host = line("bytes at=0 taken=1", "nothing", "stray", "-");
    let to_module = format!("module {to_host}");
    for (verb, given) in [
        ("open", vec![&to_host]),
        ("opensooner", vec![&to_host]),
        ("openspaced", vec![&to_host]),
        ("module open", vec![&to_module]),
        ("module opensooner", vec![&to_module]),
        ("module openspaced", vec![&to_module]),
        ("open\nmodule open", vec![]),
        ("ticks 0", vec![&to_module, &to_host]),
    ] {
        let lines = played(&format!("restart\nmodule restart\n{verb}\npass\npass\n"));
        assert_eq!(lines[..2], [restart.clone(), module_restart.clone()]);
        assert_eq!(lines[2..].iter().collect::<Vec<_>>(), given, "{verb}");
    }
}

/// What is put out behind the opening goes over.
#[test]
fn what_is_put_out_behind_an_opening_goes_over() {
    plays(
        "send 00 02\nopen\nsend 00 07\npass\npass\n",
        &[
            &line("send at=0", "nothing", "copy:1", "01030002FE"),
            &line("send at=0", "nothing", "copy:1", "01030007FB"),
            "module bytes at=0 taken=5 rx=frame tx=nothing session=nothing reset=none line=06 up=0007",
            &line("bytes at=0 taken=1", "nothing", "acked:1", "-"),
        ],
    );
}

/// Five copies of 257 bytes, of which the fourth and fifth are not kept.
fn too_much(end: &str) -> String {
    format!("{end}restart\n{end}send 00 07{}\n", " 55".repeat(252)).repeat(5)
}

/// The mark that something was lost is dropped with what was put out.
#[test]
fn an_opening_drops_the_mark_that_something_was_lost() {
    for (end, other) in [("", "module "), ("module ", "")] {
        let much = too_much(end);
        let lost = |script: &str| played(script).iter().any(|line| line == "pass lost");
        assert!(lost(&format!("{much}pass\n")));
        for verb in ["open", "opensooner", "openspaced"] {
            let script = format!("{much}{end}{verb}\npass\npass\n");
            assert!(!lost(&script));
            // Nothing at all is given then.
            assert_eq!(played(&script).len(), 10);
            // The other end's opening leaves it.
            assert!(lost(&format!("{much}{other}{verb}\npass\n")));
            // So does one that comes before it.
            assert!(lost(&format!("{end}{verb}\n{much}pass\n")));
            // What is lost behind the opening is told.
            assert!(lost(&format!("{much}{end}{verb}\n{much}pass\n")));
        }
        // What the other end lost is told, whatever this one dropped.
        let script = format!("{much}{}{end}open\npass\n", too_much(other));
        assert!(lost(&script));
    }
}

/// A word behind an opening, other cases, and words that begin alike.
#[rustfmt::skip]
const OUT_OF_FORM: &[&str] = &[
    "open 5", "open ", " open", "open  ", "open open", "open sooner", "open spaced",
    "open module", "Open", "OPEN", "opened", "opens", "open\r", "open\t", "opensooner x",
    "opensooner 1", "opensooner ", "openSooner", "opensoonest", "openspaced 0", "openspaced ",
    "openspaced openspaced", "openspace", "Openspaced", "openroom 258 254", "sooner", "spaced",
    "module open 1", "module open ", "module  open", "module Open", "module opened",
    "module opensooner x", "module openspaced 1", "module openspaced ", "module module open",
    "module open module", "modules open", "host open",
];

#[test]
fn an_opening_out_of_form_is_an_error_and_changes_nothing() {
    for malformed in OUT_OF_FORM {
        let script = format!(
            "openspaced\nmodule openspaced\nticks 3\nmodule ticks 4\nsend 00 07\nmodule send 00 07\nmodule byte 01\n\
             {malformed}\nmodule byte 02\nticks 1601\nmodule ticks 1601\npass\n"
        );
        plays(
            &script,
            &[
                &line("send at=3", "nothing", "copy:1", "01030007FB"),
                &line("module send at=4", "nothing", "copy:1", "01030007FB"),
                &line("module byte at=4", "nothing", "nothing", "-"),
                "error",
                &line("module byte at=4", "badlen", "nothing", "-"),
                &line("tick at=1604", "nothing", "backoff:100", "-"),
                &line("module tick at=1605", "nothing", "backoff:100", "-"),
                "module bytes at=1605 taken=5 rx=frame tx=nothing session=nothing reset=none line=06 up=0007",
                "bytes at=1604 taken=5 rx=frame tx=nothing session=nothing reset=none line=06 up=0007",
            ],
        );
    }
}

/// The stand-in cancels in both modes, behind every opening of it.
#[test]
fn an_opened_stand_in_is_a_stand_in() {
    for verb in ["open", "opensooner", "openspaced"] {
        plays(
            &format!("module {verb}\nmodule send 00 07\nmodule bytes 01 03 00 07 FB\nmodule restart\nmodule send 00 07\nmodule bytes 01 03 00 07 FB\n"),
            &[
                &line("module send at=0", "nothing", "copy:1", "01030007FB"),
                &line("module bytes at=0 taken=5", "cancelled", "nothing", "18"),
                &line("module restart at=0", "nothing", "abandoned", "15"),
                &line("module send at=0", "nothing", "copy:1", "01030007FB"),
                &line("module bytes at=0 taken=5", "cancelled", "nothing", "18"),
            ],
        );
        // And the host is none.
        plays(
            &format!("{verb}\nsend 00 07\nbytes 01 03 00 07 FB\n"),
            &[
                &line("send at=0", "nothing", "copy:1", "01030007FB"),
                "bytes at=0 taken=5 rx=frame tx=nothing session=nothing reset=none line=06 up=0007",
            ],
        );
    }
}
