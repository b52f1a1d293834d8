//! Random scripts of several kinds, each seeking out its edges.

use crate::mode_scenes::*;
use crate::module_scenes::*;
use crate::other_scenes::*;
use crate::scenes::*;
use crate::scribe::Scribe;
use crate::wire_scenes::*;
use crate::writer_scenes::*;

/// A scene writes a few lines of a script.
pub type Scene = fn(&mut Scribe);

/// A kind of script: its name, what it seeks, and its scenes with weights.
pub struct Kind {
    pub name: &'static str,
    pub seeks: &'static str,
    pub scenes: &'static [(u32, Scene)],
}

/// All kinds; `mixed` has the scenes of those before it. A kind that a request
/// brings stands at the end, so that the stored scripts stay what they were.
pub const KINDS: &[Kind] = &[
    Kind {
        name: "split",
        seeks: "frames split over ticks",
        scenes: &[(6, split_frame), (1, open_send), (1, single), (1, noise)],
    },
    Kind {
        name: "special",
        seeks: "bytes 01 06 15 18 inside bodies, with and without an open send",
        scenes: &[
            (6, special_bytes),
            (2, open_send),
            (1, single),
            (1, answer_at_edge),
        ],
    },
    Kind {
        name: "slow",
        seeks: "whole and damaged frames that last about 1,500 and 1,501 ticks",
        scenes: &[
            (6, slow_frame),
            (1, open_send),
            (1, send_inside),
            (1, single),
        ],
    },
    Kind {
        name: "answers",
        seeks: "single bytes on the last tick of a copy's wait, on the next, and around a back-off",
        scenes: &[
            (6, answer_at_edge),
            (1, answers_at_once),
            (1, stray),
            (1, session_at_edge),
        ],
    },
    Kind {
        name: "inside",
        seeks: "sends and sessions accepted inside a frame, and back-offs that end inside one",
        scenes: &[
            (5, send_inside),
            (3, back_off_inside),
            (1, answer_at_edge),
            (1, split_frame),
        ],
    },
    Kind {
        name: "coincidences",
        seeks:
            "an abort on the tick of a loss, a back-off's end or a session's end, and next to it",
        scenes: &[
            (6, coincide),
            (1, session_at_edge),
            (1, send_inside),
            (1, split_frame),
        ],
    },
    Kind {
        name: "sessions",
        seeks: "responses, requests and other commands around 4,999 and 5,000 ticks after the ACK",
        scenes: &[
            (6, session_at_edge),
            (1, coincide),
            (1, stray),
            (1, split_frame),
        ],
    },
    Kind {
        name: "strays",
        seeks: "single bytes and responses that nobody awaits, in every state",
        scenes: &[
            (6, stray),
            (2, open_send),
            (1, answer_at_edge),
            (1, back_off_inside),
        ],
    },
    Kind {
        name: "sums",
        seeks: "runs of bad sums with every kind of frame between",
        scenes: &[(6, bad_sums), (1, open_send), (1, restart)],
    },
    Kind {
        name: "reserved",
        seeks: "reserved types, right and damaged, with and without a due copy",
        scenes: &[
            (6, reserved_frame),
            (1, bad_sums),
            (1, send_inside),
            (1, single),
        ],
    },
    Kind {
        name: "restarts",
        seeks: "restarts in every state",
        scenes: &[
            (6, restart),
            (2, open_send),
            (2, send_inside),
            (2, begin_frame),
            (1, answer_at_edge),
            (1, back_off_inside),
            (1, session_at_edge),
            (1, bad_sums),
        ],
    },
    Kind {
        name: "rooms",
        seeks: "short rooms before every call, each a byte short and empty",
        scenes: &[
            (6, rooms),
            (1, open_send),
            (1, split_frame),
            (1, answer_at_edge),
        ],
    },
    Kind {
        name: "lengths",
        seeks: "0, 1, 251, 252, 253 and more parameters, sent, received and built",
        scenes: &[(6, lengths), (1, split_frame), (1, busy)],
    },
    Kind {
        name: "busy",
        seeks: "sends and sessions refused in their order while one is open",
        scenes: &[(6, busy), (1, answer_at_edge), (1, split_frame)],
    },
    Kind {
        name: "silence",
        seeks: "sends that fail and sessions that get no response, on silent and refusing lines",
        scenes: &[(4, silence), (4, answers_at_once), (1, back_off_inside)],
    },
    Kind {
        name: "frames",
        seeks: "frames built with rooms around their size and read with every damage",
        scenes: &[(1, build_call), (2, read_call)],
    },
    Kind {
        name: "bodies",
        seeks: "command bodies of every size and content, right and wrong",
        scenes: &[
            (2, capabilities_call),
            (2, nodes_call),
            (1, timeouts_call),
            (1, timeouts_response_call),
        ],
    },
    Kind {
        name: "malformed",
        seeks: "script lines that are answered with error, among a few that are not",
        scenes: &[(6, malformed), (1, split_frame), (1, open_send)],
    },
    Kind {
        name: "anything",
        seeks: "any call with any bytes, aimed at nothing",
        scenes: &[(1, anything)],
    },
    Kind {
        name: "mixed",
        seeks: "the scenes of all kinds before",
        scenes: &[
            (2, split_frame),
            (2, special_bytes),
            (2, slow_frame),
            (2, answer_at_edge),
            (2, answers_at_once),
            (2, send_inside),
            (2, back_off_inside),
            (3, coincide),
            (3, session_at_edge),
            (2, stray),
            (2, bad_sums),
            (2, reserved_frame),
            (1, restart),
            (2, rooms),
            (1, lengths),
            (1, busy),
            (1, silence),
            (2, open_send),
            (2, begin_frame),
            (1, single),
            (1, noise),
            (1, build_call),
            (1, read_call),
            (1, capabilities_call),
            (1, nodes_call),
            (1, timeouts_call),
            (1, timeouts_response_call),
            (1, malformed),
            (2, anything),
        ],
    },
    Kind {
        name: "module",
        seeks:
            "frames in every state of a stand-in, at the edge of its wait, and both ends with pass",
        scenes: &[
            (4, frame_while_waiting),
            (2, frames_in_a_run),
            (5, checksum_at_edge),
            (3, lost_inside),
            (2, sums_around_cancelled),
            (1, reserved_while_waiting),
            (1, restart_while_waiting),
            (5, known_scene),
            (2, host_scene),
            (2, pass_now),
            (3, conversation),
            (3, both_at_once),
            (1, overfull),
            (1, refused_pass),
            (2, malformed_module),
        ],
    },
    Kind {
        name: "writers",
        seeks: "bodies written at every edge, with rooms around 254, and read back",
        scenes: &[
            (4, write_capabilities_call),
            (4, write_nodes_call),
            (4, write_timeouts_call),
            (1, malformed_writer),
        ],
    },
    Kind {
        name: "wire",
        seeks: "frames at both sides of steps of the wire time, answered about when a copy is lost",
        scenes: &[
            (6, answer_at_loss),
            (5, behind_an_answer),
            (3, silent_line),
            (2, ack_goes_over),
            (2, checksum_at_loss),
            (2, abort_at_loss),
        ],
    },
    Kind {
        name: "modes",
        seeks: "losses, NAKs and CANs on the same ticks in both modes of both ends, and openings",
        scenes: &[
            (5, in_a_mode),
            (4, told_at_the_loss),
            (8, lost_in_a_frame),
            (4, abort_on_the_loss),
            (2, silent_in_a_mode),
            (2, restart_keeps_the_mode),
            (3, opened_in_any_state),
            (1, opened_when_overfull),
            (1, opened_without_room),
            (1, slowest),
            (3, malformed_opening),
        ],
    },
];

/// The kind of this name.
pub fn kind(name: &str) -> Option<&'static Kind> {
    KINDS.iter().find(|kind| kind.name == name)
}

/// A script of about `lines` lines: as many, and those that the last scene
/// writes beyond.
pub fn script(seed: u64, kind: &Kind, lines: usize) -> String {
    let mut scribe = Scribe::new(seed);
    scribe.say(&format!("# {} {seed} {lines}", kind.name));
    go_on(&mut scribe, kind, lines);
    scribe.into_text()
}

/// Scenes of a kind until the script has `lines` lines.
pub fn go_on(scribe: &mut Scribe, kind: &Kind, lines: usize) {
    let weights = kind.scenes.iter().map(|(weight, _)| weight).sum();
    while scribe.lines() < lines {
        let mut place = scribe.dice.below(weights);
        for (weight, scene) in kind.scenes {
            if place < *weight {
                scene(scribe);
                break;
            }
            place -= weight;
        }
    }
}
