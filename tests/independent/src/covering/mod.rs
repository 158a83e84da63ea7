//! Short streams from power-up that together reach every cell of
//! tests/definitions/cells: scripted scenarios, with random bytes where the
//! rules do not care.

mod checks;
mod commands;
mod counters;
mod data;
mod frames;
mod interrupts;
mod link;
mod parts;
mod registers;
mod resets;
mod script;
mod sends;
mod waiting;

use crate::bench::Record;
use crate::chip::{control, tcr};
use crate::link::Link;
use crate::part::Part;
use script::Script;
use waiting::Giver;

type Scenario = fn(&mut Script);

/// Each a stream of its own: antt computes only so much for one theorem. Its
/// place is its seed, so new ones stand last.
const SCENARIOS: &[(&str, Scenario)] = &[
    ("sweep-0", |script| registers::sweep(script, &[0, 1])),
    ("sweep-2", |script| registers::sweep(script, &[2, 3])),
    ("sweep-4", |script| registers::sweep(script, &[4, 5, 6, 7])),
    ("tcr", registers::transmit_control),
    ("rcr", registers::receive_control),
    ("resets", resets::play),
    ("allocation", commands::allocation),
    ("queues", commands::queues),
    ("data-packet", data::packet),
    ("data-received", data::received),
    ("data-wrapping", data::wrapping),
    ("line", interrupts::line),
    ("acknowledge", interrupts::acknowledge),
    ("eph", interrupts::eph),
    ("counters-good", counters::good),
    ("counters-failed", counters::failed),
    ("put-out", sends::put_out),
    ("put-out-pages", sends::put_out_pages),
    ("put-out-pieces", sends::put_out_pieces),
    ("put-out-most", sends::put_out_most),
    ("verdicts-kept", |script| sends::verdicts(script, 0)),
    ("verdicts-released", |script| {
        sends::verdicts(script, control::AUTO_RELEASE)
    }),
    ("send-refusals", sends::refusals),
    ("completion-full", sends::completion_full),
    ("accepted", frames::accepted),
    ("not-accepted", frames::not_accepted),
    ("lengths-stored", frames::lengths_stored),
    ("lengths-dropped", frames::lengths_dropped),
    ("values-at-once", frames::values_at_once),
    ("stored", frames::stored),
    ("pieces", frames::in_pieces),
    ("long-1518", |script| frames::long(script, 1_518)),
    ("long-1519", |script| frames::long(script, 1_519)),
    ("long-1532", |script| frames::long(script, 1_532)),
    ("too-long", frames::too_long),
    ("waiting-released", |script| {
        waiting::granted(script, Giver::Release)
    }),
    ("waiting-received", |script| {
        waiting::granted(script, Giver::RemoveAndRelease)
    }),
    ("waiting-sent", |script| {
        waiting::granted(script, Giver::Send)
    }),
    ("waiting-sizes", waiting::sizes),
    ("waiting-meetings", waiting::meetings),
    ("waiting-dropped", waiting::dropped),
    ("send-counts", sends::counts),
    ("check-found", |script| checks::found(script, 0)),
    ("check-stored", |script| {
        checks::found(script, control::RECEIVE_BAD)
    }),
    ("check-beside", checks::beside),
    ("check-stripped", checks::stripped),
    ("append", |script| checks::appended(script, 0)),
    ("append-padded", |script| {
        checks::appended(script, tcr::PAD_EN)
    }),
    ("echo", checks::echoed),
    ("link-down", |script| link::meetings(script, DOWN)),
    ("link-up", |script| link::meetings(script, UP)),
    ("link-down-changed", |script| {
        link::meetings(script, after_change(DOWN))
    }),
    ("link-up-changed", |script| {
        link::meetings(script, after_change(UP))
    }),
    ("link-raised", link::raised),
    ("link-enabled", link::enabled_by),
    ("link-shown", link::shown),
    ("part-94", |script| parts::limits(script, Part::Lan91c94)),
    ("part-96", |script| parts::limits(script, Part::Lan91c96)),
    ("part-94-full", parts::full),
    ("part-refused", parts::refused),
];

const DOWN: Link = Link {
    up: false,
    changed: false,
};
const UP: Link = Link {
    up: true,
    changed: false,
};

fn after_change(link: Link) -> Link {
    Link {
        changed: true,
        ..link
    }
}

/// Every stream by its name.
pub fn streams() -> impl Iterator<Item = (&'static str, Vec<Record>)> {
    (1..).zip(SCENARIOS).map(|(seed, &(name, play))| {
        let mut script = Script::new(seed);
        play(&mut script);
        (name, script.into_records())
    })
}
