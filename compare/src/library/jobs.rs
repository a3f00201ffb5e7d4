//! Jobs and row plans.

use super::canvas::record;
use super::rgba;
use oracle::canvas::Record;
use oracle::rules::job::{Dropped, Entry, Plan};
use thermal::job;
use thermal::lent;

/// What a run gives. All 64 places of the dropped list are there.
#[derive(Debug, PartialEq, Eq)]
pub struct Ran {
    pub number: u8,
    pub record: Record,
    pub dropped_count: usize,
    pub dropped: Vec<Dropped>,
}

pub fn run(job: &[u8], buf: &mut [u8]) -> Ran {
    let ran = lent::run(job, buf);
    let dropped = ran.dropped.iter().map(|d| Dropped {
        place: d.place,
        reason: d.reason,
    });
    Ran {
        number: ran.number,
        record: record(ran.image),
        dropped_count: ran.dropped_count,
        dropped: dropped.collect(),
    }
}

/// A plan as the library takes it.
pub fn plan(plan: &Plan) -> lent::Plan {
    let mut given = lent::Plan {
        width: plan.width,
        height: plan.height,
        paper_color: rgba(plan.paper_color),
        count: plan.count as usize,
        entries: [job::Entry::default(); job::MOST_COMMANDS],
        dropped_count: plan.dropped_count as usize,
        dropped: [job::Dropped::default(); job::MOST_COMMANDS],
    };
    for (to, from) in given.entries.iter_mut().zip(&plan.entries) {
        *to = entry(from);
    }
    for (to, from) in given.dropped.iter_mut().zip(&plan.dropped) {
        (to.place, to.reason) = (from.place, from.reason);
    }
    given
}

fn entry(entry: &Entry) -> job::Entry {
    job::Entry {
        kind: entry.kind,
        mode: entry.mode,
        stretch_x: entry.stretch.0,
        stretch_y: entry.stretch.1,
        color: rgba(entry.color),
        x: entry.area.x,
        y: entry.area.y,
        w: entry.area.w,
        h: entry.area.h,
        original_width: entry.original.0,
        original_height: entry.original.1,
        start: entry.start as usize,
    }
}
