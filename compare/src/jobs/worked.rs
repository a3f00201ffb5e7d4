//! A job worked out once: by the scope's rules, and drawn by the original.

use super::is_outside;
use crate::library::jobs::{self, Ran};
use crate::report::Verdict;
use crate::space::Space;
use crate::strip;
use oracle::canvas::Record;
use oracle::job::{draw, Job};
use oracle::rules::job::{
    ink, listing, outcome, read, refused_listing, row_due, rows_due, run_due, translate, Dropped,
    Outcome, Plan, BAD_JOB, MOST_COMMANDS, MOST_LISTED,
};
use oracle::rules::DONE;
use thermal::lent::{self, RowAnswer};

pub struct Worked {
    bytes: Vec<u8>,
    /// Or the number that both the run and the translation are refused with.
    sound: Result<Sound, u8>,
    /// The plan that the library gives.
    translated: lent::Translated,
}

struct Sound {
    job: Job,
    outcome: Outcome,
    /// The dots that the original draws, or why it has none.
    dots: Result<Vec<u8>, String>,
    /// Or its refusal.
    plan: Result<Plan, u8>,
}

impl Sound {
    fn of(job: Job) -> Self {
        let outcome = outcome(&job);
        let room = 4 * job.width as usize * outcome.height as usize;
        let dots = draw(&job, &outcome.dropped).and_then(|mut canvas| {
            let dots = canvas.dots();
            match dots.len() == room {
                true => Ok(dots),
                false => Err(format!("the Rust draws {} bytes of {room}", dots.len())),
            }
        });
        Sound {
            plan: translate(&job, &outcome),
            dots,
            job,
            outcome,
        }
    }
}

impl Worked {
    pub fn of(bytes: Vec<u8>) -> Self {
        Worked {
            sound: read(&bytes).map(Sound::of),
            translated: lent::translate(&bytes),
            bytes,
        }
    }

    pub fn bytes(&self) -> &[u8] {
        &self.bytes
    }

    /// The bytes that its canvas takes.
    pub fn room(&self) -> usize {
        self.sound.as_ref().map_or(64, |sound| {
            4 * sound.job.width as usize * sound.outcome.height as usize
        })
    }

    pub fn plan(&self) -> Option<&Plan> {
        self.sound.as_ref().ok()?.plan.as_ref().ok()
    }

    /// What comes of it, in words.
    pub fn told(&self) -> String {
        match &self.sound {
            Err(number) => format!("refused {number}"),
            Ok(sound) => {
                let (width, height) = (sound.job.width, sound.outcome.height);
                let commands = sound.job.commands.len();
                let dropped = sound.outcome.dropped.len();
                let plan = sound.plan.as_ref().map_or("no plan", |_| "every row");
                format!("{width} by {height}, {commands} commands, {dropped} dropped, {plan}")
            }
        }
    }

    pub fn run(&self, lent: usize, space: &mut Space) -> Verdict {
        let ours = jobs::run(&self.bytes, space.lend(lent));
        let (expected, dots) = match &self.sound {
            Err(number) => (refused(*number), Ok(None)),
            Ok(sound) => match run_due(&sound.job, &sound.outcome, lent) {
                DONE => (sound.ran(), sound.dots.as_ref().map(Some)),
                number => (refused(number), sound.dots.as_ref().map(|_| None)),
            },
        };
        if let Ok(Some(dots)) = dots {
            space.expect(dots);
        }
        let bytes = space.difference("the canvas", lent);
        let difference = if let Err(why) = dots {
            Some(why.clone())
        } else if ours != expected {
            Some(format!(
                "{} expected, {} given",
                text(&expected),
                text(&ours)
            ))
        } else {
            bytes
        };
        Verdict {
            due: expected.number,
            outside: is_outside(expected.number),
            difference,
        }
    }

    pub fn translate(&self) -> Verdict {
        let expected = match &self.sound {
            Err(number) => Err(*number),
            Ok(sound) => sound.plan.as_ref().map_err(|number| *number),
        };
        let due = expected.err().unwrap_or(DONE);
        let zero = Plan::zero();
        let plan = jobs::plan(expected.unwrap_or(&zero));
        let ours = &self.translated;
        let difference = if ours.number != due {
            Some(format!("{due} expected, {} given", ours.number))
        } else {
            plan_difference(&plan, &ours.plan)
        };
        Verdict {
            due,
            outside: is_outside(due),
            difference,
        }
    }

    /// A row of the library's own plan, against that row of the original's canvas.
    pub fn row(&self, row: u32, lent: usize, space: &mut Space) -> Verdict {
        let ours = lent::row(&self.translated.plan, row, &self.bytes, space.lend(lent));
        let Some((sound, plan)) = self.sound.as_ref().ok().zip(self.plan()) else {
            return Verdict::done(Some("there is no plan".into()));
        };
        let due = row_due(plan, row, self.bytes.len(), lent);
        let dots = match &sound.dots {
            Ok(dots) if due == DONE => {
                let wide = 4 * plan.width as usize;
                Ok(Some(&dots[row as usize * wide..][..wide]))
            }
            Ok(_) => Ok(None),
            Err(why) => Err(why.clone()),
        };
        row_verdict(due, ours, dots, lent, space)
    }

    /// Some rows of the library's own plan at once, against those of the original's canvas.
    pub fn rows(&self, first: u32, count: u32, lent: usize, space: &mut Space) -> Verdict {
        let plan = &self.translated.plan;
        let ours = lent::rows(plan, first, count, &self.bytes, space.lend(lent));
        let Some((sound, plan)) = self.sound.as_ref().ok().zip(self.plan()) else {
            return Verdict::done(Some("there is no plan".into()));
        };
        let due = rows_due(plan, first, count, self.bytes.len(), lent);
        if let (Ok(dots), DONE) = (&sound.dots, due) {
            let wide = 4 * plan.width as usize;
            space.expect(&dots[first as usize * wide..][..count as usize * wide]);
        }
        let bytes = space.difference("the rows", lent);
        let difference = match &sound.dots {
            Err(why) => Some(why.clone()),
            Ok(_) if ours != due => Some(format!("{due} expected, {ours} given")),
            Ok(_) => bytes,
        };
        Verdict {
            due,
            outside: is_outside(due),
            difference,
        }
    }

    /// What the program `strip` writes, against the rows of the original's canvas.
    pub fn list(&self) -> Verdict {
        let plan = match &self.sound {
            _ if self.bytes.len() > MOST_LISTED => Err(BAD_JOB),
            Err(number) => Err(*number),
            Ok(sound) => match &sound.plan {
                Err(number) => Err(*number),
                Ok(plan) => Ok((plan, &sound.dots)),
            },
        };
        let due = plan.err().unwrap_or(DONE);
        let expected = match plan {
            Err(number) => Ok(refused_listing(number)),
            Ok((_, Err(why))) => Err(why.clone()),
            Ok((plan, Ok(dots))) => Ok(listing(plan, dots)),
        };
        let difference = match (expected, strip::list(&self.bytes)) {
            (Err(why), _) | (_, Err(why)) => Some(why),
            (Ok(expected), Ok(ours)) => text_difference(&expected, &ours),
        };
        Verdict {
            due,
            outside: is_outside(due),
            difference,
        }
    }
}

impl Sound {
    fn ran(&self) -> Ran {
        let mut dropped = self.outcome.dropped.clone();
        dropped.resize(MOST_COMMANDS, Dropped::default());
        Ran {
            number: DONE,
            record: Record {
                width: self.job.width,
                height: self.outcome.height,
                auto_grow: true,
                paper_color: self.job.paper_color,
            },
            dropped_count: self.outcome.dropped.len(),
            dropped,
        }
    }
}

/// A refused run gives zero in all but its number.
fn refused(number: u8) -> Ran {
    Ran {
        number,
        record: Record {
            width: 0,
            height: 0,
            auto_grow: false,
            paper_color: 0,
        },
        dropped_count: 0,
        dropped: vec![Dropped::default(); MOST_COMMANDS],
    }
}

/// The verdict on a row of which these dots are expected, if it is done.
pub fn row_verdict(
    due: u8,
    ours: RowAnswer,
    dots: Result<Option<&[u8]>, String>,
    lent: usize,
    space: &mut Space,
) -> Verdict {
    let mut expected = RowAnswer {
        number: due,
        ink: 0,
    };
    if let Ok(Some(dots)) = dots {
        expected.ink = ink(dots);
        space.expect(dots);
    }
    let bytes = space.difference("the line", lent);
    let difference = match dots {
        Err(why) => Some(why),
        Ok(_) if ours != expected => Some(format!("{expected:?} expected, {ours:?} given")),
        Ok(_) => bytes,
    };
    Verdict {
        due,
        outside: is_outside(due),
        difference,
    }
}

fn text(ran: &Ran) -> String {
    let used = ran.dropped.iter().rposition(|d| *d != Dropped::default());
    let dropped = &ran.dropped[..used.map_or(0, |last| last + 1)];
    format!(
        "number {}, {:?}, {} dropped {dropped:?}",
        ran.number, ran.record, ran.dropped_count
    )
}

/// The first line in which a text is not as expected.
fn text_difference(expected: &str, given: &[u8]) -> Option<String> {
    let given = String::from_utf8_lossy(given);
    let mut expected = expected.split_inclusive('\n');
    let mut given = given.split_inclusive('\n');
    let mut line = 0;
    loop {
        line += 1;
        match (expected.next(), given.next()) {
            (None, None) => return None,
            (e, g) if e != g => {
                let (e, g) = (e.unwrap_or_default(), g.unwrap_or_default());
                return Some(format!("line {line}: {e:?} expected, {g:?} given"));
            }
            _ => {}
        }
    }
}

/// The first place in which two plans are not the same.
fn plan_difference(expected: &lent::Plan, given: &lent::Plan) -> Option<String> {
    if expected == given {
        return None;
    }
    let told = |what: &str, e: String, g: String| Some(format!("{what}: {e} expected, {g} given"));
    let head = |p: &lent::Plan| {
        let (n, m) = (p.count, p.dropped_count);
        let (w, h, paper) = (p.width, p.height, p.paper_color);
        format!("{w} x {h}, {paper:?}, {n} entries, {m} dropped")
    };
    if head(expected) != head(given) {
        return told("the plan", head(expected), head(given));
    }
    for (i, (e, g)) in expected.entries.iter().zip(&given.entries).enumerate() {
        if e != g {
            return told(&format!("entry {i}"), format!("{e:?}"), format!("{g:?}"));
        }
    }
    told(
        "the dropped list",
        format!("{:?}", expected.dropped()),
        format!("{:?}", given.dropped()),
    )
}
