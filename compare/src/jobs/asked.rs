//! One call on a job: how it is asked alone, made smaller, written and read.

use super::worked::Worked;
use crate::question::{below, blanker, parts, plainer, vary, Question};
use crate::space::Space;
use crate::words::{bytes, Words};
use oracle::canvas::Area;
use oracle::job::{Command, Job};
use oracle::random::Random;
use oracle::rules::job::{read as read_bytes, records};

#[derive(Clone, Copy, PartialEq, Eq)]
pub enum Call {
    Run,
    Translate,
    Row(u32),
    /// So many rows from a row on.
    Rows(u32, u32),
    List,
}

#[derive(Clone)]
pub struct Asked {
    job: Vec<u8>,
    call: Call,
    lent: usize,
    shift: usize,
}

impl Asked {
    pub fn new(job: &[u8], call: Call, lent: usize, shift: usize) -> Self {
        Asked {
            job: job.to_vec(),
            call,
            lent,
            shift,
        }
    }

    /// The question of another job. A buffer that had the right room has it still.
    fn of(&self, job: Vec<u8>) -> Self {
        let (before, after) = (room(&self.job, self.call), room(&job, self.call));
        let lent = if self.lent == before {
            after
        } else {
            self.lent
        };
        Asked {
            job,
            lent,
            ..self.clone()
        }
    }
}

/// The room that a call needs.
fn room(job: &[u8], call: Call) -> usize {
    match (call, read_bytes(job)) {
        (Call::Row(_), Ok(job)) => 4 * job.width as usize,
        (Call::Rows(_, count), Ok(job)) => 4 * job.width as usize * count as usize,
        _ => Worked::of(job.to_vec()).room(),
    }
}

impl Question for Asked {
    fn difference(&self) -> Option<String> {
        let worked = Worked::of(self.job.clone());
        let mut space = Space::new(self.lent, &mut Random::new(0));
        space.shift(self.shift);
        let verdict = match self.call {
            Call::Run => worked.run(self.lent, &mut space),
            Call::Translate => worked.translate(),
            // In a smaller job there may be no plan.
            Call::Row(_) | Call::Rows(..) if worked.plan().is_none() => return None,
            Call::Row(row) => worked.row(row, self.lent, &mut space),
            Call::Rows(first, count) => worked.rows(first, count, self.lent, &mut space),
            Call::List => worked.list(),
        };
        verdict.difference
    }

    fn smaller(&self) -> Box<dyn Iterator<Item = Self> + '_> {
        let jobs = match read_bytes(&self.job) {
            Ok(job) => smaller_jobs(&job).into_iter().map(|j| j.bytes()).collect(),
            Err(_) => smaller_bytes(&self.job),
        };
        let fewer: Vec<Call> = match self.call {
            Call::Row(row) => below(row).map(Call::Row).collect(),
            Call::Rows(first, count) => {
                let earlier = below(first).map(|n| Call::Rows(n, count));
                earlier
                    .chain(below(count).map(|n| Call::Rows(first, n)))
                    .collect()
            }
            _ => Vec::new(),
        };
        let rest = [
            vary(self, fewer.into_iter(), |q, call| q.call = call),
            vary(self, below(self.lent), |q, n| q.lent = n),
            vary(self, below(self.shift), |q, n| q.shift = n),
        ];
        let jobs = jobs.into_iter().map(|job| self.of(job));
        Box::new(jobs.chain(rest.into_iter().flatten()))
    }

    fn text(&self) -> String {
        let call = match self.call {
            Call::Run => "run".into(),
            Call::Translate => "translate".into(),
            Call::Row(row) => format!("row {row}"),
            Call::Rows(first, count) => format!("rows {first} {count}"),
            Call::List => "list".into(),
        };
        format!(
            "job {call}\nlent {} shift {}\n{}\n",
            self.lent,
            self.shift,
            bytes(&self.job)
        )
    }
}

/// Jobs with fewer commands, or with smaller numbers in one.
fn smaller_jobs(job: &Job) -> Vec<Job> {
    let mut jobs = Vec::new();
    for (from, size) in parts(job.commands.len()) {
        let mut fewer = job.clone();
        fewer.commands.drain(from..from + size);
        jobs.push(fewer);
    }
    for width in below(job.width).filter(|&width| width > 0) {
        jobs.push(Job {
            width,
            ..job.clone()
        });
    }
    for paper_color in plainer(job.paper_color) {
        jobs.push(Job {
            paper_color,
            ..job.clone()
        });
    }
    for (i, command) in job.commands.iter().enumerate() {
        for command in smaller_commands(command) {
            let mut other = job.clone();
            other.commands[i] = command;
            jobs.push(other);
        }
    }
    jobs
}

fn smaller_areas(area: Area) -> Vec<Area> {
    let mut areas = Vec::new();
    areas.extend(below(area.x).map(|x| Area { x, ..area }));
    areas.extend(below(area.y).map(|y| Area { y, ..area }));
    areas.extend(below(area.w).map(|w| Area { w, ..area }));
    areas.extend(below(area.h).map(|h| Area { h, ..area }));
    areas
}

fn smaller_commands(command: &Command) -> Vec<Command> {
    let mut commands = Vec::new();
    match command {
        Command::Margin(rows) => commands.extend(below(*rows).map(Command::Margin)),
        Command::Flip(area) => commands.extend(smaller_areas(*area).into_iter().map(Command::Flip)),
        Command::Rectangle {
            area,
            color,
            multiply,
        } => {
            let of = |area, color, multiply| Command::Rectangle {
                area,
                color,
                multiply,
            };
            let areas = smaller_areas(*area).into_iter();
            commands.extend(areas.map(|area| of(area, *color, *multiply)));
            commands.extend(plainer(*color).map(|color| of(*area, color, *multiply)));
            if *multiply {
                commands.push(of(*area, *color, false));
            }
        }
        Command::Image {
            area,
            stretch,
            color,
            multiply,
            data,
        } => {
            let with = |change: &dyn Fn(&mut Area, &mut (u8, u8), &mut u32, &mut Vec<u8>)| {
                let (mut area, mut stretch, mut color) = (*area, *stretch, *color);
                let mut data = data.clone();
                change(&mut area, &mut stretch, &mut color, &mut data);
                Command::Image {
                    area,
                    stretch,
                    color,
                    multiply: *multiply,
                    data,
                }
            };
            let right = |a: Area| a.w.div_ceil(8) as usize * a.h as usize;
            let was_right = data.len() == right(*area);
            for other in smaller_areas(*area) {
                commands.push(with(&|area, _, _, data| {
                    *area = other;
                    // Data of the right length keeps it right.
                    if was_right {
                        data.resize(right(other), 0);
                    }
                }));
            }
            commands.extend(below(stretch.0).map(|n| with(&|_, stretch, _, _| stretch.0 = n)));
            commands.extend(below(stretch.1).map(|n| with(&|_, stretch, _, _| stretch.1 = n)));
            commands.extend(plainer(*color).map(|n| with(&|_, _, color, _| *color = n)));
            let blanker = blanker(data).take(40);
            commands.extend(blanker.map(|n| with(&|_, _, _, data| data.clone_from(&n))));
        }
    }
    commands
}

/// Bytes that are no job, with a part of them left out or blank.
fn smaller_bytes(job: &[u8]) -> Vec<Vec<u8>> {
    let mut all = Vec::new();
    if let Some(records) = records(job) {
        let mut at = 0;
        for (_, body) in records {
            let next = at + 6 + body.len();
            all.push([&job[..at], &job[next..]].concat());
            at = next;
        }
    }
    for (from, size) in parts(job.len()).take(200) {
        all.push([&job[..from], &job[from + size..]].concat());
    }
    all.extend(blanker(job));
    all
}

pub fn read(words: &mut Words) -> Result<Asked, String> {
    let call = match words.word()? {
        "run" => Call::Run,
        "translate" => Call::Translate,
        "row" => Call::Row(words.number()?),
        "rows" => Call::Rows(words.number()?, words.number()?),
        "list" => Call::List,
        word => return Err(format!("'{word}' is no call on a job")),
    };
    Ok(Asked {
        call,
        lent: words.past("lent")?.number()?,
        shift: words.past("shift")?.number()?,
        job: words.bytes()?,
    })
}

#[cfg(test)]
mod tests {
    use super::{read, smaller_jobs, Asked, Call, Question, Random, Words};
    use oracle::job::cases::Class;
    use oracle::rules::job::read as read_bytes;

    const CLASS: Class = Class {
        widths: &[1, 9, 20],
        rows: 20,
        side: 9,
        commands: 6,
        dots: 1 << 14,
    };

    #[test]
    fn what_is_written_is_read() {
        let mut random = Random::new(1);
        let rows = Call::Rows(3, 9);
        for call in [Call::Run, Call::Translate, Call::Row(7), rows, Call::List] {
            for _ in 0..50 {
                let text = Asked::new(&CLASS.bytes(&mut random), call, 300, 5).text();
                let mut words = Words::new(text.strip_prefix("job").unwrap());
                assert_eq!(read(&mut words).unwrap().text(), text);
            }
        }
    }

    #[test]
    fn smaller_jobs_are_jobs() {
        let mut random = Random::new(2);
        for _ in 0..50 {
            let job = CLASS.job(&mut random);
            if read_bytes(&job.bytes()).is_ok() {
                for smaller in smaller_jobs(&job) {
                    assert_eq!(read_bytes(&smaller.bytes()), Ok(smaller));
                }
            }
        }
    }
}
