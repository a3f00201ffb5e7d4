//! Jobs: the canvas that the original draws of each, the dropped commands, and the ink of the plan's
//! rows. Canvases are small, so that a program that replays them is quick.

use crate::checksum;
use oracle::canvas::Area;
use oracle::colour::hex;
use oracle::job::cases::{damage, lent, Class};
use oracle::job::{draw, Command, Job};
use oracle::random::Random;
use oracle::rules::job::{ink, outcome, read, run_due, translate, Outcome, BAD_JOB, TOO_LONG};
use oracle::rules::{DONE, NO_ROOM};

/// What the buffer holds before a run.
const BEFORE: u8 = 0x5a;

/// The bytes of a buffer and of a job, at most.
const LENGTH: usize = 4096;
const LONGEST: usize = 1024;

const LINES: usize = 300;

/// Refusals with each number.
const REFUSALS: [(u8, usize); 2] = [(BAD_JOB, 60), (NO_ROOM, 30)];

const CLASS: Class = Class {
    widths: &[1, 2, 3, 5, 8, 9, 13, 16, 17],
    rows: 24,
    side: 12,
    commands: 7,
    dots: 1 << 14,
};

/// The original's answers, all of them done.
pub fn write() {
    let mut random = Random::new(10);
    let mut written = 0;
    for job in examples() {
        line(&job.bytes(), room(&job) + random.below(2));
        written += 1;
    }
    while written < LINES {
        let mut bytes = CLASS.job(&mut random).bytes();
        // Damage that leaves a job.
        if random.below(3) == 0 {
            damage(&mut bytes, &mut random);
        }
        let Ok(job) = read(&bytes) else {
            continue;
        };
        let need = room(&job);
        let wanted = need > 0 || random.below(8) == 0;
        if wanted && fits(&bytes) && need <= LENGTH - 16 {
            line(&bytes, need + random.one_of(&[0, 0, 0, 1, 7, 16]));
            written += 1;
        }
    }
}

/// Refusals, which follow the scope alone.
pub fn write_refusals() {
    let mut random = Random::new(11);
    line(&[], 4);
    for count in [65, 66] {
        let commands = vec![Command::Margin(1); count];
        let job = Job {
            width: 1,
            paper_color: 0xffff_ffff,
            commands,
        };
        assert_eq!(read(&job.bytes()), Err(TOO_LONG));
        line(&job.bytes(), 300);
    }
    for (number, count) in REFUSALS {
        let mut written = 0;
        while written < count {
            let mut bytes = CLASS.job(&mut random).bytes();
            if number == BAD_JOB {
                damage(&mut bytes, &mut random);
            }
            let (length, due) = match read(&bytes) {
                Ok(job) => {
                    let need = room(&job).min(LENGTH);
                    let length = lent(need, &mut random).min(LENGTH);
                    (length, run_due(&job, &outcome(&job), length))
                }
                Err(due) => (random.below(200), due),
            };
            if due == number && fits(&bytes) {
                line(&bytes, length);
                written += 1;
            }
        }
    }
}

/// Whether it is short, and quickly drawn.
fn fits(bytes: &[u8]) -> bool {
    bytes.len() <= LONGEST && oracle::job::cases::cost(bytes) <= CLASS.dots
}

fn room(job: &Job) -> usize {
    4 * job.width as usize * outcome(job).height as usize
}

fn area(x: u32, y: u32, w: u32, h: u32) -> Area {
    Area { x, y, w, h }
}

fn rectangle(area: Area) -> Command {
    Command::Rectangle {
        area,
        color: 0xff00_0000,
        multiply: true,
    }
}

fn image(area: Area, stretch: (u8, u8), data: &[u8]) -> Command {
    Command::Image {
        area,
        stretch,
        color: 0xff00_0000,
        multiply: true,
        data: data.to_vec(),
    }
}

/// The scope's own job first, then its edges and each reason for which a command is dropped.
fn examples() -> Vec<Job> {
    let mark = || image(area(0, 0, 3, 2), (2, 1), &[0xa0, 0x40]);
    let job = |commands| Job {
        width: 10,
        paper_color: 0xffff_ffff,
        commands,
    };
    vec![
        job(vec![
            mark(),
            rectangle(area(8, 1, 5, 1)),
            Command::Margin(1),
            rectangle(area(10, 0, 1, 1)),
        ]),
        job(Vec::new()),
        // Nothing is drawn, and there are rows.
        job(vec![rectangle(area(0, 7, 0, 0))]),
        job(vec![image(area(9, 2, 0, 5), (1, 2), &[])]),
        job(vec![
            rectangle(area(9, 0, 1, 1)),
            rectangle(area(10, 0, 1, 1)),
        ]),
        // The damaged mark: its header announces 2^32 dots, and it has no data.
        job(vec![mark(), image(area(0, 0, 512, 8_388_608), (1, 1), &[])]),
        job(vec![
            rectangle(area(0, 0, 16_385, 1)),
            image(area(0, 0, 65, 1), (255, 1), &[0; 9]),
            image(area(0, 0, 3, 2), (1, 1), &[0xa0]),
            rectangle(area(10, 0, 16_384, 1)),
            rectangle(area(0, 16_384, 1, 1)),
            Command::Margin(16_385),
            Command::Flip(area(0, 0, 0, 1)),
            Command::Flip(area(9, 0, 2, 1)),
            Command::Flip(area(9, 16_384, 1, 1)),
            mark(),
        ]),
        job(vec![mark(), Command::Flip(area(0, 0, 6, 4)), mark()]),
        // A margin moves all that is there, and a later one moves it again.
        job(vec![
            mark(),
            Command::Margin(2),
            mark(),
            Command::Margin(3),
            rectangle(area(4, 0, 2, 8)),
        ]),
        // A stretched image that the paper's edge cuts within a dot.
        job(vec![image(area(7, 1, 2, 2), (4, 3), &[0x40, 0x80])]),
        job(vec![Command::Margin(0); 64]),
    ]
}

/// Writes a line.
fn line(bytes: &[u8], lent: usize) {
    assert!(lent <= LENGTH && bytes.len() <= LONGEST);
    let mut after = vec![BEFORE; lent];
    let sound = read(bytes).map(|job| (outcome(&job), job));
    let (number, record, dropped) = match &sound {
        Err(number) => (*number, "00000000 00000000 0 00000000".into(), Vec::new()),
        Ok((outcome, job)) => match run_due(job, outcome, lent) {
            DONE => {
                let dots = dots(job, outcome);
                after[..dots.len()].copy_from_slice(&dots);
                let paper = hex(job.paper_color);
                let record = format!("{:08x} {:08x} 1 {paper}", job.width, outcome.height);
                let dropped = outcome.dropped.iter();
                (
                    DONE,
                    record,
                    dropped.flat_map(|d| [d.place as u8, d.reason]).collect(),
                )
            }
            number => (number, "00000000 00000000 0 00000000".into(), Vec::new()),
        },
    };
    let plan = match &sound {
        Err(number) => Err(*number),
        Ok((outcome, job)) => translate(job, outcome).map(|_| inks(job, outcome)),
    };
    let (translated, inks) = match plan {
        Ok(inks) => (DONE, checksum(&inks)),
        Err(number) => (number, 0),
    };
    let job: String = bytes.iter().map(|b| format!("{b:02x}")).collect();
    println!(
        "{lent:06x} {number:02x} {record} {:02x} {:08x} {:08x} {translated:02x} {inks:08x} {:04x}{job}",
        dropped.len() / 2,
        checksum(&dropped),
        checksum(&after),
        bytes.len(),
    );
}

fn dots(job: &Job, outcome: &Outcome) -> Vec<u8> {
    let drawn = draw(job, &outcome.dropped);
    let mut canvas = drawn.unwrap_or_else(|why| panic!("{why}: {job:?}"));
    assert_eq!(canvas.record().height, outcome.height, "{job:?}");
    canvas.dots()
}

/// The ink of each row, four bytes each.
fn inks(job: &Job, outcome: &Outcome) -> Vec<u8> {
    let dots = dots(job, outcome);
    let rows = dots.chunks(4 * job.width as usize);
    rows.flat_map(|row| ink(row).to_le_bytes()).collect()
}
