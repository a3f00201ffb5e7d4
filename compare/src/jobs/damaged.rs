//! Rows of plans that are not, or not quite, as the translation made them.

use super::worked::row_verdict;
use crate::library::jobs;
use crate::question::{below, blanker, plainer, vary, Question};
use crate::report::Verdict;
use crate::space::{Space, SHIFTS};
use crate::words::{bytes, Words};
use oracle::canvas::Area;
use oracle::colour::hex;
use oracle::job::cases::{damage_plan, lent};
use oracle::job::row;
use oracle::random::Random;
use oracle::rules::job::{row_due, Dropped, Entry, Plan};
use oracle::rules::{DONE, LARGEST};
use thermal::lent;

#[derive(Clone)]
pub struct PlanRow {
    plan: Plan,
    data: Vec<u8>,
    row: u32,
    lent: usize,
    shift: usize,
}

impl PlanRow {
    /// A row of a plan that is changed, over the job's bytes or others.
    pub fn any(plan: &Plan, job: &[u8], random: &mut Random) -> Self {
        let mut plan = plan.clone();
        plan.dropped_count = 0;
        plan.dropped.fill(Dropped::default());
        let mut data = job.to_vec();
        match random.below(12) {
            0 => data.truncate(random.below(job.len() + 1)),
            1 => data.clear(),
            2 => data.fill_with(|| random.u8()),
            3 => data.extend((0..random.below(99)).map(|_| random.u8())),
            _ => {}
        }
        if random.below(16) != 0 {
            damage_plan(&mut plan, data.len(), random);
        }
        let used = plan.count.clamp(1, 64) as usize;
        let area = plan.entries[random.below(used)].area;
        let inside = random.below(area.h.clamp(1, 1 << 14) as usize) as u32;
        let row = match random.below(8) {
            0 => random.below(plan.height.clamp(1, 1 << 14) as usize) as u32,
            1 => plan.height,
            2 => random.u32(),
            _ => area.y.saturating_add(inside),
        };
        let need = 4 * plan.width.min(LARGEST as u32) as usize;
        PlanRow {
            plan,
            data,
            row,
            lent: lent(need, random),
            shift: random.below(SHIFTS),
        }
    }

    pub fn lent(&self) -> usize {
        self.lent
    }

    pub fn judge(&self, space: &mut Space) -> Verdict {
        space.shift(self.shift);
        let due = row_due(&self.plan, self.row, self.data.len(), self.lent);
        let plan = jobs::plan(&self.plan);
        let ours = lent::row(&plan, self.row, &self.data, space.lend(self.lent));
        let dots = match due {
            DONE => row(&self.plan, &self.data, self.row).map(Some),
            _ => Ok(None),
        };
        let dots = dots.as_ref().map(|dots| dots.as_deref());
        let verdict = row_verdict(due, ours, dots.map_err(String::clone), self.lent, space);
        if verdict.difference.is_some() {
            return verdict;
        }
        Verdict {
            difference: self.at_once(due, &plan, dots.unwrap_or(None), space),
            ..verdict
        }
    }

    /// The same row as the only one of some rows at once, over other bytes.
    fn at_once(
        &self,
        due: u8,
        plan: &lent::Plan,
        dots: Option<&[u8]>,
        space: &mut Space,
    ) -> Option<String> {
        let other: Vec<u8> = space.first(self.lent).iter().map(|byte| !byte).collect();
        space.write(&other);
        let ours = lent::rows(plan, self.row, 1, &self.data, space.lend(self.lent));
        if let Some(dots) = dots {
            space.expect(dots);
        }
        let bytes = space.difference("the rows", self.lent);
        match ours == due {
            true => bytes,
            false => Some(format!("{due} expected, {ours} given by rows at once")),
        }
    }
}

impl Question for PlanRow {
    fn difference(&self) -> Option<String> {
        self.judge(&mut Space::new(self.lent, &mut Random::new(0)))
            .difference
    }

    fn smaller(&self) -> Box<dyn Iterator<Item = Self> + '_> {
        let plan = &self.plan;
        let head = [
            vary(self, below(plan.count), |q, n| q.plan.count = n),
            vary(self, below(plan.width), |q, n| q.plan.width = n),
            vary(self, below(plan.height), |q, n| q.plan.height = n),
            vary(self, below(self.row), |q, n| q.row = n),
            vary(self, below(self.lent), |q, n| q.lent = n),
            vary(self, below(self.shift), |q, n| q.shift = n),
            vary(self, below(self.data.len()), |q, n| q.data.truncate(n)),
            vary(self, plainer(plan.paper_color), |q, color| {
                q.plan.paper_color = color
            }),
            vary(self, blanker(&self.data), |q, data| q.data = data),
        ];
        let used = 0..self.used();
        let without = vary(self, used.clone(), |q, i| {
            q.plan.entries.remove(i);
            q.plan.entries.push(Entry::ZERO);
            q.plan.count = q.plan.count.saturating_sub(1);
        });
        let entries = used.flat_map(move |i| {
            let others = smaller_entries(&plan.entries[i]).into_iter();
            vary(self, others, move |q, entry| q.plan.entries[i] = entry)
        });
        Box::new(without.chain(head.into_iter().flatten()).chain(entries))
    }

    fn text(&self) -> String {
        let plan = &self.plan;
        let mut text = format!(
            "plan row {} lent {} shift {}\nsizes {} {} paper {} count {}\nentries {}\n",
            self.row,
            self.lent,
            self.shift,
            plan.width,
            plan.height,
            hex(plan.paper_color),
            plan.count,
            self.used()
        );
        for entry in &plan.entries[..self.used()] {
            let Area { x, y, w, h } = entry.area;
            text += &format!(
                "{} {} {} {} {} {x} {y} {w} {h} {} {} {}\n",
                entry.kind,
                entry.mode,
                entry.stretch.0,
                entry.stretch.1,
                hex(entry.color),
                entry.original.0,
                entry.original.1,
                entry.start
            );
        }
        text + &format!("data {}\n", bytes(&self.data))
    }
}

impl PlanRow {
    /// The entries up to the last that is not zero.
    fn used(&self) -> usize {
        let last = self.plan.entries.iter().rposition(|e| *e != Entry::ZERO);
        last.map_or(0, |last| last + 1)
    }
}

fn smaller_entries(entry: &Entry) -> Vec<Entry> {
    let mut all = Vec::new();
    let mut add = |change: &dyn Fn(&mut Entry)| {
        let mut other = *entry;
        change(&mut other);
        all.push(other);
    };
    let Area { x, y, w, h } = entry.area;
    below(x).for_each(|n| add(&|e| e.area.x = n));
    below(y).for_each(|n| add(&|e| e.area.y = n));
    below(w).for_each(|n| add(&|e| e.area.w = n));
    below(h).for_each(|n| add(&|e| e.area.h = n));
    below(entry.stretch.0).for_each(|n| add(&|e| e.stretch.0 = n));
    below(entry.stretch.1).for_each(|n| add(&|e| e.stretch.1 = n));
    below(entry.original.0).for_each(|n| add(&|e| e.original.0 = n));
    below(entry.original.1).for_each(|n| add(&|e| e.original.1 = n));
    below(entry.start).for_each(|n| add(&|e| e.start = n));
    below(entry.mode).for_each(|n| add(&|e| e.mode = n));
    plainer(entry.color).for_each(|color| add(&|e| e.color = color));
    all
}

pub fn read(words: &mut Words) -> Result<PlanRow, String> {
    let row = words.past("row")?.number()?;
    let lent = words.past("lent")?.number()?;
    let shift = words.past("shift")?.number()?;
    let mut plan = Plan::zero();
    (plan.width, plan.height) = (words.past("sizes")?.number()?, words.number()?);
    plan.paper_color = words.past("paper")?.color()?;
    plan.count = words.past("count")?.number()?;
    let used: usize = words.past("entries")?.number()?;
    for i in 0..used {
        let entry = Entry {
            kind: words.number()?,
            mode: words.number()?,
            stretch: (words.number()?, words.number()?),
            color: words.color()?,
            area: Area {
                x: words.number()?,
                y: words.number()?,
                w: words.number()?,
                h: words.number()?,
            },
            original: (words.number()?, words.number()?),
            start: words.number()?,
        };
        *plan.entries.get_mut(i).ok_or("more than 64 entries")? = entry;
    }
    Ok(PlanRow {
        plan,
        data: words.past("data")?.bytes()?,
        row,
        lent,
        shift,
    })
}

#[cfg(test)]
mod tests {
    use super::{read, Plan, PlanRow, Question, Random, Words};

    #[test]
    fn what_is_written_is_read() {
        let mut random = Random::new(1);
        for _ in 0..200 {
            let text = PlanRow::any(&Plan::zero(), &[1, 2, 3], &mut random).text();
            let mut words = Words::new(text.strip_prefix("plan").unwrap());
            assert_eq!(read(&mut words).unwrap().text(), text);
        }
    }
}
