//! Events chosen from a table's state, so that long runs of accepted events happen, mixed with events that
//! are refused. A plan leads to what chance alone seldom reaches: many deaths, a second RESULT, a full channel,
//! machines that join one after another.

use crate::rng::Rng;
use second::table::{Table, ENTRIES, MACHINES};
use std::collections::VecDeque;

/// One step of a plan.
enum Task {
    Event([u8; 3]),
    /// Deliver from one machine to another until nothing is left.
    Drain(u8, u8),
    /// Start the lowest job of a machine's pool, if there is one.
    Start(u8),
}

pub struct Driver {
    /// How often each of the events 1 to 8 is chosen.
    weights: [usize; 9],
    /// How many events in 100 are noise, and how many of the others follow the plan.
    noise: usize,
    planned: usize,
    plan: VecDeque<Task>,
    /// A channel that only the plan delivers from.
    blocked: Option<(u8, u8)>,
}

/// What a run is to reach.
#[derive(Clone, Copy, PartialEq)]
pub enum Aim {
    Mixed,
    Deaths,
    Flood,
    Joins,
    Noise,
}

impl Driver {
    pub fn new(rng: &mut Rng, aim: Aim, table: &Table) -> Driver {
        let mut weights = [0, 9, 18, 60, 18, 15, 0, 12, 0].map(|w: usize| w * rng.pick(&[1, 1, 1, 2, 4]));
        weights[6] = rng.pick(&[0, 0, 1, 2]);
        weights[8] = rng.pick(&[0, 1, 2, 6]);
        let mut driver = Driver { weights, noise: 6, planned: 0, plan: VecDeque::new(), blocked: None };
        match aim {
            Aim::Mixed => driver.blocked = rng.chance(1, 3).then(|| pair(rng, table)),
            Aim::Noise => driver.noise = 70,
            Aim::Deaths => {
                driver.planned = 85;
                if rng.chance(1, 2) {
                    driver.plan_second_result(2);
                }
                driver.plan_deaths(rng, table);
            }
            Aim::Joins => {
                driver.planned = 80;
                driver.plan_joins(rng, table);
            }
            Aim::Flood => {
                (driver.planned, driver.noise) = rng.pick(&[(97, 1), (100, 0), (100, 0)]);
                driver.weights[6] = 0;
                driver.plan_flood(rng, table);
            }
        }
        driver
    }

    /// Events for a table that no run has reached.
    pub fn plain() -> Driver {
        let weights = [0, 2, 4, 16, 4, 4, 1, 3, 2];
        Driver { weights, noise: 10, planned: 0, plan: VecDeque::new(), blocked: None }
    }

    /// Machine 1 gets job 0 and hands it to another, whose ACK stays in flight while machine 1 dies: the root
    /// runs the next replica, and the other's RESULT finds the job priced.
    fn plan_second_result(&mut self, other: u8) {
        self.plan.push_back(Task::Event([1, 0, 0]));
        self.plan_handover(0, 1, 5);
        self.plan_handover(1, other, 4);
        self.plan.extend([[6, 1, 0], [7, 0, 1]].map(Task::Event));
        for machine in [0, other] {
            self.plan.extend([[4, machine, 0], [5, machine, 0]].map(Task::Event));
            self.plan.push_back(Task::Drain(machine, 0));
        }
    }

    /// Machines one after another take a job from the root and die; the root is told, others sometimes.
    fn plan_deaths(&mut self, rng: &mut Rng, table: &Table) {
        for job in 0..table.entries.min(1 + rng.number(4)) {
            self.plan.push_back(Task::Event([1, job, 0]));
        }
        for machine in 1..table.machines {
            let stages = rng.pick(&[1, 2, 3, 4, 4, 5, 5, 5]);
            self.plan_handover(0, machine, stages);
            if rng.chance(1, 4) {
                self.plan_handover(machine, 1 + rng.number(table.machines - 1), 5);
            }
            self.plan.push_back(Task::Event([6, machine, 0]));
            if rng.chance(1, 3) {
                self.plan.push_back(Task::Drain(machine, 0));
            }
            self.plan.push_back(Task::Event([7, 0, machine]));
            self.plan.push_back(Task::Drain(0, 0));
        }
    }

    /// Machines join until there are 16, and one more asks. Each is named by some event before it is there and by
    /// the same one after. It takes a job and may price a bond, and some machine may die, of which those that join
    /// later are told or not.
    fn plan_joins(&mut self, rng: &mut Rng, table: &Table) {
        let mut next = table.machines;
        if rng.chance(1, 2) {
            self.plan.push_back(Task::Event([8, next, 0]));
            self.plan_second_result(next);
            next += 1;
        }
        for job in 0..table.entries.min(1 + rng.number(20)) {
            self.plan.push_back(Task::Event([1, job, 0]));
        }
        let mut dead = Vec::new();
        for machine in next..MACHINES as u8 {
            let any = rng.number(machine);
            let victim = rng.pick(&[0, 0, machine - 1, any]);
            let early = early(rng, machine, victim);
            self.plan.extend([early, [8, machine, 0], early].map(Task::Event));
            let told = dead.iter().filter(|_| rng.chance(1, 3));
            self.plan.extend(told.map(|&of| Task::Event([7, machine, of])));
            let stages = rng.pick(&[1, 2, 3, 4, 5, 5, 5, 5]);
            self.plan_handover(victim, machine, stages);
            if rng.chance(2, 3) {
                let done = Task::Event([5, machine, 0]);
                self.plan.extend([Task::Start(machine), done, Task::Drain(machine, 0)]);
            }
            if rng.chance(1, 4) {
                let of = 1 + rng.number(machine);
                let to = rng.pick(&[0, 0, machine]);
                self.plan.extend([[6, of, 0], [7, to, of]].map(Task::Event));
                dead.push(of);
            }
        }
        self.plan.push_back(Task::Event([8, MACHINES as u8, 0]));
    }

    /// All jobs go by machine 2 to machine 1, whose messages to the root stay in flight: an ACK and a RESULT
    /// for each, but for the last RESULT, whose place a FISH takes. At the end every machine steals from itself,
    /// and one more machine asks to join. In most floods machine 3 is dead before, and at the end they steal
    /// from it too, those who were told of it and those who were not.
    fn plan_flood(&mut self, rng: &mut Rng, table: &Table) {
        let with_dead = rng.chance(2, 3);
        if with_dead {
            self.plan.push_back(Task::Event([6, 3, 0]));
            let told = (0..table.machines).filter(|_| rng.chance(1, 2));
            self.plan.extend(told.map(|machine| Task::Event([7, machine, 3])));
        }
        for job in 0..ENTRIES as u8 {
            self.plan.push_back(Task::Event([1, job, 0]));
        }
        (0..ENTRIES).for_each(|_| self.plan_handover(0, 2, 5));
        (0..ENTRIES).for_each(|_| self.plan_handover(2, 1, 4));
        for job in 0..ENTRIES as u8 {
            self.plan.push_back(Task::Event([4, 1, job]));
            self.plan.extend((job == 63).then_some(Task::Event([2, 2, 0])));
            self.plan.push_back(Task::Event([5, 1, 0]));
        }
        self.plan.extend((0..table.machines).map(|machine| Task::Event([2, machine, machine])));
        self.plan.push_back(Task::Event([8, table.machines, 0]));
        if with_dead {
            self.plan.extend((0..=table.machines).map(|machine| Task::Event([2, machine, 3])));
        }
        self.plan.push_back(Task::Event([2, table.machines, 0]));
        self.blocked = Some((1, 0));
    }

    /// A thief takes a job from a victim, up to some stage: FISH, REQ, AUTH, SCHEDULE, ACK.
    fn plan_handover(&mut self, victim: u8, thief: u8, stages: usize) {
        let way = [(thief, victim), (victim, 0), (0, victim), (victim, thief), (thief, 0)];
        self.plan.push_back(Task::Event([2, thief, victim]));
        self.plan.extend(way[..stages].iter().map(|&(from, to)| Task::Drain(from, to)));
    }

    /// The next event: noise, or the plan's, or one that looks acceptable.
    pub fn next(&mut self, rng: &mut Rng, table: &Table) -> Vec<u8> {
        if rng.chance(self.noise, 100) {
            let event = self.acceptable(rng, table);
            return noise(rng, table, event);
        }
        if rng.chance(self.planned, 100) {
            if let Some(event) = self.follow_plan(table) {
                return event.to_vec();
            }
        }
        self.acceptable(rng, table).to_vec()
    }

    fn follow_plan(&mut self, table: &Table) -> Option<[u8; 3]> {
        while let Some(task) = self.plan.front() {
            match *task {
                Task::Drain(from, to) if in_flight(table, from, to) => return Some([3, from, to]),
                Task::Event(event) => {
                    self.plan.pop_front();
                    return Some(event);
                }
                Task::Start(machine) => {
                    self.plan.pop_front();
                    let pool = &table.pools[usize::from(machine)];
                    if let Some(job) = pool.iter().position(|&replica| replica != 0) {
                        return Some([4, machine, job as u8]);
                    }
                }
                Task::Drain(..) => {
                    self.plan.pop_front();
                }
            }
        }
        None
    }

    /// An event that the table accepts, of a kind chosen by weight; any where a few kinds have none.
    fn acceptable(&self, rng: &mut Rng, table: &Table) -> [u8; 3] {
        let tries = (0..20).find_map(|_| {
            let code = self.weighted(rng);
            self.of_code(rng, table, code).map(|(a, b)| [code, a, b])
        });
        tries.unwrap_or_else(|| any(rng, table))
    }

    fn weighted(&self, rng: &mut Rng) -> u8 {
        let mut left = rng.below(self.weights.iter().sum());
        for (code, &weight) in self.weights.iter().enumerate() {
            if left < weight {
                return code as u8;
            }
            left -= weight;
        }
        3
    }

    fn of_code(&self, rng: &mut Rng, table: &Table, code: u8) -> Option<(u8, u8)> {
        let all = table.machines;
        let machine = |m: u8| &table.machine[usize::from(m)];
        let pool = |m: u8, job: u8| table.pools[usize::from(m)][usize::from(job)];
        match code {
            1 => Some((rng.some(table.entries, |job| table.jobs[usize::from(job)].state == 0)?, 0)),
            2 => {
                let a = rng.some(all, |m| table.alive(m) && machine(m).waits == 0)?;
                let to_dead = table.full() && rng.chance(3, 4);
                let allowed = |b: u8| b != a && !table.was_told(a, b) && !(to_dead && table.alive(b));
                let rich = rng.some(all, |b| allowed(b) && (0..table.entries).any(|job| pool(b, job) != 0));
                Some((a, rich.filter(|_| rng.chance(1, 2)).or_else(|| rng.some(all, allowed))?))
            }
            3 => self.deliverable(rng, table),
            4 => {
                let ready = |m| table.alive(m) && !machine(m).running.is_some();
                let a = rng.some(all, |m| ready(m) && (0..table.entries).any(|job| pool(m, job) != 0))?;
                Some((a, rng.some(table.entries, |job| pool(a, job) != 0)?))
            }
            5 => Some((rng.some(all, |m| machine(m).running.is_some())?, 0)),
            6 => Some((rng.some(all, |m| m != 0 && table.alive(m))?, 0)),
            8 => (usize::from(all) < MACHINES).then_some((all, 0)),
            _ => {
                let b = rng.some(all, |m| !table.alive(m))?;
                Some((rng.some(all, |a| table.alive(a) && !table.was_told(a, b))?, b))
            }
        }
    }

    /// The channel of some message in flight, seldom the blocked one.
    fn deliverable(&self, rng: &mut Rng, table: &Table) -> Option<(u8, u8)> {
        let slot = usize::from(rng.some(table.in_flight, |_| true)?);
        let message = &table.messages[slot];
        let channel = (message.from, message.to);
        (self.blocked != Some(channel) || rng.chance(1, 50)).then_some(channel)
    }
}

fn in_flight(table: &Table, from: u8, to: u8) -> bool {
    table.in_flight().iter().any(|message| message.from == from && message.to == to)
}

fn pair(rng: &mut Rng, table: &Table) -> (u8, u8) {
    (rng.number(table.machines), rng.number(table.machines))
}

/// An event that names a machine which is not there yet and, where it names two, one that is.
fn early(rng: &mut Rng, machine: u8, other: u8) -> [u8; 3] {
    match rng.pick(&[2, 3, 4, 5, 6, 7]) {
        code @ (2 | 3 | 7) if rng.chance(1, 2) => [code, other, machine],
        code @ (2 | 3 | 7) => [code, machine, other],
        code => [code, machine, 0],
    }
}

/// Any event that is not refused 10, seldom a death. A number may be the next machine's, that of a join any.
fn any(rng: &mut Rng, table: &Table) -> [u8; 3] {
    let next = table.machines;
    let (a, b) = (rng.number(next + 1), rng.number(next + 1));
    match rng.pick(&[1, 2, 2, 2, 3, 3, 3, 4, 4, 5, 5, 6, 7, 7, 7, 8, 8, 8]) {
        8 => [8, rng.pick(&[a, a, next + 1, next + 2, 16, 255]), 0],
        code @ (1 | 5 | 6) => [code, a, 0],
        code => [code, a, b],
    }
}

/// An event made from an acceptable one that is probably refused: cut, longer, a number changed or any.
pub fn noise(rng: &mut Rng, table: &Table, mut event: [u8; 3]) -> Vec<u8> {
    let large = [table.machines - 1, table.machines, table.entries, 16, 63, 64, 255];
    match rng.below(9) {
        0 => return event[..rng.below(3)].to_vec(),
        1 => return [&event[..], &[rng.byte(), rng.byte()]].concat(),
        2 => event[0] = rng.pick(&[0, 1, 2, 3, 4, 5, 6, 7, 8, 8, 8, 9, 255]),
        3 => event[1] = rng.pick(&large),
        4 => event[2] = rng.pick(&large),
        5 => event[2] = rng.number(3),
        6 => event = [rng.byte(), rng.byte(), rng.byte()],
        _ => event = any(rng, table),
    }
    event.to_vec()
}
