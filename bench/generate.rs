//! Seeded lists of calls for the track authority board.
//!
//!   generate SEED KIND OUTDIR      writes the files plan and calls
//!   generate SEED busy N OUTDIR    the same, N calls on a busy board
//!
//! Kinds: steered, numbers, damaged, short, wild, shift, limits, trains, bookings,
//! agreements, sets, busy N. The generator looks at the reference's board, which it uses
//! as a module, to steer towards calls that are accepted or refused for a wanted
//! reason. The clock goes on by a few minutes a call, and sometimes by about a week to the term
//! of an LPA; now and then some TOAs and TWAs join and agree over the same few
//! portions. Plain signals are booked out for what needs them.
//!
//! Build: rustc -O generate.rs

#[path = "reference.rs"]
#[allow(dead_code)]
mod reference;

use reference::{
    write_number, Authority, AuthorityNumber, Board, Booking, Gate, GateNumber, Kind, Paper, Place, Portions, Site,
    Stamp, Train, TrainNumber, CALL_LINE, COLUMNS, DAY, LAST_NUMBER, LEAST_DISTANCE, MOST_DISTANCE, MOST_LIVE,
    MOST_TRAINS, NOTICE, OUTSIDE, PLAIN, PLAN_LINE,
};
use std::fs::{self, File};
use std::io::{self, BufWriter, Write};
use std::path::Path;
use std::process::ExitCode;

// ---------------------------------------------------------------------------
// Random numbers (splitmix64)
// ---------------------------------------------------------------------------

struct Rng(u64);

impl Rng {
    fn next(&mut self) -> u64 {
        self.0 = self.0.wrapping_add(0x9E37_79B9_7F4A_7C15);
        let mut z = self.0;
        z = (z ^ (z >> 30)).wrapping_mul(0xBF58_476D_1CE4_E5B9);
        z = (z ^ (z >> 27)).wrapping_mul(0x94D0_49BB_1331_11EB);
        z ^ (z >> 31)
    }

    fn below(&mut self, end: usize) -> usize {
        (self.next() % end as u64) as usize
    }

    /// Both ends included.
    fn between(&mut self, least: u16, most: u16) -> u16 {
        least + self.below(usize::from(most - least) + 1) as u16
    }

    fn chance(&mut self, percent: usize) -> bool {
        self.below(100) < percent
    }

    fn pick<T: Copy>(&mut self, from: &[T]) -> T {
        from[self.below(from.len())]
    }

    /// An index drawn by weight.
    fn weighted(&mut self, weights: &[usize]) -> usize {
        let mut rest = self.below(weights.iter().sum());
        for (index, &weight) in weights.iter().enumerate() {
            if rest < weight {
                return index;
            }
            rest -= weight;
        }
        unreachable!()
    }

    fn shuffle<T>(&mut self, list: &mut [T]) {
        for index in (1..list.len()).rev() {
            let other = self.below(index + 1);
            list.swap(index, other);
        }
    }

    /// The first that fits, from a random place on and round.
    fn first_fit<T: Copy>(&mut self, from: &[T], fits: impl Fn(&T) -> bool) -> Option<T> {
        if from.is_empty() {
            return None;
        }
        let start = self.below(from.len());
        from[start..].iter().chain(&from[..start]).copied().find(|one| fits(one))
    }
}

// ---------------------------------------------------------------------------
// Plans
// ---------------------------------------------------------------------------

#[derive(Clone)]
struct Plan {
    portions: u16,
    gates: Vec<[u16; 3]>,
}

impl Plan {
    fn text(&self) -> Vec<u8> {
        let mut text = plan_line([self.portions.into(), self.gates.len() as u32, 0]);
        for &[from, to, kind] in &self.gates {
            text.extend(plan_line([from.into(), to.into(), kind.into()]));
        }
        text
    }

    fn random(rng: &mut Rng) -> Plan {
        let portions = match rng.below(10) {
            0 => rng.between(1, 2),
            1..=4 => rng.between(2, 8),
            5..=6 => rng.between(6, 30),
            7 => rng.between(1, 64),
            8 => 64,
            _ => rng.between(60, 64),
        };
        let mut plan = Plan { portions, gates: Vec::new() };
        if rng.chance(2) {
            return plan;
        }
        match rng.below(10) {
            0..=4 => plan.line(rng),
            5 => plan.ring(rng),
            6 => plan.scatter(rng, 64),
            7..=8 => {
                plan.line(rng);
                let more = rng.below(10);
                plan.scatter(rng, more);
            }
            _ => {
                let few = rng.below(6);
                plan.scatter(rng, few);
            }
        }
        plan.gates.truncate(64);
        plan.set_kinds(rng);
        if rng.chance(60) {
            plan.shuffle(rng);
        }
        plan
    }

    /// Portions in a row, up, down or both, with ends to outside.
    fn line(&mut self, rng: &mut Rng) {
        let last = self.portions - 1;
        let (up, down) = rng.pick(&[(true, true), (true, true), (true, false), (false, true)]);
        if up {
            self.gates.push([OUTSIDE, 0, 1]);
        }
        if down {
            self.gates.push([0, OUTSIDE, 1]);
        }
        for portion in 0..last {
            if up {
                self.gates.push([portion, portion + 1, 1]);
            }
            if down {
                self.gates.push([portion + 1, portion, 1]);
            }
        }
        // The far end first if the row is longer than the gates.
        let ends = [[last, OUTSIDE, 1], [OUTSIDE, last, 1]];
        for (wanted, end) in [up, down].iter().zip(ends) {
            if *wanted {
                let place = self.gates.len().min(2);
                self.gates.insert(place, end);
            }
        }
    }

    /// A ring with some ways in and out.
    fn ring(&mut self, rng: &mut Rng) {
        for _ in 0..1 + rng.below(4) {
            let at = rng.below(self.portions.into()) as u16;
            self.gates.push(rng.pick(&[[OUTSIDE, at, 1], [at, OUTSIDE, 1], [OUTSIDE, 0, 1]]));
        }
        if self.portions > 1 {
            for portion in 0..self.portions {
                self.gates.push([portion, (portion + 1) % self.portions, 1]);
            }
        }
    }

    fn scatter(&mut self, rng: &mut Rng, count: usize) {
        for _ in 0..count {
            let from = self.place(rng);
            let mut to = self.place(rng);
            while to == from {
                to = self.place(rng);
            }
            self.gates.push([from, to, 1]);
        }
    }

    fn place(&self, rng: &mut Rng) -> u16 {
        if rng.chance(25) {
            OUTSIDE
        } else {
            rng.below(self.portions.into()) as u16
        }
    }

    fn set_kinds(&mut self, rng: &mut Rng) {
        let plain = rng.pick(&[0, 5, 15, 30, 50, 80, 100]);
        for gate in &mut self.gates {
            gate[2] = if rng.chance(plain) { PLAIN } else { rng.between(1, 3) };
        }
    }

    fn shuffle(&mut self, rng: &mut Rng) {
        rng.shuffle(&mut self.gates);
    }

    /// P 64, G 64: a ring of 48 portions with four ways in and four out, and a
    /// yard of 16 portions with eight gates. Every sixth gate of the ring is a
    /// plain signal.
    fn busy(rng: &mut Rng) -> Plan {
        let mut plan = Plan { portions: 64, gates: Vec::new() };
        for portion in 0..48 {
            let kind = if portion % 6 == 5 { PLAIN } else { rng.between(1, 3) };
            plan.gates.push([portion, (portion + 1) % 48, kind]);
        }
        for quarter in 0..4 {
            plan.gates.push([OUTSIDE, 12 * quarter, rng.between(1, 3)]);
            plan.gates.push([12 * quarter + 6, OUTSIDE, rng.between(1, 3)]);
        }
        for pair in 0..4 {
            let at = 48 + 4 * pair;
            plan.gates.push([at, at + 1, rng.between(1, 3)]);
            plan.gates.push([at + 1, at, if pair == 0 { PLAIN } else { rng.between(1, 3) }]);
        }
        plan.shuffle(rng);
        plan
    }
}

/// Numbers up to 999999, so that damaged plans can be written too.
fn wide_columns(number: u32) -> [u8; COLUMNS] {
    let mut columns = [b' '; COLUMNS];
    columns.copy_from_slice(format!("{number:6}").as_bytes());
    columns
}

fn plan_line(numbers: [u32; 3]) -> Vec<u8> {
    let mut line: Vec<u8> = numbers.iter().flat_map(|&number| wide_columns(number)).collect();
    line.push(b'\n');
    line
}

fn call_line(numbers: &[u16; 7]) -> [u8; CALL_LINE] {
    let mut line = [b'\n'; CALL_LINE];
    for (number, columns) in numbers.iter().zip(line.chunks_exact_mut(COLUMNS)) {
        write_number(*number, columns);
    }
    line
}

// ---------------------------------------------------------------------------
// What a call's fields mean
// ---------------------------------------------------------------------------

#[derive(Clone, Copy, PartialEq)]
enum Role {
    Kind,
    First,
    Last,
    Officer,
    Authority,
    Gate,
    Train,
    Assurances,
    /// may be 0
    Pilot,
    PilotOfficer,
    StartDay,
    StartTime,
    Length,
    Distance,
    Paper,
    Certified,
    /// 0 or a paper
    NewPaper,
    Unused,
}

fn roles(call: u16) -> [Role; 4] {
    use self::Role::{Assurances, First, Gate, Kind, Last, Officer, Pilot, PilotOfficer, Train, Unused};
    use self::Role::{Certified, Distance, Length, NewPaper, Paper, StartDay, StartTime};
    const A: Role = Role::Authority;
    match call {
        1 => [Kind, First, Last, Officer],
        3 => [A, A, Officer, Unused],
        4 | 5 => [Gate, Unused, Unused, Unused],
        9 => [A, Officer, Officer, Unused],
        10 => [A, Officer, Assurances, Unused],
        11 => [A, A, Officer, Officer],
        12 => [Train, Gate, Pilot, PilotOfficer],
        13 => [Train, Unused, Unused, Unused],
        14 => [A, StartDay, StartTime, Length],
        15 => [A, A, Officer, Distance],
        16 => [Gate, Paper, Unused, Unused],
        17 => [Gate, Paper, Certified, NewPaper],
        _ => [A, Officer, Unused, Unused],
    }
}

/// The answers that 01's braces and the orders allow, and 3 and 4; 0 is left out.
/// One that stands twice is wanted twice as often.
fn refusals(call: u16) -> &'static [u16] {
    match call {
        1 => &[3, 4, 9],
        2 => &[3, 4, 5, 6, 7],
        3 => &[3, 4, 5, 6, 7, 8],
        4 => &[3, 4, 8, 10],
        5 => &[3, 4, 8, 16],
        6 => &[3, 4, 5, 6, 7, 11, 12, 13, 22, 22],
        7 => &[3, 4, 5, 6, 7, 8],
        8 => &[3, 4, 5, 6, 7, 8, 12],
        9 => &[3, 4, 5, 7, 8],
        10 => &[3, 4, 5, 6, 7, 14, 15],
        11 => &[3, 4, 5, 6, 7, 11, 12, 13, 22, 22],
        12 => &[3, 4, 9, 12, 14, 17, 18, 19],
        13 => &[3, 4, 8, 17],
        14 => &[3, 4, 5, 6, 8, 21, 21],
        15 => &[3, 4, 5, 6, 6, 7, 8, 24, 24],
        16 => &[3, 4, 8, 10],
        17 => &[3, 3, 4, 5, 5, 25, 25],
        _ => &[2],
    }
}

// ---------------------------------------------------------------------------
// Steering
// ---------------------------------------------------------------------------

/// Weights of the calls 1 to 17.
type Mood = [usize; 17];

const BUILD: Mood = [14, 2, 8, 22, 3, 20, 5, 3, 3, 2, 6, 8, 4, 8, 6, 12, 6];
const TRAFFIC: Mood = [4, 1, 3, 5, 6, 5, 8, 6, 3, 2, 4, 35, 20, 3, 3, 4, 4];
const WIND_DOWN: Mood = [3, 8, 3, 3, 24, 4, 14, 3, 4, 20, 10, 8, 12, 3, 3, 3, 14];
const FILL: Mood = [70, 1, 3, 6, 1, 6, 2, 2, 2, 1, 1, 4, 2, 5, 3, 3, 2];
const CROWD: Mood = [2, 1, 1, 2, 1, 3, 2, 2, 1, 1, 2, 70, 3, 2, 1, 1, 1];
const DRAIN: Mood = [2, 1, 1, 2, 8, 2, 6, 2, 2, 2, 2, 40, 30, 2, 1, 2, 3];
const EVEN: Mood = [8, 8, 8, 8, 8, 8, 8, 8, 8, 8, 8, 8, 8, 8, 8, 8, 8];
const RENEW: Mood = [16, 2, 3, 14, 2, 6, 5, 3, 3, 2, 24, 20, 3, 8, 5, 10, 6];
const WORKSITE: Mood = [10, 2, 14, 12, 2, 14, 12, 16, 3, 2, 6, 24, 8, 4, 8, 6, 6];
const POSSESSION: Mood = [16, 4, 2, 14, 3, 22, 8, 3, 3, 6, 16, 8, 3, 22, 2, 6, 5];
const JOURNEY: Mood = [14, 2, 6, 16, 2, 18, 8, 6, 4, 5, 10, 12, 6, 2, 22, 8, 5];
const BOOKINGS: Mood = [8, 2, 2, 13, 20, 10, 5, 2, 2, 5, 9, 8, 4, 3, 3, 18, 34];
const MOODS: [&Mood; 13] = [
    &BUILD, &TRAFFIC, &WIND_DOWN, &FILL, &CROWD, &DRAIN, &EVEN, &RENEW, &WORKSITE, &POSSESSION, &JOURNEY, &BOOKINGS, &BOOKINGS,
];

struct Driver {
    rng: Rng,
    board: Board,
    officers: Vec<u16>,
    train_pool: Vec<u16>,
    /// papers to book gates out under, few enough that they come again
    papers: Vec<u16>,
    mood: Mood,
    /// minutes that a call goes on, in thousandths
    pace: usize,
    /// whether stamps may jump to the next day or further
    leaps: bool,
    /// the day that the clock may reach by now, so that days are left to the
    /// end of the list
    ration: u16,
    /// the call that is to come next, if that is settled already
    next: Option<[u16; 7]>,
    /// the live authorities in the order to pick from, which isn't the
    /// register's: the last takes the place of one that ends
    picks: Vec<AuthorityNumber>,
    /// so too the trains on the board: one that comes goes to the end, and the
    /// last takes the place of one that leaves
    train_picks: Vec<TrainNumber>,
}

/// The minutes that the clock may still reach now, both ends included.
#[derive(Clone, Copy)]
struct Reach {
    now: u32,
    limit: u32,
}

impl Reach {
    fn holds(self, minute: u32) -> bool {
        self.now <= minute && minute <= self.limit
    }

    /// Whether 22 can still be avoided.
    fn serves(self, one: &Authority) -> bool {
        let comes = |start: u32, length: u16| start <= self.limit && self.now < start + u32::from(length);
        one.kind != Kind::Lpa || one.term.is_some_and(|term| comes(term.start, term.length))
    }
}

impl Driver {
    fn new(mut rng: Rng, plan: &Plan) -> Driver {
        let board = Board::open(&plan.text()).expect("the generator made a wrong plan");
        let mut officers: Vec<u16> = (0..2 + rng.below(4)).map(|_| rng.between(1, 12)).collect();
        officers.extend([1, 999]);
        let mut train_pool: Vec<u16> = (1..=34 + rng.between(0, 6)).collect();
        train_pool.extend([64, 99, 9998, 9999]);
        let mut papers: Vec<u16> = (0..3 + rng.below(8)).map(|_| rng.between(1, 9999)).collect();
        papers.extend([1, 2, 256, 9998, 9999]);
        let (picks, train_picks) = (Vec::with_capacity(MOST_LIVE), Vec::with_capacity(MOST_TRAINS));
        let (mood, pace, leaps, ration, next) = (EVEN, 2000, true, 9999, None);
        Driver { rng, board, officers, train_pool, papers, mood, pace, leaps, ration, next, picks, train_picks }
    }

    fn answer(&self, numbers: &[u16; 7]) -> u16 {
        self.board.clone().call(numbers).0
    }

    // ----- stamps -----

    fn stamp(&mut self) -> Stamp {
        let last = self.board.last_stamp;
        if self.leaps {
            match self.rng.below(200) {
                0..=2 => return Stamp { day: last.day, time: 2359 },
                3..=6 if last.day < 9999 => {
                    let time = self.rng.between(0, 23) * 100 + self.rng.between(0, 59);
                    return Stamp { day: last.day + 1, time: self.rng.pick(&[0, 1, time]) };
                }
                7 if last.day < self.ration => {
                    let most = (self.ration - last.day).min(300);
                    return Stamp { day: last.day + self.rng.between(0, most), time: 2359 };
                }
                8..=10 => {
                    // to the ends of a term, or just outside it
                    let reach = self.reach();
                    let waiting = self.pick_live(|one| is_pending_lpa(one) && reach.serves(one));
                    if let Some(term) = waiting.and_then(|one| one.term) {
                        let end = term.start + u32::from(term.length);
                        let minute = self.rng.pick(&[term.start - 1, term.start, end - 1, end]);
                        if reach.holds(minute) {
                            return stamp_of(minute);
                        }
                    }
                }
                _ => {}
            }
        }
        if last.day > self.ration {
            return last;
        }
        let thousandths = self.rng.below(2 * self.pace + 1);
        let more = thousandths / 1000 + usize::from(self.rng.below(1000) < thousandths % 1000);
        later(last, more)
    }

    fn bad_stamp(&mut self) -> Stamp {
        let good = self.stamp();
        let minute = self.rng.between(60, 99);
        let time = good.time / 100 * 100 + minute;
        match self.rng.below(3) {
            0 => Stamp { day: self.rng.pick(&[10000, 10001, 65535]), time: good.time },
            1 => Stamp { day: good.day, time: self.rng.pick(&[2400, 2360, 2399, 2401, 65535, 60, 9999]) },
            _ => Stamp { day: good.day, time },
        }
    }

    /// A stamp before the last accepted one, in range, if there is any.
    fn earlier_stamp(&mut self) -> Stamp {
        let Stamp { day, time } = self.board.last_stamp;
        let same_day = time > 0 && (day == 0 || self.rng.chance(60));
        if same_day {
            let before = if time % 100 == 0 { time - 41 } else { time - 1 };
            let hour_before = if time >= 100 { time - 100 } else { 0 };
            Stamp { day, time: self.rng.pick(&[before, before, hour_before, 0]) }
        } else if day > 0 {
            let last_of_day = self.rng.pick(&[2359, 2359, time, 0]);
            Stamp { day: self.rng.pick(&[day - 1, day - 1, 0]), time: last_of_day }
        } else {
            Stamp { day, time }
        }
    }

    fn reach(&self) -> Reach {
        let now = self.board.last_stamp.minute();
        let limit = if self.leaps { u32::from(self.ration) * DAY + DAY - 1 } else { now + 10 };
        Reach { now, limit }
    }

    /// GRANT and CONTINUE look at the term of the LPA that is to come into
    /// force: a stamp in it or just outside it, if the clock may go there.
    fn term_stamp(&mut self, authority: u16, want: u16, stamp: Stamp) -> Stamp {
        let this = self.board.live.iter().find(|one| one.number.0 == authority);
        let Some(term) = this.and_then(|one| one.term) else {
            return stamp;
        };
        let (start, end) = (term.start, term.start + u32::from(term.length));
        let inside = start + self.rng.below(usize::from(term.length.min(1500))) as u32;
        let wanted = match want {
            0 if term.holds(stamp.minute()) && self.rng.chance(60) => return stamp,
            0 => self.rng.pick(&[start, start, start, inside, end - 1]),
            22 if self.rng.chance(70) => self.rng.pick(&[start - 1, start - 1, end, end, end + 1]),
            _ if self.rng.chance(40) => self.rng.pick(&[start, inside, end - 1]),
            _ => return stamp,
        };
        if self.reach().holds(wanted) {
            stamp_of(wanted)
        } else {
            stamp
        }
    }

    // ----- picking from the board -----

    fn pick_live(&mut self, fits: impl Fn(&Authority) -> bool) -> Option<Authority> {
        let live = &self.board.live;
        let find = |number: &AuthorityNumber| live.iter().find(|one| one.number == *number);
        let number = self.rng.first_fit(&self.picks, |number| find(number).is_some_and(&fits))?;
        find(&number).copied()
    }

    /// The trains on the board, in the order to pick from.
    fn trains(&self) -> Vec<Train> {
        let find = |number: &TrainNumber| self.board.trains.iter().find(|one| one.number == *number);
        self.train_picks.iter().filter_map(find).copied().collect()
    }

    fn pick_train(&mut self, fits: impl Fn(&Train) -> bool) -> Option<Train> {
        let trains = self.trains();
        self.rng.first_fit(&trains, fits)
    }

    fn pick_gate(&mut self, fits: impl Fn(GateNumber, &Gate) -> bool) -> Option<u16> {
        let count = self.board.gates.len();
        if count == 0 {
            return None;
        }
        let start = self.rng.below(count);
        (start..count)
            .chain(0..start)
            .find(|&index| fits(GateNumber(index as u16), &self.board.gates[index]))
            .map(|index| index as u16)
    }

    fn any_gate(&mut self) -> u16 {
        self.pick_gate(|_, _| true).unwrap_or(0)
    }

    fn any_officer(&mut self) -> u16 {
        self.rng.pick(&self.officers)
    }

    fn other_officer(&mut self, officer: u16) -> u16 {
        let other = self.any_officer();
        if other != officer {
            other
        } else if officer < 999 {
            officer + 1
        } else {
            officer - 1
        }
    }

    /// A number that no live authority has, most of the time.
    fn dead_number(&mut self) -> u16 {
        let last = self.board.last_number;
        let candidates = [last.min(9998) + 1, self.rng.between(1, last.max(1)), self.rng.between(1, 9999), 9999];
        for _ in 0..4 {
            let number = self.rng.pick(&candidates);
            if self.board.live.iter().all(|one| one.number.0 != number) {
                return number;
            }
        }
        candidates[0]
    }

    fn free_train(&mut self) -> u16 {
        let trains = &self.board.trains;
        self.rng
            .first_fit(&self.train_pool, |&number| trains.iter().all(|one| one.number.0 != number))
            .unwrap_or(77)
    }

    fn any_train(&mut self) -> u16 {
        if self.rng.chance(80) && !self.board.trains.is_empty() {
            self.rng.pick(&self.train_picks).0
        } else {
            self.rng.pick(&self.train_pool)
        }
    }

    /// Authority and officer that 19 asks of a MOVE through the gate.
    fn due(&self, gate: u16) -> (u16, u16) {
        let Some(gate) = self.board.gates.get(usize::from(gate)) else {
            return (0, 0);
        };
        let here = |one: &&Authority| one.is_in_force() && one.limits.hold(gate.to);
        let exclusive = self.board.live.iter().filter(here).find(|one| one.kind.is_exclusive());
        let one = exclusive.or_else(|| self.board.live.iter().find(here));
        one.map_or((0, 0), |one| (one.number.0, one.officer))
    }

    // ----- fields that are likely to be accepted -----

    /// For GRANT and CONTINUE to be refused with 22 the LPA may be outside its
    /// term; TERM looks at the stamp.
    fn good_fields(&mut self, call: u16, want: u16, stamp: Stamp) -> [u16; 4] {
        match call {
            1 => self.good_request(),
            2 => self.two(|one| one.is_pending()),
            3 => self.good_agree(),
            4 => self.good_block(),
            5 => {
                let blocked = self.board.blocked;
                let needed = self.needed_in_force();
                let free = |number: GateNumber, _: &Gate| blocked.hold(number) && needed >> number.0 & 1 == 0;
                let gate = self.pick_gate(free).unwrap_or_else(|| self.any_gate());
                [gate, 0, 0, 0]
            }
            6 => self.good_grant(want),
            7 => self.two(|one| one.is_in_force() && one.site == Site::WorkersOn),
            8 => self.two(|one| one.is_in_force() && one.site == Site::Clear),
            9 => {
                let [authority, out, _, _] = self.two(|_| true);
                [authority, out, self.other_officer(out), 0]
            }
            10 => {
                let [authority, officer, _, _] = self.two(|one| one.is_in_force() && one.site == Site::Clear);
                [authority, officer, 7, 0]
            }
            11 => self.good_continue(want),
            12 => self.good_move(),
            13 => {
                let wanted = |train: &Train| train.head != train.rear;
                let train = self.pick_train(wanted);
                [train.map_or_else(|| self.any_train(), |train| train.number.0), 0, 0, 0]
            }
            14 => self.good_term(stamp),
            15 => self.good_join(),
            16 => self.good_book_out(),
            17 => self.good_book_in(want),
            _ => [self.any(Role::Authority), self.any_officer(), 0, 0],
        }
    }

    /// An authority that fits and its officer; any other if none fits.
    fn two(&mut self, fits: impl Fn(&Authority) -> bool) -> [u16; 4] {
        let found = self.pick_live(fits).or_else(|| self.pick_live(|_| true));
        match found {
            Some(one) => [one.number.0, one.officer, 0, 0],
            None => [self.dead_number(), self.any_officer(), 0, 0],
        }
    }

    fn needed_in_force(&self) -> u64 {
        self.board.live.iter().filter(|one| one.is_in_force()).fold(0, |all, one| all | one.needs.0)
    }

    fn good_request(&mut self) -> [u16; 4] {
        let most = self.board.portions - 1;
        let kind = match self.mood {
            POSSESSION => self.rng.pick(&[1, 1, 1, 2, 3]),
            JOURNEY => self.rng.pick(&[1, 2, 2, 2, 3, 3, 3]),
            _ => self.rng.pick(&[1, 1, 1, 2, 2, 2, 3, 3, 3]),
        };
        let near = match self.rng.below(8) {
            // a TWA wants a TOA to agree, a TOA a TWA to join, another something
            // to continue
            0..=2 if kind == 3 => self.pick_live(|one| one.is_in_force() && one.kind == Kind::Toa),
            0..=1 if kind == 2 => self.pick_live(|one| one.is_in_force() && one.kind == Kind::Twa),
            0..=2 => self.pick_live(|one| one.is_in_force()),
            3 => self.pick_live(|_| true),
            _ => None,
        };
        let (first, last) = if let Some(one) = near {
            // its limits, a little more or less at each end
            let (first, last) = ends(one.limits);
            let low = (first + self.rng.pick(&[0, 0, 1, 2])).saturating_sub(self.rng.pick(&[0, 0, 1, 3]));
            let high = (last + self.rng.pick(&[0, 0, 1, 3])).saturating_sub(self.rng.pick(&[0, 0, 1, 2]));
            (low.min(most), high.min(most))
        } else {
            match self.rng.below(12) {
                0 => (0, most),
                1 => (0, self.rng.between(0, most)),
                2 => (self.rng.between(0, most), most),
                3 | 4 => match self.pick_train(|_| true).map(|train| train.head) {
                    Some(Place::Portion(at)) => (at.saturating_sub(self.rng.between(0, 1)), (at + 1).min(most)),
                    _ => (most, most),
                },
                _ => {
                    let first = self.rng.between(0, most);
                    (first, (first + self.rng.pick(&[0, 0, 0, 1, 1, 2, 3, 5])).min(most))
                }
            }
        };
        [kind, first.min(last), last.max(first), self.any_officer()]
    }

    fn good_agree(&mut self) -> [u16; 4] {
        let twa = self.pick_live(|one| one.is_pending() && one.kind == Kind::Twa);
        let Some(twa) = twa.or_else(|| self.pick_live(|_| true)) else {
            return [self.dead_number(), self.dead_number(), self.any_officer(), 0];
        };
        let right = |one: &Authority| one.is_in_force() && one.kind == Kind::Toa && twa.agreed != Some(one.number);
        let toa = self
            .pick_live(|one| right(one) && one.limits.share(twa.limits))
            .or_else(|| self.pick_live(right))
            .or_else(|| self.pick_live(|one| one.kind == Kind::Toa))
            .unwrap_or(twa);
        [toa.number.0, twa.number.0, toa.officer, 0]
    }

    fn good_join(&mut self) -> [u16; 4] {
        let live = self.board.live.clone();
        let standing = |one: &Authority| one.is_in_force() && one.kind == Kind::Twa;
        let waiting = |one: &Authority| one.is_pending() && one.kind == Kind::Toa;
        let beside = |toa: &Authority| live.iter().any(|one| standing(one) && one.limits.share(toa.limits));
        let near = |toa: &Authority| waiting(toa) && beside(toa);
        // sometimes one that has joined, to join another in its place
        let joined = if self.rng.chance(25) { self.pick_live(|one| near(one) && one.agreed.is_some()) } else { None };
        let toa = joined.or_else(|| self.pick_live(near)).or_else(|| self.pick_live(waiting));
        let Some(toa) = toa.or_else(|| self.pick_live(|_| true)) else {
            return [self.dead_number(), self.dead_number(), self.any_officer(), self.good_distance()];
        };
        let right = |one: &Authority| standing(one) && toa.agreed != Some(one.number);
        let twa = self
            .pick_live(|one| right(one) && one.limits.share(toa.limits))
            .or_else(|| self.pick_live(right))
            .or_else(|| self.pick_live(|one| one.kind == Kind::Twa))
            .unwrap_or(toa);
        [twa.number.0, toa.number.0, twa.officer, self.good_distance()]
    }

    /// A distance from 500 to 1000, often one of the two.
    fn good_distance(&mut self) -> u16 {
        let (least, most) = (LEAST_DISTANCE, MOST_DISTANCE);
        let any = self.rng.between(least, most);
        self.rng.pick(&[least, least, least + 1, most - 1, most, most, any, any])
    }

    /// A distance under 500 or over 1000, often next to one of the two.
    fn bad_distance(&mut self) -> u16 {
        let (under, over) = (self.rng.between(0, LEAST_DISTANCE - 1), self.rng.between(MOST_DISTANCE + 1, 65535));
        let (below, above) = (LEAST_DISTANCE - 1, MOST_DISTANCE + 1);
        self.rng.pick(&[below, below, below, above, above, above, 0, 65535, under, over])
    }

    fn good_block(&mut self) -> [u16; 4] {
        let blocked = self.board.blocked;
        let able: Vec<bool> = self.gates_where(|board, number| board.can_be_blocked(number));
        let free = |number: GateNumber, _: &Gate| able[usize::from(number.0)] && !blocked.hold(number);
        let mut gate = None;
        if self.rng.chance(80) {
            // what some pending authority still needs
            if let Some(one) = self.pick_live(|one| one.is_pending() && !one.needs.all_in(blocked)) {
                gate = self.pick_gate(|number, gate| one.needs.hold(number) && free(number, gate));
            }
        }
        [gate.or_else(|| self.pick_gate(free)).unwrap_or_else(|| self.any_gate()), 0, 0, 0]
    }

    // ----- bookings -----

    /// For each gate, whether it fits.
    fn gates_where(&self, fits: impl Fn(&Board, GateNumber) -> bool) -> Vec<bool> {
        (0..self.board.gates.len()).map(|gate| fits(&self.board, GateNumber(gate as u16))).collect()
    }

    fn pick_gate_where(&mut self, fits: impl Fn(&Board, GateNumber) -> bool) -> Option<u16> {
        let right = self.gates_where(fits);
        self.pick_gate(|number, _| right[usize::from(number.0)])
    }

    /// The gate's booking, if there is such a gate and it is out.
    fn booking(&self, gate: u16) -> Option<Booking> {
        self.board.bookings.get(usize::from(gate)).copied().flatten()
    }

    /// A paper of the pool, and sometimes one that some gate is out under, or
    /// any.
    fn any_paper(&mut self) -> u16 {
        let from_pool = self.rng.pick(&self.papers);
        let gate = self.pick_gate_where(|board, gate| board.booking(gate).is_some());
        let booked = gate.and_then(|gate| self.booking(gate)).map_or(from_pool, |one| one.paper.0);
        let any = self.rng.between(1, 9999);
        self.rng.pick(&[from_pool, from_pool, from_pool, booked, any, 1, 9999])
    }

    fn other_paper(&mut self, paper: u16) -> u16 {
        let other = self.any_paper();
        if other != paper {
            other
        } else if paper < 9999 {
            paper + 1
        } else {
            paper - 1
        }
    }

    /// A plain signal that isn't out, best one that some pending authority
    /// needs.
    fn good_book_out(&mut self) -> [u16; 4] {
        let blocked = self.board.blocked;
        let free = |board: &Board, gate: GateNumber| board.gate(gate).is_plain() && board.booking(gate).is_none();
        let mut gate = None;
        if self.rng.chance(70) {
            if let Some(one) = self.pick_live(|one| one.is_pending() && !one.needs.all_in(blocked)) {
                gate = self.pick_gate_where(|board, number| one.needs.hold(number) && free(board, number));
            }
        }
        let gate = gate.or_else(|| self.pick_gate_where(free)).unwrap_or_else(|| self.any_gate());
        [gate, self.any_paper(), 0, 0]
    }

    /// A gate that is out, to be restored or kept out under a new paper; for 25
    /// one whose block is on, to be restored.
    fn good_book_in(&mut self, want: u16) -> [u16; 4] {
        let (blocked, needed) = (self.board.blocked, self.needed_in_force());
        let out = |board: &Board, gate: GateNumber| board.booking(gate).is_some();
        let restore = want == 25 || self.rng.chance(45);
        let mut gate = None;
        if want == 25 {
            // best one that an authority in force needs, or that none needs
            let in_need = self.rng.chance(60);
            gate = self
                .pick_gate_where(|board, gate| out(board, gate) && blocked.hold(gate) && (needed >> gate.0 & 1 == 1) == in_need)
                .or_else(|| self.pick_gate_where(|board, gate| out(board, gate) && blocked.hold(gate)));
        } else if restore {
            gate = self.pick_gate_where(|board, gate| out(board, gate) && !blocked.hold(gate));
        } else if self.rng.chance(50) {
            // one that has been kept out before, or whose block is on
            let renewed = self.rng.chance(50);
            let again = |one: Option<Booking>| one.is_some_and(|one| one.replaced.is_some());
            gate = self.pick_gate_where(|board, gate| {
                if renewed { again(board.booking(gate)) } else { out(board, gate) && blocked.hold(gate) }
            });
        }
        let gate = gate.or_else(|| self.pick_gate_where(out)).unwrap_or_else(|| self.any_gate());
        let booked = self.booking(gate);
        let paper = booked.map_or_else(|| self.any_paper(), |one| one.paper.0);
        if restore && (want == 25 || !blocked.hold(GateNumber(gate))) {
            return [gate, paper, 1, 0];
        }
        // sometimes back to the paper that was replaced
        let new = match booked.and_then(|one| one.replaced) {
            Some(Paper(replaced)) if replaced != paper && self.rng.chance(20) => replaced,
            _ => self.other_paper(paper),
        };
        [gate, paper, 0, new]
    }

    /// BOOK IN with a combination that is refused, or a field out of range.
    fn spoil_combination(&mut self, fields: &mut [u16; 4]) {
        let paper = fields[1];
        let other = self.other_paper(paper);
        match self.rng.below(10) {
            0 => [fields[2], fields[3]] = [1, other],
            1 => [fields[2], fields[3]] = [1, paper],
            2 => [fields[2], fields[3]] = [1, self.out_of_range(Role::NewPaper)],
            3 => [fields[2], fields[3]] = [0, 0],
            4 | 5 => [fields[2], fields[3]] = [0, paper],
            6 => [fields[2], fields[3]] = [0, self.out_of_range(Role::NewPaper)],
            7 => [fields[2], fields[3]] = [self.out_of_range(Role::Certified), 0],
            8 => [fields[2], fields[3]] = [self.out_of_range(Role::Certified), other],
            _ => fields[1] = self.out_of_range(Role::Paper),
        }
    }

    /// BOOK IN of a paper that isn't the one booked.
    fn spoil_paper(&mut self, fields: &mut [u16; 4]) {
        let blocked = self.board.blocked;
        let out = |board: &Board, gate: GateNumber| board.booking(gate).is_some();
        let how = self.rng.below(9);
        let gate = match how {
            // not out, or of another kind
            0 | 1 => self.pick_gate_where(|board, gate| board.gate(gate).is_plain() && !out(board, gate)),
            2 => self.pick_gate_where(|board, gate| !board.gate(gate).is_plain()),
            3 => self.pick_gate_where(|board, gate| !board.gate(gate).is_plain() && blocked.hold(gate)),
            // the paper that was replaced
            4 | 5 => self.pick_gate_where(|board, gate| board.booking(gate).is_some_and(|one| one.replaced.is_some())),
            // with the block on
            6 => self.pick_gate_where(|board, gate| out(board, gate) && blocked.hold(gate)),
            _ => self.pick_gate_where(out),
        };
        let Some(gate) = gate else {
            return;
        };
        fields[0] = gate;
        let booked = self.booking(gate);
        fields[1] = match booked {
            Some(Booking { replaced: Some(Paper(replaced)), .. }) if how == 4 || how == 5 => replaced,
            Some(Booking { paper: Paper(paper), .. }) => {
                // another gate's, or another
                let else_where = self.pick_gate_where(|board, other| {
                    other.0 != gate && board.booking(other).is_some_and(|one| one.paper.0 != paper)
                });
                let theirs = else_where.and_then(|other| self.booking(other)).map(|one| one.paper.0);
                match theirs {
                    Some(theirs) if self.rng.chance(50) => theirs,
                    _ => self.other_paper(paper),
                }
            }
            None => self.any_paper(),
        };
        if self.rng.chance(60) {
            [fields[2], fields[3]] = [1, 0];
        } else {
            [fields[2], fields[3]] = [0, self.other_paper(fields[1])];
        }
    }

    fn good_grant(&mut self, want: u16) -> [u16; 4] {
        let blocked = self.board.blocked;
        let reach = self.reach();
        let trains = self.board.trains.clone();
        let live = self.board.live.clone();
        let likely = |this: &Authority| {
            this.is_pending()
                && (if want == 22 { this.kind == Kind::Lpa } else { reach.serves(this) })
                && this.needs.all_in(blocked)
                && !trains.iter().any(|train| train.touches(this.limits))
                && !live.iter().any(|that| {
                    that.is_in_force() && that.limits.share(this.limits) && this.agreed != Some(that.number)
                })
        };
        match self.pick_live(likely) {
            Some(one) => [one.number.0, one.officer, 0, 0],
            None => self.two(|one| one.is_pending()),
        }
    }

    fn good_continue(&mut self, want: u16) -> [u16; 4] {
        let blocked = self.board.blocked;
        let reach = self.reach();
        let with = self.pick_train(|train| train.with.is_some()).and_then(|train| train.with);
        let old = match with {
            Some(number) if self.rng.chance(60) => self.pick_live(|one| one.number == number),
            _ => None,
        };
        let old = old.or_else(|| self.pick_live(|one| one.is_in_force())).or_else(|| self.pick_live(|_| true));
        let Some(old) = old else {
            return [self.dead_number(), self.dead_number(), self.any_officer(), self.any_officer()];
        };
        let right = |one: &Authority| {
            one.is_pending()
                && (if want == 22 { one.kind == Kind::Lpa } else { reach.serves(one) })
                && one.needs.all_in(blocked)
        };
        let near = |one: &Authority| right(one) && one.limits.share(old.limits);
        // sometimes one that shares a portion with what it has agreed or joined
        let live = self.board.live.clone();
        let joint = |this: &Authority| {
            let other = live.iter().find(|that| that.is_in_force() && this.agreed == Some(that.number));
            right(this) && other.is_some_and(|that| that.number != old.number && that.limits.share(this.limits))
        };
        let new = if self.rng.chance(30) { self.pick_live(joint) } else { None };
        let new = if new.is_none() && self.rng.chance(80) { self.pick_live(near) } else { new };
        let new = new
            .or_else(|| self.pick_live(right))
            .or_else(|| self.pick_live(|one| one.is_pending()))
            .unwrap_or(old);
        [old.number.0, new.number.0, old.officer, new.officer]
    }

    fn good_move(&mut self) -> [u16; 4] {
        let trains = self.board.trains.clone();
        let live = self.board.live.clone();
        let standing = |from: Place| trains.iter().any(|train| train.head == from && train.rear == from);
        let entry_share = if self.mood == CROWD { 90 } else { 25 };
        let mut gate = None;
        if self.rng.chance(entry_share) {
            let entry = |_: GateNumber, gate: &Gate| gate.from == Place::Outside;
            let led = |number: GateNumber, gate: &Gate| {
                let exclusive = |one: &Authority| one.is_in_force() && one.kind.is_exclusive();
                entry(number, gate) && live.iter().any(|one| exclusive(one) && one.limits.hold(gate.to))
            };
            let free = |number: GateNumber, gate: &Gate| {
                entry(number, gate) && !trains.iter().any(|train| train.touches_place(gate.to))
            };
            gate = if self.rng.chance(50) { self.pick_gate(led) } else { self.pick_gate(free) };
            gate = gate.or_else(|| self.pick_gate(led)).or_else(|| self.pick_gate(entry));
        }
        if self.rng.chance(20) {
            // into a TWA in force with a clear site, best inside a TOA
            let clear = |one: &Authority| one.is_in_force() && one.kind == Kind::Twa && one.site == Site::Clear;
            let reachable = |gate: &Gate| gate.from == Place::Outside || standing(gate.from);
            let into = |gate: &Gate, fits: &dyn Fn(&Authority) -> bool| {
                live.iter().any(|one| fits(one) && one.limits.hold(gate.to))
            };
            let toa = |one: &Authority| one.is_in_force() && one.kind == Kind::Toa;
            gate = self
                .pick_gate(|_, gate| reachable(gate) && into(gate, &clear) && into(gate, &toa))
                .or_else(|| self.pick_gate(|_, gate| reachable(gate) && into(gate, &clear)))
                .or(gate);
        }
        if gate.is_none() && self.mood == DRAIN {
            gate = self.pick_gate(|_, gate| gate.to == Place::Outside && standing(gate.from));
        }
        let gate = gate
            .or_else(|| self.pick_gate(|_, gate| standing(gate.from)))
            .unwrap_or_else(|| self.any_gate());
        let from = self.board.gates.get(usize::from(gate)).map_or(Place::Outside, |gate| gate.from);
        let train = if from == Place::Outside {
            self.free_train()
        } else {
            let there = |train: &Train| train.head == from && train.rear == from;
            let found = self.pick_train(there);
            found.map_or_else(|| self.any_train(), |train| train.number.0)
        };
        let (authority, officer) = self.due(gate);
        [train, gate, authority, officer]
    }

    fn good_term(&mut self, stamp: Stamp) -> [u16; 4] {
        let [authority, ..] = self.two(|one| is_pending_lpa(one) && one.term.is_none());
        let start = self.good_start(stamp);
        [authority, start.day, start.time, self.any(Role::Length)]
    }

    /// A start at least 10,080 minutes after the call, if there is any: that
    /// minute or one after it, a midnight, a day or more later, day 9999.
    fn good_start(&mut self, stamp: Stamp) -> Stamp {
        let least = stamp.minute() + NOTICE;
        let midnight = least.next_multiple_of(DAY);
        let time = self.rng.between(0, 23) * 100 + self.rng.between(0, 59);
        if stamp.day >= 9900 && self.rng.chance(60) {
            return Stamp { day: 9999, time: self.rng.pick(&[0, 2358, 2359, 2359, time]) };
        }
        match self.rng.below(50) {
            0..=19 => stamp_of(least),
            20..=24 => stamp_of(least + 1),
            25..=29 => stamp_of(midnight),
            30..=33 => stamp_of(midnight + DAY - 1),
            34 => Stamp { day: 9999, time },
            _ => stamp_of(least + self.rng.below(3 * DAY as usize) as u32),
        }
    }

    /// A start before the call or less than 10,080 minutes after it.
    fn short_start(&mut self, stamp: Stamp) -> Stamp {
        let now = stamp.minute();
        let below = self.rng.below(NOTICE as usize) as u32;
        stamp_of(match self.rng.below(10) {
            0..=3 => now + NOTICE - 1,
            4 => now + NOTICE - self.rng.pick(&[2, 60, DAY]),
            5 => now + below,
            6 => now,
            7 => now.saturating_sub(1),
            8 => now.saturating_sub(below),
            _ => self.rng.below(now as usize + 1) as u32,
        })
    }

    // ----- fields taken anywhere, with the officer that belongs to them -----

    fn loose_fields(&mut self, call: u16, stamp: Stamp) -> [u16; 4] {
        match call {
            3 | 11 => {
                let [one, officer, _, _] = self.two(|_| true);
                let [other, other_officer, _, _] = self.two(|_| true);
                [one, other, officer, if call == 11 { other_officer } else { 0 }]
            }
            4 | 5 => [self.any_gate(), 0, 0, 0],
            9 => {
                let [authority, out, _, _] = self.two(|_| true);
                [authority, out, self.any_officer(), 0]
            }
            10 => {
                let [authority, officer, _, _] = self.two(|_| true);
                [authority, officer, self.rng.between(0, 7), 0]
            }
            12 => {
                let gate = self.any_gate();
                let (authority, officer) = self.due(gate);
                [self.any_train(), gate, authority, officer]
            }
            13 => [self.any_train(), 0, 0, 0],
            14 => {
                let [authority, ..] = self.two(|_| true);
                let start = if self.rng.chance(50) { self.good_start(stamp) } else { self.short_start(stamp) };
                [authority, start.day, start.time, self.any(Role::Length)]
            }
            15 => {
                let [one, officer, _, _] = self.two(|_| true);
                let [other, ..] = self.two(|_| true);
                [one, other, officer, self.any(Role::Distance)]
            }
            16 => [self.any_gate(), self.any_paper(), 0, 0],
            17 => {
                let gate = self.any(Role::Gate);
                let booked = self.booking(gate);
                let paper = booked.map_or_else(|| self.any_paper(), |one| one.paper.0);
                let new = if self.rng.chance(50) { 0 } else { self.other_paper(paper) };
                [gate, paper, u16::from(new == 0), new]
            }
            1 => self.good_request(),
            _ => self.two(|_| true),
        }
    }

    /// Any value in range for the field.
    fn any(&mut self, role: Role) -> u16 {
        match role {
            Role::Kind => self.rng.between(1, 3),
            Role::First | Role::Last => {
                let most = self.board.portions - 1;
                let any = self.rng.between(0, most);
                self.rng.pick(&[0, most, any])
            }
            Role::Officer => {
                let any = self.any_officer();
                let live = self.two(|_| true)[1];
                self.rng.pick(&[any, any, live, live, 1, 999])
            }
            Role::PilotOfficer => {
                let live = self.two(|one| one.is_in_force())[1];
                let any = self.any_officer();
                self.rng.pick(&[0, live, live, any])
            }
            Role::Authority => {
                let live = self.two(|_| true)[0];
                let dead = self.dead_number();
                let train = self.any_train();
                self.rng.pick(&[live, live, live, dead, dead, train])
            }
            Role::Pilot => {
                let live = self.two(|one| one.is_in_force())[0];
                let any = self.any(Role::Authority);
                self.rng.pick(&[0, live, live, any])
            }
            Role::Gate => {
                let last = (self.board.gates.len() as u16).saturating_sub(1);
                let any = self.any_gate();
                self.rng.pick(&[0, last, any, any, any, any])
            }
            Role::Train => {
                let any = self.any_train();
                let authority = self.two(|_| true)[0];
                self.rng.pick(&[any, any, any, 1, 9999, authority])
            }
            Role::Assurances => self.rng.between(0, 7),
            Role::StartDay => {
                let week = (self.board.last_stamp.day + 7).min(9999);
                let any = self.rng.between(0, 9999);
                self.rng.pick(&[week, week, (week + 1).min(9999), any, 9999])
            }
            Role::StartTime => {
                let last = self.board.last_stamp.time;
                let any = self.rng.between(0, 23) * 100 + self.rng.between(0, 59);
                self.rng.pick(&[0, 2359, last, any, any])
            }
            Role::Length => {
                // a board whose clock doesn't jump needs longer terms
                let least = if self.leaps { 1 } else { 3 * DAY as u16 };
                let days = self.rng.between(least, 5 * DAY as u16);
                let any = self.rng.between(least, 65535);
                self.rng.pick(&[least, least + 1, 8 * 60 + least, days, days, any, 65535])
            }
            Role::Distance => {
                if self.rng.chance(50) {
                    self.good_distance()
                } else {
                    self.bad_distance()
                }
            }
            Role::Paper => self.any_paper(),
            Role::Certified => self.rng.between(0, 1),
            Role::NewPaper => {
                if self.rng.chance(40) {
                    0
                } else {
                    self.any_paper()
                }
            }
            Role::Unused => 0,
        }
    }

    /// A value out of range for the field.
    fn out_of_range(&mut self, role: Role) -> u16 {
        let (portions, gates) = (self.board.portions, self.board.gates.len() as u16);
        match role {
            Role::Kind => self.rng.pick(&[0, 4, 5, 258, 65535]),
            Role::First | Role::Last => self.rng.pick(&[portions, portions, portions + 1, 64, 99, 256, 65535]),
            Role::Officer => self.rng.pick(&[0, 0, 1000, 1000, 1001, 65535]),
            Role::PilotOfficer => self.rng.pick(&[1000, 1000, 1001, 65535]),
            Role::Authority | Role::Train => self.rng.pick(&[0, 0, 10000, 10000, 10001, 65535]),
            Role::Pilot => self.rng.pick(&[10000, 10000, 10001, 65535]),
            Role::Gate => self.rng.pick(&[gates, gates, gates + 1, 64.max(gates), 99, 256, 65535]),
            Role::Assurances => self.rng.pick(&[8, 8, 9, 15, 263, 65535]),
            Role::StartDay => self.rng.pick(&[10000, 10000, 10001, 65535]),
            Role::StartTime => self.rng.pick(&[2400, 2360, 2399, 1260, 60, 99, 2401, 9999, 65535]),
            Role::Length => 0,
            // none is: 24 is for it
            Role::Distance => self.rng.pick(&[0, 65535]),
            Role::Paper => self.rng.pick(&[0, 0, 10000, 10000, 10001, 65535]),
            Role::Certified => self.rng.pick(&[2, 2, 3, 256, 257, 65535]),
            Role::NewPaper => self.rng.pick(&[10000, 10000, 10001, 65535]),
            Role::Unused => self.rng.pick(&[1, 1, 2, 7, 256, 65535]),
        }
    }

    // ----- calls -----

    /// A call that may well be answered with `want`.
    fn candidate(&mut self, call: u16, want: u16) -> [u16; 7] {
        let roles = roles(call);
        let mut stamp = self.stamp();
        let good = want == 0 || want == 22 || self.rng.chance(50);
        let mut fields = if good { self.good_fields(call, want, stamp) } else { self.loose_fields(call, stamp) };
        // Anything more that is wrong must not change the answer if it is the
        // lowest number that counts.
        let more = match want {
            0 => 0,
            3 | 4 | 5 => self.rng.pick(&[0, 0, 0, 1, 1, 2]),
            _ => self.rng.pick(&[0, 0, 0, 0, 0, 1, 1, 2]),
        };
        for _ in 0..more {
            let at = self.rng.below(4);
            fields[at] = self.any(roles[at]);
        }
        match want {
            3 => {
                if self.rng.chance(15) {
                    stamp = self.earlier_stamp();
                }
                match self.rng.below(12) {
                    0 | 1 => stamp = self.bad_stamp(),
                    2 if call == 1 => fields.swap(1, 2),
                    2..=5 if call == 16 => {
                        fields = self.good_book_out();
                        fields[1] = self.out_of_range(Role::Paper);
                    }
                    2..=9 if call == 17 => {
                        // half of them where nothing else is wrong
                        let blocked = self.board.blocked;
                        let out = self.pick_gate_where(|board, gate| board.booking(gate).is_some() && !blocked.hold(gate));
                        if let (Some(gate), true) = (out, self.rng.chance(50)) {
                            fields[0] = gate;
                            fields[1] = self.booking(gate).map_or(1, |one| one.paper.0);
                        }
                        self.spoil_combination(&mut fields);
                    }
                    _ => {
                        let at = self.rng.below(4);
                        fields[at] = self.out_of_range(roles[at]);
                    }
                }
            }
            4 => stamp = self.earlier_stamp(),
            5 if call == 17 => self.spoil_paper(&mut fields),
            5 => {
                let at = if call == 3 || call == 11 || call == 15 { self.rng.below(2) } else { 0 };
                fields[at] = self.dead_number();
            }
            6 if call == 3 && self.rng.chance(30) => {
                // a TOA that has joined, and its TWA
                if let Some(toa) = self.pick_live(|one| one.kind == Kind::Toa && one.agreed.is_some()) {
                    let twa = toa.agreed.unwrap_or(toa.number);
                    [fields[0], fields[1], fields[2]] = [toa.number.0, twa.0, toa.officer];
                }
            }
            6 if call == 15 => self.spoil_join(&mut fields),
            7 if call == 15 => {
                // the TOA's officer, or another
                let [_, toa, officer, _] = fields;
                let its = self.pick_live(|one| one.number.0 == toa).map_or(officer, |one| one.officer);
                fields[2] = if its != officer && self.rng.chance(50) { its } else { self.other_officer(officer) };
            }
            7 => {
                let at = match call {
                    3 => 2,
                    11 => 2 + self.rng.below(2),
                    _ => 1,
                };
                fields[at] = self.other_officer(fields[at]);
            }
            6 if call == 14 => fields[0] = self.two(|one| !is_pending_lpa(one))[0],
            8 if call == 14 => fields[0] = self.two(|one| is_pending_lpa(one) && one.term.is_some())[0],
            8 if call == 9 => fields[2] = fields[1],
            8 if call == 16 => {
                let out = self.pick_gate_where(|board, gate| board.booking(gate).is_some());
                fields[0] = out.unwrap_or(fields[0]);
                if let Some(one) = self.booking(fields[0]).filter(|_| self.rng.chance(40)) {
                    fields[1] = one.paper.0;
                }
            }
            8 if call == 4 && self.rng.chance(40) => {
                let blocked = self.board.blocked;
                let out = self.pick_gate_where(|board, gate| board.booking(gate).is_some() && blocked.hold(gate));
                fields[0] = out.unwrap_or(fields[0]);
            }
            10 if call == 4 => {
                let plain = |board: &Board, gate: GateNumber| board.gate(gate).is_plain() && board.booking(gate).is_none();
                fields[0] = self.pick_gate_where(plain).unwrap_or(fields[0]);
            }
            10 if call == 16 => {
                let other = self.pick_gate_where(|board, gate| !board.gate(gate).is_plain());
                fields[0] = other.unwrap_or(fields[0]);
            }
            16 if self.rng.chance(50) => {
                let needed = self.needed_in_force();
                let out = self.pick_gate_where(|board, gate| board.booking(gate).is_some() && needed >> gate.0 & 1 == 1);
                fields[0] = out.unwrap_or(fields[0]);
            }
            11 => {
                // one that still needs a gate, for GRANT or as the new one
                let blocked = self.board.blocked;
                if let Some(one) = self.pick_live(|one| one.is_pending() && !one.needs.all_in(blocked)) {
                    let at = usize::from(call == 11);
                    (fields[at], fields[2 * at + 1]) = (one.number.0, one.officer);
                }
            }
            12 if call == 8 => {
                let trains = self.board.trains.clone();
                let touched = |one: &Authority| trains.iter().any(|train| train.touches(one.limits));
                fields = self.two(|one| one.is_in_force() && one.kind == Kind::Twa && touched(one));
            }
            14 if call == 12 => {
                // into a TWA with workers on, best inside a TOA
                let live = self.board.live.clone();
                let into = |gate: &Gate, fits: &dyn Fn(&Authority) -> bool| {
                    live.iter().any(|one| one.is_in_force() && one.limits.hold(gate.to) && fits(one))
                };
                let at_work = |one: &Authority| one.kind == Kind::Twa && one.site == Site::WorkersOn;
                let gate = self
                    .pick_gate(|_, gate| into(gate, &at_work) && into(gate, &|one| one.kind == Kind::Toa))
                    .or_else(|| self.pick_gate(|_, gate| into(gate, &at_work)));
                if let Some(gate) = gate {
                    let (authority, officer) = self.due(gate);
                    let train = if self.rng.chance(50) { self.free_train() } else { self.any_train() };
                    fields = [train, gate, authority, officer];
                }
            }
            14 if call == 10 => {
                let [authority, officer, _, _] = self.two(|one| one.is_in_force() && one.site == Site::WorkersOn);
                fields = [authority, officer, self.rng.between(0, 7), 0];
            }
            15 => {
                let [authority, officer, _, _] = self.two(|one| one.is_in_force() && one.site == Site::Clear);
                fields = [authority, officer, self.rng.between(0, 7), 0];
            }
            17 if call == 12 || call == 13 => fields[0] = self.any(Role::Train),
            19 => {
                let to = self.board.gates.get(usize::from(fields[1])).map_or(Place::Outside, |gate| gate.to);
                let here = |one: &Authority| one.is_in_force() && one.kind == Kind::Twa && one.limits.hold(to);
                match self.pick_live(here) {
                    // W's, where E's may be due
                    Some(w) if self.rng.chance(60) => {
                        fields[2] = w.number.0;
                        fields[3] = w.officer;
                    }
                    _ => {
                        let at = 2 + self.rng.below(2);
                        fields[at] = self.any(roles[at]);
                    }
                }
            }
            _ => {}
        }
        if call == 3 && want == 8 {
            // the TOA that is already recorded
            if let Some(twa) = self.pick_live(|one| one.is_pending() && one.agreed.is_some()) {
                let toa = twa.agreed.unwrap_or(AuthorityNumber(0));
                fields[0] = toa.0;
                fields[1] = twa.number.0;
                fields[2] = self.pick_live(|one| one.number == toa).map_or(1, |one| one.officer);
            }
        }
        if call == 15 && (want == 8 || ((3..8).contains(&want) && self.rng.chance(10))) {
            // the TWA that is already recorded; for a lower number the TOA may
            // be in force
            let joined = |one: &Authority| one.kind == Kind::Toa && one.agreed.is_some();
            if let Some(toa) = self.pick_live(|one| joined(one) && (want != 8 || one.is_pending())) {
                let twa = toa.agreed.unwrap_or(AuthorityNumber(0));
                let officer = self.pick_live(|one| one.number == twa).map_or(1, |one| one.officer);
                fields[0] = twa.0;
                fields[1] = toa.number.0;
                fields[2] = if want == 7 { self.other_officer(officer) } else { officer };
            }
        }
        if call == 15 && (want == 24 || (want != 0 && self.rng.chance(30))) {
            fields[3] = self.bad_distance();
        }
        if want == 21 {
            fields = self.good_term(stamp);
        }
        if want == 21 || (call == 14 && want != 0 && self.rng.chance(30)) {
            let start = self.short_start(stamp);
            (fields[1], fields[2]) = (start.day, start.time);
        }
        if (call == 6 || call == 11) && want != 3 && want != 4 {
            stamp = self.term_stamp(fields[usize::from(call == 11)], want, stamp);
        }
        [stamp.day, stamp.time, call, fields[0], fields[1], fields[2], fields[3]]
    }

    /// JOIN of what isn't a TWA in force and a pending TOA.
    fn spoil_join(&mut self, fields: &mut [u16; 4]) {
        let is = |kind: Kind, in_force: bool| move |one: &Authority| one.kind == kind && one.is_in_force() == in_force;
        match self.rng.below(10) {
            // AGREE's fields: the TOA first and its officer
            0 => {
                fields.swap(0, 1);
                fields[2] = self.pick_live(|one| one.number.0 == fields[0]).map_or(1, |one| one.officer);
            }
            // AGREE's stages
            1 => [fields[0], fields[2], ..] = self.two(is(Kind::Twa, false)),
            2 => fields[1] = self.two(is(Kind::Toa, true))[0],
            // other kinds
            3 => fields[1] = self.two(is(Kind::Lpa, false))[0],
            4 => fields[1] = self.two(is(Kind::Twa, false))[0],
            5 => [fields[0], fields[2], ..] = self.two(is(Kind::Lpa, true)),
            6 => [fields[0], fields[2], ..] = self.two(is(Kind::Toa, true)),
            7 => fields[1] = fields[0],
            // a TWA that has agreed, and its TOA
            _ => {
                if let Some(twa) = self.pick_live(|one| one.kind == Kind::Twa && one.agreed.is_some()) {
                    let toa = twa.agreed.unwrap_or(twa.number);
                    [fields[0], fields[1], fields[2]] = [twa.number.0, toa.0, twa.officer];
                }
            }
        }
    }

    /// Several things wrong at once, whatever the answer may be.
    fn muddled(&mut self, call: u16) -> [u16; 7] {
        let roles = roles(call);
        let mut stamp = self.stamp();
        let mut fields = if self.rng.chance(50) { self.good_fields(call, 0, stamp) } else { self.loose_fields(call, stamp) };
        for _ in 0..1 + self.rng.below(3) {
            let at = self.rng.below(4);
            fields[at] = if self.rng.chance(10) { self.out_of_range(roles[at]) } else { self.any(roles[at]) };
        }
        match self.rng.below(20) {
            0 => stamp = self.bad_stamp(),
            1 => stamp = self.earlier_stamp(),
            _ => {}
        }
        [stamp.day, stamp.time, call, fields[0], fields[1], fields[2], fields[3]]
    }

    fn no_such_call(&mut self) -> [u16; 7] {
        let like = self.rng.between(1, 17);
        let mut numbers = if self.rng.chance(30) { self.candidate(like, 0) } else { self.muddled(like) };
        numbers[2] = self.rng.pick(&[0, 0, 18, 18, 19, 20, 99, 256 + like, 65535]);
        numbers
    }

    /// The call, or first the same in the minute before or after the term of
    /// the LPA that it would put in force, or with another distance, or with a
    /// combination or a paper that BOOK IN refuses.
    fn settled(&mut self, numbers: [u16; 7]) -> [u16; 7] {
        if self.rng.chance(40) {
            if let Some(outside) = self.just_outside(&numbers) {
                self.next = Some(numbers);
                return outside;
            }
        }
        numbers
    }

    /// A GRANT or CONTINUE to an LPA that has a term, put just outside it; a
    /// JOIN with a distance that is refused; a BOOK IN that is refused.
    fn just_outside(&mut self, numbers: &[u16; 7]) -> Option<[u16; 7]> {
        if let [day, time, 15, twa, toa, officer, _] = *numbers {
            return Some([day, time, 15, twa, toa, officer, self.bad_distance()]);
        }
        if let [day, time, 17, gate, paper, certified, new] = *numbers {
            let mut fields = [gate, paper, certified, new];
            if self.rng.chance(60) {
                self.spoil_combination(&mut fields);
            } else {
                fields[1] = self.other_paper(paper);
            }
            let [gate, paper, certified, new] = fields;
            return Some([day, time, 17, gate, paper, certified, new]);
        }
        let authority = match numbers[2] {
            6 => numbers[3],
            11 => numbers[4],
            _ => return None,
        };
        let term = self.board.live.iter().find(|one| one.number.0 == authority)?.term?;
        let now = self.board.last_stamp.minute();
        let before = (now < term.start && self.rng.chance(60)).then(|| term.start - 1);
        let stamp = stamp_of(before.unwrap_or(term.start + u32::from(term.length)));
        let [.., call, a, b, c, d] = *numbers;
        Some([stamp.day, stamp.time, call, a, b, c, d])
    }

    fn next_call(&mut self) -> [u16; 7] {
        if let Some(numbers) = self.next.take() {
            return numbers;
        }
        if self.rng.chance(1) {
            return self.no_such_call();
        }
        let call = self.rng.weighted(&self.mood) as u16 + 1;
        if self.rng.chance(8) {
            return self.muddled(call);
        }
        let accept = if self.mood == EVEN { 50 } else { 65 };
        let want = if self.rng.chance(accept) { 0 } else { self.rng.pick(refusals(call)) };
        let mut numbers = self.candidate(call, want);
        for _ in 0..12 {
            if self.answer(&numbers) == want {
                return if want == 0 { self.settled(numbers) } else { numbers };
            }
            numbers = self.candidate(call, want);
        }
        // The board isn't ready for that call: mostly go on with one that helps.
        if self.rng.chance(75) {
            for _ in 0..6 {
                let full = self.board.live.len() == MOST_LIVE;
                let help = self.rng.pick(&[6, 6, 4, 4, 13, 12, 12, 14, 16, 16, if full { 2 } else { 1 }]);
                let other = self.candidate(help, 0);
                if self.answer(&other) == 0 {
                    return self.settled(other);
                }
            }
        }
        numbers
    }

    fn apply(&mut self, numbers: &[u16; 7]) -> u16 {
        let (answer, allotted) = self.board.call(numbers);
        match numbers[2] {
            1 if answer == 0 => self.picks.push(AuthorityNumber(allotted)),
            // the one that WITHDRAW, FULFIL or CONTINUE ends
            2 | 10 | 11 if answer == 0 => {
                let ended = self.picks.iter().position(|number| number.0 == numbers[3]);
                self.picks.swap_remove(ended.expect("it was live"));
            }
            // a train that comes, and one that leaves
            12 | 13 if answer == 0 => {
                let train = TrainNumber(numbers[3]);
                let listed = self.train_picks.iter().position(|number| *number == train);
                let on_board = self.board.trains.iter().any(|one| one.number == train);
                match listed {
                    None => self.train_picks.push(train),
                    Some(at) if !on_board => {
                        self.train_picks.swap_remove(at);
                    }
                    Some(_) => {}
                }
            }
            _ => {}
        }
        answer
    }

    /// A list of steered calls, in phases of different moods.
    fn steer(&mut self, count: usize, list: &mut Vec<[u16; 7]>) {
        let end = list.len() + count;
        let first_day = self.board.last_stamp.day;
        self.mood = BUILD;
        let mut phase = 20 + self.rng.below(80);
        while list.len() < end {
            let full = self.mood == FILL && self.board.live.len() == MOST_LIVE;
            if phase == 0 || (full && self.rng.chance(20)) {
                self.mood = *self.rng.pick(&MOODS);
                phase = 20 + self.rng.below(130);
                if self.rng.chance(30) {
                    self.journey(&AMONG_OURS, end, list);
                    continue;
                }
            }
            phase -= 1;
            let left = (end - list.len()) * usize::from(9999 - first_day) / count;
            self.ration = (9999 - left as u16 + 60).min(9999);
            let numbers = self.next_call();
            self.apply(&numbers);
            list.push(numbers);
        }
    }
}

/// More than the calls that `ask` makes: REQUEST, and BOOK OUT and BLOCK of every
/// gate.
const ROOM: usize = 140;

const AMONG_OURS: Mood = [12, 2, 10, 0, 0, 22, 8, 6, 3, 8, 14, 12, 6, 0, 26, 0, 4];

impl Driver {
    /// Calls among some TOAs and TWAs over the same few portions: asked for,
    /// joined and agreed, in force by GRANT and by CONTINUE, cleared and ended,
    /// and trains through them, as often as the mood has it. Ends well before the
    /// list does.
    fn journey(&mut self, mood: &Mood, end: usize, list: &mut Vec<[u16; 7]>) {
        let (first, last) = self.free_limits();
        self.journey_over(first, last.min(first + 3), mood, end, list);
    }

    fn journey_over(&mut self, first: u16, last: u16, mood: &Mood, end: usize, list: &mut Vec<[u16; 7]>) {
        let here = Portions::first_to_last(first, last);
        let ours = |one: &Authority| one.kind != Kind::Lpa && one.limits.share(here);
        for _ in 0..20 + self.rng.below(40) {
            if list.len() + ROOM > end {
                return;
            }
            let asked = self.board.live.iter().filter(|one| ours(one)).count();
            let call = if asked < 2 { 1 } else { self.rng.weighted(mood) as u16 + 1 };
            if call == 1 {
                let full = self.board.live.len() == MOST_LIVE;
                let spare = |one: &Authority| one.is_pending() && (full || (asked > 6 && ours(one)));
                if let Some(one) = self.pick_live(spare) {
                    self.end(&one, list);
                }
                self.ask_near(first, last, list);
            } else if let Some(fields) = self.journey_fields(call, here, ours) {
                let stamp = self.stamp();
                self.add_at(stamp, call, fields, list);
            }
        }
    }

    /// REQUEST of a TOA or a TWA over these limits, a little more or less, and
    /// BLOCK of what it needs, plain signals booked out first.
    fn ask_near(&mut self, first: u16, last: u16, list: &mut Vec<[u16; 7]>) {
        let most = self.board.portions - 1;
        let (low, high) = match self.rng.below(6) {
            0 => (first, first),
            1 => (last, last),
            2 => (first.saturating_sub(1), last),
            3 => (first, (last + 1).min(most)),
            _ => (first, last),
        };
        let kind = self.rng.pick(&[2, 2, 3]);
        let officer = self.any_officer();
        self.ask([kind, low, high, officer], list);
    }

    /// The fields of a call among those that are ours, with the officer that
    /// belongs to them, if the board has something for it.
    fn journey_fields(&mut self, call: u16, here: Portions, ours: impl Fn(&Authority) -> bool) -> Option<[u16; 4]> {
        let pending = |one: &Authority| ours(one) && one.is_pending();
        let standing = |one: &Authority| ours(one) && one.is_in_force();
        let two = |one: Authority| [one.number.0, one.officer, 0, 0];
        Some(match call {
            3 => {
                let toa = self.pick_live(|one| standing(one) && one.kind == Kind::Toa)?;
                let twa = self.pick_live(|one| pending(one) && one.kind == Kind::Twa)?;
                [toa.number.0, twa.number.0, toa.officer, 0]
            }
            15 => {
                let twa = self.pick_live(|one| standing(one) && one.kind == Kind::Twa)?;
                let toa = self.pick_live(|one| pending(one) && one.kind == Kind::Toa)?;
                let distance = if self.rng.chance(15) { self.bad_distance() } else { self.good_distance() };
                [twa.number.0, toa.number.0, twa.officer, distance]
            }
            2 | 6 => two(self.pick_live(pending)?),
            7 => two(self.pick_live(|one| standing(one) && one.site == Site::WorkersOn)?),
            8 => two(self.pick_live(|one| standing(one) && one.site == Site::Clear)?),
            9 => {
                let one = self.pick_live(&ours)?;
                [one.number.0, one.officer, self.other_officer(one.officer), 0]
            }
            10 => {
                let one = self.pick_live(|one| standing(one) && one.site == Site::Clear)?;
                [one.number.0, one.officer, 7, 0]
            }
            11 => {
                let anywhere = self.rng.chance(40);
                let old = self.pick_live(|one| if anywhere { one.is_in_force() } else { standing(one) })?;
                let new = self.pick_live(pending)?;
                [old.number.0, new.number.0, old.officer, new.officer]
            }
            12 => {
                // into it, or out of it and on
                let trains = self.trains();
                let train_at = |from: Place| trains.iter().find(|train| train.head == from && train.rear == from);
                let leave = self.rng.chance(50);
                let gate = self.pick_gate(|_, gate| {
                    let there = gate.from == Place::Outside || train_at(gate.from).is_some();
                    there && if leave { here.hold(gate.from) } else { here.hold(gate.to) }
                })?;
                let from = self.board.gates[usize::from(gate)].from;
                let train = train_at(from).map_or_else(|| self.free_train(), |train| train.number.0);
                let (authority, officer) = self.due(gate);
                [train, gate, authority, officer]
            }
            13 => {
                let parted = |train: &Train| train.head != train.rear && train.touches(here);
                [self.pick_train(parted)?.number.0, 0, 0, 0]
            }
            17 => {
                // of a gate into it, which may be needed
                let gate = self.pick_gate_where(|board, gate| board.booking(gate).is_some() && here.hold(board.gate(gate).to))?;
                let paper = self.booking(gate)?.paper.0;
                if self.rng.chance(40) {
                    [gate, paper, 1, 0]
                } else {
                    [gate, paper, 0, self.other_paper(paper)]
                }
            }
            _ => return None,
        })
    }
}

fn is_pending_lpa(one: &Authority) -> bool {
    one.is_pending() && one.kind == Kind::Lpa
}

/// The first and the last portion of limits.
fn ends(limits: Portions) -> (u16, u16) {
    (limits.0.trailing_zeros() as u16, 63 - limits.0.leading_zeros() as u16)
}

fn later(stamp: Stamp, minutes: usize) -> Stamp {
    stamp_of(stamp.minute() + minutes as u32)
}

/// The stamp of a minute; past the last day its last minute.
fn stamp_of(minute: u32) -> Stamp {
    let (day, rest) = (minute / DAY, minute % DAY);
    if day > 9999 {
        return Stamp { day: 9999, time: 2359 };
    }
    Stamp { day: day as u16, time: (rest / 60 * 100 + rest % 60) as u16 }
}

// ---------------------------------------------------------------------------
// The kinds of list
// ---------------------------------------------------------------------------

fn steered(mut rng: Rng) -> (Vec<u8>, Vec<u8>) {
    let plan = Plan::random(&mut rng);
    let count = match rng.below(10) {
        0..=5 => 300 + rng.below(700),
        6..=8 => 800 + rng.below(1200),
        _ => 2000 + rng.below(2000),
    };
    let late = rng.chance(8);
    let mut driver = Driver::new(rng, &plan);
    let mut list = Vec::new();
    if late {
        // near the end of the days
        let day = driver.rng.between(9970, 9999);
        let numbers = [day, 2350, 1, 1, 0, 0, 1];
        driver.apply(&numbers);
        list.push(numbers);
    }
    driver.steer(count, &mut list);
    (plan.text(), text_of(&list))
}

/// A list long enough that 9999 numbers are allotted.
fn numbers(mut rng: Rng) -> (Vec<u8>, Vec<u8>) {
    let plan = Plan::random(&mut rng);
    let mut driver = Driver::new(rng, &plan);
    driver.pace = 150;
    driver.leaps = false;
    let mut list = Vec::new();
    driver.steer(200, &mut list);
    while driver.board.last_number < LAST_NUMBER {
        let numbers = if driver.rng.chance(3) {
            driver.mood = EVEN;
            driver.next_call()
        } else {
            // towards the end some are kept, and a place is kept free
            let most = if driver.board.last_number < 9985 { 8 } else { 28 };
            let call = if driver.board.live.len() < most {
                1
            } else if driver.board.live.iter().any(|one| one.is_pending()) {
                2
            } else {
                driver.rng.pick(&[7, 10, 10])
            };
            driver.candidate(call, 0)
        };
        driver.apply(&numbers);
        list.push(numbers);
    }
    driver.leaps = true;
    driver.steer(600, &mut list);
    (plan.text(), text_of(&list))
}

fn short(mut rng: Rng) -> (Vec<u8>, Vec<u8>) {
    let plan = Plan::random(&mut rng);
    let count = rng.below(6);
    let mut driver = Driver::new(rng, &plan);
    let mut list = Vec::new();
    driver.steer(count, &mut list);
    (plan.text(), text_of(&list))
}

/// A list that ends where the shift sheet has something to show.
fn shift(mut rng: Rng) -> (Vec<u8>, Vec<u8>) {
    let ending = rng.below(10);
    let count = rng.below(250);
    let plan = if ending == 6 || ending == 7 { Plan::open_to_all(&mut rng) } else { Plan::random(&mut rng) };
    let mut driver = Driver::new(rng, &plan);
    let mut list = Vec::new();
    match ending {
        // an LPA within some minutes of its end
        0..=3 => {
            driver.steer(count / 2, &mut list);
            driver.possession(&mut list);
        }
        4 => {
            driver.steer(count, &mut list);
            while driver.board.live.len() < MOST_LIVE {
                let [kind, first, last, officer] = driver.good_request();
                driver.add(1, [kind, first, last, officer], &mut list);
            }
        }
        5 => {
            driver.steer(count, &mut list);
            while let Some(one) = driver.pick_live(|_| true) {
                driver.end(&one, &mut list);
            }
        }
        6 | 7 => driver.hold_all(&mut list),
        _ => driver.far_apart(&mut list),
    }
    (plan.text(), text_of(&list))
}

impl Plan {
    /// P 64, every gate between neighbours or from outside, none of kind 4.
    fn open_to_all(rng: &mut Rng) -> Plan {
        let mut plan = Plan { portions: 64, gates: Vec::new() };
        for _ in 0..rng.pick(&[0, 1, 10, 64, 64]) {
            let to = rng.between(0, 63);
            let near = if to == 63 { 62 } else { to + 1 };
            plan.gates.push([rng.pick(&[OUTSIDE, near]), to, rng.between(1, 3)]);
        }
        plan
    }
}

impl Driver {
    /// The call with the last stamp, which is applied and listed.
    fn add(&mut self, call: u16, fields: [u16; 4], list: &mut Vec<[u16; 7]>) -> u16 {
        self.add_at(self.board.last_stamp, call, fields, list)
    }

    fn add_at(&mut self, stamp: Stamp, call: u16, fields: [u16; 4], list: &mut Vec<[u16; 7]>) -> u16 {
        let numbers = [stamp.day, stamp.time, call, fields[0], fields[1], fields[2], fields[3]];
        list.push(numbers);
        self.apply(&numbers)
    }

    /// WITHDRAW, or CLEAR and FULFIL.
    fn end(&mut self, one: &Authority, list: &mut Vec<[u16; 7]>) {
        let (authority, officer) = (one.number.0, one.officer);
        if one.is_pending() {
            self.add(2, [authority, officer, 0, 0], list);
            return;
        }
        if one.site == Site::WorkersOn {
            self.add(7, [authority, officer, 0, 0], list);
        }
        self.add(10, [authority, officer, 7, 0], list);
    }

    /// REQUEST, and BLOCK of what the authority needs, plain signals booked out
    /// first; its number, if a place and a number were free.
    fn ask(&mut self, fields: [u16; 4], list: &mut Vec<[u16; 7]>) -> Option<u16> {
        if self.add(1, fields, list) != 0 {
            return None;
        }
        let needed = self.board.needed_gates(Portions::first_to_last(fields[1], fields[2]));
        for gate in 0..self.board.gates.len() as u16 {
            if needed.hold(GateNumber(gate)) && !self.board.blocked.hold(GateNumber(gate)) {
                if !self.board.can_be_blocked(GateNumber(gate)) {
                    let paper = self.any_paper();
                    self.add(16, [gate, paper, 0, 0], list);
                }
                self.add(4, [gate, 0, 0, 0], list);
            }
        }
        Some(self.board.last_number)
    }

    /// Limits that may come into force, if such are found soon.
    fn free_limits(&mut self) -> (u16, u16) {
        let mut fields = self.good_request();
        for _ in 0..20 {
            let limits = Portions::first_to_last(fields[1], fields[2]);
            let taken = self.board.live.iter().any(|one| one.is_in_force() && one.limits.share(limits));
            if !taken && !self.board.is_touched(limits) {
                break;
            }
            fields = self.good_request();
        }
        (fields[1], fields[2])
    }

    /// An LPA with a term, in force if that can be, and then three calls within
    /// ten minutes of its end, HAND OVER or about bookings.
    fn possession(&mut self, list: &mut Vec<[u16; 7]>) {
        if self.board.live.len() == MOST_LIVE {
            if let Some(one) = self.pick_live(|_| true) {
                self.end(&one, list);
            }
        }
        let (first, last) = self.free_limits();
        let mut officer = self.any_officer();
        let Some(authority) = self.ask([1, first, last, officer], list) else {
            return;
        };
        let start = self.board.last_stamp.minute() + NOTICE + self.rng.pick(&[0, 1, 59, 60, 1439]);
        let length = self.rng.pick(&[1, 2, 12, 40, 90, 1440, 65535]);
        let end = start + u32::from(length);
        let starts = stamp_of(start);
        self.add(14, [authority, starts.day, starts.time, length], list);
        if self.rng.chance(75) {
            let minute = self.rng.pick(&[start, start, end - 1]);
            self.add_at(stamp_of(minute), 6, [authority, officer, 0, 0], list);
        }
        let mut left: Vec<u32> =
            (0..3).map(|_| self.rng.pick(&[0, 1, 5, 8, 9, 9, 10, 10, 10, 11, 11, 12, 13, 15, 19, 20])).collect();
        left.sort();
        for left in left.into_iter().rev() {
            let minute = end + 10 - left;
            if self.rng.chance(50) && self.book_at(stamp_of(minute), list) {
                continue;
            }
            let other = self.other_officer(officer);
            if self.add_at(stamp_of(minute), 9, [authority, officer, other, 0], list) == 0 {
                officer = other;
            }
        }
    }

    /// BOOK OUT or BOOK IN of a plain signal with this stamp, mostly accepted, if
    /// there is one.
    fn book_at(&mut self, stamp: Stamp, list: &mut Vec<[u16; 7]>) -> bool {
        let blocked = self.board.blocked;
        let restored = |board: &Board, gate: GateNumber| board.booking(gate).is_some() && !blocked.hold(gate);
        let restorable = if self.rng.chance(60) { self.pick_gate_where(restored) } else { None };
        let Some(gate) = restorable.or_else(|| self.pick_gate_where(|board, gate| board.gate(gate).is_plain())) else {
            return false;
        };
        let (call, fields) = match self.booking(gate) {
            None => (16, [gate, self.any_paper(), 0, 0]),
            Some(_) if self.rng.chance(10) => (16, [gate, self.any_paper(), 0, 0]),
            Some(one) if restorable.is_some() || self.rng.chance(20) => (17, [gate, one.paper.0, 1, 0]),
            Some(one) => (17, [gate, one.paper.0, 0, self.other_paper(one.paper.0)]),
        };
        self.add_at(stamp, call, fields, list);
        true
    }

    /// A TOA over all portions, or all but one, and TWAs in it that its officer
    /// agreed, or a TWA and TOAs in it that joined; then blocks on all gates, or
    /// as they are.
    fn hold_all(&mut self, list: &mut Vec<[u16; 7]>) {
        let (first, last) = self.rng.pick(&[(0, 63), (0, 63), (0, 62), (1, 63)]);
        let officer = self.any_officer();
        let (outer, inner) = self.rng.pick(&[(2, 3), (2, 3), (3, 2)]);
        let Some(standing) = self.ask([outer, first, last, officer], list) else {
            return;
        };
        self.add(6, [standing, officer, 0, 0], list);
        let mut from = self.rng.between(first, 40);
        for _ in 0..self.rng.below(5) {
            let to = (from + self.rng.between(0, 9)).min(last);
            if let Some(one) = self.ask([inner, from, to, officer], list) {
                let (call, distance) = if outer == 2 { (3, 0) } else { (15, self.good_distance()) };
                self.add(call, [standing, one, officer, distance], list);
                self.add(6, [one, officer, 0, 0], list);
            }
            from = (to + 1).min(last);
        }
        if self.rng.chance(50) {
            for gate in 0..self.board.gates.len() as u16 {
                if !self.board.blocked.hold(GateNumber(gate)) {
                    self.add(4, [gate, 0, 0, 0], list);
                }
            }
        }
    }

    /// A term a week ahead and one at the end of the days, and then a jump over
    /// most of them.
    fn far_apart(&mut self, list: &mut Vec<[u16; 7]>) {
        let officer = self.any_officer();
        let day = self.rng.between(7, 9);
        let length = self.rng.pick(&[1, 1, 1440]);
        if let Some(near) = self.ask([1, 0, 0, officer], list) {
            self.add(14, [near, day, 0, length], list);
            if self.rng.chance(50) {
                self.add_at(Stamp { day, time: 0 }, 6, [near, officer, 0, 0], list);
            }
        }
        if let Some(far) = self.ask([1, 0, 0, officer], list) {
            let (day, time) = self.rng.pick(&[(9999, 2359), (9999, 0), (9000, 1200)]);
            let length = self.rng.pick(&[1, 65534, 65535]);
            self.add(14, [far, day, time, length], list);
            if self.rng.chance(60) {
                let day = self.rng.between(7000, 9999);
                let other = self.other_officer(officer);
                self.add_at(Stamp { day, time: 2359 }, 9, [far, officer, other, 0], list);
            }
        }
    }
}

/// Limits of every length and from every first portion, and from 0 to every
/// last, each brought into force and then looked at portion by portion.
fn limits(mut rng: Rng) -> (Vec<u8>, Vec<u8>) {
    let plan = Plan::gate_into_each(&mut rng);
    let mut all: Vec<(u16, u16)> = Vec::new();
    for number in 0..64 {
        let first = rng.between(0, 63 - number);
        all.push((first, first + number));
        all.push((number, rng.between(number, 63)));
        all.push((0, number));
    }
    rng.shuffle(&mut all);
    let mut driver = Driver::new(rng, &plan);
    let mut list = Vec::new();
    for gate in 0..64 {
        driver.add(4, [gate, 0, 0, 0], &mut list);
    }
    for (first, last) in all {
        driver.look_at(first, last, &mut list);
    }
    (plan.text(), text_of(&list))
}

impl Plan {
    /// P 64, G 64: one gate from outside into each portion, none of kind 4.
    fn gate_into_each(rng: &mut Rng) -> Plan {
        let gates = (0..64).map(|to| [OUTSIDE, to, rng.between(1, 3)]).collect();
        let mut plan = Plan { portions: 64, gates };
        plan.shuffle(rng);
        plan
    }
}

impl Driver {
    /// An authority over these limits, on a board with one gate from outside
    /// into each portion, all gates blocked, and nothing else on it: GRANT with
    /// one gate open and with none; then, in force, UNBLOCK of every gate, and
    /// at the ends, beside them and at one more portion a MOVE that names no
    /// authority and a TOA over this portion only. Leaves the board as it was.
    fn look_at(&mut self, first: u16, last: u16, list: &mut Vec<[u16; 7]>) {
        let kind = self.rng.between(1, 3);
        let officer = self.any_officer();
        self.add(1, [kind, first, last, officer], list);
        let authority = self.board.last_number;
        if kind == 1 {
            let start = stamp_of(self.board.last_stamp.minute() + NOTICE);
            self.add(14, [authority, start.day, start.time, 1], list);
            let other = self.other_officer(officer);
            self.add_at(start, 9, [authority, officer, other, 0], list);
        }
        let officer = self.board.live[0].officer;
        let some = [first.saturating_sub(1), first, self.rng.between(0, 63), last, (last + 1).min(63)];

        let open = self.rng.pick(&some);
        let open = self.gate_into(open);
        self.add(5, [open, 0, 0, 0], list);
        let early = self.add(6, [authority, officer, 0, 0], list) == 0;
        self.add(4, [open, 0, 0, 0], list);
        if !early {
            self.add(6, [authority, officer, 0, 0], list);
        }

        for portion in 0..64 {
            let gate = self.gate_into(portion);
            if self.add(5, [gate, 0, 0, 0], list) == 0 {
                self.add(4, [gate, 0, 0, 0], list);
            }
        }
        for portion in some {
            let train = self.any_train();
            self.add(12, [train, self.gate_into(portion), 0, 0], list);
            self.add(1, [2, portion, portion, officer], list);
            self.add(6, [self.board.last_number, officer, 0, 0], list);
            let other = self.board.live[1];
            self.end(&other, list);
        }
        let one = self.board.live[0];
        self.end(&one, list);
    }

    /// The gate into this portion, if there is one into each.
    fn gate_into(&self, portion: u16) -> u16 {
        let into = |gate: &Gate| gate.to == Place::Portion(portion);
        self.board.gates.iter().position(into).expect("a gate into each portion") as u16
    }
}

/// As many calls as the panel program reads of a list.
const FEW: usize = 100;

/// Few calls, among them many that matter to the order in which authorities and
/// trains are held: trains that come from outside by rising, falling or mixed
/// numbers, up to 32 and beyond, that leave and come again, alone or under
/// authorities that continue and end; or authorities that come and end.
fn trains(mut rng: Rng) -> (Vec<u8>, Vec<u8>) {
    let about = rng.below(10);
    let plan = match about {
        0..=4 => Plan::sidings(&mut rng),
        5..=7 => Plan::open_line(&mut rng),
        _ => {
            let mut plan = Plan::open_to_all(&mut rng);
            plan.gates.truncate(8);
            plan
        }
    };
    let mut driver = Driver::new(rng, &plan);
    let mut list = Vec::new();
    match about {
        0..=4 => driver.come_and_go(&mut list),
        5..=7 => driver.under_authority(&mut list),
        _ => driver.turnover(&mut list),
    }
    list.truncate(FEW);
    (plan.text(), text_of(&list))
}

impl Plan {
    /// P 33 to 40, with a gate from outside into each portion; the other gates,
    /// up to 64, go outside or on to another portion.
    fn sidings(rng: &mut Rng) -> Plan {
        let portions = rng.between(33, 40);
        let mut plan = Plan { portions, gates: (0..portions).map(|to| [OUTSIDE, to, 1]).collect() };
        while plan.gates.len() < 64 {
            let from = rng.between(0, portions - 1);
            let to = rng.pick(&[OUTSIDE, OUTSIDE, (from + 1) % portions]);
            plan.gates.push([from, to, rng.between(1, 3)]);
        }
        plan.shuffle(rng);
        plan
    }

    /// Two to eight portions in a row, both ways, with both ends to outside.
    fn open_line(rng: &mut Rng) -> Plan {
        let portions = rng.between(2, 8);
        let mut plan = Plan { portions, gates: Vec::new() };
        for portion in 0..portions {
            let before = if portion == 0 { OUTSIDE } else { portion - 1 };
            plan.gates.extend([[before, portion, rng.between(1, 3)], [portion, before, rng.between(1, 3)]]);
        }
        plan.gates.extend([[portions - 1, OUTSIDE, 1], [OUTSIDE, portions - 1, 1]]);
        plan.shuffle(rng);
        plan
    }
}

/// Train numbers of one to four digits, those next to powers of 2 and 10 among
/// them.
const LENGTHS: [u16; 40] = [
    1, 2, 3, 9, 10, 11, 12, 19, 20, 21, 30, 90, 99, 100, 101, 110, 111, 199, 200, 255, 256, 257, 300, 512, 999, 1000,
    1001, 1010, 1100, 1111, 1999, 2000, 2560, 4095, 4096, 8191, 8192, 9000, 9998, 9999,
];

/// 40 train numbers in the order in which they come.
fn comers(rng: &mut Rng) -> Vec<u16> {
    let mut numbers: Vec<u16> = match rng.below(4) {
        0 => (1..=40).collect(),
        1 => (9960..=9999).collect(),
        2 => LENGTHS.to_vec(),
        _ => {
            let mut some = vec![1, 9999];
            while some.len() < 40 {
                let number = rng.between(1, 9999);
                if !some.contains(&number) {
                    some.push(number);
                }
            }
            some.sort();
            some
        }
    };
    match rng.below(6) {
        0 => {}
        1 => numbers.reverse(),
        // from both ends in turn, the middle last
        2 => {
            let (low, high) = numbers.split_at(20);
            numbers = low.iter().zip(high.iter().rev()).flat_map(|(&one, &other)| [one, other]).collect();
        }
        _ => rng.shuffle(&mut numbers),
    }
    numbers
}

impl Driver {
    /// MOVE of the train through a gate from outside, best one that is open to
    /// it.
    fn enter(&mut self, train: u16, list: &mut Vec<[u16; 7]>) {
        let (live, trains) = (self.board.live.clone(), self.board.trains.clone());
        let exclusive = |one: &Authority| one.is_in_force() && one.kind.is_exclusive();
        let led = |to: Place| live.iter().any(|one| exclusive(one) && one.limits.hold(to));
        let free = |to: Place| !trains.iter().any(|one| one.touches_place(to));
        let entry = |gate: &Gate| gate.from == Place::Outside;
        let open = |_: GateNumber, gate: &Gate| entry(gate) && (led(gate.to) || free(gate.to));
        let gate = self.pick_gate(open).or_else(|| self.pick_gate(|_, gate| entry(gate)));
        if let Some(gate) = gate {
            let (authority, officer) = self.due(gate);
            let stamp = self.stamp();
            self.add_at(stamp, 12, [train, gate, authority, officer], list);
        }
    }

    /// MOVE to outside of a train that can, often the one with the lowest or the
    /// highest number, and mostly PASSED at once; the train.
    fn leave(&mut self, list: &mut Vec<[u16; 7]>) -> Option<u16> {
        let out = |train: &Train, gate: &Gate| gate.to == Place::Outside && gate.from == train.head;
        let gates = self.board.gates.clone();
        let able = |train: &Train| train.head == train.rear && gates.iter().any(|gate| out(train, gate));
        let mut trains = self.trains();
        trains.retain(able);
        trains.sort_by_key(|train| train.number);
        let train = match self.rng.below(4) {
            0 => trains.first().copied(),
            1 => trains.last().copied(),
            _ => self.rng.first_fit(&trains, |_| true),
        }?;
        let gate = self.pick_gate(|_, gate| out(&train, gate))?;
        let (number, stamp) = (train.number.0, self.stamp());
        self.add_at(stamp, 12, [number, gate, 0, 0], list);
        if self.rng.chance(85) {
            self.add(13, [number, 0, 0, 0], list);
        }
        Some(number)
    }

    /// A number to come with: one that has left, one below or above all on the
    /// board, one between two of them, or any.
    fn comer(&mut self, gone: &[u16]) -> u16 {
        let mut numbers: Vec<u16> = self.board.trains.iter().map(|one| one.number.0).collect();
        numbers.sort();
        let (Some(&lowest), Some(&highest)) = (numbers.first(), numbers.last()) else {
            return self.free_train();
        };
        match self.rng.below(8) {
            0 | 1 if !gone.is_empty() => self.rng.pick(gone),
            2 if lowest > 1 => self.rng.between(1, lowest - 1),
            3 if lowest > 1 => lowest - 1,
            4 if highest < 9999 => self.rng.between(highest + 1, 9999),
            5 if numbers.len() > 1 => {
                let at = self.rng.below(numbers.len() - 1);
                self.rng.between(numbers[at], numbers[at + 1])
            }
            _ => self.free_train(),
        }
    }

    /// So many trains from outside, with a MOVE now and then that is to be
    /// refused.
    fn come(&mut self, count: usize, list: &mut Vec<[u16; 7]>) {
        self.train_pool = comers(&mut self.rng);
        for train in self.train_pool.clone().into_iter().take(count) {
            if self.rng.chance(8) {
                self.refused_move(list);
            }
            self.enter(train, list);
        }
    }

    fn refused_move(&mut self, list: &mut Vec<[u16; 7]>) {
        let want = self.rng.pick(&[9, 12, 17, 17, 18, 19]);
        let numbers = self.candidate(12, want);
        self.apply(&numbers);
        list.push(numbers);
    }

    fn come_and_go(&mut self, list: &mut Vec<[u16; 7]>) {
        let count = self.rng.pick(&[2, 5, 12, 31, 32, 32, 34]);
        self.come(count, list);
        self.mood = self.rng.pick(&[TRAFFIC, DRAIN, EVEN]);
        let mut gone = Vec::new();
        while list.len() < FEW {
            match self.rng.below(10) {
                0..=2 => gone.extend(self.leave(list)),
                3..=5 => {
                    let train = self.comer(&gone);
                    self.enter(train, list);
                }
                6 => self.refused_move(list),
                _ => {
                    let numbers = self.next_call();
                    self.apply(&numbers);
                    list.push(numbers);
                }
            }
        }
    }

    /// Trains into one or two TOAs, and then calls of which many are CONTINUE,
    /// CLEAR and FULFIL.
    fn under_authority(&mut self, list: &mut Vec<[u16; 7]>) {
        let officer = self.any_officer();
        let most = self.board.portions - 1;
        for _ in 0..self.rng.below(3) {
            let fields = self.good_request();
            self.add(1, fields, list);
        }
        let limits = self.rng.pick(&[(0, most), (0, most / 2), (most, most)]);
        let rest = if limits.0 > 0 { (0, limits.0 - 1) } else { (limits.1 + 1, most) };
        let two = rest.0 <= rest.1 && self.rng.chance(50);
        for &(first, last) in [limits, rest].iter().take(1 + usize::from(two)) {
            if let Some(toa) = self.ask([2, first, last, officer], list) {
                self.add(6, [toa, officer, 0, 0], list);
            }
        }
        let count = self.rng.pick(&[3, 6, 12, 24, 33]);
        self.come(count, list);
        let mut gone = Vec::new();
        while list.len() < FEW {
            self.mood = self.rng.pick(&[RENEW, RENEW, WIND_DOWN, TRAFFIC]);
            match self.rng.below(10) {
                0 => gone.extend(self.leave(list)),
                1..=2 => {
                    let train = self.comer(&gone);
                    self.enter(train, list);
                }
                3 => {
                    let one = self.pick_live(|one| one.is_in_force());
                    if let (Some(one), true) = (one, self.rng.chance(40)) {
                        self.end(&one, list);
                    }
                }
                4 => {
                    // for CONTINUE: limits that hold the trains' heads
                    let fields = [self.rng.pick(&[2, 2, 3]), limits.0, self.rng.between(limits.0, most), officer];
                    self.ask(fields, list);
                }
                _ => {
                    let numbers = self.next_call();
                    self.apply(&numbers);
                    list.push(numbers);
                }
            }
        }
    }

    /// Authorities asked for, up to 32 and beyond, and ended, often the first or
    /// the last of them.
    fn turnover(&mut self, list: &mut Vec<[u16; 7]>) {
        for _ in 0..self.rng.pick(&[4, 12, 31, 32, 33]) {
            let fields = self.good_request();
            self.add(1, fields, list);
        }
        while list.len() < FEW {
            let mut live = self.board.live.clone();
            live.sort_by_key(|one| one.number.0);
            let call = match self.rng.below(10) {
                0..=2 => {
                    let one = match self.rng.below(3) {
                        0 => live.first().copied(),
                        1 => live.last().copied(),
                        _ => self.pick_live(|_| true),
                    };
                    if let Some(one) = one {
                        self.end(&one, list);
                    }
                    continue;
                }
                3 | 4 => 1,
                5 | 6 => 6,
                7 | 8 => 11,
                _ => self.rng.pick(&[4, 12]),
            };
            // the last of them by a lower number, if that can be
            let old = live.last().filter(|one| call == 11 && one.is_in_force());
            if let (Some(old), Some(new)) = (old, self.pick_live(|one| one.is_pending() && one.kind != Kind::Lpa)) {
                self.add(11, [old.number.0, new.number.0, old.officer, new.officer], list);
                continue;
            }
            let numbers = self.candidate(call, 0);
            self.apply(&numbers);
            list.push(numbers);
        }
    }
}

/// Few calls, most of them about bookings: 64 gates, all or many of them plain,
/// booked out one after the other, kept out, restored and out again; or a short
/// line with plain signals that protect what comes into force.
fn bookings(mut rng: Rng) -> (Vec<u8>, Vec<u8>) {
    let about = rng.below(10);
    let plan = match about {
        0..=4 => Plan::plain_entries(&mut rng),
        _ => Plan::plain_line(&mut rng),
    };
    let mut driver = Driver::new(rng, &plan);
    let mut list = Vec::new();
    match about {
        0..=4 => driver.book_many(&mut list),
        _ => driver.book_for_work(&mut list),
    }
    list.truncate(FEW);
    (plan.text(), text_of(&list))
}

impl Plan {
    /// P 64, G 64, all gates plain or most of them; gates 0 and 63 always.
    fn plain_entries(rng: &mut Rng) -> Plan {
        let plain = rng.pick(&[100, 100, 80, 30]);
        let mut plan = Plan { portions: 64, gates: (0..64).map(|to| [OUTSIDE, to, PLAIN]).collect() };
        plan.shuffle(rng);
        for gate in &mut plan.gates[1..63] {
            if !rng.chance(plain) {
                gate[2] = rng.between(1, 3);
            }
        }
        plan
    }

    /// Two to eight portions in a row, both ways, most gates plain.
    fn plain_line(rng: &mut Rng) -> Plan {
        let mut plan = Plan::open_line(rng);
        for gate in &mut plan.gates {
            if rng.chance(75) {
                gate[2] = PLAIN;
            }
        }
        plan
    }
}

impl Driver {
    /// The call that is wanted, if it is found soon.
    fn add_wanted(&mut self, call: u16, want: u16, list: &mut Vec<[u16; 7]>) {
        for _ in 0..12 {
            let numbers = self.candidate(call, want);
            if self.answer(&numbers) == want {
                self.apply(&numbers);
                list.push(numbers);
                return;
            }
        }
    }

    /// Gates booked out by rising, falling or mixed numbers, some or all of them
    /// or only those at the ends, and then calls about bookings.
    fn book_many(&mut self, list: &mut Vec<[u16; 7]>) {
        let mut gates: Vec<u16> = match self.rng.below(6) {
            0 => vec![63],
            1 => vec![0, 63],
            2 => vec![0, 1, 31, 32, 62, 63],
            _ => (0..64).collect(),
        };
        match self.rng.below(4) {
            0 => gates.reverse(),
            1 => self.rng.shuffle(&mut gates),
            _ => {}
        }
        let one_paper = self.rng.chance(20);
        let only = self.any_paper();
        for gate in gates {
            let paper = if one_paper { only } else { self.any_paper() };
            self.add(16, [gate, paper, 0, 0], list);
        }
        while list.len() < FEW {
            match self.rng.below(20) {
                0..=5 => {
                    let paper = |driver: &Driver, gate| driver.booking(gate).map_or(1, |one| one.paper.0);
                    let gate = self.rng.pick(&[0, 63, 63, 31, 32]);
                    let old = paper(self, gate);
                    let fields = match self.rng.below(4) {
                        0 => [gate, old, 1, 0],
                        _ => [gate, old, 0, self.other_paper(old)],
                    };
                    self.add(17, fields, list);
                }
                6..=9 => self.add_wanted(17, 0, list),
                10 => self.add_wanted(16, 0, list),
                11 | 12 => self.add_wanted(4, 0, list),
                13 => self.add_wanted(5, 0, list),
                14 => {
                    let call = self.rng.pick(&[4, 4, 16]);
                    let want = if call == 4 { self.rng.pick(&[8, 10]) } else { self.rng.pick(&[3, 4, 8, 10]) };
                    self.add_wanted(call, want, list);
                }
                15..=17 => {
                    let want = self.rng.pick(&[3, 3, 4, 5, 5, 25, 25]);
                    self.add_wanted(17, want, list);
                }
                _ => {
                    self.mood = BOOKINGS;
                    let numbers = self.next_call();
                    self.apply(&numbers);
                    list.push(numbers);
                }
            }
        }
    }

    /// Authorities asked for, their plain signals booked out and blocked, and
    /// then calls of which many are about bookings, while they are in force and
    /// when they end or continue.
    fn book_for_work(&mut self, list: &mut Vec<[u16; 7]>) {
        while list.len() < FEW {
            let (first, last) = self.free_limits();
            let officer = self.any_officer();
            let kind = self.rng.pick(&[2, 2, 3]);
            if self.rng.chance(60) {
                if let Some(one) = self.ask([kind, first, last, officer], list) {
                    let old = self.pick_live(|one| one.is_in_force()).filter(|_| self.rng.chance(40));
                    match old {
                        Some(old) => self.add(11, [old.number.0, one, old.officer, officer], list),
                        None => self.add(6, [one, officer, 0, 0], list),
                    };
                }
            }
            for _ in 0..4 + self.rng.below(12) {
                self.mood = self.rng.pick(&[BOOKINGS, BOOKINGS, BOOKINGS, TRAFFIC, RENEW, WIND_DOWN]);
                match self.rng.below(10) {
                    0 | 1 => self.add_wanted(17, 25, list),
                    2 => self.add_wanted(5, 16, list),
                    3 | 4 => self.add_wanted(17, 0, list),
                    _ => {
                        let numbers = self.next_call();
                        self.apply(&numbers);
                        list.push(numbers);
                    }
                }
            }
            if let Some(one) = self.pick_live(|one| one.is_in_force()).filter(|_| self.rng.chance(30)) {
                self.end(&one, list);
            }
        }
    }
}

/// More of AGREE, HAND OVER, CLEAR and REOCCUPY than AMONG_OURS, and hardly a
/// train.
const RECORDS: Mood = [14, 1, 20, 0, 0, 20, 9, 8, 12, 5, 14, 1, 1, 0, 18, 0, 0];

/// TOAs and TWAs that agree, join and live on, on a board with few others, where
/// sometimes about 100 or 1000 numbers are gone.
fn agreements(mut rng: Rng) -> (Vec<u8>, Vec<u8>) {
    let plan = if rng.chance(50) { Plan::open_to_all(&mut rng) } else { Plan::random(&mut rng) };
    let gone = match rng.below(8) {
        0 => rng.between(85, 100),
        1 => rng.between(985, 1000),
        _ => 0,
    };
    let others = rng.below(60);
    let journeys = 1 + rng.below(3);
    let mut driver = Driver::new(rng, &plan);
    let mut list = Vec::new();
    for number in 1..=gone {
        let officer = driver.any_officer();
        driver.add(1, [2, 0, 0, officer], &mut list);
        driver.add(2, [number, officer, 0, 0], &mut list);
    }
    driver.steer(others, &mut list);
    for _ in 0..journeys {
        driver.journey(&RECORDS, usize::MAX, &mut list);
        for _ in 0..driver.rng.below(3) {
            driver.refused_record(&mut list);
        }
    }
    (plan.text(), text_of(&list))
}

impl Driver {
    /// An AGREE or JOIN to one that has recorded another, if there are such: to
    /// one in force, or by the wrong officer, or with a wrong distance.
    fn refused_record(&mut self, list: &mut Vec<[u16; 7]>) {
        let Some(taker) = self.pick_live(|one| one.agreed.is_some()) else {
            return;
        };
        let is_twa = taker.kind == Kind::Twa;
        let right = |one: &Authority| one.is_in_force() && taker.agreed != Some(one.number);
        let Some(giver) = self.pick_live(|one| right(one) && one.kind == if is_twa { Kind::Toa } else { Kind::Twa }) else {
            return;
        };
        let far = !is_twa && self.rng.chance(50);
        let distance = if is_twa { 0 } else if far { self.bad_distance() } else { self.good_distance() };
        let officer = if taker.is_in_force() || far { giver.officer } else { self.other_officer(giver.officer) };
        self.add(if is_twa { 3 } else { 15 }, [giver.number.0, taker.number.0, officer, distance], list);
    }
}

/// Few calls, among them many that matter to the portions held and the gates
/// needed: TOAs and TWAs over the same few portions, mostly at one end of the
/// board, that join, agree, come into force, continue, there and elsewhere, and
/// end, and between them calls of every sort.
fn sets(mut rng: Rng) -> (Vec<u8>, Vec<u8>) {
    let plan = if rng.chance(70) {
        Plan { portions: 64, gates: (0..64).map(|to| [OUTSIDE, to, rng.between(1, 4)]).collect() }
    } else {
        Plan::plain_line(&mut rng)
    };
    let mut driver = Driver::new(rng, &plan);
    let mut list = Vec::new();
    while list.len() < FEW {
        let (some, last) = (driver.rng.between(0, 1), plan.portions - 1);
        let (first, last) = driver.rng.pick(&[(0, some), (last - some, last), (last / 2, last / 2 + some)]);
        driver.journey_over(first, last, &AMONG_OURS, usize::MAX, &mut list);
        driver.part(&mut list);
        driver.mood = EVEN;
        for _ in 0..driver.rng.below(30) {
            let numbers = driver.next_call();
            driver.apply(&numbers);
            list.push(numbers);
        }
    }
    list.truncate(FEW);
    (plan.text(), text_of(&list))
}

impl Driver {
    /// Of two in force over one portion, if there are such, one ends or goes on
    /// as another elsewhere.
    fn part(&mut self, list: &mut Vec<[u16; 7]>) {
        let standing: Vec<Authority> = self.board.live.iter().filter(|one| one.is_in_force()).copied().collect();
        let shares = |one: &Authority| standing.iter().any(|that| that.number != one.number && that.limits.share(one.limits));
        let Some(old) = self.pick_live(|one| one.is_in_force() && shares(one)) else {
            return;
        };
        if self.rng.chance(40) {
            self.end(&old, list);
            return;
        }
        let (first, last) = self.free_limits();
        let (kind, officer) = (self.rng.pick(&[2, 3]), self.any_officer());
        if let Some(new) = self.ask([kind, first, last.min(first + 1), officer], list) {
            self.add(11, [old.number.0, new, old.officer, officer], list);
        }
    }
}

/// Random numbers, mostly small.
fn wild(mut rng: Rng) -> (Vec<u8>, Vec<u8>) {
    let plan = Plan::random(&mut rng);
    let count = 50 + rng.below(500);
    let mut list = Vec::new();
    for _ in 0..count {
        let mut numbers = [0; 7];
        for number in &mut numbers {
            *number = match rng.below(40) {
                0..=27 => rng.between(0, 2),
                28..=35 => rng.between(0, 9),
                36..=37 => rng.between(0, 99),
                38 => rng.between(0, 10001),
                _ => rng.between(0, 65535),
            };
        }
        if rng.chance(85) {
            numbers[0] = 0;
        }
        if rng.chance(90) {
            numbers[2] = rng.between(1, 17);
            let roles = roles(numbers[2]);
            for (number, role) in numbers[3..].iter_mut().zip(roles) {
                if role == Role::Unused && rng.chance(90) {
                    *number = 0;
                }
                if role == Role::Distance && rng.chance(70) {
                    *number = rng.pick(&[499, 500, 700, 1000, 1001]);
                }
            }
        }
        list.push(numbers);
    }
    (plan.text(), text_of(&list))
}

/// A valid list that is then damaged, in the calls or in the plan.
fn damaged(mut rng: Rng) -> (Vec<u8>, Vec<u8>) {
    let plan = Plan::random(&mut rng);
    // mostly few, sometimes more than a program is likely to read at once
    let count = if rng.chance(90) { 1 + rng.below(80) } else { 500 + rng.below(8000) };
    let mut driver = Driver::new(rng, &plan);
    let mut list = Vec::new();
    driver.steer(count, &mut list);
    let rng = &mut driver.rng;
    let mut calls = text_of(&list);
    let mut text = plan.text();
    match rng.below(20) {
        0..=5 => damage_columns(rng, &mut calls, CALL_LINE),
        6..=9 => damage_lines(rng, &mut calls, CALL_LINE),
        10..=11 => damage_columns(rng, &mut text, PLAN_LINE),
        12 => damage_lines(rng, &mut text, PLAN_LINE),
        _ => text = damaged_plan(rng, &plan),
    }
    (text, calls)
}

const ODD_BYTES: &[u8] = b" 0123456789\n\r\t\0-+.,abxX\xff\xb0";

/// Spellings of a number that are wrong, or wrong most of the time.
fn odd_columns(rng: &mut Rng, columns: &[u8]) -> Vec<u8> {
    let number: u32 = String::from_utf8_lossy(columns).trim().parse().unwrap_or(0);
    match rng.below(14) {
        0 => format!("{number:06}"),
        1 => format!("{:>6}", format!("0{number}")),
        2 => format!("{number:<6}"),
        3 => format!("{:<6}", format!(" {number}")),
        4 => format!("{:>5} ", number % 100_000),
        5 => format!("{:>6}", format!("+{number}")),
        6 => format!("{:>6}", format!("-{number}")),
        7 => "      ".to_string(),
        8 => format!("{:6}", 65536 + number),
        9 => format!("{:6}", rng.pick(&[65535, 65536, 65537, 70000, 99999, 100000, 131072, 655360, 999999])),
        10 => format!("{:>6}", format!("{} {}", number / 10, number % 10)),
        11 => "    00".to_string(),
        12 => format!("{:>6}", format!("{number:x}a")),
        _ => format!("{:6}", number + 1),
    }
    .into_bytes()
    .into_iter()
    .take(COLUMNS)
    .collect()
}

/// One number of one line spelt wrong.
fn damage_columns(rng: &mut Rng, text: &mut Vec<u8>, line: usize) {
    let start = rng.below(text.len() / line) * line;
    let column = start + rng.below(line / COLUMNS) * COLUMNS;
    let odd = odd_columns(rng, &text[column..column + COLUMNS]);
    text.splice(column..column + COLUMNS, odd);
}

/// Other damage that any text of lines can take.
fn damage_lines(rng: &mut Rng, text: &mut Vec<u8>, line: usize) {
    let at = rng.below(text.len());
    let start = at / line * line;
    match rng.below(12) {
        0..=2 => text[at] = rng.pick(ODD_BYTES),
        3 => {
            let cut = 1 + rng.below(line - 1);
            text.truncate(text.len() - cut);
        }
        // only the last line feed is missing
        4 => text.truncate(text.len() - 1),
        5..=6 => text[start + line - 1] = rng.pick(b" 0\r\0"),
        7 => {
            text.remove(at);
        }
        8 => text.insert(at, rng.pick(ODD_BYTES)),
        9 => {
            let more: &[u8] = rng.pick(&[&b"\n"[..], &b" "[..], &b"     0"[..], &b"     1     2\n"[..], &b"\0"[..]]);
            text.extend_from_slice(more);
        }
        10 => {
            // far too long
            for _ in 0..4000 {
                text.extend_from_slice(b"    99     0     1\n");
            }
        }
        // a line feed in the middle of a line
        _ => text[start + rng.below(line)] = b'\n',
    }
}

/// A plan whose numbers are wrong, well written most of the time.
fn damaged_plan(rng: &mut Rng, plan: &Plan) -> Vec<u8> {
    let mut lines: Vec<[u32; 3]> = vec![[plan.portions.into(), plan.gates.len() as u32, 0]];
    lines.extend(plan.gates.iter().map(|&[from, to, kind]| [from.into(), to.into(), kind.into()]));
    let portions = u32::from(plan.portions);
    if lines.len() == 1 && rng.chance(70) {
        lines.push([99, 0, 1]);
        lines[0][1] = 1;
    }
    let gate = if lines.len() > 1 { 1 + rng.below(lines.len() - 1) } else { 0 };
    match rng.below(21) {
        0 => lines[0][0] = rng.pick(&[0, 66, 99, 65535, 65536, 65536 + portions, 999999]),
        1 => lines[0][1] += 1,
        2 => lines[0][1] = lines[0][1].saturating_sub(1),
        3 => lines[0][2] = rng.pick(&[1, 2, 65535, 65536, 999999]),
        4 if gate > 0 => lines[gate][1] = lines[gate][0],
        5 if gate > 0 => lines[gate] = [99, 99, 1],
        6 if gate > 0 => lines[gate][0] = rng.pick(&[portions, portions, portions + 1, 98, 100, 65535, 65536 + 99]),
        7 if gate > 0 => lines[gate][1] = rng.pick(&[portions, portions, portions + 1, 98, 100, 65536, 65536 + 99]),
        18 if gate > 0 => lines[gate][0] = portions,
        19 if gate > 0 => lines[gate][1] = portions,
        8 if gate > 0 => lines[gate][2] = rng.pick(&[6, 99, 65536, 65537, 999999]),
        9 => {
            // 65 gates
            while lines.len() < 66 {
                lines.push([99, 0, 1]);
            }
            lines[0][1] = 65;
        }
        10 => {
            // 64 gates: right, the longest plan
            while lines.len() < 65 {
                lines.push([99, 0, 1]);
            }
            lines[0][1] = 64;
        }
        11 => {
            lines.pop();
        }
        12 => lines.push(rng.pick(&[[99, 0, 1], [0, 99, 4], [0, 0, 0]])),
        13 => lines = vec![[0, 0, 0]],
        14 => lines.clear(),
        15 => lines[0][0] = 65,
        16 if gate > 0 => lines[gate][2] = 0,
        17 if gate > 0 => lines[gate][2] = 5,
        _ => lines[0][0] = 64,
    }
    lines.into_iter().flat_map(plan_line).collect()
}

fn text_of(list: &[[u16; 7]]) -> Vec<u8> {
    list.iter().flat_map(call_line).collect()
}

// ---------------------------------------------------------------------------
// A busy board
// ---------------------------------------------------------------------------

const BUSY: Mood = [3, 3, 7, 8, 8, 6, 8, 8, 8, 4, 5, 24, 16, 2, 4, 5, 7];

/// Writes as it goes, since the list may be long; prints to standard error how
/// busy the board is at ten points.
fn busy(mut rng: Rng, count: usize, folder: &Path) -> io::Result<()> {
    let plan = Plan::busy(&mut rng);
    fs::write(folder.join("plan"), plan.text())?;
    let mut calls = BufWriter::with_capacity(1 << 18, File::create(folder.join("calls"))?);
    let mut driver = Driver::new(rng, &plan);
    driver.mood = BUSY;
    driver.leaps = false;
    // 10000 days of 1440 minutes, not quite used up, if half of the calls move
    // the clock; some minutes a call, so that terms come round
    driver.pace = (14_000_000 * 1000 * 2 / count.max(1)).min(25_000);
    let (mut accepted, mut tenth, mut done) = (0, 1, 0);
    for index in 0..count {
        driver.ration = (20 + 9900 * index / count) as u16;
        let numbers = busy_call(&mut driver, index, count);
        if driver.apply(&numbers) == 0 {
            accepted += 1;
        }
        calls.write_all(&call_line(&numbers))?;
        if (index + 1) * 10 / count >= tenth {
            let board = &driver.board;
            let share = 100.0 * accepted as f64 / (index + 1 - done) as f64;
            let in_force = board.live.iter().filter(|one| one.is_in_force()).count();
            let lpas = board.live.iter().filter(|one| one.is_in_force() && one.kind == Kind::Lpa).count();
            let led = board.trains.iter().filter(|train| train.with.is_some()).count();
            eprintln!(
                "after {:8} calls: {:2} live ({in_force} in force, {lpas} of them LPAs), {:2} trains ({led} with an authority), {:2} gates blocked, {:4} allotted, day {:4}, {share:.1}% of this tenth accepted",
                index + 1,
                board.live.len(),
                board.trains.len(),
                board.blocked.0.count_ones(),
                board.last_number,
                board.last_stamp.day,
            );
            (accepted, tenth, done) = (0, tenth + 1, index + 1);
        }
    }
    calls.flush()
}

fn busy_call(driver: &mut Driver, index: usize, count: usize) -> [u16; 7] {
    if driver.rng.below(400) == 0 {
        return driver.no_such_call();
    }
    loop {
        let call = driver.rng.weighted(&driver.mood) as u16 + 1;
        let want = if driver.rng.chance(63) { 0 } else { driver.rng.pick(refusals(call)) };
        for _ in 0..6 {
            let numbers = if call == 1 && want == 0 { busy_request(driver) } else { driver.candidate(call, want) };
            let answer = driver.answer(&numbers);
            if answer == want && (answer != 0 || keeps_busy(driver, &numbers, index, count)) {
                return numbers;
            }
        }
        // nothing found: sometimes the call as it comes, if it is refused
        let numbers = driver.muddled(call);
        if driver.answer(&numbers) != 0 && driver.rng.chance(40) {
            return numbers;
        }
    }
}

/// Short limits, half of the time where nothing is in force.
fn busy_request(driver: &mut Driver) -> [u16; 7] {
    let mut fields = driver.good_request();
    for _ in 0..6 {
        let first = driver.rng.between(0, 62);
        let last = (first + driver.rng.between(0, 2)).min(63);
        let limits = Portions::first_to_last(first, last);
        let taken = driver.board.live.iter().any(|one| one.is_in_force() && one.limits.share(limits));
        if !taken && !driver.board.is_touched(limits) {
            if driver.rng.chance(60) || fields[2] - fields[1] > 6 {
                fields = [fields[0], first, last, fields[3]];
            }
            break;
        }
    }
    let stamp = driver.stamp();
    [stamp.day, stamp.time, 1, fields[0], fields[1], fields[2], fields[3]]
}

/// Whether the board stays busy if this call is accepted: some 25 authorities
/// live, half of them in force, some 20 trains, and numbers left to the end.
fn keeps_busy(driver: &Driver, numbers: &[u16; 7], index: usize, count: usize) -> bool {
    let board = &driver.board;
    let live = board.live.len();
    let in_force = board.live.iter().filter(|one| one.is_in_force()).count();
    let pending = live - in_force;
    let trains = board.trains.len();
    match numbers[2] {
        1 => {
            let ration = 60 + 9900 * index / count;
            live < 28 && usize::from(board.last_number) < ration
        }
        2 => live > 25 && pending > 9,
        6 => in_force < 18,
        10 => live > 25 && in_force > 11,
        11 => live > 25,
        12 => {
            let Gate { from, to, .. } = *board.gate(GateNumber(numbers[4]));
            (from != Place::Outside || trains < 22) && (to != Place::Outside || trains > 19)
        }
        _ => true,
    }
}

// ---------------------------------------------------------------------------

fn seeded(seed: u64, kind: &str) -> Rng {
    let mut rng = Rng(seed.wrapping_mul(0xD134_2543_DE82_EF95));
    for byte in kind.bytes() {
        rng.0 = rng.0.wrapping_add(byte.into());
        rng.next();
    }
    rng
}

fn run(arguments: &[String]) -> Result<(), String> {
    let usage = "usage: generate SEED steered|numbers|damaged|short|wild|shift|limits|trains|bookings|agreements|sets OUTDIR, or generate SEED busy N OUTDIR";
    let (seed, kind, folder) = match arguments {
        [seed, kind, .., folder] => (seed, kind.as_str(), Path::new(folder)),
        _ => return Err(usage.to_string()),
    };
    let rng = seeded(seed.parse().map_err(|_| usage)?, kind);
    let (plan, calls) = match (kind, arguments.len()) {
        ("steered", 3) => steered(rng),
        ("numbers", 3) => numbers(rng),
        ("damaged", 3) => damaged(rng),
        ("short", 3) => short(rng),
        ("wild", 3) => wild(rng),
        ("shift", 3) => shift(rng),
        ("limits", 3) => limits(rng),
        ("trains", 3) => trains(rng),
        ("bookings", 3) => bookings(rng),
        ("agreements", 3) => agreements(rng),
        ("sets", 3) => sets(rng),
        ("busy", 4) => {
            let count = arguments[2].parse().map_err(|_| usage)?;
            return busy(rng, count, folder).map_err(|error| error.to_string());
        }
        _ => return Err(usage.to_string()),
    };
    let written = fs::write(folder.join("plan"), plan).and_then(|()| fs::write(folder.join("calls"), calls));
    written.map_err(|error| error.to_string())
}

fn main() -> ExitCode {
    let arguments: Vec<String> = std::env::args().skip(1).collect();
    match run(&arguments) {
        Ok(()) => ExitCode::SUCCESS,
        Err(message) => {
            eprintln!("{message}");
            ExitCode::FAILURE
        }
    }
}
