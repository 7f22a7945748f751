//! The track authority board, read from document 01 and orders 1 to 9 of
//! document 02, without a look at the definitions.
//!
//! A plain program: it reads the files `plan` and `calls` in the working
//! folder and prints the journal on standard output; with the argument `sheet`
//! it prints order 2's shift sheet instead, and with `held` the live
//! authorities, the trains, the bookings and order 8's three sets that the
//! register then holds, in its order. With `worksites` it reads the file
//! `worksites` alone and prints order 9's lines for the gaps between them.
//! Quotation marks in the comments hold the papers' own words; what isn't
//! marked as an order's is 01's. Each call is one function of the board; its
//! conditions for refusal are tested in ascending order of their numbers,
//! because "the lowest number whose condition holds is given".
//!
//! Build: rustc -O reference.rs
//! As a module: #[path = "reference.rs"] mod reference;

#![allow(dead_code)]

use std::env;
use std::fs::File;
use std::io::{self, ErrorKind, Read, Write};
use std::process::ExitCode;

/// "99 in either place means outside the board."
pub const OUTSIDE: u16 = 99;
/// "P portions of track (1 to 64)", "G gates (0 to 64)".
pub const MOST_PORTIONS: u16 = 64;
pub const MOST_GATES: u16 = 64;
/// "at most 32 are live", "at most 32 are on the board".
pub const MOST_LIVE: usize = 32;
pub const MOST_TRAINS: usize = 32;
/// "Numbers are allotted 1, 2, 3 up to 9999 and never reused."
pub const LAST_NUMBER: u16 = 9999;
/// A day is 24 hours of 60 minutes.
pub const DAY: u32 = 1440;
/// Order 1: "advertised seven days ahead", "10,080 minutes".
pub const NOTICE: u32 = 7 * DAY;
/// Order 4: "three railway track signals at 500 to 1000 m".
pub const LEAST_DISTANCE: u16 = 500;
pub const MOST_DISTANCE: u16 = 1000;
/// "4 plain automatic signal".
pub const PLAIN: u16 = 4;

/// A number takes 6 columns; a plan line is 19 bytes, a call line 43 and a
/// journal line 55.
pub const COLUMNS: usize = 6;
pub const PLAN_LINE: usize = 3 * COLUMNS + 1;
pub const CALL_LINE: usize = 7 * COLUMNS + 1;
pub const JOURNAL_LINE: usize = 9 * COLUMNS + 1;
/// Order 2: "number, kind, first, last, officer, stage", "site", "minutes in
/// hand"; order 7: "a ninth column", so behind these, "kind 7 wide, minutes in
/// hand 9, the other seven 8".
pub const CELLS: usize = 9;
pub const WIDTHS: [usize; CELLS] = [8, 7, 8, 8, 8, 8, 8, 9, 8];
/// Order 2: "The last line counts the portions held and the gates blocked, 9
/// columns each."
pub const TOTALS: usize = 2;
pub const TOTAL_WIDTHS: [usize; TOTALS] = [9, 9];
/// Order 2: "72 columns wide", order 7: "lines still 72"; "33 lines of 73
/// bytes": 32 live authorities and the last line.
pub const SHEET_WIDTH: usize = 72;
pub const SHEET_LINE: usize = SHEET_WIDTH + 1;
pub const SHEET: usize = (MOST_LIVE + 1) * SHEET_LINE;
/// Order 9: "up to 32 worksites as from and to metres (0 to 999,999)".
pub const MOST_WORKSITES: usize = 32;
pub const LAST_METRE: u32 = 999_999;
/// Order 9: "one line a gap in 8-column numbers", "31 lines of 17 bytes"; the
/// lines of the file `worksites` are of the same form.
pub const GAP_COLUMNS: usize = 8;
pub const GAP_LINE: usize = 2 * GAP_COLUMNS + 1;
pub const GAPS: usize = (MOST_WORKSITES - 1) * GAP_LINE;

// ---------------------------------------------------------------------------
// Refusals
// ---------------------------------------------------------------------------

/// The refusal words. 1, "short line", and 23 are about the caller's buffer and
/// cannot occur in this program, but the gaps state 1 and the sheet 23.
#[derive(Clone, Copy, PartialEq, Eq, Debug)]
pub enum Refusal {
    ShortLine = 1,
    NoSuchCall = 2,
    Field = 3,
    Clock = 4,
    NotLive = 5,
    Stage = 6,
    Officer = 7,
    AlreadySo = 8,
    Full = 9,
    NoFacility = 10,
    Unprotected = 11,
    Occupied = 12,
    Overlap = 13,
    Site = 14,
    Assurance = 15,
    StillNeeded = 16,
    NoTrain = 17,
    Blocked = 18,
    NotPiloted = 19,
    Plan = 20,
    /// Order 1 gives 21 and 22 no word.
    ShortNotice = 21,
    OutsideTerm = 22,
    /// Order 2 gives 23 no word.
    ShortSheet = 23,
    /// Order 4 gives 24 no word.
    Distance = 24,
    /// Order 6 gives 25 no word.
    BlockOn = 25,
    /// Order 9 gives 26 and 27 no word.
    Worksites = 26,
    TooFarApart = 27,
}

fn refuse_if(condition: bool, refusal: Refusal) -> Result<(), Refusal> {
    if condition {
        Err(refusal)
    } else {
        Ok(())
    }
}

// ---------------------------------------------------------------------------
// What the register holds
// ---------------------------------------------------------------------------

/// "An authority number, a train number and a gate number are never taken for
/// one another."
#[derive(Clone, Copy, PartialEq, Eq, Debug)]
pub struct AuthorityNumber(pub u16);
#[derive(Clone, Copy, PartialEq, Eq, PartialOrd, Ord, Debug)]
pub struct TrainNumber(pub u16);
#[derive(Clone, Copy, PartialEq, Eq, Debug)]
pub struct GateNumber(pub u16);

/// Order 6: the number of a paper.
#[derive(Clone, Copy, PartialEq, Eq, Debug)]
pub struct Paper(pub u16);

/// A portion below P, or outside; "outside is no portion".
#[derive(Clone, Copy, PartialEq, Eq, Debug)]
pub enum Place {
    Portion(u16),
    Outside,
}

impl Place {
    /// As the plan has it: the portion's number, or 99.
    pub fn number(self) -> u16 {
        match self {
            Place::Portion(portion) => portion,
            Place::Outside => OUTSIDE,
        }
    }
}

/// Order 3: "The set "all portions up to n"", "the 64 sets in a constant table,
/// entry n holding portions 0 to n and no other". A line has four: entries 0 to
/// 3, 4 to 7, and so on to 60 to 63.
pub const ALL_UP_TO: [u64; MOST_PORTIONS as usize] = [
    0x0000_0000_0000_0001, 0x0000_0000_0000_0003, 0x0000_0000_0000_0007, 0x0000_0000_0000_000f,
    0x0000_0000_0000_001f, 0x0000_0000_0000_003f, 0x0000_0000_0000_007f, 0x0000_0000_0000_00ff,
    0x0000_0000_0000_01ff, 0x0000_0000_0000_03ff, 0x0000_0000_0000_07ff, 0x0000_0000_0000_0fff,
    0x0000_0000_0000_1fff, 0x0000_0000_0000_3fff, 0x0000_0000_0000_7fff, 0x0000_0000_0000_ffff,
    0x0000_0000_0001_ffff, 0x0000_0000_0003_ffff, 0x0000_0000_0007_ffff, 0x0000_0000_000f_ffff,
    0x0000_0000_001f_ffff, 0x0000_0000_003f_ffff, 0x0000_0000_007f_ffff, 0x0000_0000_00ff_ffff,
    0x0000_0000_01ff_ffff, 0x0000_0000_03ff_ffff, 0x0000_0000_07ff_ffff, 0x0000_0000_0fff_ffff,
    0x0000_0000_1fff_ffff, 0x0000_0000_3fff_ffff, 0x0000_0000_7fff_ffff, 0x0000_0000_ffff_ffff,
    0x0000_0001_ffff_ffff, 0x0000_0003_ffff_ffff, 0x0000_0007_ffff_ffff, 0x0000_000f_ffff_ffff,
    0x0000_001f_ffff_ffff, 0x0000_003f_ffff_ffff, 0x0000_007f_ffff_ffff, 0x0000_00ff_ffff_ffff,
    0x0000_01ff_ffff_ffff, 0x0000_03ff_ffff_ffff, 0x0000_07ff_ffff_ffff, 0x0000_0fff_ffff_ffff,
    0x0000_1fff_ffff_ffff, 0x0000_3fff_ffff_ffff, 0x0000_7fff_ffff_ffff, 0x0000_ffff_ffff_ffff,
    0x0001_ffff_ffff_ffff, 0x0003_ffff_ffff_ffff, 0x0007_ffff_ffff_ffff, 0x000f_ffff_ffff_ffff,
    0x001f_ffff_ffff_ffff, 0x003f_ffff_ffff_ffff, 0x007f_ffff_ffff_ffff, 0x00ff_ffff_ffff_ffff,
    0x01ff_ffff_ffff_ffff, 0x03ff_ffff_ffff_ffff, 0x07ff_ffff_ffff_ffff, 0x0fff_ffff_ffff_ffff,
    0x1fff_ffff_ffff_ffff, 0x3fff_ffff_ffff_ffff, 0x7fff_ffff_ffff_ffff, 0xffff_ffff_ffff_ffff,
];

/// A set of portions, bit n for portion n.
#[derive(Clone, Copy, PartialEq, Eq, Debug)]
pub struct Portions(pub u64);

impl Portions {
    /// "a first and a last portion and all between"; first <= last < 64. Order
    /// 3: the entry that holds as many portions, shifted to the first; "Limits
    /// answer as before."
    pub fn first_to_last(first: u16, last: u16) -> Portions {
        Portions(ALL_UP_TO[usize::from(last - first)] << first)
    }

    pub fn hold(self, place: Place) -> bool {
        match place {
            Place::Portion(portion) => self.0 >> portion & 1 == 1,
            Place::Outside => false,
        }
    }

    pub fn share(self, other: Portions) -> bool {
        self.0 & other.0 != 0
    }

    pub fn add_all(&mut self, other: Portions) {
        self.0 |= other.0;
    }

    pub fn remove_all(&mut self, other: Portions) {
        self.0 &= !other.0;
    }

    /// The first and the last portion of limits, which are never empty.
    pub fn first(self) -> u16 {
        self.0.trailing_zeros() as u16
    }

    pub fn last(self) -> u16 {
        63 - self.0.leading_zeros() as u16
    }

    /// How many there are.
    pub fn count(self) -> u16 {
        self.0.count_ones() as u16
    }
}

/// A set of gates, bit n for gate n.
#[derive(Clone, Copy, PartialEq, Eq, Debug)]
pub struct Gates(pub u64);

impl Gates {
    pub fn hold(self, gate: GateNumber) -> bool {
        self.0 >> gate.0 & 1 == 1
    }

    pub fn add(&mut self, gate: GateNumber) {
        self.0 |= 1 << gate.0;
    }

    pub fn add_all(&mut self, other: Gates) {
        self.0 |= other.0;
    }

    pub fn remove(&mut self, gate: GateNumber) {
        self.0 &= !(1 << gate.0);
    }

    pub fn all_in(self, other: Gates) -> bool {
        self.0 & !other.0 == 0
    }

    /// How many there are.
    pub fn count(self) -> u16 {
        self.0.count_ones() as u16
    }
}

/// "A gate is a place where traffic goes one way, from one portion to
/// another." Kinds: 1 controlled signal, 2 automatic signal with key switch,
/// 3 points, 4 plain automatic signal.
#[derive(Clone, Copy, PartialEq, Eq, Debug)]
pub struct Gate {
    pub from: Place,
    pub to: Place,
    pub kind: u16,
}

impl Gate {
    /// "4 plain automatic signal"
    pub fn is_plain(&self) -> bool {
        self.kind == PLAIN
    }
}

/// Order 6: what is held of a gate that is "booked out of use".
#[derive(Clone, Copy, PartialEq, Eq, Debug)]
pub struct Booking {
    /// "the one booked"
    pub paper: Paper,
    /// "the number of the paper just replaced beside it"; none after BOOK OUT
    pub replaced: Option<Paper>,
}

#[derive(Clone, Copy, PartialEq, Eq, Debug)]
pub enum Kind {
    Lpa = 1,
    Toa = 2,
    Twa = 3,
}

impl Kind {
    pub fn of(number: u16) -> Option<Kind> {
        match number {
            1 => Some(Kind::Lpa),
            2 => Some(Kind::Toa),
            3 => Some(Kind::Twa),
            _ => None,
        }
    }

    /// "1 and 2 are exclusive".
    pub fn is_exclusive(self) -> bool {
        self != Kind::Twa
    }
}

#[derive(Clone, Copy, PartialEq, Eq, Debug)]
pub enum Stage {
    Pending,
    InForce,
}

#[derive(Clone, Copy, PartialEq, Eq, Debug)]
pub enum Site {
    WorkersOn,
    Clear,
}

/// Day and time of a call; the order is first by day, then by time.
#[derive(Clone, Copy, PartialEq, Eq, PartialOrd, Ord, Debug)]
pub struct Stamp {
    pub day: u16,
    pub time: u16,
}

impl Stamp {
    /// The minute from day 0 time 0 on, of a stamp in range; time is hhmm. The
    /// last minute of day 9999 is below 2^24, so that no sum below overflows.
    pub fn minute(self) -> u32 {
        u32::from(self.day) * DAY + u32::from(self.time / 100 * 60 + self.time % 100)
    }
}

/// Order 1: "start day, start time, length in minutes (1 to 65535)".
#[derive(Clone, Copy, PartialEq, Eq, Debug)]
pub struct Term {
    /// the start minute
    pub start: u32,
    pub length: u16,
}

impl Term {
    /// Order 1: "from the start minute up to the minute before start plus
    /// length", which may lie past day 9999.
    pub fn holds(self, minute: u32) -> bool {
        self.start <= minute && minute < self.start + u32::from(self.length)
    }

    /// Order 2: "start plus length, minus now", below 0 in overrun.
    pub fn in_hand(self, now: u32) -> i32 {
        (self.start + u32::from(self.length)) as i32 - now as i32
    }
}

#[derive(Clone, Copy, PartialEq, Eq, Debug)]
pub struct Authority {
    pub number: AuthorityNumber,
    pub kind: Kind,
    pub limits: Portions,
    /// "An authority needs each gate whose "to" is in its limits and whose
    /// "from" isn't." Plan and limits never change, so this is reckoned once.
    pub needs: Gates,
    pub officer: u16,
    pub stage: Stage,
    pub site: Site,
    /// "for a TWA, the number of the TOA whose officer agreed, or 0". Order 4:
    /// "The TOA records the TWA", so for a TOA the number of the TWA that it
    /// has joined; an LPA has none. Order 7: "Agreements count for the whole
    /// life", "pending or in force, for TWAs and TOAs", so two boards are equal
    /// only if these are too. Only AGREE and JOIN set it: "HAND OVER, CLEAR,
    /// REOCCUPY and the other authority's ending keep the recorded number", and
    /// so do GRANT and CONTINUE, by which the new one keeps its own.
    pub agreed: Option<AuthorityNumber>,
    /// Order 1: for an LPA, the term that TERM gave it, if any.
    pub term: Option<Term>,
}

impl Authority {
    pub fn is_pending(&self) -> bool {
        self.stage == Stage::Pending
    }

    pub fn is_in_force(&self) -> bool {
        self.stage == Stage::InForce
    }

    /// Order 1, 22: "an LPA has no term or the minute is outside it"; never
    /// for a TOA or a TWA.
    pub fn is_outside_term(&self, stamp: Stamp) -> bool {
        self.kind == Kind::Lpa && !self.term.is_some_and(|term| term.holds(stamp.minute()))
    }

    /// Order 2, one line of the sheet: "number, kind, first, last, officer,
    /// stage (1 pending, 2 in force), site (1 on, 2 clear), minutes in hand",
    /// which are "blank where there is no term". Order 7: the recorded agreement
    /// "as a ninth column, 0 for none", whether the one recorded is still live
    /// or not.
    pub fn sheet_cells(&self, now: u32) -> [Cell; CELLS] {
        let stage = match self.stage {
            Stage::Pending => 1,
            Stage::InForce => 2,
        };
        let site = match self.site {
            Site::WorkersOn => 1,
            Site::Clear => 2,
        };
        [
            cell(self.number.0),
            cell(self.kind as u16),
            cell(self.limits.first()),
            cell(self.limits.last()),
            cell(self.officer),
            cell(stage),
            cell(site),
            self.term.map(|term| term.in_hand(now)),
            cell(self.agreed.map_or(0, |number| number.0)),
        ]
    }
}

#[derive(Clone, Copy, PartialEq, Eq, Debug)]
pub struct Train {
    pub number: TrainNumber,
    pub head: Place,
    pub rear: Place,
    /// "the number of the authority it is with, or 0"
    pub with: Option<AuthorityNumber>,
}

impl Train {
    /// "It touches a portion that holds its head or rear."
    pub fn touches(&self, portions: Portions) -> bool {
        portions.hold(self.head) || portions.hold(self.rear)
    }

    /// The same for one place; "outside is no portion".
    pub fn touches_place(&self, place: Place) -> bool {
        place != Place::Outside && (self.head == place || self.rear == place)
    }
}

// ---------------------------------------------------------------------------
// Ranges
// ---------------------------------------------------------------------------

/// "Day is 0 to 9999, time hhmm on the 24-hour clock." So too the start day
/// and start time of a term.
fn stamp_in_range(stamp: Stamp) -> bool {
    stamp.day <= 9999 && stamp.time / 100 <= 23 && stamp.time % 100 <= 59
}

/// "officer 1 to 999"
fn officer_in_range(officer: u16) -> bool {
    (1..=999).contains(&officer)
}

/// "authority and train 1 to 9999"
fn authority_in_range(authority: u16) -> bool {
    (1..=9999).contains(&authority)
}

fn train_in_range(train: u16) -> bool {
    (1..=9999).contains(&train)
}

/// Order 6: "paper 1 to 9999", and so too the new paper that keeps a gate out.
fn paper_in_range(paper: u16) -> bool {
    (1..=9999).contains(&paper)
}

// ---------------------------------------------------------------------------
// The board
// ---------------------------------------------------------------------------

/// Order 5: "Hold live authorities and trains by ascending number after every
/// call". A call finds them so, since it "is handed a register that opening or
/// an earlier call returned". "The comparison with document 01's register
/// includes that order from now on": of two boards the lists are compared place
/// by place.
#[derive(Clone, PartialEq, Eq, Debug)]
pub struct Board {
    /// P
    pub portions: u16,
    /// the plan's gates, G of them
    pub gates: Vec<Gate>,
    pub last_stamp: Stamp,
    pub last_number: u16,
    pub blocked: Gates,
    /// Order 6: for each gate, in the plan's order, its booking while it is out;
    /// "Bookings count when registers are compared."
    pub bookings: Vec<Option<Booking>>,
    /// the live authorities, at most 32, "by ascending number": a new one has
    /// the highest and goes to the end, and when one ends the others keep their
    /// order
    pub live: Vec<Authority>,
    /// the trains on the board, at most 32, "by ascending number": one that
    /// comes is put in its place, and when one leaves the others keep their
    /// order
    pub trains: Vec<Train>,
    /// Order 8: "Keep in the register the set of portions held by exclusive
    /// authorities in force"; "A portion is held if an authority in force has it
    /// in its limits" (order 2)
    pub exclusive_held: Portions,
    /// order 8: "the same for TWAs"
    pub twa_held: Portions,
    /// order 8: "the set of gates that an authority in force needs"
    pub needed: Gates,
}

impl Board {
    /// Opens a board from the plan's text; refused (20) if it is "not as
    /// above".
    pub fn open(plan: &[u8]) -> Result<Board, Refusal> {
        Board::from_plan(plan).ok_or(Refusal::Plan)
    }

    fn from_plan(plan: &[u8]) -> Option<Board> {
        // "Line one is P, G, 0."
        let [portions, gate_count, zero] = read_plan_line(plan.get(..PLAN_LINE)?)?;
        let portions_right = (1..=u32::from(MOST_PORTIONS)).contains(&portions);
        if !portions_right || gate_count > u32::from(MOST_GATES) || zero != 0 {
            return None;
        }
        // "The length is exactly 19 × (1 + G)."
        if plan.len() != PLAN_LINE * (1 + gate_count as usize) {
            return None;
        }
        // "Then one line a gate: from, to, kind."
        let portions = portions as u16;
        let mut gates = Vec::with_capacity(gate_count as usize);
        for line in plan[PLAN_LINE..].chunks_exact(PLAN_LINE) {
            let [from, to, kind] = read_plan_line(line)?;
            // "From and to are each below P or 99, and differ; kind is 1 to 4."
            let from = read_place(from, portions)?;
            let to = read_place(to, portions)?;
            if from == to || !(1..=4).contains(&kind) {
                return None;
            }
            gates.push(Gate { from, to, kind: kind as u16 });
        }
        Some(Board::fresh(portions, gates))
    }

    /// "A freshly opened board has no authority, no train, no block, last stamp
    /// day 0 time 0, last number 0." Nor has it a booking: BOOK OUT makes them.
    fn fresh(portions: u16, gates: Vec<Gate>) -> Board {
        Board {
            portions,
            bookings: vec![None; gates.len()],
            gates,
            last_stamp: Stamp { day: 0, time: 0 },
            last_number: 0,
            blocked: Gates(0),
            live: Vec::with_capacity(MOST_LIVE),
            trains: Vec::with_capacity(MOST_TRAINS),
            exclusive_held: Portions(0),
            twa_held: Portions(0),
            needed: Gates(0),
        }
    }

    /// "The closed board is the same with P = G = 0."
    pub fn closed() -> Board {
        Board::fresh(0, Vec::new())
    }

    /// One call of seven numbers: day, time, call, then four fields. Gives the
    /// answer (0 or the refusal) and the number allotted by REQUEST (else 0).
    pub fn call(&mut self, numbers: &[u16; 7]) -> (u16, u16) {
        let [day, time, call, a, b, c, d] = *numbers;
        let stamp = Stamp { day, time };
        let outcome = match call {
            1 => self.request(stamp, a, b, c, d),
            2 => self.withdraw(stamp, a, b, c, d),
            3 => self.agree(stamp, a, b, c, d),
            4 => self.block(stamp, a, b, c, d),
            5 => self.unblock(stamp, a, b, c, d),
            6 => self.grant(stamp, a, b, c, d),
            7 => self.clear(stamp, a, b, c, d),
            8 => self.reoccupy(stamp, a, b, c, d),
            9 => self.hand_over(stamp, a, b, c, d),
            10 => self.fulfil(stamp, a, b, c, d),
            11 => self.continue_as(stamp, a, b, c, d),
            12 => self.move_train(stamp, a, b, c, d),
            13 => self.passed(stamp, a, b, c, d),
            14 => self.term(stamp, a, b, c, d),
            15 => self.join(stamp, a, b, c, d),
            16 => self.book_out(stamp, a, b, c, d),
            17 => self.book_in(stamp, a, b, c, d),
            // 2; order 1: "for a number that no call has"
            _ => Err(Refusal::NoSuchCall),
        };
        match outcome {
            Ok(allotted) => {
                self.last_stamp = stamp;
                (0, allotted)
            }
            // "A refused call returns authority number 0."
            Err(refusal) => (refusal as u16, 0),
        }
    }

    /// 1 REQUEST kind, first, last, officer {9}.
    fn request(&mut self, stamp: Stamp, kind: u16, first: u16, last: u16, officer: u16) -> Result<u16, Refusal> {
        // 3 "a range above": "kind 1 to 3", "first ≤ last < P", officer
        let limits_right = first <= last && last < self.portions;
        self.fields(stamp, limits_right && officer_in_range(officer))?;
        let kind = Kind::of(kind).ok_or(Refusal::Field)?;
        // 4
        self.clock(stamp)?;
        // 9 "32 held, or 9999 allotted"
        refuse_if(self.live.len() == MOST_LIVE || self.last_number == LAST_NUMBER, Refusal::Full)?;

        // "Adds it pending, site clear, agreed 0"; a term comes with TERM. Order
        // 5, "by ascending number": "Numbers are allotted 1, 2, 3 up to 9999 and
        // never reused", so its place is behind all others.
        let limits = Portions::first_to_last(first, last);
        self.last_number += 1;
        self.live.push(Authority {
            number: AuthorityNumber(self.last_number),
            kind,
            limits,
            needs: self.needed_gates(limits),
            officer,
            stage: Stage::Pending,
            site: Site::Clear,
            agreed: None,
            term: None,
        });
        Ok(self.last_number)
    }

    /// 2 WITHDRAW authority, officer {5; 6 not pending; 7}.
    fn withdraw(&mut self, stamp: Stamp, authority: u16, officer: u16, c: u16, d: u16) -> Result<u16, Refusal> {
        // 3 "a range above, or an unused field not 0"
        self.fields(stamp, authority_in_range(authority) && officer_in_range(officer) && c == 0 && d == 0)?;
        // 4
        self.clock(stamp)?;
        // 5 "no live authority has that number"
        let at = self.find_live(authority)?;
        // 6 "not pending"
        refuse_if(!self.live[at].is_pending(), Refusal::Stage)?;
        // 7 "not the authority's officer"
        refuse_if(self.live[at].officer != officer, Refusal::Officer)?;

        // "It is live until withdrawn". Order 5: the others keep their order.
        self.live.remove(at);
        Ok(0)
    }

    /// 3 AGREE TOA, TWA, officer of the TOA {5; 6 not a TOA in force and a
    /// pending TWA; 7; 8 that TOA already recorded}.
    fn agree(&mut self, stamp: Stamp, toa: u16, twa: u16, officer: u16, d: u16) -> Result<u16, Refusal> {
        // 3 "a range above, or an unused field not 0"
        let numbers_right = authority_in_range(toa) && authority_in_range(twa);
        self.fields(stamp, numbers_right && officer_in_range(officer) && d == 0)?;
        // 4
        self.clock(stamp)?;
        // 5 "no live authority has that number", of either number
        let toa_at = self.find_live(toa)?;
        let twa_at = self.find_live(twa)?;
        // 6 "not a TOA in force and a pending TWA"
        let (the_toa, the_twa) = (&self.live[toa_at], &self.live[twa_at]);
        let toa_right = the_toa.kind == Kind::Toa && the_toa.is_in_force();
        let twa_right = the_twa.kind == Kind::Twa && the_twa.is_pending();
        refuse_if(!toa_right || !twa_right, Refusal::Stage)?;
        // 7 "not the authority's officer": "officer of the TOA"
        refuse_if(the_toa.officer != officer, Refusal::Officer)?;
        // 8 "that TOA already recorded"
        refuse_if(the_twa.agreed == Some(AuthorityNumber(toa)), Refusal::AlreadySo)?;

        // "Replaces an earlier agreement."
        self.live[twa_at].agreed = Some(AuthorityNumber(toa));
        Ok(0)
    }

    /// 4 BLOCK gate {8; 10}. Order 6: "10 at BLOCK", now follows "the booking".
    fn block(&mut self, stamp: Stamp, gate: u16, b: u16, c: u16, d: u16) -> Result<u16, Refusal> {
        // 3 "a range above, or an unused field not 0"
        self.fields(stamp, self.gate_in_range(gate) && b == 0 && c == 0 && d == 0)?;
        // 4
        self.clock(stamp)?;
        // 8 "already in that position"
        let number = GateNumber(gate);
        refuse_if(self.blocked.hold(number), Refusal::AlreadySo)?;
        // 10 "gate of kind 4", by order 6 only while it isn't out
        refuse_if(!self.can_be_blocked(number), Refusal::NoFacility)?;

        self.blocked.add(number);
        Ok(0)
    }

    /// 5 UNBLOCK gate {8; 16}.
    fn unblock(&mut self, stamp: Stamp, gate: u16, b: u16, c: u16, d: u16) -> Result<u16, Refusal> {
        // 3 "a range above, or an unused field not 0"
        self.fields(stamp, self.gate_in_range(gate) && b == 0 && c == 0 && d == 0)?;
        // 4
        self.clock(stamp)?;
        // 8 "already in that position"
        let number = GateNumber(gate);
        refuse_if(!self.blocked.hold(number), Refusal::AlreadySo)?;
        // 16 "an authority in force needs the gate", by order 8 from the set
        refuse_if(self.needed.hold(number), Refusal::StillNeeded)?;

        self.blocked.remove(number);
        Ok(0)
    }

    /// 6 GRANT authority, officer {5; 6 not pending; 7; 11; 12 a train touches
    /// the limits; 13}, by order 1 also {22}.
    fn grant(&mut self, stamp: Stamp, authority: u16, officer: u16, c: u16, d: u16) -> Result<u16, Refusal> {
        // 3 "a range above, or an unused field not 0"
        self.fields(stamp, authority_in_range(authority) && officer_in_range(officer) && c == 0 && d == 0)?;
        // 4
        self.clock(stamp)?;
        // 5 "no live authority has that number"
        let at = self.find_live(authority)?;
        let this = &self.live[at];
        // 6 "not pending"
        refuse_if(!this.is_pending(), Refusal::Stage)?;
        // 7 "not the authority's officer"
        refuse_if(this.officer != officer, Refusal::Officer)?;
        // 11 "a needed gate isn't blocked"
        refuse_if(!this.needs.all_in(self.blocked), Refusal::Unprotected)?;
        // 12 "a train touches the limits"
        refuse_if(self.is_touched(this.limits), Refusal::Occupied)?;
        // 13 "another in force shares a portion, unless ..."
        refuse_if(self.overlaps(this, None), Refusal::Overlap)?;
        // 22 "an LPA has no term or the minute is outside it"
        refuse_if(this.is_outside_term(stamp), Refusal::OutsideTerm)?;

        // "In force, workers on." Order 7: what it has recorded stays.
        self.put_in_force(at);
        self.keep_sets();
        Ok(0)
    }

    /// 7 CLEAR authority, officer {5; 6 not in force; 7; 8}.
    fn clear(&mut self, stamp: Stamp, authority: u16, officer: u16, c: u16, d: u16) -> Result<u16, Refusal> {
        // 3 "a range above, or an unused field not 0"
        self.fields(stamp, authority_in_range(authority) && officer_in_range(officer) && c == 0 && d == 0)?;
        // 4
        self.clock(stamp)?;
        // 5 "no live authority has that number"
        let at = self.find_live(authority)?;
        let this = &mut self.live[at];
        // 6 "not in force"
        refuse_if(!this.is_in_force(), Refusal::Stage)?;
        // 7 "not the authority's officer"
        refuse_if(this.officer != officer, Refusal::Officer)?;
        // 8 "already in that position"
        refuse_if(this.site == Site::Clear, Refusal::AlreadySo)?;

        // "They set the site." Order 7: "HAND OVER, CLEAR, REOCCUPY ... keep the
        // recorded number."
        this.site = Site::Clear;
        Ok(0)
    }

    /// 8 REOCCUPY authority, officer {5; 6 not in force; 7; 8; REOCCUPY of a
    /// TWA also 12 a train touches the limits}.
    fn reoccupy(&mut self, stamp: Stamp, authority: u16, officer: u16, c: u16, d: u16) -> Result<u16, Refusal> {
        // 3 "a range above, or an unused field not 0"
        self.fields(stamp, authority_in_range(authority) && officer_in_range(officer) && c == 0 && d == 0)?;
        // 4
        self.clock(stamp)?;
        // 5 "no live authority has that number"
        let at = self.find_live(authority)?;
        let this = &self.live[at];
        // 6 "not in force"
        refuse_if(!this.is_in_force(), Refusal::Stage)?;
        // 7 "not the authority's officer"
        refuse_if(this.officer != officer, Refusal::Officer)?;
        // 8 "already in that position"
        refuse_if(this.site == Site::WorkersOn, Refusal::AlreadySo)?;
        // 12 "REOCCUPY of a TWA also 12 a train touches the limits"
        refuse_if(this.kind == Kind::Twa && self.is_touched(this.limits), Refusal::Occupied)?;

        // "They set the site." Order 7: as for CLEAR.
        self.live[at].site = Site::WorkersOn;
        Ok(0)
    }

    /// 9 HAND OVER authority, officer out, officer in {5; 7 for out; 8 both
    /// the same}. "Either stage."
    fn hand_over(&mut self, stamp: Stamp, authority: u16, out: u16, r#in: u16, d: u16) -> Result<u16, Refusal> {
        // 3 "a range above, or an unused field not 0"
        let officers_right = officer_in_range(out) && officer_in_range(r#in);
        self.fields(stamp, authority_in_range(authority) && officers_right && d == 0)?;
        // 4
        self.clock(stamp)?;
        // 5 "no live authority has that number"
        let at = self.find_live(authority)?;
        // 7 "not the authority's officer", "for out"
        refuse_if(self.live[at].officer != out, Refusal::Officer)?;
        // 8 "both the same"
        refuse_if(out == r#in, Refusal::AlreadySo)?;

        // Order 7: "HAND OVER ... keep the recorded number", its own and the one
        // that another has of it.
        self.live[at].officer = r#in;
        Ok(0)
    }

    /// 10 FULFIL authority, officer, assurances {5; 6 not in force; 7; 14
    /// workers on; 15}.
    fn fulfil(&mut self, stamp: Stamp, authority: u16, officer: u16, assurances: u16, d: u16) -> Result<u16, Refusal> {
        // 3 "a range above, or an unused field not 0": "assurances 0 to 7"
        let numbers_right = authority_in_range(authority) && officer_in_range(officer);
        self.fields(stamp, numbers_right && assurances <= 7 && d == 0)?;
        // 4
        self.clock(stamp)?;
        // 5 "no live authority has that number"
        let at = self.find_live(authority)?;
        let this = &self.live[at];
        // 6 "not in force"
        refuse_if(!this.is_in_force(), Refusal::Stage)?;
        // 7 "not the authority's officer"
        refuse_if(this.officer != officer, Refusal::Officer)?;
        // 14 "workers on"
        refuse_if(this.site == Site::WorkersOn, Refusal::Site)?;
        // 15 "not 7"
        refuse_if(assurances != 7, Refusal::Assurance)?;

        // "It is live until ... fulfilled". "Trains with it are then with 0.
        // Blocks stay on." Order 5: the others keep their order, and so do the
        // trains. Order 7: "the other authority's ending keep the recorded
        // number": who has recorded this one keeps its number.
        let ended = self.live.remove(at).number;
        for train in self.trains.iter_mut().filter(|train| train.with == Some(ended)) {
            train.with = None;
        }
        self.keep_sets();
        Ok(0)
    }

    /// 11 CONTINUE old, new, officer of old, officer of new {5; 6 old not in
    /// force or new not pending; 7 either; 11, 12, 13 for the new}, by order 1
    /// also {22} for the new: "CONTINUE to an LPA".
    fn continue_as(&mut self, stamp: Stamp, old: u16, new: u16, old_officer: u16, new_officer: u16) -> Result<u16, Refusal> {
        // 3 "a range above"
        let numbers_right = authority_in_range(old) && authority_in_range(new);
        self.fields(stamp, numbers_right && officer_in_range(old_officer) && officer_in_range(new_officer))?;
        // 4
        self.clock(stamp)?;
        // 5 "no live authority has that number", of either number
        let old_at = self.find_live(old)?;
        let new_at = self.find_live(new)?;
        let (the_old, the_new) = (self.live[old_at], self.live[new_at]);
        // 6 "old not in force or new not pending"
        refuse_if(!the_old.is_in_force() || !the_new.is_pending(), Refusal::Stage)?;
        // 7 "either"
        refuse_if(the_old.officer != old_officer || the_new.officer != new_officer, Refusal::Officer)?;
        // 11 "a needed gate isn't blocked", for the new
        refuse_if(!the_new.needs.all_in(self.blocked), Refusal::Unprotected)?;
        // 12 "for a new TWA, a train touches its limits; otherwise a train
        // touches them that isn't with old or whose head isn't in them"
        let occupied = self.trains.iter().any(|train| {
            train.touches(the_new.limits)
                && (the_new.kind == Kind::Twa
                    || train.with != Some(the_old.number)
                    || !the_new.limits.hold(train.head))
        });
        refuse_if(occupied, Refusal::Occupied)?;
        // 13 as for GRANT; "For 13 old isn't counted."
        refuse_if(self.overlaps(&the_new, Some(the_old.number)), Refusal::Overlap)?;
        // 22 "an LPA has no term or the minute is outside it", for the new
        refuse_if(the_new.is_outside_term(stamp), Refusal::OutsideTerm)?;

        // "Old ends, new is in force with workers on." Order 5: new stays in
        // the place of its own number, whatever old's was. Order 7: new has what
        // it has recorded itself, nothing of old's; who has recorded old, and
        // that may be new, keeps its number.
        self.put_in_force(new_at);
        self.live.remove(old_at);
        // "Trains with old are then with new if their head is in its limits,
        // else with 0."
        for train in self.trains.iter_mut().filter(|train| train.with == Some(the_old.number)) {
            train.with = the_new.limits.hold(train.head).then_some(the_new.number);
        }
        self.keep_sets();
        Ok(0)
    }

    /// 12 MOVE train, gate, authority, officer {9, 12, 14, 17, 18, 19}.
    fn move_train(&mut self, stamp: Stamp, train: u16, gate: u16, authority: u16, officer: u16) -> Result<u16, Refusal> {
        // 3 "a range above"; "In MOVE authority and officer may be 0."
        let authority_right = authority == 0 || authority_in_range(authority);
        let officer_right = officer == 0 || officer_in_range(officer);
        self.fields(stamp, train_in_range(train) && self.gate_in_range(gate) && authority_right && officer_right)?;
        // 4
        self.clock(stamp)?;
        let train = TrainNumber(train);
        let gate_number = GateNumber(gate);
        let Gate { from, to, .. } = *self.gate(gate_number);
        // "Let E be the exclusive authority and W the TWA in force whose
        // limits hold the gate's "to"." By 13 there is at most one of each.
        let mut e = None;
        let mut w = None;
        for one in self.live.iter().filter(|one| one.is_in_force() && one.limits.hold(to)) {
            if one.kind.is_exclusive() {
                e = Some(one);
            } else {
                w = Some(one);
            }
        }
        // 9 "from outside, 32 trains on the board"
        let from_outside = from == Place::Outside;
        refuse_if(from_outside && self.trains.len() == MOST_TRAINS, Refusal::Full)?;
        // 12 "no E, and another train touches "to""
        let touched = self.trains.iter().any(|other| other.number != train && other.touches_place(to));
        refuse_if(e.is_none() && touched, Refusal::Occupied)?;
        // 14 "W has workers on"
        refuse_if(w.is_some_and(|w| w.site == Site::WorkersOn), Refusal::Site)?;
        // 17 "from outside, the train is on the board; else it isn't there
        // with head and rear both at "from""
        let train_at = self.trains.iter().position(|one| one.number == train);
        let wrong_place = match train_at {
            Some(at) => from_outside || self.trains[at].head != from || self.trains[at].rear != from,
            None => !from_outside,
        };
        refuse_if(wrong_place, Refusal::NoTrain)?;
        // 18 "gate blocked, no E and no W", by order 8 from the sets: an
        // exclusive authority in force, or a TWA, has "to" in its limits if its
        // set holds it
        let no_e_no_w = !self.exclusive_held.hold(to) && !self.twa_held.hold(to);
        refuse_if(self.blocked.hold(gate_number) && no_e_no_w, Refusal::Blocked)?;
        // 19 "authority and officer aren't those of E, else those of W, else 0
        // and 0"
        let pilot = e.or(w);
        let due = pilot.map_or((0, 0), |one| (one.number.0, one.officer));
        refuse_if((authority, officer) != due, Refusal::NotPiloted)?;

        // "The head goes to "to", the rear stays (from outside, both go to
        // "to"); the train is with that authority. Blocks stay on."
        let with = pilot.map(|one| one.number);
        match train_at {
            Some(at) => {
                self.trains[at].head = to;
                self.trains[at].with = with;
            }
            None => {
                // Order 5, "by ascending number": behind all with a lower one.
                let at = self.trains.partition_point(|one| one.number < train);
                self.trains.insert(at, Train { number: train, head: to, rear: to, with });
            }
        }
        Ok(0)
    }

    /// 13 PASSED train {8 head equals rear; 17 not on the board}.
    fn passed(&mut self, stamp: Stamp, train: u16, b: u16, c: u16, d: u16) -> Result<u16, Refusal> {
        // 3 "a range above, or an unused field not 0"
        self.fields(stamp, train_in_range(train) && b == 0 && c == 0 && d == 0)?;
        // 4
        self.clock(stamp)?;
        // 8 "head equals rear", of a train that is on the board
        let train_at = self.trains.iter().position(|one| one.number == TrainNumber(train));
        let whole = train_at.is_some_and(|at| self.trains[at].head == self.trains[at].rear);
        refuse_if(whole, Refusal::AlreadySo)?;
        // 17 "not on the board"
        let at = train_at.ok_or(Refusal::NoTrain)?;

        // "Rear becomes head; a head outside takes the train off." Order 5: the
        // others keep their order.
        if self.trains[at].head == Place::Outside {
            self.trains.remove(at);
        } else {
            self.trains[at].rear = self.trains[at].head;
        }
        Ok(0)
    }

    /// 14 TERM authority, start day, start time, length in minutes {5; 6 not a
    /// pending LPA; 8 it has a term; 21}. It names no officer.
    fn term(&mut self, stamp: Stamp, authority: u16, day: u16, time: u16, length: u16) -> Result<u16, Refusal> {
        // 3 "a range above": "length in minutes (1 to 65535)", of 16 bits
        let start = Stamp { day, time };
        self.fields(stamp, authority_in_range(authority) && stamp_in_range(start) && length >= 1)?;
        // 4
        self.clock(stamp)?;
        // 5 "no live authority has that number"
        let at = self.find_live(authority)?;
        let this = &mut self.live[at];
        // 6 "not a pending LPA"
        refuse_if(this.kind != Kind::Lpa || !this.is_pending(), Refusal::Stage)?;
        // 8 "it has a term": "once"
        refuse_if(this.term.is_some(), Refusal::AlreadySo)?;
        // 21 "the start is before the call or less than 10,080 minutes after
        // it"
        refuse_if(start.minute() < stamp.minute() + NOTICE, Refusal::ShortNotice)?;

        this.term = Some(Term { start: start.minute(), length });
        Ok(0)
    }

    /// 15 JOIN TWA, TOA, officer of the TWA, distance in metres {"5, 6, 7, 8 as
    /// for AGREE"; 24}: "TWA in force, pending TOA, the TWA's officer".
    fn join(&mut self, stamp: Stamp, twa: u16, toa: u16, officer: u16, distance: u16) -> Result<u16, Refusal> {
        // 3 "a range above"; a distance has none: 24 is for it
        let numbers_right = authority_in_range(twa) && authority_in_range(toa);
        self.fields(stamp, numbers_right && officer_in_range(officer))?;
        // 4
        self.clock(stamp)?;
        // 5 "no live authority has that number", of either number
        let twa_at = self.find_live(twa)?;
        let toa_at = self.find_live(toa)?;
        // 6 not a TWA in force and a pending TOA
        let (the_twa, the_toa) = (&self.live[twa_at], &self.live[toa_at]);
        let twa_right = the_twa.kind == Kind::Twa && the_twa.is_in_force();
        let toa_right = the_toa.kind == Kind::Toa && the_toa.is_pending();
        refuse_if(!twa_right || !toa_right, Refusal::Stage)?;
        // 7 "not the authority's officer": "the TWA's officer"
        refuse_if(the_twa.officer != officer, Refusal::Officer)?;
        // 8 that TWA already recorded
        refuse_if(the_toa.agreed == Some(AuthorityNumber(twa)), Refusal::AlreadySo)?;
        // 24 "the distance is under 500 or over 1000"
        refuse_if(distance < LEAST_DISTANCE || distance > MOST_DISTANCE, Refusal::Distance)?;

        // "The TOA records the TWA"; "the TOA's last JOIN counts", so it
        // replaces an earlier one, as AGREE does.
        self.live[toa_at].agreed = Some(AuthorityNumber(twa));
        Ok(0)
    }

    /// 16 BOOK OUT gate, paper {8 "if out"; 10 "for another kind"}: "gate of
    /// kind 4", "paper 1 to 9999".
    fn book_out(&mut self, stamp: Stamp, gate: u16, paper: u16, c: u16, d: u16) -> Result<u16, Refusal> {
        // 3 "a range above": "paper 1 to 9999"; "or an unused field not 0"
        self.fields(stamp, self.gate_in_range(gate) && paper_in_range(paper) && c == 0 && d == 0)?;
        // 4
        self.clock(stamp)?;
        // 8 "if out"
        let number = GateNumber(gate);
        refuse_if(self.booking(number).is_some(), Refusal::AlreadySo)?;
        // 10 "for another kind"
        refuse_if(!self.gate(number).is_plain(), Refusal::NoFacility)?;

        // "booked out of use", under this paper, which replaces none. Blocks
        // stay as they are: this gate's is off.
        self.bookings[usize::from(gate)] = Some(Booking { paper: Paper(paper), replaced: None });
        Ok(0)
    }

    /// 17 BOOK IN gate, paper, certified, new paper {5 "if not the one booked";
    /// 25}. It restores the gate or keeps it out under the new paper.
    fn book_in(&mut self, stamp: Stamp, gate: u16, paper: u16, certified: u16, new_paper: u16) -> Result<u16, Refusal> {
        // "Certified 1 with new paper 0 restores the gate."
        let restores = certified == 1 && new_paper == 0;
        // "Certified 0 with a new paper other than the call's paper, 1 to 9999,
        // keeps it out under the new one": other than the one in the call,
        // whatever is booked.
        let keeps_out = certified == 0 && paper_in_range(new_paper) && new_paper != paper;
        // 3 "a range above": gate, and a paper is "1 to 9999"; "Other
        // combinations are refused 3."
        self.fields(stamp, self.gate_in_range(gate) && paper_in_range(paper) && (restores || keeps_out))?;
        // 4
        self.clock(stamp)?;
        // 5 "if not the one booked", so too if none is
        let number = GateNumber(gate);
        let booked = self.booking(number).map(|one| one.paper);
        refuse_if(booked != Some(Paper(paper)), Refusal::NotLive)?;
        // 25 "when BOOK IN would restore a gate whose block is on, tested last"
        refuse_if(restores && self.blocked.hold(number), Refusal::BlockOn)?;

        // "restores the gate", or "keeps it out under the new one, with the
        // number of the paper just replaced beside it". Blocks stay as they are:
        // "Limits in force stay protected through both calls."
        let kept_out = Booking { paper: Paper(new_paper), replaced: Some(Paper(paper)) };
        self.bookings[usize::from(gate)] = keeps_out.then_some(kept_out);
        Ok(0)
    }

    // ----- the shift sheet -----

    /// Order 2: "A portion is held if an authority in force has it in its
    /// limits."
    pub fn held(&self) -> Portions {
        let mut held = Portions(0);
        for one in self.live.iter().filter(|one| one.is_in_force()) {
            held.0 |= one.limits.0;
        }
        held
    }

    /// Order 2, the shift sheet: "one line a live authority", "Lines stand in
    /// the register's order", and "The last line counts the portions held and
    /// the gates blocked". "The lent buffer must hold 33 lines of 73 bytes;
    /// later bytes stay and the number of lines comes back." Order 5: "by
    /// ascending number", "and print so". Order 7: "The sheet gets it as a ninth
    /// column", in the lines of the authorities; the last line stays order 2's.
    pub fn sheet(&self, buffer: &mut [u8]) -> Result<usize, Refusal> {
        // 23 "when it is shorter, with nothing written"
        refuse_if(buffer.len() < SHEET, Refusal::ShortSheet)?;

        // "Now is the last stamp, a day being 1440 minutes."
        let now = self.last_stamp.minute();
        let line_of = |one: &Authority| SheetLine { cells: one.sheet_cells(now).to_vec(), widths: &WIDTHS };
        let mut lines: Vec<SheetLine> = self.live.iter().map(line_of).collect();
        let counts = [cell(self.held().count()), cell(self.blocked.count())];
        let totals = SheetLine { cells: counts.to_vec(), widths: &TOTAL_WIDTHS };
        lines.push(totals);
        for (one, line) in lines.iter().zip(buffer.chunks_exact_mut(SHEET_LINE)) {
            write_sheet_line(one, line);
        }
        Ok(lines.len())
    }

    // ----- what is held -----

    /// Order 5: the live authorities and the trains in the order in which they
    /// are held, "by ascending number", "and print so". The papers give no page
    /// for it, so this is the panel's: the number of each authority, and each
    /// train's number, head (99 for outside), rear and the authority it is with
    /// (0 for none), in 6 columns each, under two words. Order 6: under a third
    /// each gate that is out, by ascending number, with its paper and the one
    /// that this replaced (0 for none). Order 8: under three more what is in
    /// each of the sets, ascending.
    pub fn write_held(&self, output: &mut Vec<u8>) {
        output.extend_from_slice(b"authorities\n");
        for one in &self.live {
            write_line(&[one.number.0], output);
        }
        output.extend_from_slice(b"trains\n");
        for one in &self.trains {
            let with = one.with.map_or(0, |number| number.0);
            write_line(&[one.number.0, one.head.number(), one.rear.number(), with], output);
        }
        output.extend_from_slice(b"bookings\n");
        for (gate, booking) in self.bookings.iter().enumerate() {
            if let Some(one) = booking {
                let replaced = one.replaced.map_or(0, |paper| paper.0);
                write_line(&[gate as u16, one.paper.0, replaced], output);
            }
        }
        let sets = [("exclusive held", self.exclusive_held.0), ("twa held", self.twa_held.0), ("needed", self.needed.0)];
        for (word, set) in sets {
            output.extend_from_slice(word.as_bytes());
            output.push(b'\n');
            for one in (0..64).filter(|one| set >> one & 1 == 1) {
                write_line(&[one], output);
            }
        }
    }

    // ----- what several calls ask -----

    /// 3 "a range above, or an unused field not 0": the call's own fields, and
    /// day and time.
    fn fields(&self, stamp: Stamp, fields_right: bool) -> Result<(), Refusal> {
        refuse_if(!fields_right || !stamp_in_range(stamp), Refusal::Field)
    }

    /// 4 "stamp before that of the last accepted call"
    fn clock(&self, stamp: Stamp) -> Result<(), Refusal> {
        refuse_if(stamp < self.last_stamp, Refusal::Clock)
    }

    /// 5 "no live authority has that number"
    fn find_live(&self, number: u16) -> Result<usize, Refusal> {
        let number = AuthorityNumber(number);
        self.live.iter().position(|one| one.number == number).ok_or(Refusal::NotLive)
    }

    /// "gate below G"
    fn gate_in_range(&self, gate: u16) -> bool {
        usize::from(gate) < self.gates.len()
    }

    pub fn gate(&self, gate: GateNumber) -> &Gate {
        &self.gates[usize::from(gate.0)]
    }

    /// Order 6: the gate's booking, if it is out.
    pub fn booking(&self, gate: GateNumber) -> Option<Booking> {
        self.bookings[usize::from(gate.0)]
    }

    /// "Kinds 1 to 3 can be blocked, kind 4 can't." Order 6: ""Can be blocked"
    /// ... now follow the booking": kind 4 can while it is out.
    pub fn can_be_blocked(&self, gate: GateNumber) -> bool {
        !self.gate(gate).is_plain() || self.booking(gate).is_some()
    }

    /// "An authority needs each gate whose "to" is in its limits and whose
    /// "from" isn't."
    pub fn needed_gates(&self, limits: Portions) -> Gates {
        let mut needed = Gates(0);
        for (number, gate) in self.gates.iter().enumerate() {
            if limits.hold(gate.to) && !limits.hold(gate.from) {
                needed.add(GateNumber(number as u16));
            }
        }
        needed
    }

    /// "a train touches the limits"
    pub fn is_touched(&self, limits: Portions) -> bool {
        self.trains.iter().any(|train| train.touches(limits))
    }

    /// "In force, workers on."
    fn put_in_force(&mut self, at: usize) {
        self.live[at].stage = Stage::InForce;
        self.live[at].site = Site::WorkersOn;
    }

    /// Order 8: "Every call keeps each equal to what the live authorities give".
    /// They give another only where one comes into force or one in force ends,
    /// so GRANT, FULFIL and CONTINUE make the sets anew; a refused call comes to
    /// no such place. Made from those that are left, a gate that the ended one
    /// needed stays in if another in force needs it.
    fn keep_sets(&mut self) {
        (self.exclusive_held, self.twa_held, self.needed) = (Portions(0), Portions(0), Gates(0));
        for one in self.live.iter().filter(|one| one.is_in_force()) {
            let its_set = if one.kind.is_exclusive() { &mut self.exclusive_held } else { &mut self.twa_held };
            its_set.add_all(one.limits);
            self.needed.add_all(one.needs);
        }
    }

    /// 13 "another in force shares a portion, unless this is a TWA and that is
    /// the TOA it has agreed"; order 4: "refusal 13 makes the matching
    /// exception", unless this is a TOA and that is the TWA it has joined. The
    /// number alone tells, since only a TWA records a TOA and only a TOA a TWA,
    /// and who has been recorded is in force while it is live. At CONTINUE "old
    /// isn't counted". Order 8: decided from the sets, "with the limits of each
    /// authority that it excepts taken out of its set first"; no other of that
    /// set shares a portion with it. This one is pending, so it is in neither
    /// set.
    fn overlaps(&self, this: &Authority, old: Option<AuthorityNumber>) -> bool {
        let (mut exclusive_held, mut twa_held) = (self.exclusive_held, self.twa_held);
        let excepted = |that: &Authority| this.agreed == Some(that.number) || old == Some(that.number);
        for that in self.live.iter().filter(|that| excepted(that)) {
            let its_set = if that.kind.is_exclusive() { &mut exclusive_held } else { &mut twa_held };
            its_set.remove_all(that.limits);
        }
        this.limits.share(exclusive_held) || this.limits.share(twa_held)
    }
}

// ---------------------------------------------------------------------------
// Worksites inside an authority
// ---------------------------------------------------------------------------

/// Order 9: what "is due" for a gap, with its number on the line: "1 single or
/// one worksite, 2 coordinated, 3 midway, 4 each end, 5 several".
#[derive(Clone, Copy, PartialEq, Eq, Debug)]
pub enum Due {
    One = 1,
    Coordinated = 2,
    Midway = 3,
    EachEnd = 4,
    Several = 5,
}

/// Order 9: what the officer states is due for a near gap, "single or
/// coordinated, as the officer states for the list (1 or 2; 0 for a TWA)"; of a
/// TWA it's always "one worksite". None, which 26 is for, "when the kind is
/// another, or the officer's statement isn't one of those for the kind", also
/// where the list has no near gap.
fn stated(kind: u16, statement: u16) -> Option<(Kind, Due)> {
    match (Kind::of(kind)?, statement) {
        (Kind::Lpa, 1) => Some((Kind::Lpa, Due::One)),
        (Kind::Lpa, 2) => Some((Kind::Lpa, Due::Coordinated)),
        (Kind::Twa, 0) => Some((Kind::Twa, Due::One)),
        _ => None,
    }
}

/// Order 9: whether the list isn't "empty, too long, out of range or out of that
/// order"; 26 if it is. Worksites may touch and may have no length.
fn worksites_right(from: &[u32], to: &[u32]) -> bool {
    // "up to 32 worksites as from and to metres", so as many of the one as of
    // the other
    let length_right = (1..=MOST_WORKSITES).contains(&from.len()) && to.len() == from.len();
    // "metres (0 to 999,999)"
    let in_range = from.iter().chain(to).all(|&metre| metre <= LAST_METRE);
    // "each from at most its to"
    let each_right = from.iter().zip(to).all(|(from, to)| from <= to);
    // "each start at or after the end before it"
    let in_order = to.iter().zip(from.iter().skip(1)).all(|(end, start)| start >= end);
    length_right && in_range && each_right && in_order
}

/// Order 9: what is due for one gap; none for "a TWA gap above 3500".
fn due(kind: Kind, near: Due, gap: u32) -> Option<Due> {
    match kind {
        // "TWA: under 1000 one worksite; 1000 to 3500 several under one TWA."
        Kind::Twa if gap < 1000 => Some(near),
        Kind::Twa if gap <= 3500 => Some(Due::Several),
        Kind::Twa => None,
        // "LPA: under 500 single or coordinated", "500 to 1000 signals and marker
        // midway; above 1000 protection at each end."
        _ if gap < 500 => Some(near),
        _ if gap <= 1000 => Some(Due::Midway),
        _ => Some(Due::EachEnd),
    }
}

/// Order 9: "officers send the kind and up to 32 worksites", here with the
/// statement and as two lists, of which the same place is one worksite. Writes
/// "one line a gap" into the lent buffer; "later bytes stay and the number of
/// lines comes back"; "refusals write nothing".
pub fn gaps(kind: u16, statement: u16, from: &[u32], to: &[u32], buffer: &mut [u8]) -> Result<usize, Refusal> {
    // 1 "A shorter one gives 1 first"
    refuse_if(buffer.len() < GAPS, Refusal::ShortLine)?;
    // 26
    let (kind, near) = stated(kind, statement).ok_or(Refusal::Worksites)?;
    refuse_if(!worksites_right(from, to), Refusal::Worksites)?;
    // "For each gap, next start minus last end, the board says what is due"; 27
    // "when a TWA gap is above 3500, tested after 26"
    let mut lines = Vec::with_capacity(MOST_WORKSITES);
    for (end, start) in to.iter().zip(from.iter().skip(1)) {
        let gap = start - end;
        lines.push((gap, due(kind, near, gap).ok_or(Refusal::TooFarApart)?));
    }

    // "metres, and" what is due
    for (&(gap, due), line) in lines.iter().zip(buffer.chunks_exact_mut(GAP_LINE)) {
        write_cell(gap as i32, &mut line[..GAP_COLUMNS]);
        write_cell(due as i32, &mut line[GAP_COLUMNS..2 * GAP_COLUMNS]);
        line[2 * GAP_COLUMNS] = b'\n';
    }
    Ok(lines.len())
}

// ---------------------------------------------------------------------------
// Reading and writing columns
// ---------------------------------------------------------------------------

/// A number "right-justified in 6 columns behind blanks, no leading zeros", or
/// in order 9's 8 columns.
pub fn read_number(columns: &[u8]) -> Option<u32> {
    let blanks = columns.iter().take_while(|&&byte| byte == b' ').count();
    let digits = &columns[blanks..];
    if digits.is_empty() || (digits[0] == b'0' && digits.len() > 1) {
        return None;
    }
    let mut number = 0;
    for &digit in digits {
        if !digit.is_ascii_digit() {
            return None;
        }
        number = number * 10 + u32::from(digit - b'0');
    }
    Some(number)
}

/// Writes a number right-justified behind blanks; 16 bits fit in 6 columns.
pub fn write_number(number: u16, columns: &mut [u8]) {
    columns.fill(b' ');
    let mut rest = number;
    for byte in columns.iter_mut().rev() {
        *byte = b'0' + (rest % 10) as u8;
        rest /= 10;
        if rest == 0 {
            break;
        }
    }
}

/// A line of N numbers in WIDE columns each, then a line feed.
fn read_line<const N: usize, const WIDE: usize>(line: &[u8]) -> Option<[u32; N]> {
    if line.len() != N * WIDE + 1 || line[N * WIDE] != b'\n' {
        return None;
    }
    let mut numbers = [0; N];
    for (number, columns) in numbers.iter_mut().zip(line.chunks_exact(WIDE)) {
        *number = read_number(columns)?;
    }
    Some(numbers)
}

fn read_plan_line(line: &[u8]) -> Option<[u32; 3]> {
    read_line::<3, COLUMNS>(line)
}

/// "below P or 99"
fn read_place(number: u32, portions: u16) -> Option<Place> {
    if number < u32::from(portions) {
        Some(Place::Portion(number as u16))
    } else if number == u32::from(OUTSIDE) {
        Some(Place::Outside)
    } else {
        None
    }
}

/// "the seven numbers in the same columns, 43 bytes a line"; "a number above
/// 65535" makes the line malformed.
pub fn read_call_line(line: &[u8]) -> Option<[u16; 7]> {
    let mut numbers = [0; 7];
    for (number, wide) in numbers.iter_mut().zip(read_line::<7, COLUMNS>(line)?) {
        if wide > u32::from(u16::MAX) {
            return None;
        }
        *number = wide as u16;
    }
    Some(numbers)
}

/// "the seven numbers, the answer (0 or refusal), the number allotted by
/// REQUEST (else 0), each right-justified in 6 columns, then a line feed"
pub fn write_journal_line(numbers: &[u16; 7], answer: u16, allotted: u16) -> [u8; JOURNAL_LINE] {
    let mut line = [b'\n'; JOURNAL_LINE];
    let all = numbers.iter().chain([&answer, &allotted]);
    for (number, columns) in all.zip(line.chunks_exact_mut(COLUMNS)) {
        write_number(*number, columns);
    }
    line
}

/// Numbers in 6 columns each, then a line feed.
fn write_line(numbers: &[u16], output: &mut Vec<u8>) {
    for number in numbers {
        let mut columns = [0; COLUMNS];
        write_number(*number, &mut columns);
        output.extend_from_slice(&columns);
    }
    output.push(b'\n');
}

/// Order 2: a number on the sheet, or a blank.
pub type Cell = Option<i32>;

fn cell(number: u16) -> Cell {
    Some(i32::from(number))
}

/// One line of the sheet, and how wide each of its cells is; what is behind them
/// is blank.
pub struct SheetLine {
    pub cells: Vec<Cell>,
    pub widths: &'static [usize],
}

/// Order 2: a number "right-justified" behind blanks, the minus sign directly
/// before the digits. The largest minutes in hand that a register can give are
/// 14465534 and the least -14389918, which fill their 9 columns; no other number
/// has more than 4 digits. Order 9's metres have at most 6.
fn write_cell(number: i32, columns: &mut [u8]) {
    columns.fill(b' ');
    let mut rest = number.unsigned_abs();
    let mut at = columns.len();
    loop {
        at -= 1;
        columns[at] = b'0' + (rest % 10) as u8;
        rest /= 10;
        if rest == 0 {
            break;
        }
    }
    if number < 0 {
        columns[at - 1] = b'-';
    }
}

/// Order 2: "72 columns wide, blanks to the full width, each line ended by a
/// line feed"
fn write_sheet_line(one: &SheetLine, line: &mut [u8]) {
    line[..SHEET_WIDTH].fill(b' ');
    line[SHEET_WIDTH] = b'\n';
    let mut at = 0;
    for (cell, width) in one.cells.iter().zip(one.widths) {
        if let Some(number) = cell {
            write_cell(*number, &mut line[at..at + width]);
        }
        at += width;
    }
}

// ---------------------------------------------------------------------------
// The journal program, the sheet program, what the register holds and worksites
// ---------------------------------------------------------------------------

/// Lines read and written at a time: some 350 kB in, 450 kB out.
const PIECE: usize = 8192;

/// Reads until the buffer is full or the file ends.
fn fill(file: &mut impl Read, buffer: &mut [u8]) -> io::Result<usize> {
    let mut filled = 0;
    while filled < buffer.len() {
        match file.read(&mut buffer[filled..]) {
            Ok(0) => break,
            Ok(count) => filled += count,
            Err(error) if error.kind() == ErrorKind::Interrupted => {}
            Err(error) => return Err(error),
        }
    }
    Ok(filled)
}

/// Reads the calls and prints the journal; "it stops before a malformed call
/// line", which a short last line is too.
pub fn run_calls(board: &mut Board, calls: &mut impl Read, journal: &mut impl Write) -> io::Result<()> {
    let mut input = vec![0; PIECE * CALL_LINE];
    let mut output = Vec::with_capacity(PIECE * JOURNAL_LINE);
    loop {
        let filled = fill(calls, &mut input)?;
        let mut well_formed = true;
        output.clear();
        for line in input[..filled].chunks(CALL_LINE) {
            let Some(numbers) = read_call_line(line) else {
                well_formed = false;
                break;
            };
            let (answer, allotted) = board.call(&numbers);
            output.extend_from_slice(&write_journal_line(&numbers, answer, allotted));
        }
        journal.write_all(&output)?;
        if !well_formed || filled < input.len() {
            return journal.flush();
        }
    }
}

/// Makes all the calls. A malformed call line, which a short last line is too,
/// is an error that names the line.
fn make_all(board: &mut Board, calls: &mut impl Read) -> io::Result<()> {
    let mut input = vec![0; PIECE * CALL_LINE];
    let mut made = 0;
    loop {
        let filled = fill(calls, &mut input)?;
        for line in input[..filled].chunks(CALL_LINE) {
            let Some(numbers) = read_call_line(line) else {
                return Err(io::Error::other(format!("line {} of calls is malformed", made + 1)));
            };
            board.call(&numbers);
            made += 1;
        }
        if filled < input.len() {
            return Ok(());
        }
    }
}

/// Makes all the calls and prints the sheet of the register that they leave. A
/// malformed call line leaves nothing to sign: then nothing is printed.
pub fn run_sheet(board: &mut Board, calls: &mut impl Read, page: &mut impl Write) -> io::Result<()> {
    make_all(board, calls)?;
    let mut buffer = [0; SHEET];
    let lines = board.sheet(&mut buffer).expect("the buffer holds a sheet");
    page.write_all(&buffer[..lines * SHEET_LINE])?;
    page.flush()
}

/// Makes all the calls and prints what the register then holds; for a refused
/// plan first its number, and the calls are put to the closed board. After a
/// malformed call line nothing is printed.
pub fn run_held(opened: Result<Board, Refusal>, calls: &mut impl Read, output: &mut impl Write) -> io::Result<()> {
    let mut held = Vec::new();
    let mut board = opened.unwrap_or_else(|refusal| {
        write_line(&[refusal as u16], &mut held);
        Board::closed()
    });
    make_all(&mut board, calls)?;
    board.write_held(&mut held);
    output.write_all(&held)?;
    output.flush()
}

/// Order 9: reads the file `worksites`, the kind and the officer's statement and
/// then a line a worksite, from and to, and prints the lines or the refusal's
/// number. A malformed line is an error that names the line: then nothing is
/// printed.
pub fn run_worksites() -> io::Result<()> {
    // One worksite more than 32 shows a list that is too long; what stands behind
    // it is not looked at.
    let mut input = [0; GAP_LINE * (1 + MOST_WORKSITES + 1)];
    let length = fill(&mut File::open("worksites")?, &mut input)?;
    let malformed = |line| io::Error::other(format!("line {line} of worksites is malformed"));
    let mut numbers = Vec::new();
    for (at, line) in input[..length].chunks(GAP_LINE).enumerate() {
        numbers.push(read_line::<2, GAP_COLUMNS>(line).ok_or_else(|| malformed(at + 1))?);
    }
    // In an empty file it is line 1 that isn't there.
    let ([kind, statement], worksites) = numbers.split_first().ok_or_else(|| malformed(1))?;
    // A kind or a statement above 65535 counts as 65535.
    let narrow = |number: u32| number.min(u32::from(u16::MAX)) as u16;
    let (from, to): (Vec<u32>, Vec<u32>) = worksites.iter().map(|&[from, to]| (from, to)).unzip();

    let mut output = io::stdout().lock();
    let mut buffer = [0; GAPS];
    match gaps(narrow(*kind), narrow(*statement), &from, &to, &mut buffer) {
        Ok(lines) => output.write_all(&buffer[..lines * GAP_LINE])?,
        Err(refusal) => {
            let mut line = Vec::new();
            write_line(&[refusal as u16], &mut line);
            output.write_all(&line)?;
        }
    }
    output.flush()
}

/// What the program prints of the board.
#[derive(Clone, Copy, PartialEq, Eq, Debug)]
pub enum Print {
    Journal,
    Sheet,
    Held,
}

pub fn run(print: Print) -> io::Result<()> {
    let mut output = io::stdout().lock();
    // One byte more than the longest right plan shows a plan that is too long.
    let mut plan = [0; PLAN_LINE * (1 + MOST_GATES as usize) + 1];
    let length = fill(&mut File::open("plan")?, &mut plan)?;
    match (print, Board::open(&plan[..length])) {
        (Print::Held, opened) => run_held(opened, &mut File::open("calls")?, &mut output),
        (Print::Sheet, Ok(mut board)) => run_sheet(&mut board, &mut File::open("calls")?, &mut output),
        (Print::Journal, Ok(mut board)) => run_calls(&mut board, &mut File::open("calls")?, &mut output),
        (_, Err(refusal)) => {
            // "a refused plan prints only `    20` and a line feed"
            let mut line = [b'\n'; COLUMNS + 1];
            write_number(refusal as u16, &mut line[..COLUMNS]);
            output.write_all(&line)?;
            output.flush()
        }
    }
}

pub fn main() -> ExitCode {
    let arguments: Vec<String> = env::args().skip(1).collect();
    let done = match arguments.as_slice() {
        [] => run(Print::Journal),
        [word] if word == "sheet" => run(Print::Sheet),
        [word] if word == "held" => run(Print::Held),
        [word] if word == "worksites" => run_worksites(),
        _ => {
            eprintln!("usage: reference [sheet|held|worksites]");
            return ExitCode::FAILURE;
        }
    };
    match done {
        Ok(()) => ExitCode::SUCCESS,
        Err(error) => {
            eprintln!("reference: {error}");
            ExitCode::FAILURE
        }
    }
}
