//! Sequences of allocator calls: what xralloc2 answers to each, and in the last ones what document 01 refuses and the Rust does not.
//!
//! A record is a sequence; its first call makes a fresh state. A row:
//!
//! | Words | |
//! |---|---|
//! | 0 | the kind of the call |
//! | 1 to 7 | its arguments |
//! | 8 and 9, 10 and 11 | the general and the floating pool list, as bytes |
//! | 12 | how many ids the map has |
//! | 13 | 0 if state and map have to stay as they are, 1 if something has to change, 2 if neither is asked |
//! | 14, 15 | the number that comes back, and which answer it is among those of that number |
//! | 16 and 17, 18 and 19 | what the answer holds, wide |
//!
//! | Kind | Arguments | Answer |
//! |---|---|---|
//! | 0 place | id, class, at, end, hint (0 none, 1 + r general, 257 + r floating) | a place |
//! | 1 pin | id, register (r general, 256 + r floating), end | its place, or that it is not free |
//! | 2 expire | at | done |
//! | 3 slots made | - | how many |
//! | 4 live after | row | the general and the floating mask |
//! | 5 used | register | yes or no |
//! | 6 place of an id | id | its place, or no |
//! | 7 register of an id | id | its place, or no |
//! | 8 fresh | - | done |
//! | 9 no call, but a forged state | an active entry, its place, the mask of free general registers, the first free slot; how many are active, slots free, slots made | done |
//!
//! A place is a map word: 1 and the place's number, which is r for general register r, 256 + k for slot k, 65,792 + r for floating register r.
use garden::rng::Random;
use garden::xralloc2::{Class, Location, Reg, Xralloc2};
use records::{File, List, Record};

const PLACE: u32 = 0;
const PIN: u32 = 1;
const EXPIRE: u32 = 2;
const SLOTS_MADE: u32 = 3;
const LIVE_AFTER: u32 = 4;
const WAS_USED: u32 = 5;
const PLACE_OF: u32 = 6;
const REGISTER_OF: u32 = 7;
const FRESH: u32 = 8;
const FORGED: u32 = 9;

/// Is the state kept, or changed, or is neither asked?
const KEPT: u32 = 0;
const CHANGED: u32 = 1;
const ANY: u32 = 2;

/// Number, which answer, what it holds.
type Answer = (u32, u32, u64, u64);
const DONE: Answer = (0, 0, 0, 0);
const NOT_FREE: Answer = (0, 2, 0, 0);
const YES: Answer = (0, 5, 0, 0);
const NO: Answer = (0, 6, 0, 0);

fn placed(location: Location) -> Answer {
    (0, 1, word(location) as u64, 0)
}

fn refused(number: u32) -> Answer {
    (number, 0, 0, 0)
}

/// A map of that many ids is cleared by a fresh state.
const MOST_IDS: u32 = 512;

fn word(location: Location) -> u32 {
    1 + match location {
        Location::Reg(Reg::Gpr(r)) => r as u32,
        Location::Stack(k) => 256 + k as u32,
        Location::Reg(Reg::Fpr(r)) => 65792 + r as u32,
    }
}

fn reg(number: u32) -> Reg {
    if number < 256 { Reg::Gpr(number as u8) } else { Reg::Fpr((number - 256) as u8) }
}

struct Sequence {
    alloc: Xralloc2,
    record: Record,
    pools: [List; 2],
    ids: u32,
    calls: usize,
}

impl Sequence {
    fn new(gprs: &[u8], fprs: &[u8], ids: u32) -> Self {
        let mut alloc = Xralloc2::default();
        alloc.reset(ids as usize, gprs, fprs);
        let mut record = Record::default();
        let pools = [record.bytes(gprs), record.bytes(fprs)];
        let mut sequence = Self { alloc, record, pools, ids: MOST_IDS, calls: 0 };
        sequence.call(FRESH, &[], ANY, DONE);
        sequence.ids = ids;
        sequence
    }

    fn call(&mut self, kind: u32, args: &[u32], state: u32, (number, which, a, b): Answer) {
        let [gprs, fprs] = self.pools;
        let mut all = [0; 7];
        all[..args.len()].copy_from_slice(args);
        let held = [a, b].map(|x| [x as u32, (x >> 32) as u32]);
        self.record.call(&[&[kind], &all, &gprs, &fprs, &[self.ids, state, number, which], &held.concat()]);
        self.calls += 1;
    }

    fn place(&mut self, id: u32, class: u32, at: u32, end: u32, hint: u32, state: u32) {
        let of = if class == 0 { Class::Gpr } else { Class::Fpr };
        let location = match hint {
            0 => self.alloc.alloc(id as usize, of, at, end),
            h => self.alloc.alloc_with_hint(id as usize, of, at, end, reg(h - 1)),
        };
        self.call(PLACE, &[id, class, at, end, hint], state, placed(location));
    }

    fn pin(&mut self, id: u32, number: u32, end: u32) {
        let got = self.alloc.try_alloc_at(id as usize, reg(number), end);
        let (state, answer) = got.map_or((KEPT, NOT_FREE), |r| (CHANGED, placed(Location::Reg(r))));
        self.call(PIN, &[id, number, end], state, answer);
    }

    fn expire(&mut self, at: u32) {
        self.alloc.expire(at);
        self.call(EXPIRE, &[at], ANY, DONE);
    }

    fn ask(&mut self, random: &mut Random, ids: u32, clock: u32) {
        match random.below(5) {
            0 => self.call(SLOTS_MADE, &[], KEPT, (0, 3, self.alloc.slots() as u64, 0)),
            1 => {
                let (mut g, mut f) = (0u64, 0u64);
                for reg in self.alloc.live_after(clock) {
                    match reg {
                        Reg::Gpr(r) => g |= 1 << r,
                        Reg::Fpr(r) => f |= 1 << r,
                    }
                }
                self.call(LIVE_AFTER, &[clock], KEPT, (0, 4, g, f));
            }
            2 => {
                let number = random.below(2) * 256 + random.below(64);
                let answer = if self.alloc.used(reg(number)) { YES } else { NO };
                self.call(WAS_USED, &[number], KEPT, answer);
            }
            kind => {
                let id = random.below(ids + 3);
                let (kind, found) = match kind {
                    3 => (PLACE_OF, self.alloc.location(id as usize)),
                    _ => (REGISTER_OF, self.alloc.reg(id as usize).map(Location::Reg)),
                };
                self.call(kind, &[id], KEPT, found.map_or(NO, placed));
            }
        }
    }
}

fn pool(random: &mut Random, most: u32) -> Vec<u8> {
    let mut all: Vec<u8> = (0..64).collect();
    random.shuffle(&mut all);
    all.truncate(random.below(most + 1) as usize);
    all
}

/// Calls in any order, the clock going back now and then, as many slots as may be but no more than 128.
fn any(random: &mut Random, gprs: u32, calls: usize, ids: u32) -> Sequence {
    let (g, f) = (pool(random, gprs), pool(random, gprs / 2));
    let mut sequence = Sequence::new(&g, &f, ids);
    let mut clock = 0;
    while sequence.calls < calls {
        clock = match random.below(20) {
            0 => random.below(clock + 1),
            n => clock + n / 12,
        };
        match random.below(10) {
            0 => sequence.ask(random, ids, clock),
            1 => sequence.expire(clock),
            2 => sequence.pin(random.below(ids), random.below(2) * 256 + random.below(64), clock + random.below(40)),
            _ if sequence.alloc.slots() == 128 => sequence.expire(clock + 20),
            _ => {
                let hint = match random.below(3) {
                    0 => 1 + random.below(2) * 256 + random.below(64),
                    _ => 0,
                };
                let end = clock + random.below(60);
                sequence.place(random.below(ids), random.below(4) / 3, clock, end, hint, ANY);
            }
        }
        if sequence.alloc.slots() == 128 && sequence.calls % 2 == 0 {
            sequence.expire(clock + 30);
        }
    }
    sequence
}

/// All registers and all 128 slots held, then given back from the middle and taken again.
fn full() -> Sequence {
    let pool: Vec<u8> = (0..30).rev().collect();
    let mut sequence = Sequence::new(&pool, &[], 400);
    for id in 0..158 {
        sequence.place(id, 0, id, 1000 + id % 7, 0, ANY);
    }
    sequence.expire(1003);
    for id in 158..240 {
        sequence.place(id, 0, 1003, 2000, 0, ANY);
    }
    sequence
}

/// 300 placements of which every third goes back in time.
fn back(random: &mut Random) -> Sequence {
    let mut sequence = Sequence::new(&[3, 9, 1, 0, 63], &[2, 62], 300);
    for id in 0..300 {
        let at = if id % 3 == 2 { id / 4 } else { id };
        sequence.place(id, id % 2, at, at + 1 + random.below(25), 0, ANY);
    }
    sequence
}

/// Both pool lists of the calls by hand.
const POOL: [u8; 2] = [1, 0];

/// The first n ids placed at row 0 until row 1000: id 0 in register 0, id 1 in register 1, id 2 in slot 0, and so on. 130 are all there may be.
fn held(n: u32) -> Sequence {
    let mut sequence = Sequence::new(&POOL, &POOL, 256);
    for id in 0..n {
        sequence.place(id, 0, 0, 1000, 0, CHANGED);
    }
    sequence
}

/// The first n ids are held. Then an id is placed, which document 01 refuses.
fn unplaced(n: u32, id: u32, hint: u32, number: u32) -> Sequence {
    let mut sequence = held(n);
    sequence.call(PLACE, &[id, 0, 999, 2000, hint], KEPT, refused(number));
    sequence
}

/// A neighbour that it does not refuse.
fn placed_at(n: u32, id: u32, at: u32, hint: u32) -> Sequence {
    let mut sequence = held(n);
    sequence.place(id, 0, at, 2000, hint, CHANGED);
    sequence
}

/// A placement with another general pool list, where id 0 is held.
fn with_pool(gprs: &[u8], id: u32, number: u32) -> Sequence {
    let mut sequence = held(1);
    sequence.pools[0] = sequence.record.bytes(gprs);
    sequence.call(PLACE, &[id, 0, 999, 2000, 0], KEPT, refused(number));
    sequence
}

/// A fresh state for other lists. A refused one has no register, as the one before it.
fn fresh(gprs: &[u8], fprs: &[u8], number: u32) -> Sequence {
    let mut sequence = Sequence::new(&[], &[], MOST_IDS);
    sequence.pools = [sequence.record.bytes(gprs), sequence.record.bytes(fprs)];
    sequence.call(FRESH, &[], if number == 0 { CHANGED } else { KEPT }, refused(number));
    sequence
}

fn pinned(id: u32, register: u32, number: u32) -> Sequence {
    let mut sequence = held(1);
    match number {
        0 => sequence.pin(id, register, 2000),
        _ => sequence.call(PIN, &[id, register, 2000], KEPT, refused(number)),
    }
    sequence
}

fn asked(kind: u32, of: u32, answer: Answer) -> Sequence {
    let mut sequence = held(1);
    sequence.call(kind, &[of], KEPT, answer);
    sequence
}

/// What is forged of a state in which registers 0 and 1 and slot 0 are held.
#[derive(Clone, Copy)]
struct Forged {
    entry: u32,
    place: u32,
    free: u32,
    spare: u32,
    active: u32,
    spares: u32,
    made: u32,
}

const GOOD: Forged = Forged { entry: 0, place: 1, free: 0, spare: 0, active: 3, spares: 0, made: 1 };

fn with_forged(f: Forged, state: u32) -> Sequence {
    let mut sequence = held(3);
    sequence.call(FORGED, &[f.entry, f.place, f.free, f.spare, f.active, f.spares, f.made], state, DONE);
    sequence
}

/// The state that the others are made from.
fn good() -> Sequence {
    let mut sequence = with_forged(GOOD, KEPT);
    sequence.place(200, 0, 999, 2000, 0, CHANGED);
    sequence
}

/// Every entry has to refuse such a state.
fn forged(f: Forged) -> Sequence {
    let mut sequence = with_forged(f, CHANGED);
    sequence.call(PLACE, &[200, 0, 999, 2000, 0], KEPT, refused(12));
    sequence.call(PIN, &[200, 0, 2000], KEPT, refused(12));
    sequence.call(EXPIRE, &[5], KEPT, refused(12));
    sequence.call(SLOTS_MADE, &[], KEPT, refused(12));
    sequence.call(LIVE_AFTER, &[5], KEPT, refused(12));
    sequence.call(WAS_USED, &[0], KEPT, refused(12));
    sequence
}

/// Calls that document 01 refuses, and their neighbours. The numbers are document 01's, not the Rust's, which judges nothing.
fn by_hand() -> Vec<Sequence> {
    let (full, long) = ([0; 64], [0; 65]);
    let general = |r: u32| 1 + r;
    let floating = |r: u32| 257 + r;
    let in_register = |r: u32| 1 + r;
    let in_slot = |k: u32| 257 + k;
    vec![
        // pool lists of 64 and 65, registers 63 and 64
        fresh(&full, &[], 0),
        fresh(&long, &[], 2),
        fresh(&[], &long, 2),
        fresh(&[1, 63], &[], 0),
        fresh(&[1, 64], &[], 12),
        with_pool(&long, 200, 2),
        with_pool(&long, 256, 2),
        with_pool(&[0, 1, 64], 200, 12),
        // hints, and ids of a map of 256
        placed_at(1, 200, 999, general(63)),
        unplaced(1, 200, general(64), 12),
        unplaced(1, 200, floating(64), 12),
        placed_at(1, 255, 999, 0),
        unplaced(1, 256, 0, 12),
        // pins to a register that is free, held, outside the pool, none
        pinned(200, 1, 0),
        pinned(200, 0, 0),
        pinned(200, 63, 0),
        pinned(200, 64, 12),
        pinned(256, 1, 12),
        // one slot left, none, and each place held until the row
        placed_at(129, 200, 999, 0),
        unplaced(130, 200, 0, 8),
        unplaced(130, 200, general(64), 8),
        unplaced(130, 256, 0, 8),
        placed_at(130, 200, 1000, 0),
        // what is asked of a register that is none, and of ids without a place
        asked(WAS_USED, 64, refused(12)),
        asked(PLACE_OF, 255, NO),
        asked(PLACE_OF, 256, NO),
        asked(REGISTER_OF, 256, NO),
        // the state that the next ones are made from, and counts beyond its arrays
        good(),
        forged(Forged { active: 257, ..GOOD }),
        forged(Forged { spares: 129, ..GOOD }),
        forged(Forged { made: 129, ..GOOD }),
        // a register outside the pool and a slot not made, active and free
        forged(Forged { entry: 0, place: in_register(5), ..GOOD }),
        forged(Forged { entry: 2, place: in_slot(1), ..GOOD }),
        forged(Forged { free: 1 << 5, ..GOOD }),
        forged(Forged { spare: 1, spares: 1, ..GOOD }),
        // one place twice among the active and the free
        forged(Forged { entry: 1, place: in_register(0), ..GOOD }),
        forged(Forged { entry: 1, place: in_slot(0), ..GOOD }),
        forged(Forged { free: 1, ..GOOD }),
        forged(Forged { spare: 0, spares: 1, ..GOOD }),
        forged(Forged { active: 2, spares: 2, ..GOOD }),
    ]
}

pub fn vectors() -> (Vec<u32>, String) {
    let random = &mut Random::new(0x4f08286203);
    let mut sequences = vec![full(), back(random)];
    // Document 01's example 4: an entry that ends at 5, then one allocated at 5, and the same with 6.
    for end in [5, 6] {
        let mut sequence = Sequence::new(&[1, 0], &[], 2);
        sequence.place(0, 0, 0, end, 0, ANY);
        sequence.place(1, 0, 5, 9, 0, ANY);
        sequences.push(sequence);
    }
    for (gprs, calls, ids) in [(4, 60, 30), (30, 200, 150), (64, 300, 300), (64, 400, 60), (2, 120, 400)] {
        sequences.extend((0..5).map(|_| any(random, gprs, calls, ids)));
    }
    assert!(sequences.iter().all(|sequence| sequence.alloc.slots() <= 128));
    sequences.extend(by_hand());
    let mut file = File::default();
    sequences.into_iter().for_each(|sequence| file.add(sequence.record));
    file.done()
}
