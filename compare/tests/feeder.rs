//! Random calls of the proved feeder against the second program's: answer, 796 bytes of feeder and output, byte for byte. Then
//! two laws of the proved feeder: a chunk fed again after refusal 9, and the same bytes cut otherwise.

mod feeding;

use bailcurlew::{Feeder, FEEDER_BYTES, LONGEST_CHUNK, STATE_BYTES};
use feeding::material::Material;
use feeding::tally::Tally;
use feeding::{both, held, lent, library, Asked, Call, FeederBytes, Left, DETAIL_AT, HELD_AT, TAIL_AT};
use second::cases::{damaged, sample, Rng};
use second::state::{State, IDLE, STARTED};

// ---- a feeder at work

/// A feeder under one description, which goes on from call to call, and the bytes that are still to come.
struct Session<'a> {
    rng: Rng,
    material: &'a Material,
    feeder: FeederBytes,
    /// Begins behind the bytes held.
    line: Vec<u8>,
    /// Of the records found, the one put on the line last.
    next: usize,
    /// So many records of a hundred are malformed.
    malformed: usize,
    tally: &'a mut Tally,
}

/// Calls that are compared, at least, and steps of a session; each makes a call or a few.
const CALLS: u64 = 400_000;
const STEPS: usize = 80;

#[test]
fn calls_leave_alike_and_everything_listed_is_reached() {
    let mut rng = Rng::new(71);
    let mut tally = Tally::default();
    while tally.calls < CALLS {
        let material = Material::of(rng.draw());
        let detail = material.detail(&mut rng);
        assert_eq!(*Feeder::fresh(detail as usize).as_bytes(), second::feeder::bytes::fresh(detail));
        let mut session = Session {
            material: &material,
            feeder: second::feeder::bytes::fresh(detail),
            line: Vec::new(),
            next: 0,
            malformed: rng.pick(&[0, 0, 1, 10]),
            rng: rng.fork(),
            tally: &mut tally,
        };
        (0..STEPS).for_each(|_| session.step());
    }
    tally.assert_all_often(&ODDITIES.map(|oddity| oddity.name));
}

impl Session<'_> {
    fn step(&mut self) {
        let is_idle = self.feeder[8] == IDLE;
        match self.rng.below(100) {
            0..=24 => self.odd_call(),
            25..=79 if is_idle => self.initiate(),
            25..=84 => self.feed_next(),
            85..=88 => self.initiate(),
            89..=91 => self.discard_and_skip(),
            92..=95 => self.terminate(),
            96..=97 => self.other_bytes_behind(),
            _ => self.jump(),
        }
    }

    /// A call of both programs.
    fn ask(&mut self, desc: &[u8], feeder: FeederBytes, call: Call, room: usize) -> Left {
        let asked = Asked { desc, feeder, call, output: lent(room, self.rng.byte()) };
        let left = both(&asked).unwrap_or_else(|what| panic!("material {}: {what}", self.material.seed));
        self.tally.call(&asked, &left, self.material.r);
        left
    }

    /// A call on the feeder itself; its next bytes stay.
    fn call(&mut self, call: Call, room: usize) -> Left {
        let material = self.material;
        let left = self.ask(&material.desc, self.feeder, call, room);
        self.feeder = left.feeder;
        left
    }

    /// The line goes on behind what a feed took.
    fn feed(&mut self, size: usize, room: usize) -> Left {
        let chunk = self.line[..size].to_vec();
        let left = self.call(Call::Feed(&chunk), room);
        self.line.drain(..left.taken);
        left
    }

    fn feed_next(&mut self) {
        let size = self.material.chunk_size(&mut self.rng);
        self.material.fill(&mut self.rng, &mut self.line, &mut self.next, size, self.malformed);
        let ample = self.material.ample(size);
        let (few, some) = (self.rng.below(self.material.most), self.rng.below(ample));
        let room = self.rng.pick(&[ample, ample, ample, ample, some, some, few, 0]);
        let left = self.feed(size, room);
        match left.number {
            9 => self.feed_on(size - left.taken, room),
            6..=8 => self.after_refused_record(size - left.taken, room, &left),
            _ => {}
        }
    }

    /// The rest of a chunk again, each time with more room.
    fn feed_on(&mut self, mut rest: usize, mut room: usize) {
        for _ in 0..4 {
            room = (2 * room + self.material.most).min(self.material.ample(rest));
            let left = self.feed(rest, room);
            self.tally.note("fed on after refusal 9");
            self.tally.note_if(left.number == 0, "fed on after refusal 9, accepted");
            rest -= left.taken;
            if left.number != 9 {
                return;
            }
        }
    }

    fn after_refused_record(&mut self, rest: usize, room: usize, refused: &Left) {
        if self.rng.chance(50) {
            let again = self.feed(rest, room);
            let told = |left: &Left| (left.number, left.extra);
            assert_eq!((told(&again), again.taken), (told(refused), 0), "material {}", self.material.seed);
            self.tally.note("refused record tried again");
        }
        match self.rng.below(10) {
            0..=5 => {
                self.discard_and_skip();
                self.tally.note("refused record skipped");
            }
            6 => self.terminate(),
            _ => self.jump(),
        }
    }

    /// Drops the bytes held, and those of the same record that are still to come; with none held the next record.
    fn discard_and_skip(&mut self) {
        let before = held(&self.feeder);
        self.call(Call::Discard, 0);
        self.skip(self.material.r - before);
    }

    fn skip(&mut self, count: usize) {
        self.line.drain(..count.min(self.line.len()));
    }

    fn initiate(&mut self) {
        if self.rng.chance(20) {
            self.jump_to(|material| &material.idle);
        }
        let before = held(&self.feeder);
        let left = self.call(Call::Initiate, 0);
        if left.number == 0 && before > 0 {
            self.skip(self.material.r - before);
        }
    }

    fn terminate(&mut self) {
        if self.rng.chance(70) && held(&self.feeder) > 0 {
            self.discard_and_skip();
        }
        if self.rng.chance(60) {
            self.jump();
        }
        if self.rng.chance(20) {
            self.other_bytes_behind();
        }
        let most = self.material.most;
        let room = self.rng.pick(&[8 * most, 8 * most, most, most / 2, 0]);
        if self.call(Call::Terminate, room).number == 9 {
            self.call(Call::Terminate, 8 * most);
        }
    }

    /// Goes on in a state far away instead, but one in order.
    fn jump(&mut self) {
        self.jump_to(|material| &material.begun);
    }

    fn jump_to(&mut self, states: fn(&Material) -> &Vec<State>) {
        let state = self.rng.pick(states(self.material));
        self.feeder[..STATE_BYTES].copy_from_slice(&state.to_bytes());
    }

    fn other_bytes_behind(&mut self) {
        let behind = TAIL_AT + held(&self.feeder);
        self.feeder[behind..].iter_mut().for_each(|byte| *byte = self.rng.byte());
    }
}

// ---- odd calls

/// What an odd call is made with.
struct Odd {
    desc: Vec<u8>,
    feeder: FeederBytes,
    chunk: Vec<u8>,
}

/// Something odd in a call.
struct Oddity {
    name: &'static str,
    /// How a feed that is in order otherwise must be refused; 0 where that is open.
    refusal: u64,
    put: fn(&mut Rng, &Material, &mut Odd),
}

const fn oddity(name: &'static str, refusal: u64, put: fn(&mut Rng, &Material, &mut Odd)) -> Oddity {
    Oddity { name, refusal, put }
}

const ODDITIES: [Oddity; 21] = [
    oddity("a byte of the state changed", 0, |rng, _, odd| {
        let at = if rng.chance(50) { rng.below(18) } else { rng.below(STATE_BYTES) };
        let (bit, any) = (1 << rng.below(8), rng.byte());
        odd.feeder[at] = rng.pick(&[odd.feeder[at] ^ bit, any]);
    }),
    oddity("a state that breaks its rules", 0, |rng, material, odd| {
        if let Some(state) = rng.maybe(&material.damaged) {
            odd.feeder[..STATE_BYTES].copy_from_slice(&state.to_bytes());
        }
    }),
    oddity("a flag that is none", 2, |rng, _, odd| {
        odd.feeder[10 + rng.below(8)] = rng.between(2, 255) as u8;
    }),
    oddity("a body-seen flag that is none", 2, |rng, _, odd| odd.feeder[9] = rng.between(2, 255) as u8),
    oddity("a phase that is none", 2, |rng, _, odd| odd.feeder[8] = rng.between(3, 255) as u8),
    oddity("R bytes held", 2, |_, material, odd| hold(odd, material.r)),
    oddity("more than R bytes held", 2, |rng, material, odd| {
        let any = rng.between(material.r + 1, 65_534);
        hold(odd, rng.pick(&[material.r + 1, 2 * material.r, 257, 511, 512, 4096, any]).max(material.r + 1));
    }),
    oddity("R or more bytes held, few by the low byte", 2, |rng, material, odd| {
        hold(odd, 256 * rng.between(1, 255) + rng.below(material.r.min(256)));
    }),
    oddity("65,535 bytes held", 2, |_, _, odd| hold(odd, 65_535)),
    oddity("fewer than R bytes held, any", 0, |rng, material, odd| hold(odd, rng.below(material.r))),
    oddity("the detail behind the last", 4, |_, material, odd| name_detail(odd, material.details as u64)),
    oddity("detail 2^32 + d", 4, |rng, material, odd| name_detail(odd, (1 << 32) + material.detail(rng))),
    oddity("detail 2^64 - 1", 4, |_, _, odd| name_detail(odd, u64::MAX)),
    oddity("a detail with other high bits", 4, |rng, material, odd| {
        let high = 1 << rng.pick(&[8, 16, 31, 33, 48, 63]);
        name_detail(odd, high + material.detail(rng));
    }),
    oddity("an empty chunk", 18, |_, _, odd| odd.chunk.clear()),
    oddity("a chunk of one byte too many", 18, |_, _, odd| lengthen(odd, LONGEST_CHUNK + 1)),
    oddity("a chunk far too long", 18, |rng, _, odd| {
        let any = rng.between(LONGEST_CHUNK + 1, 70_000);
        lengthen(odd, rng.pick(&[4098, 8192, 65_536, 65_537, any]));
    }),
    oddity("an empty description", 1, |_, _, odd| odd.desc.clear()),
    oddity("a damaged description", 0, |rng, material, odd| odd.desc = damaged(rng, &material.desc)),
    oddity("another description", 0, |rng, _, odd| odd.desc = sample(rng).bytes),
    oddity("796 bytes at random", 0, |rng, _, odd| odd.feeder.iter_mut().for_each(|byte| *byte = rng.byte())),
];

fn hold(odd: &mut Odd, count: usize) {
    odd.feeder[HELD_AT..TAIL_AT].copy_from_slice(&(count as u16).to_le_bytes());
}

fn name_detail(odd: &mut Odd, detail: u64) {
    odd.feeder[DETAIL_AT..HELD_AT].copy_from_slice(&detail.to_le_bytes());
}

fn lengthen(odd: &mut Odd, length: usize) {
    odd.chunk = odd.chunk.iter().copied().cycle().take(length).collect();
    odd.chunk.resize(length, b'0');
}

impl Session<'_> {
    /// A call with one thing odd, now and then two; the feeder itself does not go on from it.
    fn odd_call(&mut self) {
        let material = self.material;
        let size = self.rng.between(1, 2 * material.r);
        material.fill(&mut self.rng, &mut self.line, &mut self.next, size, self.malformed);
        let (desc, chunk) = (material.desc.clone(), self.line[..size].to_vec());
        let mut odd = Odd { desc, feeder: self.feeder, chunk };
        let first = &ODDITIES[self.rng.below(ODDITIES.len())];
        (first.put)(&mut self.rng, material, &mut odd);
        let is_one = self.rng.chance(75);
        if !is_one {
            let second = &ODDITIES[self.rng.below(ODDITIES.len())];
            (second.put)(&mut self.rng, material, &mut odd);
        }
        self.tally.note(first.name);

        let room = self.rng.pick(&[material.ample(size), material.most, 0]);
        let Odd { desc, feeder, chunk } = odd;
        let call = self.rng.pick(&[
            Call::Feed(&chunk),
            Call::Feed(&chunk),
            Call::Initiate,
            Call::Terminate,
            Call::Discard,
        ]);
        let left = self.ask(&desc, feeder, call, room);
        // Refusal 3 comes before 4 and after 2.
        let is_begun = self.feeder[8] != IDLE || first.refusal != 4;
        if is_one && first.refusal > 0 && is_begun && matches!(call, Call::Feed(_)) {
            assert_eq!(left.number, first.refusal, "material {}: {}", material.seed, first.name);
        }
    }
}

// ---- after refusal 9

/// Chunks whose feed is refused with 9 in an output that is too short.
const SHORT: usize = 25_000;

/// After refusal 9 with k bytes taken, the rest of the chunk with more room: joined output, feeder, count and taken are those of
/// one call with that room, whatever that one answers.
#[test]
fn the_rest_fed_with_more_room_gives_what_one_call_gives() {
    let mut rng = Rng::new(72);
    let mut short = Vec::new();
    while short.len() < SHORT {
        let material = Material::of(rng.draw());
        for _ in 0..10 {
            let (feeder, mut chunk) = material.feeder(&mut rng);
            let (size, mut next) = (material.chunk_size(&mut rng), rng.below(material.good.len()));
            let malformed = rng.pick(&[0, 0, 5]);
            material.fill(&mut rng, &mut chunk, &mut next, size, malformed);
            chunk.truncate(size);
            let ample = material.ample(size);
            let room = if rng.chance(80) { ample } else { rng.below(ample) };
            let asked =
                Asked { desc: &material.desc, feeder, call: Call::Feed(&chunk), output: lent(room, 5) };
            let whole = both(&asked).unwrap_or_else(|what| panic!("material {}: {what}", material.seed));
            let count = whole.count.max(1);
            for room in [0, rng.below(count), rng.below(count), count - 1] {
                short.extend(fed_on(&asked, &chunk, room, &whole));
            }
        }
    }
    let behind = short.iter().filter(|fed| fed.1).count();
    println!("{} refusals 9, {behind} behind records that stand", short.len());
    assert!(behind >= 5_000);
    for number in [0, 6, 7, 8, 9] {
        let times = short.iter().filter(|fed| fed.0 == number).count();
        println!("whole chunks answered with {number}: {times}");
        assert!(times >= 50, "whole chunks answered with {number}: {times}");
    }
}

/// Where the room is too short: the answer of the whole chunk, and whether records stood before it was refused.
fn fed_on(asked: &Asked, chunk: &[u8], room: usize, whole: &Left) -> Option<(u64, bool)> {
    let short = asked.output[..room.min(asked.output.len())].to_vec();
    let refused = library(&Asked { output: short, ..asked.clone() });
    if refused.number != 9 {
        return None;
    }
    let rest = Call::Feed(&chunk[refused.taken..]);
    let output = asked.output[refused.count..].to_vec();
    let again = library(&Asked { desc: asked.desc, feeder: refused.feeder, call: rest, output });
    let joined = Left {
        count: refused.count + again.count,
        taken: refused.taken + again.taken,
        output: [&refused.output[..refused.count], &again.output].concat(),
        ..again
    };
    assert!(joined == *whole, "{asked:?}, room {room}");
    Some((whole.number, refused.taken > 0))
}

// ---- cuts

/// Runs of bytes that are cut in several ways.
const RUNS: usize = 1_500;

/// However the bytes are cut: sheet and state are those of the rows one by one, up to the first refused.
#[test]
fn however_cut_the_sheet_and_the_end_are_those_of_the_rows_one_by_one() {
    let mut rng = Rng::new(73);
    let (mut cuts, mut refused, mut finished) = (0, 0, 0);
    for _ in 0..RUNS {
        let material = Material::of(rng.draw());
        let run = Run::of(&mut rng, &material);
        match run.refusal {
            (0, _) => finished += 1,
            _ => refused += 1,
        }
        let r = material.r;
        let sizes = [1, (r - 1).max(1), r, r + 1, LONGEST_CHUNK].map(Some);
        for size in sizes.into_iter().chain([None; 3]) {
            run.is_so_in_pieces(&mut rng, &material, size);
            cuts += 1;
        }
    }
    println!("{cuts} cuttings of {RUNS} runs, {finished} to the end, {refused} up to a refused row");
    assert!(finished >= 400 && refused >= 200);
}

/// Bytes to feed and what their rows come to one by one, by the report's own GENERATE.
struct Run {
    start: FeederBytes,
    bytes: Vec<u8>,
    /// The rows accepted, number and extra number of the refusal behind them, or 0.
    rows: usize,
    refusal: (u64, u64),
    state: bailcurlew::State,
    sheet: Vec<u8>,
}

impl Run {
    /// Up to 30 rows and a piece of one more, from a state in order.
    fn of(rng: &mut Rng, material: &Material) -> Run {
        let (mut start, _) = material.feeder(rng);
        start[HELD_AT..].fill(0);
        let (mut bytes, mut next) = (Vec::new(), rng.below(material.good.len()));
        let (malformed, wanted) = (rng.pick(&[0, 0, 5]), rng.between(1, 30 * material.r));
        material.fill(rng, &mut bytes, &mut next, wanted, malformed);
        bytes.truncate(wanted);

        let detail = u64::from_le_bytes(std::array::from_fn(|at| start[DETAIL_AT + at])) as usize;
        let mut state = bailcurlew::State::from_bytes(std::array::from_fn(|at| start[at]));
        let (mut sheet, mut rows, mut refusal) = (Vec::new(), 0, (0, 0));
        let mut output = vec![0; 1 << 18];
        for row in bytes.chunks_exact(material.r) {
            let answer = state.generate(&material.desc, detail, row, &mut output);
            if !answer.accepted() {
                refusal = (answer.number, answer.extra);
                break;
            }
            sheet.extend_from_slice(&output[..answer.count]);
            rows += 1;
        }
        Run { start, bytes, rows, refusal, state, sheet }
    }

    /// Feeds the bytes in pieces of one size, or of any, and compares.
    fn is_so_in_pieces(&self, rng: &mut Rng, material: &Material, size: Option<usize>) {
        let told = format!("material {}, pieces of {size:?}", material.seed);
        let mut feeder = Feeder::from_bytes(self.start);
        let (mut at, mut end, mut answer) = (0, 0, (0, 0));
        let mut sheet = lent(self.sheet.len() + 10, 9);
        while at < self.bytes.len() && answer == (0, 0) {
            let most = self.bytes.len() - at;
            let any = rng.between(1, 3 * material.r);
            let piece = &self.bytes[at..at + size.unwrap_or(any).min(most)];
            let fed = feeder.feed(&material.desc, piece, &mut sheet[end..]);
            (at, end, answer) = (at + fed.taken, end + fed.count, (fed.number, fed.extra));
        }
        assert_eq!((answer, end), (self.refusal, self.sheet.len()), "{told}");
        assert!(sheet[..end] == self.sheet && sheet[end..] == lent(end + 10, 9)[end..], "{told}");

        // The rest is held: of a row that is not finished, or of the refused one what came in earlier pieces.
        let rows_end = self.rows * material.r;
        let rest = &self.bytes[rows_end..at];
        assert!(rest.len() < material.r, "{told}");
        let mut wanted = [0; FEEDER_BYTES];
        wanted[..STATE_BYTES].copy_from_slice(self.state.as_bytes());
        wanted[DETAIL_AT..HELD_AT].copy_from_slice(&self.start[DETAIL_AT..HELD_AT]);
        wanted[HELD_AT..TAIL_AT].copy_from_slice(&(rest.len() as u16).to_le_bytes());
        wanted[TAIL_AT..TAIL_AT + rest.len()].copy_from_slice(rest);
        assert!(*feeder.as_bytes() == wanted, "{told}");
        self.ends_alike(material, feeder, rest.len());
    }

    /// TERMINATE: refused with the count of the bytes held; without them it is the report's own.
    fn ends_alike(&self, material: &Material, mut feeder: Feeder, held: usize) {
        let [mut output, mut other] = [(); 2].map(|()| lent(8 * material.most, 3));
        if held > 0 {
            let refused = feeder.terminate(&material.desc, &mut output);
            assert_eq!((refused.number, refused.extra, refused.count), (10, held as u64, 0));
            feeder.discard();
        }
        let fed = feeder.terminate(&material.desc, &mut output);
        let mut state = self.state.clone();
        let answer = state.terminate(&material.desc, &mut other);
        assert_eq!((fed.number, fed.extra, fed.count), (answer.number, answer.extra, answer.count));
        assert!(output == other && feeder.as_bytes()[..STATE_BYTES] == *state.as_bytes());
    }
}

// ---- every byte

/// Each byte of a feeder changed: those that say much to every other value.
#[test]
fn every_byte_of_a_feeder_changed() {
    let desc = include_bytes!("../../examples/whole_run.desc");
    let mut started = Feeder::fresh(0);
    assert!(started.initiate(desc).accepted());
    assert_eq!(started.as_bytes()[8], STARTED);
    let mut running = started.clone();
    assert!(running.feed(desc, b"AA+005AA+", &mut [0; 200]).accepted());
    for feeder in [Feeder::fresh(0), started, running] {
        for at in 0..FEEDER_BYTES {
            let says_much = at < 18 || (DETAIL_AT..TAIL_AT).contains(&at);
            let changes: Vec<u8> = if says_much { (1..=255).collect() } else { vec![1, 2, 16, 128, 255] };
            for change in changes {
                let mut bytes = *feeder.as_bytes();
                bytes[at] = bytes[at].wrapping_add(change);
                for call in [Call::Feed(b"007BB-002B"), Call::Initiate, Call::Terminate, Call::Discard] {
                    let asked = Asked { desc, feeder: bytes, call, output: vec![7; 200] };
                    both(&asked).unwrap_or_else(|what| panic!("{what}"));
                }
            }
        }
    }
}
