//! Random calls of the proved report file against the second program's: answer, 1,072 bytes of report file and the common output,
//! byte for byte, the calls of the two agents in any order. After each run, and in each call of it, an agent's part against the
//! calls of a report by itself: lines with the code taken off, states, answers but for refusal 9.

#[allow(dead_code)] // of the feeder's material the records and states are used
mod feeding;
mod filing;

use bailcurlew::{Agent, Answer, ReportFile, State};
use feeding::material::Material;
use filing::tally::Tally;
use filing::{
    both, code, other, place, set_place, set_state, state, Asked, Call, FileBytes, Left, Outputs, AGENTS,
    CODES_AT,
};
use second::cases::{damaged, sample, Rng};
use second::description::check;
use second::state::{State as SecondState, IDLE};
use second::two;

/// Bytes of the longest sheet that one call prints, with room to spare.
const OWN_ROOM: usize = 1 << 18;

// ---- two agents at work

/// A report file under one description, which goes on from call to call; the outputs that it prints into; and each agent's
/// report by itself, which makes the same calls where they are accepted.
struct Run<'a> {
    rng: Rng,
    material: &'a Material,
    w: usize,
    file: FileBytes,
    outputs: Outputs,
    own: [State; 2],
    sheets: [Vec<u8>; 2],
    /// What the reports by themselves print into.
    own_output: &'a mut [u8],
    /// Of the records found, the one that each agent had last.
    next: [usize; 2],
    /// So many records of a hundred are malformed.
    malformed: usize,
    /// Whether an agent may go on in a state far away.
    may_jump: bool,
    last: Option<Agent>,
    tally: &'a mut Tally,
}

/// Calls that are compared, at least, and steps of a run.
const CALLS: u64 = 150_000;
const STEPS: usize = 80;

/// The common output of a run has room for so many of the longest calls met, within limits.
const LONGEST_CALLS: usize = 40;
const MOST_ROOM: usize = 60_000;

#[test]
fn calls_leave_alike_and_everything_listed_is_reached() {
    let mut rng = Rng::new(81);
    let mut tally = Tally::default();
    let mut own_output = vec![0; OWN_ROOM];
    while tally.calls < CALLS {
        let material = Material::of(rng.draw());
        let codes = good_codes(&mut rng);
        let fresh = *ReportFile::fresh(codes[0], codes[1]).as_bytes();
        assert_eq!(fresh, two::bytes::fresh(codes));
        let w = usize::from(check(&material.desc).expect("an accepted description").w);
        let longest = coded(material.most, w);
        let mut run = Run {
            material: &material,
            w,
            file: fresh,
            outputs: Outputs::lent((LONGEST_CALLS * longest).min(MOST_ROOM.max(3 * longest)), rng.byte()),
            own: [State::fresh(), State::fresh()],
            sheets: [Vec::new(), Vec::new()],
            own_output: &mut own_output,
            next: [0; 2].map(|_| rng.below(material.good.len())),
            malformed: rng.pick(&[0, 0, 5, 10]),
            may_jump: rng.chance(60),
            last: None,
            rng: rng.fork(),
            tally: &mut tally,
        };
        let full = run.outputs.bytes().len() - longest;
        let mut steps = 0;
        while steps < STEPS && (place(&run.file) as usize) < full {
            run.step();
            steps += 1;
        }
        run.is_two_sheets();
    }
    tally.assert_all_often(&ODDITIES.map(|oddity| oddity.name));
}

/// The bytes of lines of W + 10 bytes, with a code in front of each.
fn coded(bytes: usize, w: usize) -> usize {
    bytes / (w + 10) * (w + 12)
}

/// Two codes that tell records apart, often with one byte alike or with characters at the ends of the range.
fn good_codes(rng: &mut Rng) -> [[u8; 2]; 2] {
    let mut byte = || {
        let any = rng.between(32, 126) as u8;
        rng.pick(&[any, any, any, b' ', b'~', b'0', b'1'])
    };
    let first = [byte(), byte()];
    let mut second = [byte(), byte()];
    let alike = rng.below(4);
    if alike < 2 {
        second[alike] = first[alike];
    }
    if first == second {
        second[1] = if first[1] == b'~' { b' ' } else { first[1] + 1 };
    }
    [first, second]
}

impl Run<'_> {
    fn step(&mut self) {
        let agent = self.rng.pick(&AGENTS);
        let is_idle = state(&self.file, agent)[8] == IDLE;
        match self.rng.below(100) {
            0..=29 => self.odd_call(agent),
            30..=84 if is_idle => self.call(agent, Call::Initiate),
            30..=84 => self.generate(agent),
            85..=87 => self.call(agent, Call::Initiate),
            88..=95 => self.terminate(agent),
            _ if self.may_jump => self.jump(agent),
            _ => self.generate(agent),
        }
    }

    fn generate(&mut self, agent: Agent) {
        let material = self.material;
        let next = &mut self.next[agent as usize];
        let record = material.record(&mut self.rng, next, self.malformed);
        let detail = material.detail(&mut self.rng) as usize;
        self.call(agent, Call::Generate { detail, record });
    }

    fn terminate(&mut self, agent: Agent) {
        if self.may_jump && self.rng.chance(80) {
            self.jump(agent);
        }
        self.call(agent, Call::Terminate);
    }

    /// An agent goes on in a state far away instead, but one in order, now and then that of the last page met; both in the report
    /// file and by itself.
    fn jump(&mut self, agent: Agent) {
        let states = if self.rng.chance(80) { &self.material.begun } else { &self.material.idle };
        let last = states.iter().max_by_key(|state| state.page).expect("a state");
        let far = if self.rng.chance(30) { last.clone() } else { self.rng.pick(states) }.to_bytes();
        set_state(&mut self.file, agent, &far);
        self.own[agent as usize] = State::from_bytes(far);
    }

    /// A call of both programs on the report file itself, whose next bytes stay, and of the agent's report by itself.
    fn call(&mut self, agent: Agent, call: Call) {
        let material = self.material;
        let mut own = self.own[agent as usize].clone();
        let by_itself = call_of(&mut own, &material.desc, call, self.own_output);
        let need = coded(by_itself.count, self.w);
        let room = self.room(by_itself.count, need);
        let asked = Asked { desc: &material.desc, file: self.file, agent, call, room };
        let left = both(&asked, &mut self.outputs)
            .unwrap_or_else(|what| panic!("material {}: {what}", self.material.seed));
        self.tally.call(&asked, &left);
        self.note_room(&asked, &left, by_itself.count);
        self.is_as_by_itself(&asked, &left, by_itself, &own);
        if left.number == 0 {
            let printed = &self.own_output[..by_itself.count];
            self.sheets[agent as usize].extend_from_slice(printed);
            self.own[agent as usize] = own;
        }
        if left.count > 0 {
            let name = "printed behind the other agent's lines";
            self.tally.note_if(self.last == Some(other(agent)), name);
            self.last = Some(agent);
        }
        self.file = left.file;
    }

    /// The room that a call is lent of the common output: mostly all, now and then just what it needs with codes or without, a
    /// byte less, or an end near the start.
    fn room(&mut self, bytes: usize, need: usize) -> usize {
        let (start, all) = (place(&self.file) as usize, self.outputs.bytes().len());
        let just = start + need;
        let short = start + self.rng.below(need + 1);
        let room = match self.rng.below(20) {
            0..=8 => all,
            9..=12 => just,
            13 => just.saturating_sub(1),
            14 => start + bytes,
            15 => short,
            16 => start,
            17 => start.saturating_sub(1),
            18 => self.rng.below(start + 1),
            _ => 0,
        };
        room.min(all)
    }

    fn note_room(&mut self, asked: &Asked, left: &Left, bytes: usize) {
        if asked.call == Call::Initiate {
            return;
        }
        let (start, need) = (place(&asked.file) as usize, coded(bytes, self.w));
        let short = left.number == 9;
        let tally = &mut self.tally;
        tally.note_if(left.number == 0 && need > 0 && asked.room == start + need, "just room, accepted");
        tally.note_if(short && asked.room + 1 == start + need, "one byte short");
        let without_codes = start + bytes..start + need;
        tally.note_if(short && without_codes.contains(&asked.room), "room for the lines without codes");
        let past = short && start > asked.room;
        tally.note_if(past && need == 0, "the start past the end, nothing to print, refused with 9");
        tally.note_if(past && need > 0, "the start past the end, lines to print, refused with 9");
    }

    /// "Nothing the other does alters a state or an answer, save refusal 9, which now looks at the room left in the common output."
    fn is_as_by_itself(&self, asked: &Asked, left: &Left, by_itself: Answer, own: &State) {
        let told = || format!("material {}, {asked:?}", self.material.seed);
        let others = other(asked.agent);
        assert!(state(&left.file, others) == state(&asked.file, others), "{}", told());
        let need = coded(by_itself.count, self.w);
        match left.number {
            0 => {
                assert_eq!((by_itself.number, left.count), (0, need), "{}", told());
                assert!(state(&left.file, asked.agent) == *own.as_bytes(), "{}", told());
                assert_eq!(place(&left.file), place(&asked.file) + need as u64, "{}", told());
            }
            9 => {
                let start = place(&asked.file) as usize;
                let no_room = start > asked.room || start + need > asked.room;
                assert!(by_itself.number == 0 && no_room, "{}", told());
            }
            number => {
                assert_eq!((by_itself.number, by_itself.extra), (number, left.extra), "{}", told())
            }
        }
    }

    /// "Lines carrying one code, taken in order, are those that agent's accepted calls would print with the output to themselves."
    fn is_two_sheets(&mut self) {
        let told = format!("material {}", self.material.seed);
        let (printed, rest) = self.outputs.bytes().split_at(place(&self.file) as usize);
        assert!(rest.iter().all(|&byte| byte >= 0x80), "{told}");
        for agent in AGENTS {
            let code = code(&self.file, agent);
            let lines = printed.chunks_exact(self.w + 12).filter_map(|line| line.strip_prefix(&code));
            let taken: Vec<u8> = lines.flatten().copied().collect();
            assert!(taken == self.sheets[agent as usize], "{told}, {agent:?}");
            assert!(two::take_apart(printed, self.w, code) == taken, "{told}, {agent:?}");
        }
        let all: usize = self.sheets.iter().map(|sheet| coded(sheet.len(), self.w)).sum();
        assert_eq!(all, printed.len(), "{told}");
        self.tally.note_if(!self.may_jump && all > 0, "a run from fresh states");
        let both = self.sheets.iter().all(|sheet| !sheet.is_empty());
        self.tally.note_if(both, "a run with lines of both agents");
    }
}

/// The call of a report by itself.
fn call_of(state: &mut State, desc: &[u8], call: Call, output: &mut [u8]) -> Answer {
    match call {
        Call::Initiate => state.initiate(desc),
        Call::Generate { detail, record } => state.generate(desc, detail, record, output),
        Call::Terminate => state.terminate(desc, output),
    }
}

// ---- odd calls

/// What an odd call is made with.
struct Odd {
    desc: Vec<u8>,
    file: FileBytes,
    agent: Agent,
    detail: usize,
    record: Vec<u8>,
    room: usize,
}

/// Something odd in a call.
struct Oddity {
    name: &'static str,
    /// How a GENERATE that is in order otherwise must be refused; 0 where that is open.
    refusal: u64,
    put: fn(&mut Rng, &Material, &mut Odd),
}

const fn oddity(name: &'static str, refusal: u64, put: fn(&mut Rng, &Material, &mut Odd)) -> Oddity {
    Oddity { name, refusal, put }
}

const ODDITIES: [Oddity; 30] = [
    oddity("a byte of the state changed", 0, |rng, _, odd| {
        let mut bytes = state(&odd.file, odd.agent);
        let at = if rng.chance(50) { rng.below(18) } else { rng.below(bytes.len()) };
        let (bit, any) = (1 << rng.below(8), rng.byte());
        bytes[at] = rng.pick(&[bytes[at] ^ bit, any]);
        set_state(&mut odd.file, odd.agent, &bytes);
    }),
    oddity("a state that breaks its rules", 0, |rng, material, odd| {
        if let Some(state) = rng.maybe(&material.damaged) {
            set_state(&mut odd.file, odd.agent, &state.to_bytes());
        }
    }),
    oddity("two states far away", 0, |rng, material, odd| {
        for agent in AGENTS {
            let any: &[SecondState] = if rng.chance(80) { &material.begun } else { &material.idle };
            set_state(&mut odd.file, agent, &rng.pick(any).to_bytes());
        }
    }),
    oddity("a flag that is none", 2, |rng, _, odd| put_in_state(rng, odd, 10, 8, 2)),
    oddity("a body-seen flag that is none", 2, |rng, _, odd| put_in_state(rng, odd, 9, 1, 2)),
    oddity("a phase that is none", 2, |rng, _, odd| put_in_state(rng, odd, 8, 1, 3)),
    oddity("the other's state at random", 0, |rng, _, odd| {
        let any = std::array::from_fn(|_| rng.byte());
        set_state(&mut odd.file, other(odd.agent), &any);
    }),
    oddity("equal codes in order", 11, |rng, _, odd| {
        let from = CODES_AT + 2 * rng.below(2);
        let code = [odd.file[from], odd.file[from + 1]];
        odd.file[CODES_AT..CODES_AT + 4].copy_from_slice(&[code, code].concat());
    }),
    oddity("equal codes, any", 11, |rng, _, odd| {
        let code = [rng.byte(), rng.byte()];
        odd.file[CODES_AT..CODES_AT + 4].copy_from_slice(&[code, code].concat());
    }),
    oddity("equal codes and a phase that is none", 11, |rng, _, odd| {
        odd.file.copy_within(CODES_AT..CODES_AT + 2, CODES_AT + 2);
        put_in_state(rng, odd, 8, 1, 3);
    }),
    oddity("a code byte 31", 11, |rng, _, odd| odd.file[CODES_AT + rng.below(4)] = 31),
    oddity("a code byte 127", 11, |rng, _, odd| odd.file[CODES_AT + rng.below(4)] = 127),
    oddity("a code byte outside 32 to 126", 11, |rng, _, odd| {
        let (low, high) = (rng.below(32) as u8, rng.between(127, 255) as u8);
        odd.file[CODES_AT + rng.below(4)] = rng.pick(&[low, high]);
    }),
    oddity("a code byte 32 or 126", 0, |rng, _, odd| {
        odd.file[CODES_AT + rng.below(4)] = rng.pick(b" ~");
    }),
    oddity("codes at random", 0, |rng, _, odd| {
        odd.file[CODES_AT..CODES_AT + 4].iter_mut().for_each(|byte| *byte = rng.byte());
    }),
    oddity("codes in each other's place", 0, |_, _, odd| odd.file[CODES_AT..CODES_AT + 4].rotate_left(2)),
    oddity("any start in the output", 0, |rng, _, odd| {
        set_place(&mut odd.file, rng.below(odd.room + 1) as u64);
    }),
    oddity("a start past the end", 9, |rng, _, odd| {
        let past = odd.room as u64 + 1;
        let (far, any) = (past + rng.below(1000) as u64, past.saturating_add(rng.draw()));
        set_place(&mut odd.file, rng.pick(&[past, far, any]));
    }),
    oddity("start 2^64 - 1", 9, |_, _, odd| set_place(&mut odd.file, u64::MAX)),
    oddity("a start past the end, the agent's report idle", 3, |rng, material, odd| {
        set_state(&mut odd.file, odd.agent, &rng.pick(&material.idle).to_bytes());
        set_place(&mut odd.file, u64::MAX - rng.below(2) as u64);
    }),
    oddity("a start with high bits", 9, |rng, _, odd| {
        let high = place(&odd.file) | 1 << rng.pick(&[24, 31, 32, 33, 48, 63]);
        set_place(&mut odd.file, high);
    }),
    oddity("the detail behind the last", 4, |_, material, odd| odd.detail = material.details),
    oddity("detail 2^32 + d", 4, |_, _, odd| odd.detail |= 1 << 32),
    oddity("detail 2^64 - 1", 4, |_, _, odd| odd.detail = usize::MAX),
    oddity("a record one byte short", 5, |_, _, odd| {
        odd.record.pop();
    }),
    oddity("a record one byte too long", 5, |_, _, odd| odd.record.push(b'0')),
    oddity("an empty description", 1, |_, _, odd| odd.desc.clear()),
    oddity("a damaged description", 0, |rng, material, odd| odd.desc = damaged(rng, &material.desc)),
    oddity("another description", 0, |rng, _, odd| odd.desc = sample(rng).bytes),
    oddity("1,072 bytes at random", 0, |rng, _, odd| odd.file.iter_mut().for_each(|byte| *byte = rng.byte())),
];

/// One of so many bytes of the agent's state becomes `least` or more.
fn put_in_state(rng: &mut Rng, odd: &mut Odd, from: usize, count: usize, least: usize) {
    let mut bytes = state(&odd.file, odd.agent);
    bytes[from + rng.below(count)] = rng.between(least, 255) as u8;
    set_state(&mut odd.file, odd.agent, &bytes);
}

impl Run<'_> {
    /// A call with one thing odd, now and then two, in an output of its own; the report file does not go on from it.
    fn odd_call(&mut self, agent: Agent) {
        let material = self.material;
        let mut next = self.next[agent as usize];
        let record = material.record(&mut self.rng, &mut next, self.malformed).to_vec();
        let ample = coded(material.most, self.w);
        let (before, room) = (self.rng.below(100), self.rng.pick(&[4 * ample, ample, ample / 2, 0]));
        let mut odd = Odd {
            desc: material.desc.clone(),
            file: self.file,
            agent,
            detail: material.detail(&mut self.rng) as usize,
            record,
            room: before + room,
        };
        set_place(&mut odd.file, before as u64);
        let first = &ODDITIES[self.rng.below(ODDITIES.len())];
        (first.put)(&mut self.rng, material, &mut odd);
        let is_one = self.rng.chance(75);
        if !is_one {
            let second = &ODDITIES[self.rng.below(ODDITIES.len())];
            (second.put)(&mut self.rng, material, &mut odd);
        }
        self.tally.note(first.name);

        let Odd { desc, file, agent, detail, record, room } = odd;
        let generate = Call::Generate { detail, record: &record };
        let call = self.rng.pick(&[generate, generate, Call::Initiate, Call::Terminate]);
        let asked = Asked { desc: &desc, file, agent, call, room };
        let mut outputs = Outputs::lent(room, self.rng.byte());
        let left =
            both(&asked, &mut outputs).unwrap_or_else(|what| panic!("material {}: {what}", material.seed));
        self.tally.call(&asked, &left);
        if is_one && first.refusal > 0 && call == generate {
            self.must_be_refused(first, agent, &left);
        }
    }

    /// Refusal 3 comes before 4 and 5, any other before 9; else the number is the oddity's own.
    fn must_be_refused(&mut self, oddity: &Oddity, agent: Agent, left: &Left) {
        let is_begun = state(&self.file, agent)[8] != IDLE;
        let is_sure = match oddity.refusal {
            4 | 5 => is_begun,
            9 => left.number == 0 || left.number == 9,
            _ => true,
        };
        if is_sure {
            assert_eq!(left.number, oddity.refusal, "material {}: {}", self.material.seed, oddity.name);
        }
        self.tally.note_if(
            oddity.refusal == 11 && left.number == 11,
            "odd codes in a call that is in order otherwise",
        );
    }
}

// ---- every byte of a report file

/// Each of the 1,072 bytes changed, under each call of each agent.
#[test]
fn every_byte_of_a_report_file_is_read_alike() {
    let mut rng = Rng::new(82);
    let (mut calls, mut other_answers) = (0, 0);
    for _ in 0..3 {
        let material = Material::of(rng.draw());
        let [first, second] = good_codes(&mut rng);
        let mut file = *ReportFile::fresh(first, second).as_bytes();
        AGENTS.iter().for_each(|&agent| set_state(&mut file, agent, &rng.pick(&material.begun).to_bytes()));
        let record = rng.pick(&material.good);
        let room = 2 * coded(material.most, 132);
        let generate = Call::Generate { detail: 0, record: &record };
        for agent in AGENTS {
            for call in [Call::Initiate, generate, Call::Terminate] {
                let mut outputs = Outputs::lent(room, 3);
                let whole = Asked { desc: &material.desc, file, agent, call, room };
                let wanted = both(&whole, &mut outputs).expect("the same of both");
                for at in 0..file.len() {
                    for change in [1, 0x80, 0xff] {
                        let mut changed = file;
                        changed[at] ^= change;
                        let asked = Asked { file: changed, ..whole };
                        let left =
                            both(&asked, &mut outputs).unwrap_or_else(|what| panic!("byte {at}: {what}"));
                        calls += 1;
                        other_answers += u64::from(left.number != wanted.number);
                    }
                }
            }
        }
    }
    println!("{calls} calls, {other_answers} answered otherwise");
    assert!(calls == 57_888 && other_answers >= 1_000);
}
