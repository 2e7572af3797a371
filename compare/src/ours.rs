//! The port, by the live calls that its static library exports and `include/tarvoued.h` declares. A slice goes over as a pointer and a length. After every
//! refused call the block and the buffer are looked at: they must be as they were.

/// The numbers of what happened.
const DONE: u8 = 0;
const UNTUNED: u8 = 1;
const REJECTED: u8 = 2;
const NOT_FOUND: u8 = 3;
const REFUSED: u8 = 4;

#[repr(C)]
#[derive(Clone, Copy, Debug, PartialEq)]
pub struct Answer {
    pub outcome: u8,
    pub refusal: u8,
    pub channels: u16,
    pub bytes: usize,
}

#[repr(C)]
#[derive(Clone, Copy, Debug, PartialEq)]
pub struct Note {
    pub outcome: u8,
    pub refusal: u8,
    pub channel: u16,
    pub note: i32,
    pub detuning: f64,
}

#[repr(C)]
#[derive(Clone, Copy, Debug, PartialEq)]
pub struct RegisteredKey {
    pub outcome: u8,
    pub refusal: u8,
    pub channel: u16,
    pub note: i32,
    pub stopped: u8,
    pub released: u8,
    pub released_channel: u16,
    pub stopped_note: i32,
    pub released_note: i32,
    pub detuning: f64,
}

#[repr(C)]
#[derive(Clone, Copy, Debug, PartialEq)]
pub struct NotePitch {
    pub outcome: u8,
    pub refusal: u8,
    pub hz: f64,
}

#[repr(C)]
#[derive(Clone, Copy, Debug, PartialEq)]
pub struct Number {
    pub outcome: u8,
    pub refusal: u8,
    pub number: i64,
}

/// A message as the port takes it.
#[repr(C)]
#[derive(Clone, Copy)]
pub struct RawMessage {
    kind: u8,
    first: u8,
    second: u8,
    bend: i16,
}

unsafe extern "C" {
    pub safe fn tarvoued_nearest_note(hz: f64) -> Note;
    pub safe fn tarvoued_note_pitch(note: i32) -> NotePitch;
    pub safe fn tarvoued_measure(detuning: f64) -> Number;
    safe fn tarvoued_tuning_value(tuning_kind: u8, detuning: f64) -> Number;
    safe fn tarvoued_message_note_off(key: u8, velocity: u8) -> RawMessage;
    safe fn tarvoued_message_note_on(key: u8, velocity: u8) -> RawMessage;
    safe fn tarvoued_message_polyphonic_key_pressure(key: u8, pressure: u8) -> RawMessage;
    safe fn tarvoued_message_control_change(controller: u8, value: u8) -> RawMessage;
    safe fn tarvoued_message_program_change(program: u8) -> RawMessage;
    safe fn tarvoued_message_channel_pressure(pressure: u8) -> RawMessage;
    safe fn tarvoued_message_pitch_bend_change(value: i16) -> RawMessage;
    fn tarvoued_message_write(channel: u8, message: RawMessage, out: *mut u8, room: usize) -> Answer;
    fn tarvoued_channel_tuning(tuning_kind: u8, channel: u8, detuning: f64, out: *mut u8, room: usize) -> Answer;
    fn tarvoued_pool_open(pool: *mut Pool, channels: *const u8, count: usize, tuning_kind: u8, pooling_mode: u8, retrigger: u8) -> Answer;
    fn tarvoued_pool_note_on(pool: *mut Pool, key: u8, hz: f64, velocity: u8, out: *mut u8, room: usize) -> Answer;
    fn tarvoued_pool_note_off(pool: *mut Pool, key: u8, velocity: u8, out: *mut u8, room: usize) -> Answer;
    fn tarvoued_pool_note_pitch(pool: *const Pool, key: u8, hz: f64, out: *mut u8, room: usize) -> Answer;
    fn tarvoued_pool_note_attr(pool: *const Pool, key: u8, pressure: u8, out: *mut u8, room: usize) -> Answer;
    fn tarvoued_pool_global_attr(pool: *const Pool, message: RawMessage, out: *mut u8, room: usize) -> Answer;
    fn tarvoued_pool_stop(pool: *mut Pool, out: *mut u8, room: usize) -> Answer;
    fn tarvoued_pool_lookup(pool: *const Pool, key: u8) -> Note;
    fn tarvoued_pool_model_open(pool: *mut Pool, channels: *const u8, count: usize, group_by: u8, pooling_mode: u8, retrigger: u8) -> Answer;
    fn tarvoued_pool_model_register_key(pool: *mut Pool, key: u8, hz: f64) -> RegisteredKey;
    fn tarvoued_pool_model_deregister_key(pool: *mut Pool, key: u8) -> Note;
    fn tarvoued_pool_model_repitch_key(pool: *const Pool, key: u8, hz: f64) -> Note;
    fn tarvoued_plan_open(plan: *mut Plan, channels: *const u8, count: usize, tuning_kind: u8) -> Answer;
    fn tarvoued_plan_set_tuning(
        plan: *mut Plan,
        keys: *const u8, n_keys: usize,
        notes: *const i32, n_notes: usize,
        detunings: *const f64, n_detunings: usize,
        out: *mut u8, room: usize,
    ) -> Answer;
    fn tarvoued_plan_set_tuning_of_pitches(
        plan: *mut Plan,
        keys: *const u8, n_keys: usize,
        pitches: *const f64, n_pitches: usize,
        out: *mut u8, room: usize,
    ) -> Answer;
    fn tarvoued_plan_note_on(plan: *const Plan, key: u8, velocity: u8, out: *mut u8, room: usize) -> Answer;
    fn tarvoued_plan_note_off(plan: *const Plan, key: u8, velocity: u8, out: *mut u8, room: usize) -> Answer;
    fn tarvoued_plan_note_attr(plan: *const Plan, key: u8, pressure: u8, out: *mut u8, room: usize) -> Answer;
    fn tarvoued_plan_global_attr(plan: *const Plan, message: RawMessage, out: *mut u8, room: usize) -> Answer;
    fn tarvoued_plan_stop(plan: *const Plan, out: *mut u8, room: usize) -> Answer;
    fn tarvoued_plan_lookup(plan: *const Plan, key: u8) -> Note;
    fn tarvoued_plan_detuning(plan: *const Plan, channel: u16, group: i32) -> Note;
    fn tarvoued_plan_next_detuning(plan: *const Plan, channel: u16, from: i32) -> Note;
    fn tarvoued_plan_model_open(plan: *mut Plan, channels: *const u8, count: usize, group_by: u8) -> Answer;
    fn tarvoued_plan_model_set_tuning(
        plan: *mut Plan,
        keys: *const u8, n_keys: usize,
        notes: *const i32, n_notes: usize,
        detunings: *const f64, n_detunings: usize,
    ) -> Answer;
    fn tarvoued_plan_model_set_tuning_of_pitches(
        plan: *mut Plan,
        keys: *const u8, n_keys: usize,
        pitches: *const f64, n_pitches: usize,
    ) -> Answer;
}

pub use tarvoued_measure as measure;
pub use tarvoued_nearest_note as nearest_note;
pub use tarvoued_note_pitch as note_pitch;

/// An answer's kind for the comparison: found or accepted; not found, rejected or untuned; the others are refusals, whose numbers lie between.
pub const FOUND: u8 = 0;
pub const NOTHING: u8 = 255;

/// What stands in a list of kinds before it is answered.
pub const UNANSWERED: u8 = 254;

/// The kind of an answer to a call that may answer `otherwise` instead of done.
fn kind(outcome: u8, refusal: u8, otherwise: u8) -> u8 {
    match outcome {
        DONE if refusal == 0 => FOUND,
        REFUSED if refusal != 0 => refusal,
        _ if refusal == 0 && outcome == otherwise => NOTHING,
        _ => panic!("outcome {outcome} with refusal {refusal}"),
    }
}

/// The kind of an answer to a call that is done or refused.
fn done(outcome: u8, refusal: u8) -> u8 {
    kind(outcome, refusal, DONE)
}

/// Nearest notes and their detunings, beside the refusals, which are 0 where there is none.
#[derive(Default)]
pub struct Nearest {
    pub refusals: Vec<u8>,
    pub notes: Vec<i32>,
    pub detunings: Vec<f64>,
}

impl Nearest {
    /// Room for so many.
    pub fn room(n: usize) -> Nearest {
        Nearest { refusals: vec![99; n], notes: vec![9999; n], detunings: vec![-1.0; n] }
    }

    pub fn find(&mut self, pitches: &[f64]) {
        for (i, &hz) in pitches.iter().enumerate() {
            let found = nearest_note(hz);
            self.refusals[i] = done(found.outcome, found.refusal);
            self.notes[i] = found.note;
            self.detunings[i] = found.detuning;
        }
    }
}

/// The value in which a detuning is sent.
pub fn tuning_value(bends: bool, detuning: f64) -> Number {
    tarvoued_tuning_value(u8::from(bends), detuning)
}

/// The fine values and bends of detunings, beside the refusals.
pub struct Values {
    pub refusals: Vec<u8>,
    pub fines: Vec<i64>,
    pub bends: Vec<i64>,
}

impl Values {
    pub fn room(n: usize) -> Values {
        Values { refusals: vec![99; n], fines: vec![i64::MAX; n], bends: vec![i64::MAX; n] }
    }

    pub fn find(&mut self, detunings: &[f64]) {
        for (i, &detuning) in detunings.iter().enumerate() {
            let (fine, bend) = (tuning_value(false, detuning), tuning_value(true, detuning));
            self.refusals[i] = done(fine.outcome, fine.refusal);
            assert_eq!(self.refusals[i], done(bend.outcome, bend.refusal));
            self.fines[i] = fine.number;
            self.bends[i] = bend.number;
        }
    }
}

/// A message: its kind by the high four bits of its status byte, and its data bytes or its bend.
#[derive(Clone, Copy, Debug, PartialEq)]
pub struct Message {
    pub kind: u8,
    pub first: u8,
    pub second: u8,
    pub bend: i16,
}

impl Message {
    fn raw(self) -> RawMessage {
        let Message { kind, first, second, bend } = self;
        match kind {
            0x8 => tarvoued_message_note_off(first, second),
            0x9 => tarvoued_message_note_on(first, second),
            0xa => tarvoued_message_polyphonic_key_pressure(first, second),
            0xb => tarvoued_message_control_change(first, second),
            0xc => tarvoued_message_program_change(first),
            0xd => tarvoued_message_channel_pressure(first),
            _ => tarvoued_message_pitch_bend_change(bend),
        }
    }
}

/// The refusal of a call that writes, 0 where there is none, and how many bytes it wrote. A refused one leaves the buffer as it was.
fn written(out: &mut [u8], write: impl FnOnce(*mut u8, usize) -> Answer) -> (u8, usize) {
    let before = out.to_vec();
    let answer = write(out.as_mut_ptr(), out.len());
    let number = done(answer.outcome, answer.refusal);
    assert!(number == 0 || (answer.bytes == 0 && out == before), "refused {number} and written");
    assert_eq!(answer.channels, 0);
    (number, answer.bytes)
}

/// Writes a message on a channel.
pub fn message(message: Message, channel: u8, out: &mut [u8]) -> (u8, usize) {
    written(out, |out, room| unsafe { tarvoued_message_write(channel, message.raw(), out, room) })
}

/// Writes the tuning of a channel by a detuning.
pub fn channel_tuning(bends: bool, channel: u8, detuning: f64, out: &mut [u8]) -> (u8, usize) {
    written(out, |out, room| unsafe { tarvoued_channel_tuning(u8::from(bends), channel, detuning, out, room) })
}

/// What a tuner is called with.
#[derive(Clone, Copy, Debug)]
pub enum Event {
    /// Key, pitch and velocity; a plan tuner looks at no pitch.
    Press(u8, f64, u8),
    Release(u8, u8),
    Repitch(u8, f64),
    Pressure(u8, u8),
    Stop,
    /// A message to all channels.
    All(Message),
    /// Of a plan tuner: a tuning of the keys with pitches, and of those with notes and detunings.
    TuneByPitches,
    TuneByNotes,
}

/// A pool tuner's or a pool model's block.
#[repr(C)]
#[derive(Clone, Copy, PartialEq)]
pub struct Pool([u16; 677]);

impl Pool {
    /// Some content that no call made.
    pub fn of(cells: impl FnMut(usize) -> u16) -> Pool {
        Pool(std::array::from_fn(cells))
    }

    /// The refusal of the channel list, 0 where there is none.
    pub fn open(&mut self, channels: &[u8], bends: bool, mode: u8, retrigger: u8) -> u8 {
        let answer = unsafe { tarvoued_pool_open(self, channels.as_ptr(), channels.len(), u8::from(bends), mode, retrigger) };
        done(answer.outcome, answer.refusal)
    }

    pub fn open_model(&mut self, channels: &[u8], letters: bool, mode: u8, retrigger: u8) -> u8 {
        let answer = unsafe { tarvoued_pool_model_open(self, channels.as_ptr(), channels.len(), u8::from(!letters), mode, retrigger) };
        done(answer.outcome, answer.refusal)
    }

    pub fn register_key(&mut self, key: u8, hz: f64) -> RegisteredKey {
        unsafe { tarvoued_pool_model_register_key(self, key, hz) }
    }

    pub fn deregister_key(&mut self, key: u8) -> Note {
        unsafe { tarvoued_pool_model_deregister_key(self, key) }
    }

    pub fn repitch_key(&self, key: u8, hz: f64) -> Note {
        unsafe { tarvoued_pool_model_repitch_key(self, key, hz) }
    }

    pub fn lookup(&self, key: u8) -> Note {
        unsafe { tarvoued_pool_lookup(self, key) }
    }

    /// Plays an event; a pool tuner is not tuned.
    pub fn play(&mut self, event: Event, out: &mut [u8]) -> Answer {
        let (at, room) = (out.as_mut_ptr(), out.len());
        unsafe {
            match event {
                Event::Press(key, hz, velocity) => tarvoued_pool_note_on(self, key, hz, velocity, at, room),
                Event::Release(key, velocity) => tarvoued_pool_note_off(self, key, velocity, at, room),
                Event::Repitch(key, hz) => tarvoued_pool_note_pitch(self, key, hz, at, room),
                Event::Pressure(key, pressure) => tarvoued_pool_note_attr(self, key, pressure, at, room),
                Event::Stop => tarvoued_pool_stop(self, at, room),
                Event::All(message) => tarvoued_pool_global_attr(self, message.raw(), at, room),
                Event::TuneByPitches | Event::TuneByNotes => panic!("a pool tuner has no plan"),
            }
        }
    }
}

/// A plan tuner's or a plan model's block.
#[repr(C)]
#[derive(Clone, Copy, PartialEq)]
pub struct Plan([u64; 324]);

/// The lists that tunings are of.
#[derive(Clone, Debug, Default)]
pub struct Lists {
    pub pitch_keys: Vec<u8>,
    pub pitches: Vec<f64>,
    pub note_keys: Vec<u8>,
    pub notes: Vec<i32>,
    pub detunings: Vec<f64>,
}

#[derive(Clone, Copy, Debug, PartialEq)]
pub enum Tuning {
    Tuned(usize),
    Untuned(usize),
    /// Of the plan, or of the channel list before it.
    Refused(u8),
}

fn tuning(answer: Answer) -> Tuning {
    let count = usize::from(answer.channels);
    match kind(answer.outcome, answer.refusal, UNTUNED) {
        FOUND => Tuning::Tuned(count),
        NOTHING => Tuning::Untuned(count),
        number => {
            assert_eq!((answer.channels, answer.bytes), (0, 0));
            Tuning::Refused(number)
        }
    }
}

impl Plan {
    pub fn of(cells: impl FnMut(usize) -> u64) -> Plan {
        Plan(std::array::from_fn(cells))
    }

    pub fn open(&mut self, channels: &[u8], bends: bool) -> u8 {
        let answer = unsafe { tarvoued_plan_open(self, channels.as_ptr(), channels.len(), u8::from(bends)) };
        done(answer.outcome, answer.refusal)
    }

    pub fn open_model(&mut self, channels: &[u8], group_by: u8) -> u8 {
        let answer = unsafe { tarvoued_plan_model_open(self, channels.as_ptr(), channels.len(), group_by) };
        done(answer.outcome, answer.refusal)
    }

    /// A plan of keys with their notes and detunings, in a model.
    pub fn set_tuning(&mut self, keys: &[u8], notes: &[i32], detunings: &[f64]) -> Tuning {
        tuning(unsafe {
            tarvoued_plan_model_set_tuning(
                self,
                keys.as_ptr(), keys.len(),
                notes.as_ptr(), notes.len(),
                detunings.as_ptr(), detunings.len(),
            )
        })
    }

    /// The same of keys with their pitches.
    pub fn set_tuning_of_pitches(&mut self, keys: &[u8], pitches: &[f64]) -> Tuning {
        tuning(unsafe { tarvoued_plan_model_set_tuning_of_pitches(self, keys.as_ptr(), keys.len(), pitches.as_ptr(), pitches.len()) })
    }

    /// The channel and the note of a key.
    pub fn lookup(&self, key: u8) -> Option<(u16, i32)> {
        let place = unsafe { tarvoued_plan_lookup(self, key) };
        (kind(place.outcome, place.refusal, NOT_FOUND) == FOUND).then_some((place.channel, place.note))
    }

    /// The channel's first entry from a group on, which has the detuning that the channel has for its group.
    pub fn next_detuning(&self, channel: u16, from: i32) -> Option<(i32, f64)> {
        let entry = unsafe { tarvoued_plan_next_detuning(self, channel, from) };
        let found = kind(entry.outcome, entry.refusal, NOT_FOUND) == FOUND;
        let alone = unsafe { tarvoued_plan_detuning(self, channel, entry.note) };
        assert!(!found || alone == entry, "{alone:?} is not {entry:?}");
        found.then_some((entry.note, entry.detuning))
    }

    /// Plays an event.
    pub fn play(&mut self, event: Event, lists: &Lists, out: &mut [u8]) -> Answer {
        let (at, room) = (out.as_mut_ptr(), out.len());
        unsafe {
            match event {
                Event::Press(key, _, velocity) => tarvoued_plan_note_on(self, key, velocity, at, room),
                Event::Release(key, velocity) => tarvoued_plan_note_off(self, key, velocity, at, room),
                Event::Pressure(key, pressure) => tarvoued_plan_note_attr(self, key, pressure, at, room),
                Event::Stop => tarvoued_plan_stop(self, at, room),
                Event::All(message) => tarvoued_plan_global_attr(self, message.raw(), at, room),
                Event::TuneByPitches => tarvoued_plan_set_tuning_of_pitches(
                    self,
                    lists.pitch_keys.as_ptr(), lists.pitch_keys.len(),
                    lists.pitches.as_ptr(), lists.pitches.len(),
                    at, room,
                ),
                Event::TuneByNotes => tarvoued_plan_set_tuning(
                    self,
                    lists.note_keys.as_ptr(), lists.note_keys.len(),
                    lists.notes.as_ptr(), lists.notes.len(),
                    lists.detunings.as_ptr(), lists.detunings.len(),
                    at, room,
                ),
                Event::Repitch(..) => panic!("a plan tuner repitches no key"),
            }
        }
    }
}

/// The channel of a key that is not found.
pub const NO_CHANNEL: u8 = 255;

/// A model that is opened on a channel list and planned; the channel and the note of each key asked for are written. After a refusal nothing is, and the
/// block is as it was.
fn planned(channels: &[u8], group_by: u8, asked: &[u8], at: &mut [u8], sounds: &mut [i32], plan: impl FnOnce(&mut Plan) -> Tuning) -> Tuning {
    let mut model = Plan::of(|i| i as u64 * 0x9e37_79b9_7f4a_7c15);
    let closed = model;
    let refusal = model.open_model(channels, group_by);
    if refusal != 0 {
        assert!(model == closed, "refused {refusal} and changed");
        return Tuning::Refused(refusal);
    }
    let fresh = model;
    let answer = plan(&mut model);
    if let Tuning::Refused(number) = answer {
        assert!(model == fresh, "refused {number} and changed");
        return answer;
    }
    for (i, &key) in asked.iter().enumerate() {
        (at[i], sounds[i]) = model.lookup(key).map_or((NO_CHANNEL, 0), |(channel, note)| (channel as u8, note));
    }
    answer
}

/// A plan of keys with their notes and detunings.
#[allow(clippy::too_many_arguments)]
pub fn plan(channels: &[u8], group_by: u8, keys: &[u8], notes: &[i32], detunings: &[f64], asked: &[u8], at: &mut [u8], sounds: &mut [i32]) -> Tuning {
    planned(channels, group_by, asked, at, sounds, |model| model.set_tuning(keys, notes, detunings))
}

/// A plan of keys with their pitches.
pub fn plan_of_pitches(channels: &[u8], group_by: u8, keys: &[u8], pitches: &[f64], asked: &[u8], at: &mut [u8], sounds: &mut [i32]) -> Tuning {
    planned(channels, group_by, asked, at, sounds, |model| model.set_tuning_of_pitches(keys, pitches))
}

/// What a plan answers, and for each channel asked for and a group beside it the channel's first entry from that group on.
pub fn entries(channels: &[u8], group_by: u8, keys: &[u8], notes: &[i32], detunings: &[f64], asked: &[(u8, i32)]) -> (u8, Vec<Option<(i32, f64)>>) {
    let mut model = Plan::of(|_| 0);
    let refusal = model.open_model(channels, group_by);
    assert_eq!(refusal, 0);
    let kind = match model.set_tuning(keys, notes, detunings) {
        Tuning::Tuned(_) => FOUND,
        Tuning::Untuned(_) => NOTHING,
        Tuning::Refused(number) => number,
    };
    (kind, asked.iter().map(|&(channel, from)| model.next_detuning(channel.into(), from)).collect())
}

pub const PRESS: u8 = 0;
pub const RELEASE: u8 = 1;
pub const LOOKUP: u8 = 3;

/// Stands where a press stopped no note.
pub const NO_NOTE: i32 = 1000;

/// The events of a pool, and room for the answers.
#[derive(Default)]
pub struct Events {
    pub kinds: Vec<u8>,
    pub keys: Vec<u8>,
    pub pitches: Vec<f64>,
    pub answers: Answers,
}

#[derive(Clone, Debug, Default, PartialEq)]
pub struct Answers {
    pub kinds: Vec<u8>,
    pub channels: Vec<u16>,
    pub notes: Vec<i32>,
    pub stopped: Vec<i32>,
    pub detunings: Vec<f64>,
}

impl Events {
    pub fn push(&mut self, kind: u8, key: u8, hz: f64) {
        self.kinds.push(kind);
        self.keys.push(key);
        self.pitches.push(hz);
    }

    /// Makes room for the answers.
    pub fn ready(&mut self) {
        let n = self.kinds.len();
        self.answers.kinds.resize(n, UNANSWERED);
        self.answers.channels.resize(n, UNANSWERED.into());
        self.answers.notes.resize(n, 9999);
        self.answers.stopped.resize(n, 9999);
        self.answers.detunings.resize(n, -1.0);
    }

    /// Plays them on a pool model; the refusal of the channel list, 0 where there is none.
    pub fn play(&mut self, channels: &[u8], letters: bool, mode: u8, retrigger: u8) -> u8 {
        let mut pool = Pool::of(|i| (i * 40503) as u16);
        let closed = pool;
        let refusal = pool.open_model(channels, letters, mode, retrigger);
        if refusal != 0 {
            assert!(pool == closed, "refused {refusal} and changed");
            return refusal;
        }
        for i in 0..self.kinds.len() {
            let (key, hz, before) = (self.keys[i], self.pitches[i], pool);
            let answer = match self.kinds[i] {
                PRESS => pool.register_key(key, hz),
                other => {
                    let place = if other == RELEASE { pool.deregister_key(key) } else { pool.lookup(key) };
                    let Note { outcome, refusal, channel, note, detuning } = place;
                    RegisteredKey { outcome, refusal, channel, note, stopped: 0, released: 0, released_channel: 0, stopped_note: 0, released_note: 0, detuning }
                }
            };
            let kind = kind(answer.outcome, answer.refusal, if self.kinds[i] == PRESS { REJECTED } else { NOT_FOUND });
            assert!(kind == FOUND || pool == before, "answered {kind} and changed");
            assert_eq!((answer.released, answer.released_channel, answer.released_note), (0, 0, 0), "no press here is of a held key with retrigger");
            let answers = &mut self.answers;
            answers.kinds[i] = kind;
            answers.channels[i] = answer.channel;
            answers.notes[i] = if kind == FOUND { answer.note } else { NO_NOTE };
            answers.stopped[i] = if answer.stopped == 1 { answer.stopped_note } else { NO_NOTE };
            answers.detunings[i] = answer.detuning;
        }
        0
    }
}

/// What stands in a buffer before it is lent.
pub const FILL: u8 = 0xa5;

/// What stands in a count before it is answered.
const UNCOUNTED: usize = usize::MAX;

/// The events of a tuner, and room for the answers and the bytes.
#[derive(Clone, Debug, Default)]
pub struct Calls {
    pub events: Vec<Event>,
    pub answers: Vec<u8>,
    pub counts: Vec<usize>,
    /// How many channels a tuning needs.
    pub channels: Vec<u16>,
    pub out: Vec<u8>,
}

impl Calls {
    /// The events, with so many bytes of room.
    pub fn new(events: &[Event], room: usize) -> Calls {
        let n = events.len();
        Calls { events: events.to_vec(), answers: vec![UNANSWERED; n], counts: vec![UNCOUNTED; n], channels: vec![0; n], out: vec![FILL; room] }
    }

    /// Plays the events on a block that is opened, each in the room that those before it left.
    fn play<B: Copy + PartialEq>(&mut self, block: &mut B, call: impl Fn(&mut B, Event, &mut [u8]) -> Answer) {
        let mut at = 0;
        for i in 0..self.events.len() {
            let event = self.events[i];
            let (before, rest) = (*block, &mut self.out[at..]);
            let answer = call(block, event, rest);
            let otherwise = match event {
                Event::Press(..) => REJECTED,
                Event::TuneByPitches | Event::TuneByNotes => UNTUNED,
                _ => DONE,
            };
            let kind = kind(answer.outcome, answer.refusal, otherwise);
            if kind != FOUND {
                assert!(kind == NOTHING || *block == before, "{event:?} refused {kind} and changed");
                assert!(answer.bytes == 0 && rest.iter().all(|&b| b == FILL), "{event:?} answered {kind} and written");
            }
            self.answers[i] = kind;
            self.counts[i] = answer.bytes;
            self.channels[i] = answer.channels;
            at += answer.bytes;
        }
    }

    /// Plays them on a pool tuner; the refusal of the channel list, 0 where there is none.
    pub fn play_pool(&mut self, channels: &[u8], bends: bool, mode: u8, retrigger: u8) -> u8 {
        let mut pool = Pool::of(|i| (i * 40503) as u16);
        let closed = pool;
        let refusal = pool.open(channels, bends, mode, retrigger);
        if refusal == 0 {
            self.play(&mut pool, Pool::play);
        } else {
            assert!(pool == closed, "refused {refusal} and changed");
        }
        refusal
    }

    /// Plays them on a plan tuner.
    pub fn play_plan(&mut self, channels: &[u8], bends: bool, lists: &Lists) -> u8 {
        let mut plan = Plan::of(|i| i as u64 * 0x9e37_79b9_7f4a_7c15);
        let closed = plan;
        let refusal = plan.open(channels, bends);
        if refusal == 0 {
            self.play(&mut plan, |plan, event, out| plan.play(event, lists, out));
        } else {
            assert!(plan == closed, "refused {refusal} and changed");
        }
        refusal
    }
}
