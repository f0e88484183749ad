//! An open run moved on in uneven calls, held against one long call and against the second program's state, word by word;
//! and rows that are damaged, or lifted to where times and numbers end, handed in.

use crate::compare::{answer_text, word_of, Bench, Difference, Same};
use crate::counts::PACES;
use crate::engine;
use crate::random::Random;
use crate::row::{is_standing, part, row_of, state_of, SEEDS, WORDS};
use crate::sound::is_sound;
use reference::journal::LINE_BYTES;
use reference::model::Model;
use reference::run::{Answer, Entered, Event, Outcome, Returned, State, JOURNAL};

/// The answer to an open run that isn't sound: fault 20, no step.
const UNSOUND: u64 = 20 << 32;
const WRONG_WORDS: u32 = 20 * 65_536;

/// No more uneven calls than this; the last one goes to the end.
const CALLS: usize = 10;
/// No more even steps than this.
const PACED: u32 = 60;

impl Bench {
    pub fn moves(&mut self, bytes: &[u8], model: &Model, limit: u32, random: &mut Random) -> Same {
        self.opens(bytes, model, random)?;
        let mut state = State::fresh(model);
        let whole = state.run(model, limit, usize::MAX);
        let room = whole.journal.len() + random.below(70 * LINE_BYTES);
        self.same_move(bytes, model, &whole, &state, limit, room, random)?;
        let uneven = self.uneven(bytes, model, &whole, random)?;
        if uneven != state {
            let what = "the state after uneven calls".to_string();
            return Err(Difference::of(what, "as the second program's", "another than after one long call"));
        }
        if !model.samplers.is_empty() && random.one_in(3) {
            self.paced(bytes, model, random)?;
        }
        let mut midway = State::fresh(model);
        midway.run(model, random.below(whole.steps as usize + 1) as u32, usize::MAX);
        self.handed(bytes, model, &row_of(&lifted(&midway, random)), random)?;
        self.handed(bytes, model, &row_of(&with_returns(&midway, random)), random)?;
        self.reseeded(bytes, model, &midway, random)?;
        for _ in 0..3 {
            let mut row = row_of(&midway);
            (0..random.pick(&[1, 1, 1, 2, 3])).for_each(|_| damage(random, &mut row));
            self.handed(bytes, model, &row, random)?;
        }
        Ok(())
    }

    /// A fresh run; and one with too few words or too many.
    fn opens(&mut self, bytes: &[u8], model: &Model, random: &mut Random) -> Same {
        let words = random.pick(&[0, WORDS - 1, WORDS + 1]);
        self.row.empty(words, random.below(8), random.next());
        let said = engine::open(self.file.content(), self.row.content_mut());
        self.opened(said, WRONG_WORDS)?;
        let said = engine::move_on(self.file.content(), self.row.content_mut(), 1, &mut []);
        self.moved("moving a run of another size", said, UNSOUND)?;
        self.row_is(&[], "opening and moving a run of another size")?;
        self.row.empty(WORDS, random.below(8), random.next());
        let said = engine::open(self.file.content(), self.row.content_mut());
        self.opened(said, 0)?;
        self.row_is(&row_of(&State::fresh(model)), "opening a run")?;
        self.unchanged(bytes, "opening a run")
    }

    /// A file that is refused: nothing is written, and a run of it isn't sound.
    pub fn opens_refused(&mut self, bytes: &[u8], word: u32, random: &mut Random) -> Same {
        if !random.one_in(4) {
            return Ok(());
        }
        let any = random.next();
        self.row.empty(WORDS, random.below(8), random.pick(&[0, any]));
        let said = engine::open(self.file.content(), self.row.content_mut());
        self.opened(said, word)?;
        self.row_is(&[], "opening a refused model")?;
        self.journal.empty(random.below(100), random.below(8), random.next() as u8);
        let said = engine::move_on(self.file.content(), self.row.content_mut(), 9, self.journal.content_mut());
        self.moved("moving a run of a refused model", said, UNSOUND)?;
        self.row_is(&[], "moving a run of a refused model")?;
        self.journal_is(&[], "moving a run of a refused model")?;
        self.unchanged(bytes, "opening a refused model")
    }

    fn opened(&self, engine: u32, second: u32) -> Same {
        if engine == second {
            return Ok(());
        }
        Err(Difference::of("open".to_string(), format!("{engine:#x}"), format!("{second:#x}")))
    }

    fn moved(&self, what: &str, engine: u64, second: u64) -> Same {
        if engine == second {
            return Ok(());
        }
        Err(Difference::of(what.to_string(), answer_text(engine), answer_text(second)))
    }

    /// The row is these words, and its guards are as they were.
    fn row_is(&self, words: &[u64], what: &str) -> Same {
        self.row.is(words).map_err(|place| {
            let at = place.max(0) as usize;
            let word = |row: &[u64]| row.get(at).map_or("not to be written".to_string(), u64::to_string);
            let what = format!("{} after {what}", part(place));
            Difference::of(what, word(self.row.content()), word(words))
        })
    }

    /// One call on the row as it is, held to the second program's outcome and state.
    fn same_move(
        &mut self,
        bytes: &[u8],
        model: &Model,
        second: &Outcome,
        state: &State,
        limit: u32,
        room: usize,
        random: &mut Random,
    ) -> Same {
        self.counts.answered(model, state, second);
        self.journal.empty(room, random.below(8), random.next() as u8);
        let said = engine::move_on(self.file.content(), self.row.content_mut(), limit, self.journal.content_mut());
        let what = format!("moving an open run with limit {limit} and a journal of {room} bytes");
        self.moved(&what, said, word_of(second))?;
        self.journal_is(&second.journal, &what)?;
        self.row_is(&row_of(state), &what)?;
        self.unchanged(bytes, &what)
    }

    /// Uneven limits and small journals from fresh: the lines together are those of the long call. The state at the end.
    fn uneven(&mut self, bytes: &[u8], model: &Model, whole: &Outcome, random: &mut Random) -> Result<State, Difference> {
        let mut state = State::fresh(model);
        self.row.set(&row_of(&state), random.below(8), random.next());
        let mut gathered: Vec<u8> = Vec::new();
        let mut steps = 0;
        // A run that ended may be asked for more steps than it has.
        let over = if whole.answer == Answer::Limit { 0 } else { 5 };
        for call in 0..=CALLS {
            let left = whole.steps - steps + over;
            let (limit, room) = if call == CALLS {
                (left, usize::MAX)
            } else {
                let limit = random.pick(&[0, 1, 1, 2, 3, 7, left / 2, left]);
                (limit.min(left), random.pick(&[0, 1, 16, 17, 32, 47, 80, 200, 2_000]))
            };
            let outcome = state.run(model, limit, room);
            let lent = room.min(outcome.journal.len() + 80 * LINE_BYTES);
            self.same_move(bytes, model, &outcome, &state, limit, lent, random)?;
            gathered.extend(&outcome.journal);
            steps += outcome.steps;
            let ended = !matches!(outcome.answer, Answer::Limit | Answer::Fault(JOURNAL));
            if ended || left == outcome.steps {
                break;
            }
        }
        if gathered != whole.journal {
            let what = "the lines of uneven calls".to_string();
            return Err(Difference::of(what, "others than", "those of one long call"));
        }
        Ok(state)
    }

    /// Calls of 1 to 7 steps, each with room for one line, and for more where a step needs it: 30 comes again and again, and the
    /// lines together are those of one long call.
    fn paced(&mut self, bytes: &[u8], model: &Model, random: &mut Random) -> Same {
        let mut end = State::fresh(model);
        let whole = end.run(model, PACED, usize::MAX);
        let pace = random.from_to(1, 7);
        let mut state = State::fresh(model);
        if end.seeds != state.seeds {
            self.counts.add(PACES, pace);
        }
        self.row.set(&row_of(&state), random.below(8), random.next());
        let mut gathered: Vec<u8> = Vec::new();
        let (mut steps, mut room) = (0, LINE_BYTES);
        loop {
            let limit = (pace as u32).min(PACED - steps);
            let outcome = state.run(model, limit, room);
            self.same_move(bytes, model, &outcome, &state, limit, room, random)?;
            gathered.extend(&outcome.journal);
            steps += outcome.steps;
            match outcome.answer {
                Answer::Fault(JOURNAL) if outcome.steps == 0 => room += LINE_BYTES,
                Answer::Fault(JOURNAL) => room = LINE_BYTES,
                Answer::Limit if steps < PACED => room = LINE_BYTES,
                _ => break,
            }
        }
        if (&state, &gathered) != (&end, &whole.journal) {
            let what = format!("the lines and the state of calls of {pace} steps");
            return Err(Difference::of(what, "as the second program's", "others than those of one long call"));
        }
        Ok(())
    }

    /// A row that is handed in: 20 exactly if it isn't sound, and then nothing is changed; else it goes on as the second program
    /// does.
    fn handed(&mut self, bytes: &[u8], model: &Model, row: &[u64], random: &mut Random) -> Same {
        self.counts.rows_handed += 1;
        self.row.set(row, random.below(8), random.next());
        let limit = random.pick(&[0, 1, 5, 20, 60]);
        let Some(mut state) = state_of(model, row).filter(|state| is_sound(model, state)) else {
            return self.turned_away(bytes, row, limit, random);
        };
        let outcome = state.run(model, limit, usize::MAX);
        let room = outcome.journal.len() + random.below(70 * LINE_BYTES);
        self.same_move(bytes, model, &outcome, &state, limit, room, random)
    }

    /// The run with another seed, at an edge or beyond, of a sampler or where there is none.
    fn reseeded(&mut self, bytes: &[u8], model: &Model, state: &State, random: &mut Random) -> Same {
        let mut row = row_of(state);
        let samplers = model.samplers.len();
        let place = if samplers == 0 || random.one_in(4) { random.below(16) } else { random.below(samplers) };
        let seed = random.pick(&[0, 0, 1, 2, 2_147_483_645, 2_147_483_646, 2_147_483_647, 2_147_483_647, 1 << 31, 1 << 32]);
        if row[SEEDS + place] == seed {
            return Ok(());
        }
        row[SEEDS + place] = seed;
        self.counts.seeded(model, place, seed);
        self.handed(bytes, model, &row, random)
    }

    fn turned_away(&mut self, bytes: &[u8], row: &[u64], limit: u32, random: &mut Random) -> Same {
        self.counts.rows_unsound += 1;
        self.journal.empty(random.below(200), random.below(8), random.next() as u8);
        let said = engine::move_on(self.file.content(), self.row.content_mut(), limit, self.journal.content_mut());
        let what = "handing in a row that isn't sound";
        self.moved(what, said, UNSOUND)?;
        self.row_is(row, what)?;
        self.journal_is(&[], what)?;
        self.unchanged(bytes, what)
    }
}

/// The run with its times, numbers and bins moved up to where they end; it stays sound.
fn lifted(state: &State, random: &mut Random) -> State {
    let mut state = state.clone();
    let latest = state.event_list.last().map_or(state.clock, |event| event.time.max(state.clock));
    if random.one_in(2) && latest < 1_999_999_990 {
        let up = 2_000_000_000 - latest - random.below(4) as u32;
        state.clock += up;
        state.event_list.iter_mut().for_each(|event| event.time += up);
    }
    if random.one_in(2) {
        state.last_given = 2_147_483_647 - random.below(3) as u32;
    }
    for bin in &mut state.bins {
        if random.one_in(2) {
            *bin = 1_000_000_000 - random.below(3) as u32;
        }
    }
    state.closed = random.one_in(6);
    state
}

/// The run with returns of a bin waiting now, 63 to 65 in all; the 65th makes it unsound.
fn with_returns(state: &State, random: &mut Random) -> State {
    let mut state = state.clone();
    let there = state.event_list.iter().filter(|event| matches!(event.entered, Entered::Notice { .. })).count();
    let more = random.pick(&[63, 64, 64, 65, 65]) - there.min(63);
    if state.bins.is_empty() || state.last_given == 0 || state.event_list.len() + more > 128 {
        return state;
    }
    let notice = Event {
        time: state.clock,
        priority: -15_000,
        entered: Entered::Notice { giver: state.last_given, returned: Returned::Bin, number: 0, amount: 1 },
    };
    let at = state.event_list.partition_point(|event| event.time <= state.clock);
    state.event_list.splice(at..at, std::iter::repeat_n(notice, more));
    state
}

/// One word, mostly one that is in use, becomes another; in one of four it says where a process stands.
fn damage(random: &mut Random, row: &mut [u64]) {
    let standing = random.one_in(4);
    let in_use = |at: &usize| row[*at] != 0 && row[*at] != 1 << 31 && (!standing || is_standing(*at));
    let used: Vec<usize> = (0..row.len()).filter(in_use).collect();
    let at = if random.one_in(4) || used.is_empty() { random.below(row.len()) } else { used[random.below(used.len())] };
    let by = random.pick(&[1, 1, 1, 64, 1 << 16, 1 << 20, 1 << 28, 1 << 32, 1 << 32]);
    row[at] = match random.below(8) {
        0 => random.next(),
        1 => 0,
        2 => row[random.below(row.len())],
        3 => row[at] ^ (1 << random.below(64)),
        4 | 5 => row[at].wrapping_sub(by),
        _ => row[at].wrapping_add(by),
    };
}
