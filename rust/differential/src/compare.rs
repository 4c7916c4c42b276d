//! One script, two implementations, and every answer, list and state compared.

use script::{state_line, Call, Session, Subject};
use second::State;

use crate::account::Accounts;
use crate::answers::Answers;
use crate::fed::Fed;
use crate::last_group::LastGroup;
use crate::parting::Parting;
use crate::singles::Singles;
use crate::sought::Sought;
use crate::walk::Walk;

/// The calls that only read, and those that no buffer takes part in.
const READING: [&str; 10] = [
    "settings",
    "ranges",
    "common",
    "walked",
    "seek",
    "segment",
    "lump",
    "lump-fresh",
    "feed",
    "state",
];

/// Puts a script, call by call, to two implementations; tells where they part first.
pub fn compare<A: Subject, B: Subject>(
    one: &mut A,
    other: &mut B,
    script: &[String],
    answers: &mut Answers,
) -> Result<(), Box<Parting>> {
    let mut pair = Pair {
        one: Session::new(one),
        other: Session::new(other),
        accounts: Accounts::default(),
    };
    answers.scripts += 1;
    for (number, call) in (1..).zip(script) {
        pair.step(call, answers).map_err(|[one, other]| {
            Box::new(Parting {
                number,
                call: call.clone(),
                one,
                other,
            })
        })?;
    }
    Ok(())
}

/// The two sessions, and the account kept of both.
struct Pair<'a, A: Subject, B: Subject> {
    one: Session<'a, A>,
    other: Session<'a, B>,
    accounts: Accounts,
}

/// What the one and the other say where they part.
type Words = [String; 2];

impl<A: Subject, B: Subject> Pair<'_, A, B> {
    fn step(&mut self, call: &str, answers: &mut Answers) -> Result<(), Words> {
        if call.starts_with("poke ") {
            return self.poke(call, answers);
        }
        let before = self.views();
        let said = [self.one.answer(call), self.other.answer(call)];
        let answer = match said {
            [None, None] => return Ok(()),
            [Some(one), Some(other)] if one == other => one,
            said => return Err(said.map(Option::unwrap_or_default)),
        };
        answers.count(call, &answer);
        let after = self.views();
        if let (Some(before), Some(after)) = (&before[0], &after[0]) {
            answers.halves(call, &answer, before, after);
        }
        let name = call.split(' ').next().unwrap_or_default();
        if answer.starts_with("refused") || READING.contains(&name) {
            unmoved(&before, &after)?;
        }
        self.same_states(&after, answers)?;
        as_in_the_last_group(call, &answer, &before, answers)?;
        self.as_the_request_says(call, &answer, &after, answers)?;
        if answer.starts_with("ok") {
            as_singles(call, &answer, &before, &after)?;
            self.as_walk(call, &answer, &after, answers)?;
            self.book(call, &answer, &after, answers)?;
        }
        Ok(())
    }

    /// A poke that one of them declines is made on neither.
    fn poke(&mut self, call: &str, answers: &mut Answers) -> Result<(), Words> {
        let before = (self.one.state().cloned(), self.other.state().cloned());
        let said = [self.one.answer(call), self.other.answer(call)].map(Option::unwrap_or_default);
        if said.iter().any(|said| said == "declined") {
            answers.declined += 1;
            if let (Some(one), Some(other)) = before {
                self.one.set_state(one);
                self.other.set_state(other);
            }
            return Ok(());
        }
        if said[0] != said[1] {
            return Err(said);
        }
        answers.count(call, &said[0]);
        self.same_states(&self.views(), answers)?;
        self.accounts.book(call, &said[0]).map_err(of_both)
    }

    fn views(&self) -> [Option<State>; 2] {
        [self.one.view(), self.other.view()]
    }

    /// Both take the state for well-formed and it is the same, or neither does: what a state that
    /// is not well-formed looks like is free.
    fn same_states(
        &mut self,
        views: &[Option<State>; 2],
        answers: &mut Answers,
    ) -> Result<(), Words> {
        let well_formed = [self.one.is_well_formed(), self.other.is_well_formed()];
        if well_formed[0] != well_formed[1] {
            return Err(well_formed.map(|is| format!("well-formed: {is}")));
        }
        if well_formed[0] && views[0] != views[1] {
            return Err(views.each_ref().map(shown));
        }
        answers.states += 1;
        Ok(())
    }

    /// A count of a report's frames that both answer alike is that of the walk over them, and the
    /// report is refused 10 exactly where the walk is left early.
    fn as_walk(
        &mut self,
        call: &str,
        answer: &str,
        views: &[Option<State>; 2],
        answers: &mut Answers,
    ) -> Result<(), Words> {
        let (Some(Call::Walked(track, places)), Some(state)) = (Call::read(call), &views[0]) else {
            return Ok(());
        };
        let walk = Walk::of(state, track, places);
        if answer != walk.answer() {
            let due = format!("frame by frame: {}", walk.answer());
            return Err([answer.to_string(), due]);
        }
        let report = format!("ranges {track} places={places}");
        let said = [self.one.answer(&report), self.other.answer(&report)];
        let said = said.map(Option::unwrap_or_default);
        let refused = said.each_ref().map(|said| said == "refused 10");
        if refused != [walk.left(); 2] {
            return Err(said.map(|said| format!("{report}: {said}, though {walk:?}")));
        }
        answers.walk(&walk);
        Ok(())
    }

    /// A seek or a feed that both answer alike is answered what the request's words give.
    fn as_the_request_says(
        &self,
        call: &str,
        answer: &str,
        views: &[Option<State>; 2],
        answers: &mut Answers,
    ) -> Result<(), Words> {
        let due = match (Call::read(call), &views[0]) {
            (Some(Call::Seek(track, instant)), Some(state)) => {
                let Some(sought) = Sought::of(state, track, instant) else {
                    return Ok(()); // refused 1 or 3
                };
                if sought.lacks_point() && self.accounts.is_by_calls() {
                    return Err(of_both(format!("calls have led to {sought:?}")));
                }
                answers.seek(&sought);
                sought.answer()
            }
            (Some(Call::Feed(feed, initialization, segment)), _) => {
                let fed = Fed::of(feed, &initialization, &segment);
                answers.feed(&fed);
                fed.answer()
            }
            _ => return Ok(()),
        };
        match answer == due {
            true => Ok(()),
            false => Err([answer.to_string(), format!("as the request says: {due}")]),
        }
    }

    /// Books the answer, and draws up the account where the script asks for the state.
    fn book(
        &mut self,
        call: &str,
        answer: &str,
        views: &[Option<State>; 2],
        answers: &mut Answers,
    ) -> Result<(), Words> {
        self.accounts.book(call, answer).map_err(of_both)?;
        let state = views[0].as_ref().filter(|_| call == "state");
        match state.and_then(|state| self.accounts.balances(state)) {
            Some(false) => Err(of_both("the account does not balance".to_string())),
            Some(true) => {
                answers.accounts += 1;
                Ok(())
            }
            None => Ok(()),
        }
    }
}

/// A call in the last group that both answer alike is refused 9 exactly where it would begin a group
/// and nothing but 8 refuses it, and else does what it does before that group.
fn as_in_the_last_group(
    call: &str,
    answer: &str,
    before: &[Option<State>; 2],
    answers: &mut Answers,
) -> Result<(), Words> {
    let state = before[0].as_ref();
    let Some(call) = state.and_then(|state| LastGroup::of(state, call, answer)) else {
        return Ok(());
    };
    if answer != call.due() {
        let due = format!("in the last group: {}", call.due());
        return Err([answer.to_string(), due]);
    }
    answers.last_group(&call);
    Ok(())
}

/// A batch that both answer alike has done what its frames do one by one.
fn as_singles(
    call: &str,
    answer: &str,
    before: &[Option<State>; 2],
    after: &[Option<State>; 2],
) -> Result<(), Words> {
    let (Some(Call::Batch(frames, _)), Some(state)) = (Call::read(call), before[0]) else {
        return Ok(());
    };
    let singles = Singles::of(state, &frames);
    let part = |said, due| Err([said, format!("one by one: {due}")]);
    if answer != singles.answer() {
        return part(answer.to_string(), singles.answer());
    }
    if after[0] != Some(singles.state) {
        return part(shown(&after[0]), state_line(&singles.state));
    }
    Ok(())
}

/// A call that is refused or only reads leaves both states as they were.
fn unmoved(before: &[Option<State>; 2], after: &[Option<State>; 2]) -> Result<(), Words> {
    if before == after {
        return Ok(());
    }
    Err([0, 1].map(|side| match before[side] == after[side] {
        true => "unmoved".to_string(),
        false => format!("moved to: {}", shown(&after[side])),
    }))
}

fn shown(view: &Option<State>) -> String {
    view.as_ref().map_or("none".to_string(), state_line)
}

fn of_both(words: String) -> Words {
    [words.clone(), words]
}
