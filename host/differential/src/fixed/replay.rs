//! Questions to the leaf crates, the builder and the bus clear.

use oracle::ClearState;

use super::boxed;
use crate::{Leaf, ListQuestion, Question, Random, RunQuestion, StepQuestion};

pub fn questions() -> Vec<Box<dyn Question>> {
    let leaves = pieces().into_iter().chain(words()).chain(outcomes());
    let mut questions: Vec<Box<dyn Question>> = Vec::new();
    questions.extend(leaves.map(boxed));
    questions.extend(lists().into_iter().map(boxed));
    questions.extend(steps().into_iter().map(boxed));
    questions.extend(runs().into_iter().map(boxed));
    questions
}

fn pieces() -> Vec<Leaf> {
    let mut questions: Vec<Leaf> = (0..=100).map(Leaf::Piece).collect();
    for n in [1, 31, 32, 33, 34, 62, 63, 64, 95, 4096, 65535] {
        questions.push(Leaf::Count(n));
        questions.extend((0..oracle::pieces(n).len().min(4)).map(|j| Leaf::Start(n, j)));
    }
    questions
}

fn words() -> Vec<Leaf> {
    let mut questions = vec![
        Leaf::Word(0, 0),
        Leaf::Word(4, 0),
        Leaf::Word(5, 0),
        Leaf::Word(3, 1),
    ];
    for count in [1, 2, 31, 32, 254, 255] {
        questions.extend([Leaf::Word(1, count), Leaf::Word(2, count)]);
    }
    questions
}

fn outcomes() -> Vec<Leaf> {
    let mut random = Random::new(0x0129_1f20);
    let received = (0..=32).flat_map(|wanted| {
        [0, wanted / 2, wanted].map(|received| Leaf::Received(wanted, received))
    });
    received
        .chain((0..1000).map(|_| Leaf::random_outcome(&mut random)))
        .collect()
}

/// The lengths around each limit, at one address in full and at others the answer alone.
fn lists() -> Vec<ListQuestion> {
    let lengths = || [0, 1, 2, 31, 32, 33].into_iter();
    let full = ListQuestion::all(lengths(), &[0x29])
        .into_iter()
        .filter(|question| question.part < 13);
    let others = ListQuestion::all(lengths(), &[0, 127, 128, 255])
        .into_iter()
        .filter(|question| question.part == 0);
    full.chain(others).collect()
}

/// A step from each kind of state, with SDA low and high, one before the wait is over and one after.
fn steps() -> Vec<StepQuestion> {
    let clocks = [0, 1, 9, 255]
        .into_iter()
        .flat_map(|n| [false, true].map(|high| ClearState::SendClock(n, high)));
    let states = [ClearState::Idle, ClearState::SendStop]
        .into_iter()
        .chain(clocks);
    let asked = |state, now, flags: u8| StepQuestion {
        state,
        wait: 100,
        pins: flags & 1 != 0,
        now,
        sda: flags & 2 != 0,
        part: flags >> 2,
    };
    states
        .flat_map(|state| {
            [99, 100]
                .into_iter()
                .flat_map(move |now| (0..8).map(move |flags| asked(state, now, flags)))
        })
        .collect()
}

fn runs() -> Vec<RunQuestion> {
    let mut random = Random::new(0x0c1e_a400);
    (0..100).map(|_| RunQuestion::random(&mut random)).collect()
}
