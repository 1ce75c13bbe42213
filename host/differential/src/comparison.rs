//! One call, made by the library and by the model.

use std::fmt::Debug;

use workbench::lent::Lent;

use crate::calls::{Answer, Buffers, Call, Caller};
use crate::Counts;

/// A call, and the buffers as they are before it.
#[derive(Clone, Debug, PartialEq)]
pub struct Case {
    pub call: Call,
    pub buffers: Buffers,
}

/// A case that the library and the model answer differently.
#[derive(Clone, Debug, PartialEq)]
pub struct Difference {
    /// The seed, and the file, record or reader of it.
    pub name: String,
    pub case: Case,
    pub text: String,
}

/// What is compared, up to the first difference.
pub type Compared<T = ()> = Result<T, Box<Difference>>;

/// The two that make the same calls.
#[derive(Clone, Copy)]
pub struct Sides<'a> {
    pub library: &'a Caller<'a>,
    pub model: &'a Caller<'a>,
}

impl<'a> Sides<'a> {
    pub fn new(library: &'a Caller<'a>, model: &'a Caller<'a>) -> Sides<'a> {
        Sides { library, model }
    }
}

/// What a call answered and left.
#[derive(PartialEq)]
struct Outcome {
    answer: Answer,
    buffers: Buffers,
}

impl Outcome {
    fn of(caller: &Caller, call: Call, before: &Buffers) -> Outcome {
        let mut buffers = before.clone();
        let answer = caller(call, &mut buffers);
        Outcome { answer, buffers }
    }
}

/// The answers and every cell of every buffer have to be the same, and no guard
/// may be written; the first that isn't so is told.
fn difference(library: &Outcome, model: &Outcome) -> Option<String> {
    if library == model {
        return None;
    }
    guard_written(&library.buffers)
        .or_else(|| other_answer(library.answer, model.answer))
        .or_else(|| other_cell(&library.buffers, &model.buffers))
}

fn guard_written(buffers: &Buffers) -> Option<String> {
    let written = |name: &str| format!("the library wrote beside the {name}");
    let words = buffers
        .words()
        .map(|(name, lent)| (name, lent.is_guarded()));
    let bytes = buffers
        .bytes()
        .map(|(name, lent)| (name, lent.is_guarded()));
    let edits = [("edits", buffers.edits.is_guarded())];
    let mut guarded = words.into_iter().chain(bytes).chain(edits);
    let broken = guarded.find(|(_, guarded)| !guarded);
    broken.map(|(name, _)| written(name))
}

fn other_answer(library: Answer, model: Answer) -> Option<String> {
    let text = || format!("the library answers {library}, the model {model}");
    (library != model).then(text)
}

fn other_cell(library: &Buffers, model: &Buffers) -> Option<String> {
    let mut words = library.words().into_iter().zip(model.words());
    let mut bytes = library.bytes().into_iter().zip(model.bytes());
    words
        .find_map(|((name, library), (_, model))| first_other(name, library, model))
        .or_else(|| {
            bytes.find_map(|((name, library), (_, model))| first_other(name, library, model))
        })
        .or_else(|| first_other("edits", &library.edits, &model.edits))
}

fn first_other<T>(name: &str, library: &Lent<T>, model: &Lent<T>) -> Option<String>
where
    T: Copy + Debug + PartialEq,
{
    let (library, model) = (library.get(), model.get());
    let at = (0..library.len()).find(|&at| library[at] != model[at])?;
    Some(format!(
        "{name} differ at {at}: the library has {:?}, the model {:?}",
        library[at], model[at]
    ))
}

/// What the library and the model answer to a case, and what differs first.
pub struct Replay {
    pub library: Answer,
    pub model: Answer,
    pub difference: Option<String>,
}

pub fn replayed(case: &Case, sides: Sides) -> Replay {
    let library = Outcome::of(sides.library, case.call, &case.buffers);
    let model = Outcome::of(sides.model, case.call, &case.buffers);
    Replay {
        library: library.answer,
        model: model.answer,
        difference: difference(&library, &model),
    }
}

/// The library and the model side by side, and the buffers they share.
pub struct Comparison<'a> {
    name: String,
    sides: Sides<'a>,
    pub buffers: Buffers,
    pub counts: Counts,
}

impl<'a> Comparison<'a> {
    pub fn new(name: String, sides: Sides<'a>, buffers: Buffers) -> Comparison<'a> {
        Comparison {
            name,
            sides,
            buffers,
            counts: Counts::default(),
        }
    }

    /// Makes a call on the buffers, which then are as it left them.
    pub fn call(&mut self, call: Call) -> Compared {
        let library = Outcome::of(self.sides.library, call, &self.buffers);
        let model = Outcome::of(self.sides.model, call, &self.buffers);
        if let Some(text) = difference(&library, &model) {
            let buffers = self.buffers.clone();
            return Err(Box::new(Difference {
                name: self.name.clone(),
                case: Case { call, buffers },
                text,
            }));
        }
        self.counts.count(library.answer);
        self.buffers = library.buffers;
        Ok(())
    }
}
