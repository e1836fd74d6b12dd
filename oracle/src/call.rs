//! One call of a function of the library, and what it must leave.

use crate::difference::{packed, Difference};
use crate::entry::{Checker, Effect, Graph, Library, Placer, Query, SET_NAMES};
use crate::lent::{Lent, Word, WrongWord};
use crate::records::{GRAPH_WORDS, LIVE_WORDS, MOST_UNITS, RESULT_BYTES, STORAGE_ROW, UNIT_ROW};

const NO_UNITS: [u32; MOST_UNITS] = [0; MOST_UNITS];
const NO_WORDS: [u64; LIVE_WORDS] = [0; LIVE_WORDS];

/// The index of the result among the buffers of the placer, the only function that has one.
const RESULT: usize = 4;

#[derive(Clone, Copy)]
pub enum Function {
    Check(Checker),
    /// One of the four queries for a set.
    Set(usize, Query),
    Effect(Effect),
    Live(Query),
    Graph(Graph),
    Place(Placer),
}

impl Function {
    /// The queries at a place that the library has.
    pub fn queries(library: &Library) -> Vec<Self> {
        let sets = library.sets.into_iter().enumerate();
        let sets = sets.filter_map(|(set, query)| query.map(|query| Self::Set(set, query)));
        sets.chain(library.effect.map(Self::Effect)).collect()
    }

    /// The functions of the analysis that the library has.
    pub fn analysis(library: &Library) -> Vec<Self> {
        let mut functions = Self::queries(library);
        functions.extend(library.live.map(Self::Live));
        functions.extend(library.graph.map(Self::Graph));
        functions
    }

    /// Every function that the library has.
    pub fn all(library: &Library) -> Vec<Self> {
        let mut functions = Self::analysis(library);
        functions.extend(library.check.map(Self::Check));
        functions.extend(library.place.map(Self::Place));
        functions
    }

    pub fn name(self) -> &'static str {
        match self {
            Self::Check(_) => "check_file",
            Self::Set(set, _) => SET_NAMES[set],
            Self::Effect(_) => "effect_at",
            Self::Live(_) => "live_of",
            Self::Graph(_) => "graph_of",
            Self::Place(_) => "place_file",
        }
    }

    /// The least lengths of all buffers: the units, then buffers of words, then the bytes of the result.
    pub fn lengths(self) -> &'static [usize] {
        match self {
            Self::Set(0 | 1, _) => &[MOST_UNITS, UNIT_ROW],
            Self::Set(..) => &[MOST_UNITS, STORAGE_ROW],
            Self::Check(_) | Self::Effect(_) => &[MOST_UNITS],
            Self::Live(_) => &[MOST_UNITS, LIVE_WORDS],
            Self::Graph(_) => &[MOST_UNITS, LIVE_WORDS, GRAPH_WORDS, GRAPH_WORDS],
            Self::Place(_) => &[MOST_UNITS, LIVE_WORDS, GRAPH_WORDS, GRAPH_WORDS, RESULT_BYTES],
        }
    }

    /// The least lengths of the buffers of words, which stand between the units and the result.
    fn word_lengths(self) -> &'static [usize] {
        let lengths = self.lengths();
        &lengths[1..lengths.len().min(RESULT)]
    }

    fn buffer_name(self, buffer: usize) -> &'static str {
        match self {
            Self::Set(..) => ["units", "row"][buffer],
            _ => ["units", "live", "graph", "copies", "result"][buffer],
        }
    }
}

/// How long the lent buffers are.
#[derive(Clone, Copy, Debug)]
pub enum Lending {
    Exact,
    Longer,
    /// Only the buffer of this index is longer than needed.
    LongerOne(usize),
    /// The buffer of this index lacks one word.
    Short(usize),
    Empty,
}

impl Lending {
    /// Exact and longer buffers by turns.
    pub fn in_turn(index: usize) -> Self {
        if index.is_multiple_of(2) {
            Self::Exact
        } else {
            Self::Longer
        }
    }

    fn length(self, buffer: usize, needed: usize) -> usize {
        let longer = needed + 5 + 3 * buffer;
        match self {
            Self::Longer => longer,
            Self::LongerOne(one) if one == buffer => longer,
            Self::Short(short) if short == buffer => needed - 1,
            Self::Empty => 0,
            _ => needed,
        }
    }
}

/// The answer, and the needed words of each buffer, or nothing where they stay as found.
pub struct Outcome<'a> {
    answer: u64,
    units: Option<&'a [u32]>,
    words: Vec<Option<&'a [u64]>>,
    result: Option<&'a [u8]>,
}

impl<'a> Outcome<'a> {
    pub fn given(answer: u64, units: &'a [u32], words: Vec<&'a [u64]>) -> Self {
        Self {
            answer,
            units: Some(units),
            words: words.into_iter().map(Some).collect(),
            result: None,
        }
    }

    /// The same with the bytes of the result.
    pub fn placed(answer: u64, units: &'a [u32], words: Vec<&'a [u64]>, result: &'a [u8]) -> Self {
        Self {
            result: Some(result),
            ..Self::given(answer, units, words)
        }
    }

    pub fn too_short() -> Self {
        Self {
            answer: packed(1, 0),
            units: None,
            words: vec![None; 3],
            result: None,
        }
    }

    /// A query's row and the result of placing stay as found, and every other needed word is 0.
    pub fn refused(function: Function, number: u32, value: u32) -> Self {
        let zeros = function.word_lengths().iter().map(|&needed| match function {
            Function::Set(..) => None,
            _ => Some(&NO_WORDS[..needed]),
        });
        Self {
            answer: packed(number, value),
            units: Some(&NO_UNITS),
            words: zeros.collect(),
            result: None,
        }
    }
}

/// The buffers of one call.
struct Buffers {
    units: Lent<u32>,
    words: Vec<Lent<u64>>,
    /// Empty for every function but the placer.
    result: Lent<u8>,
}

impl Buffers {
    fn new(function: Function, lending: Lending, bare: bool, salt: usize) -> Self {
        let needed = function.lengths();
        let length = |buffer: usize| needed.get(buffer).map_or(0, |needed| lending.length(buffer, *needed));
        let words = function.word_lengths().iter().enumerate();
        Self {
            units: lent(length(0), bare, salt),
            words: words.map(|(index, _)| lent(length(index + 1), bare, salt)).collect(),
            result: lent(length(RESULT), bare, salt),
        }
    }

    /// The first wrong word with the index of its buffer.
    fn wrong_word(&self, outcome: &Outcome) -> Option<(usize, WrongWord)> {
        assert!(
            self.words.len() <= outcome.words.len(),
            "an outcome speaks of every buffer"
        );
        let in_units = self.units.wrong_word(outcome.units).map(|word| (0, word));
        let mut words = self.words.iter().zip(&outcome.words).enumerate();
        let in_words = || words.find_map(|(index, (lent, right))| Some((index + 1, lent.wrong_word(*right)?)));
        let in_result = || self.result.wrong_word(outcome.result).map(|word| (RESULT, word));
        in_units.or_else(in_words).or_else(in_result)
    }
}

fn lent<W: Word>(length: usize, bare: bool, salt: usize) -> Lent<W> {
    if bare {
        Lent::bare(length, salt)
    } else {
        Lent::new(length, salt)
    }
}

/// A function with the place or the function number that it is asked for.
#[derive(Clone, Copy)]
pub struct Call {
    pub function: Function,
    pub argument: usize,
}

impl Call {
    /// The call of a function that is asked for nothing but the file.
    pub fn of(function: Function) -> Self {
        Self { function, argument: 0 }
    }

    /// Holds the answer and all words to the outcome, in buffers with guards.
    pub fn compare(self, file: &[u8], lending: Lending, outcome: &Outcome) -> Result<(), Difference> {
        self.compare_in(file, lending, false, outcome)
    }

    /// The same in buffers without guards, for a run under a memory checker.
    pub fn compare_bare(self, file: &[u8], lending: Lending, outcome: &Outcome) -> Result<(), Difference> {
        self.compare_in(file, lending, true, outcome)
    }

    fn compare_in(self, file: &[u8], lending: Lending, bare: bool, outcome: &Outcome) -> Result<(), Difference> {
        let mut buffers = Buffers::new(self.function, lending, bare, file.len());
        let given = self.run(file, &mut buffers);
        let word = buffers.wrong_word(outcome);
        if given == outcome.answer && word.is_none() {
            return Ok(());
        }
        Err(Difference {
            file: file.to_vec(),
            call: format!("{} of {}, lent {lending:?}", self.function.name(), self.argument),
            expected: outcome.answer,
            given,
            word: word.map(|(buffer, word)| (self.function.buffer_name(buffer), word)),
        })
    }

    fn run(self, file: &[u8], buffers: &mut Buffers) -> u64 {
        let (units, result) = (buffers.units.lend(), buffers.result.lend());
        match (self.function, buffers.words.as_mut_slice()) {
            (Function::Check(call), []) => call(file, units),
            (Function::Set(_, call) | Function::Live(call), [words]) => call(file, self.argument, units, words.lend()),
            (Function::Effect(call), []) => call(file, self.argument, units),
            (Function::Graph(call), [live, graph, copies]) => {
                call(file, units, live.lend(), graph.lend(), copies.lend())
            }
            (Function::Place(call), [live, graph, copies]) => {
                call(file, units, live.lend(), graph.lend(), copies.lend(), result)
            }
            _ => unreachable!("each function has its own number of buffers"),
        }
    }
}
