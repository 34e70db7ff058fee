//! One call with all that it is handed, its answer, and the text in which both are stored.
use std::fmt;
use std::fs;
use std::path::PathBuf;

#[derive(Clone, Copy, Debug, PartialEq, Eq)]
pub enum Call {
    CheckGrammar,
    CheckHistory,
    Count,
    Unrank,
    Rank,
    Remaining,
    Draw,
    Append,
    RemainingMatching,
    DrawMatching,
    DrawWeighted,
}

pub const CALLS: [Call; 11] = [
    Call::CheckGrammar,
    Call::CheckHistory,
    Call::Count,
    Call::Unrank,
    Call::Rank,
    Call::Remaining,
    Call::Draw,
    Call::Append,
    Call::RemainingMatching,
    Call::DrawMatching,
    Call::DrawWeighted,
];

impl Call {
    pub fn name(self) -> &'static str {
        match self {
            Call::CheckGrammar => "check_grammar",
            Call::CheckHistory => "check_history",
            Call::Count => "count",
            Call::Unrank => "unrank",
            Call::Rank => "rank",
            Call::Remaining => "remaining",
            Call::Draw => "draw",
            Call::Append => "append",
            Call::RemainingMatching => "remaining_matching",
            Call::DrawMatching => "draw_matching",
            Call::DrawWeighted => "draw_weighted",
        }
    }

    /// How many figures it gives.
    pub fn figures(self) -> usize {
        match self {
            Call::CheckHistory | Call::Count | Call::Unrank | Call::Append => 1,
            Call::CheckGrammar | Call::Draw | Call::DrawMatching | Call::DrawWeighted => 2,
            Call::Rank | Call::Remaining | Call::RemainingMatching => 3,
        }
    }

    /// The refusals that the documents allow it, in the order in which they are tested: a line concerns every call that
    /// takes what the line names, and 18 none any more; 22 comes right after 9, 23 right after 22, 21 right after 10,
    /// and so do 24 and then 25.
    pub fn refusals(self) -> Vec<u8> {
        match self {
            Call::CheckGrammar => (1..=8).collect(),
            Call::CheckHistory => (11..=14).collect(),
            Call::Count => (1..=10).collect(),
            Call::Unrank => (1..=10).chain([16, 20]).collect(),
            Call::Rank => (1..=10).chain([17]).collect(),
            Call::Remaining => (1..=9).chain([22]).chain(10..=15).collect(),
            Call::Draw => (1..=9).chain([22]).chain(10..=16).chain([20]).collect(),
            Call::Append => [9, 22, 23].into_iter().chain(11..=14).chain([19]).collect(),
            Call::RemainingMatching => (1..=9).chain([22, 10, 21]).chain(11..=15).collect(),
            Call::DrawMatching => (1..=9).chain([22, 10, 21]).chain(11..=16).chain([20]).collect(),
            Call::DrawWeighted => (1..=9).chain([22, 10, 24, 25]).chain(11..=16).chain([20]).collect(),
        }
    }

    pub fn takes_grammar(self) -> bool {
        !matches!(self, Call::CheckHistory | Call::Append)
    }

    pub fn takes_history(self) -> bool {
        self == Call::CheckHistory || self.takes_voice()
    }

    pub fn takes_length(self) -> bool {
        matches!(self, Call::Count | Call::Unrank | Call::Remaining | Call::Draw | Call::DrawWeighted)
    }

    pub fn takes_pattern(self) -> bool {
        matches!(self, Call::RemainingMatching | Call::DrawMatching)
    }

    pub fn takes_voice(self) -> bool {
        matches!(self, Call::Remaining | Call::Draw | Call::Append | Call::DrawWeighted) || self.takes_pattern()
    }

    pub fn takes_weights(self) -> bool {
        self == Call::DrawWeighted
    }

    pub fn takes_played(self) -> bool {
        self == Call::Append
    }

    pub fn takes_number(self) -> bool {
        self.writes_sentence()
    }

    pub fn takes_sentence(self) -> bool {
        matches!(self, Call::Rank | Call::Append) || self.writes_sentence()
    }

    pub fn writes_sentence(self) -> bool {
        matches!(self, Call::Unrank | Call::Draw | Call::DrawMatching | Call::DrawWeighted)
    }
}

/// `sentence` is the buffer that *Give* and *Draw* write, `history` the one that *Log* writes; `number` is a ticket
/// where there are weights. What a call does not take is empty or 0.
#[derive(Clone, Debug, PartialEq, Eq)]
pub struct Case {
    pub call: Call,
    pub grammar: Vec<u8>,
    pub history: Vec<u8>,
    pub length: u64,
    pub pattern: Vec<u8>,
    pub voice: u64,
    pub weights: Vec<u8>,
    pub played: u64,
    pub number: u64,
    pub sentence: Vec<u8>,
}

/// `buffer` is what the written buffer holds after the call; empty where the call writes none.
#[derive(Clone, Debug, PartialEq, Eq)]
pub struct Answer {
    pub refusal: u8,
    pub figures: Vec<u64>,
    pub buffer: Vec<u8>,
}

impl fmt::Display for Answer {
    fn fmt(&self, f: &mut fmt::Formatter<'_>) -> fmt::Result {
        write!(f, "{}", self.refusal)?;
        for figure in &self.figures {
            write!(f, " {figure}")?;
        }
        write!(f, ", buffer {}", hex(&self.buffer))
    }
}

pub fn hex(bytes: &[u8]) -> String {
    bytes.iter().map(|byte| format!("{byte:02x}")).collect()
}

fn unhex(text: &str) -> Vec<u8> {
    assert!(text.len() % 2 == 0, "half a byte: {text}");
    (0..text.len()).step_by(2).map(|at| u8::from_str_radix(&text[at..at + 2], 16).expect("hex")).collect()
}

impl Case {
    pub fn new(call: Call) -> Case {
        Case {
            call,
            grammar: vec![],
            history: vec![],
            length: 0,
            pattern: vec![],
            voice: 0,
            weights: vec![],
            played: 0,
            number: 0,
            sentence: vec![],
        }
    }

    /// What the written buffer holds before the call.
    pub fn buffer(&self) -> &[u8] {
        match self.call {
            Call::Append => &self.history,
            call if call.writes_sentence() => &self.sentence,
            _ => &[],
        }
    }

    /// The stored form: a line for each thing the call takes, then its answer.
    pub fn text(&self, answer: Option<&Answer>) -> String {
        let mut lines = vec![format!("call {}", self.call.name())];
        if self.call.takes_grammar() {
            lines.push(format!("grammar {}", hex(&self.grammar)));
        }
        if self.call.takes_history() {
            lines.push(format!("history {}", hex(&self.history)));
        }
        if self.call.takes_length() {
            lines.push(format!("length {}", self.length));
        }
        if self.call.takes_pattern() {
            lines.push(format!("pattern {}", hex(&self.pattern)));
        }
        if self.call.takes_voice() {
            lines.push(format!("voice {}", self.voice));
        }
        if self.call.takes_weights() {
            lines.push(format!("weights {}", hex(&self.weights)));
        }
        if self.call.takes_played() {
            lines.push(format!("played {}", self.played));
        }
        if self.call.takes_number() {
            lines.push(format!("number {}", self.number));
        }
        if self.call.takes_sentence() {
            lines.push(format!("sentence {}", hex(&self.sentence)));
        }
        if let Some(answer) = answer {
            let figures: Vec<String> = answer.figures.iter().map(u64::to_string).collect();
            lines.push(format!("answer {} {}", answer.refusal, figures.join(" ")));
            lines.push(format!("buffer {}", hex(&answer.buffer)));
        }
        lines.iter().map(|line| format!("{}\n", line.trim_end())).collect()
    }
}

/// A case and, where one is stored, its answer.
pub type Stored = (Case, Option<Answer>);

/// The stored cases of a file. One begins at each line `call`; `#` begins a comment; without a line `voice` the voice
/// is 0, without a line `played` the sentence was played in full, without a line `answer` the reference alone says what
/// is right, and without a line `buffer` the buffer stays as it was.
pub fn parse(text: &str) -> Vec<Stored> {
    let mut cases: Vec<Stored> = vec![];
    for line in text.lines().map(str::trim).filter(|line| !line.is_empty() && !line.starts_with('#')) {
        let (field, value) = line.split_once(' ').unwrap_or((line, ""));
        if field == "call" {
            let call = CALLS.into_iter().find(|call| call.name() == value).expect("a call");
            cases.push((Case::new(call), None));
            continue;
        }
        let (case, answer) = cases.last_mut().expect("a line 'call' first");
        match field {
            "grammar" => case.grammar = unhex(value),
            "history" => case.history = unhex(value),
            "length" => case.length = value.parse().expect("a length"),
            "pattern" => case.pattern = unhex(value),
            "voice" => case.voice = value.parse().expect("a voice"),
            "weights" => case.weights = unhex(value),
            "played" => case.played = value.parse().expect("a count of words"),
            "number" => case.number = value.parse().expect("a number"),
            "sentence" => case.sentence = unhex(value),
            "answer" => {
                let mut figures: Vec<u64> = value.split(' ').map(|figure| figure.parse().expect("a figure")).collect();
                let refusal = figures.remove(0) as u8;
                if refusal != 0 {
                    figures = vec![0; case.call.figures()];
                }
                *answer = Some(Answer { refusal, figures, buffer: case.buffer().to_vec() });
            }
            "buffer" => answer.as_mut().expect("a line 'answer' first").buffer = unhex(value),
            _ => panic!("no such field: {line}"),
        }
    }
    cases
}

/// The folder of the stored cases.
pub fn folder() -> PathBuf {
    PathBuf::from(env!("CARGO_MANIFEST_DIR")).join("../../tests/cases")
}

/// The files of stored cases by name, with their cases.
pub fn stored() -> Vec<(String, Vec<Stored>)> {
    let mut files: Vec<PathBuf> = fs::read_dir(folder())
        .expect("tests/cases")
        .map(|entry| entry.expect("an entry").path())
        .filter(|path| path.extension().is_some_and(|end| end == "hex"))
        .collect();
    files.sort();
    files
        .into_iter()
        .map(|path| {
            let name = path.file_name().unwrap().to_string_lossy().into_owned();
            let text = fs::read_to_string(&path).expect("a readable file");
            (name, parse(&text))
        })
        .collect()
}
