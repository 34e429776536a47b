//! One call with everything that it is given, and what it leaves behind.

use crate::budget::Asked;
use crate::graph::MOST_FILES;
use crate::replayed::Replayed;
use crate::tally::LENGTHS;

#[derive(Clone, Copy, PartialEq, Eq, PartialOrd, Ord, Debug)]
pub enum Call {
    Check,
    Replay,
    IsComplete,
    Shadows,
    Direct,
    DirectRecorded,
    Linear,
    LinearRecorded,
    FindName,
    Tally,
    ResolveFlow,
    Fresh,
    ReplaceFile,
    ReplaceAliases,
    Convert,
    Compact,
    Lookup,
    Stitched,
    StitchedRecorded,
    Widen,
    Narrow,
    Node,
    Edge,
    References,
    Outgoing,
}

impl Call {
    pub fn is_rewriting(self) -> bool {
        matches!(self, Self::Widen | Self::Narrow)
    }

    pub fn is_replacement(self) -> bool {
        matches!(self, Self::ReplaceFile | Self::ReplaceAliases)
    }

    pub fn is_stitched(self) -> bool {
        matches!(self, Self::Stitched | Self::StitchedRecorded)
    }

    /// They read what stands in an image.
    pub fn is_reader(self) -> bool {
        matches!(self, Self::Node | Self::Edge) || self.is_list()
    }

    /// Readers that are lent words for numbers.
    pub fn is_list(self) -> bool {
        matches!(self, Self::References | Self::Outgoing)
    }

    /// How many numbers its answer has at most.
    pub fn longest_answer(self) -> usize {
        match self {
            Self::Tally => 1 + LENGTHS,
            Self::ResolveFlow => LONGEST_ANSWER + 2,
            _ => LONGEST_ANSWER,
        }
    }

    /// "Each search takes a set of visible files", finding a name, the tally, a
    /// cash flow and reading too.
    pub fn takes_set(self) -> bool {
        let is_other = matches!(
            self,
            Self::Direct | Self::DirectRecorded | Self::Linear | Self::LinearRecorded
        );
        is_other
            || self.is_stitched()
            || self.is_reader()
            || matches!(self, Self::FindName | Self::Tally | Self::ResolveFlow)
    }

    pub fn is_recorded(self) -> bool {
        matches!(
            self,
            Self::DirectRecorded | Self::LinearRecorded | Self::StitchedRecorded
        )
    }
}

/// What a call does not take stays empty.
#[derive(Clone, PartialEq, Eq, Debug)]
pub struct Case {
    pub call: Call,
    pub image: Vec<u8>,
    /// The set of visible files; every file, where no other is drawn.
    pub visible: Vec<u8>,
    /// The reference, the node to be named, the file or the partial path, the node or the
    /// edge to be read; of the left path in `shadows`.
    pub number: u32,
    pub edges: Vec<u32>,
    pub right_number: u32,
    pub right_edges: Vec<u32>,
    /// The order, then each limit as whether there is one and its value.
    pub asked: Vec<u64>,
    /// The database; of a conversion the old area.
    pub words: Vec<u32>,
    pub work: Vec<u32>,
    /// The result slots, the words for a replayed path, the new area of a conversion, the
    /// list of a compaction, or that of a reader.
    pub result: Vec<u32>,
    /// The bytes for a rewritten image.
    pub area: Vec<u8>,
    /// The rows of a directory, and the key that is looked up.
    pub rows: Vec<u8>,
    pub isin: Vec<u8>,
    pub tranche: u32,
    pub leg: u32,
    /// How many numbers of the answer are asked for.
    pub answer_length: usize,
}

/// The longest answer but those of a tally and a cash flow has 10 numbers.
const LONGEST_ANSWER: usize = 10;

impl Case {
    pub fn new(call: Call, image: &[u8]) -> Self {
        Self {
            call,
            image: image.to_vec(),
            visible: vec![1; MOST_FILES],
            number: 0,
            edges: vec![],
            right_number: 0,
            right_edges: vec![],
            asked: vec![],
            words: vec![],
            work: vec![],
            result: vec![],
            area: vec![],
            rows: vec![],
            isin: vec![],
            tranche: 0,
            leg: 0,
            answer_length: call.longest_answer(),
        }
    }

    /// What the numbers of `asked` mean; those that are missing count as 0.
    pub fn meaning(&self) -> Asked {
        let number = |at: usize| self.asked.get(at).copied().unwrap_or(0);
        let limit = |at: usize| (number(at) != 0).then(|| number(at + 1));
        Asked {
            depth_first: number(0) != 0,
            length: limit(1),
            count: limit(3),
            complete: limit(5),
        }
    }
}

/// The answer's numbers and every word of what was lent to be written.
#[derive(Clone, PartialEq, Eq, Debug)]
pub struct Outcome {
    pub answer: Vec<u64>,
    pub words: Vec<u32>,
    pub work: Vec<u32>,
    pub result: Vec<u32>,
    pub area: Vec<u8>,
}

impl Outcome {
    /// An answer whose number is told whole, with zero areas and the words as they were.
    pub fn new(case: &Case, answer: Vec<u64>) -> Self {
        Self {
            answer,
            words: case.words.clone(),
            work: vec![0; case.work.len()],
            result: vec![0; case.result.len()],
            area: vec![0; case.area.len()],
        }
    }

    /// The number of the answer; 0 for a call that was not refused.
    pub fn number(&self) -> u64 {
        self.answer.first().copied().unwrap_or(0)
    }

    /// As many numbers of the answer as are asked for, zeros behind them.
    pub fn cut(mut self, case: &Case) -> Self {
        self.answer.resize(case.answer_length, 0);
        self
    }

    /// Without how many paths ever waited together, the last number of a search or a
    /// replaced file, which the given library does not count.
    pub fn without_waited(&self, call: Call) -> Self {
        let mut outcome = self.clone();
        let place = if call.is_replacement() { 6 } else { 9 };
        if let (0, Some(number)) = (self.number(), outcome.answer.get_mut(place)) {
            *number = 0;
        }
        outcome
    }

    /// The edge lists in the first result slots: "edge count, edges, zeros".
    pub fn put_paths(&mut self, paths: &[Vec<u32>]) {
        for (edges, slot) in paths
            .iter()
            .zip(self.result.chunks_exact_mut(crate::budget::SLOT))
        {
            slot[0] = edges.len() as u32;
            slot[1..=edges.len()].copy_from_slice(edges);
        }
    }

    /// A replayed path, as many of its words as fit.
    pub fn put_replayed(&mut self, path: &Replayed) {
        for (word, place) in path.words().into_iter().zip(&mut self.result) {
            *place = word;
        }
    }
}
