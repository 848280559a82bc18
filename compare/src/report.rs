//! Counts cases and differences by kind, shows the first differences of each, and counts the answers that the cases meet.

/// A kind that differs once often differs always: these many examples of it are enough.
const EXAMPLES: u64 = 3;

#[derive(Default)]
pub struct Report {
    kinds: Vec<Kind>,
    answers: Vec<Answer>,
    hand_made: bool,
}

struct Kind {
    name: String,
    cases: u64,
    differences: u64,
}

struct Answer {
    name: String,
    /// By cases that are drawn.
    drawn: u64,
    by_hand: u64,
}

/// A kind of the report that handed it out.
#[derive(Clone, Copy)]
pub struct KindId(usize);

impl Report {
    /// The kind of that name; the same name gives the same kind.
    pub fn kind(&mut self, name: &str) -> KindId {
        let known = self.kinds.iter().position(|kind| kind.name == name);
        KindId(known.unwrap_or_else(|| {
            self.kinds.push(Kind {
                name: name.to_string(),
                cases: 0,
                differences: 0,
            });
            self.kinds.len() - 1
        }))
    }

    /// Counts a case; where it does not agree, `example` says how to see it again.
    pub fn case(&mut self, kind: KindId, agrees: bool, example: impl FnOnce() -> String) {
        let kind = &mut self.kinds[kind.0];
        kind.cases += 1;
        if !agrees {
            kind.differences += 1;
            if kind.differences <= EXAMPLES {
                println!("difference {}: {}", kind.name, example());
            }
        }
    }

    /// Counts an answer, to show that the cases reach each of them.
    pub fn answer(&mut self, name: &str) {
        let known = self.answers.iter().position(|answer| answer.name == name);
        let known = known.unwrap_or_else(|| {
            self.answers.push(Answer {
                name: name.to_string(),
                drawn: 0,
                by_hand: 0,
            });
            self.answers.len() - 1
        });
        let answer = &mut self.answers[known];
        let times = if self.hand_made {
            &mut answer.by_hand
        } else {
            &mut answer.drawn
        };
        *times += 1;
    }

    /// Whether the answers that follow are those of hand-made cases.
    pub fn set_hand_made(&mut self, hand_made: bool) {
        self.hand_made = hand_made;
    }

    /// How often an answer was met by cases that are drawn, and by hand-made ones.
    pub fn times(&self, name: &str) -> (u64, u64) {
        let answer = self.answers.iter().find(|answer| answer.name == name);
        answer.map_or((0, 0), |answer| (answer.drawn, answer.by_hand))
    }

    /// The cases of all kinds of that name or below it.
    pub fn cases(&self, name: &str) -> u64 {
        let below = |kind: &&Kind| {
            let rest = kind.name.strip_prefix(name);
            rest.is_some_and(|rest| rest.is_empty() || rest.starts_with('/'))
        };
        let kinds = self.kinds.iter().filter(below);
        kinds.map(|kind| kind.cases).sum()
    }

    pub fn differences(&self) -> u64 {
        self.kinds.iter().map(|kind| kind.differences).sum()
    }

    /// By name: random cases meet the kinds in any order.
    pub fn print(&self) {
        let (mut kinds, mut answers) = (Vec::from_iter(&self.kinds), Vec::from_iter(&self.answers));
        kinds.sort_by_key(|kind| &kind.name);
        answers.sort_by_key(|answer| &answer.name);
        println!("{:<44} {:>10} {:>12}", "kind", "cases", "differences");
        for kind in kinds {
            println!(
                "{:<44} {:>10} {:>12}",
                kind.name, kind.cases, kind.differences
            );
        }
        println!("{:<44} {:>10} {:>12}", "answer", "times", "by hand");
        for answer in answers {
            println!(
                "{:<44} {:>10} {:>12}",
                answer.name, answer.drawn, answer.by_hand
            );
        }
        println!("differences {}", self.differences());
    }
}

/// Bit for bit, but for NaNs, of which IEEE 754 leaves the bits open.
pub fn same(ours: f64, theirs: f64) -> bool {
    ours.to_bits() == theirs.to_bits() || (ours.is_nan() && theirs.is_nan())
}

pub fn hex(value: f64) -> String {
    format!("{:016x}", value.to_bits())
}
