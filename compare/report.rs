// What the driver tells: for each function how many cases it was held to, what differed, and of that the case with the
// shortest words alone, since a fault of the code shows in thousands of cases and the smallest says the most.
use std::fmt::Debug;

#[derive(Clone, Copy, PartialEq, Eq)]
pub enum Verdict {
    Equal,
    /// Another answer, and exactly where docs/DIFFERENCES.md says so.
    Listed,
    /// By a rule that the Rust does not have: it may give any answer, or panic.
    OurRule,
    Differs,
}
use Verdict::{Differs, Equal, Listed, OurRule};

/// What a function is held to, in their places: the oracles, and document 01's rules.
const OTHERS: [&str; 3] = ["the Rust over plain bits", "the Rust over bitstream.rs", "document 01's rules"];
pub const PLAIN: usize = 0;
pub const REAL: usize = 1;
pub const RULES: usize = 2;

/// The highest number that a check can count.
const NUMBERS: usize = 32;

/// One of these: the cases of each verdict, and the shortest that differs.
#[derive(Default)]
struct Against {
    verdicts: [u64; 4],
    shortest: Option<String>,
}

/// One function of the proved code.
pub struct Check {
    name: &'static str,
    /// The numbers that this function can answer (0: done). Each must be met in a run.
    numbers: &'static [u32],
    /// Whether a listed difference must be met too.
    listed: bool,
    cases: u64,
    met: [u64; NUMBERS],
    against: Vec<Against>,
}

impl Check {
    pub fn new(name: &'static str, numbers: &'static [u32]) -> Self {
        let against = OTHERS.map(|_| Against::default()).into();
        Check { name, numbers, listed: false, cases: 0, met: [0; NUMBERS], against }
    }

    /// Held to the oracles alone.
    pub fn without_rules(mut self) -> Self {
        self.against.truncate(RULES);
        self
    }

    pub fn with_listed_difference(self) -> Self {
        Check { listed: true, ..self }
    }

    /// Counts a case, by the number that the proved code answered.
    pub fn asked<'a, T>(&'a mut self, number: u32, ours: &'a T, case: &'a dyn Fn() -> String) -> Asked<'a, T> {
        self.cases += 1;
        self.met[(number as usize).min(NUMBERS - 1)] += 1;
        Asked { check: self, ours, case }
    }
}

/// A case of a check, to be judged: what the proved code answered and left behind, and the case in words.
pub struct Asked<'a, T> {
    check: &'a mut Check,
    ours: &'a T,
    case: &'a dyn Fn() -> String,
}

impl<T: PartialEq + Debug> Asked<'_, T> {
    /// Keeps a verdict, and the text of the case if none that differs was shorter.
    pub fn judge(&mut self, place: usize, verdict: Verdict, theirs: &dyn Debug) {
        let against = &mut self.check.against[place];
        against.verdicts[verdict as usize] += 1;
        if verdict == Differs {
            let text = (self.case)() + &differing(format!("{:?}", self.ours), format!("{:?}", theirs));
            if against.shortest.as_ref().map_or(true, |shortest| text.len() < shortest.len()) {
                against.shortest = Some(text);
            }
        }
    }

    /// Holds the answer to those of the oracles; no answer means a panic.
    pub fn hold(&mut self, theirs: &[Option<T>; 2]) {
        for (oracle, theirs) in theirs.iter().enumerate() {
            let equal = theirs.as_ref() == Some(self.ours);
            self.judge(oracle, if equal { Equal } else { Differs }, theirs);
        }
    }

    pub fn hold_to_rules(&mut self, theirs: &T) {
        self.judge(RULES, if self.ours == theirs { Equal } else { Differs }, theirs);
    }

    /// The same where the Rust has no rule, so that nothing is asked of it: a count far past the limits would only take
    /// its memory.
    pub fn hold_to_rules_alone(&mut self, theirs: &T) {
        self.hold_to_rules(theirs);
        [PLAIN, REAL].into_iter().for_each(|oracle| self.judge(oracle, OurRule, &""));
    }
}

/// Two answers in words, from a little before they differ.
fn differing(ours: String, theirs: String) -> String {
    let same = ours.chars().zip(theirs.chars()).take_while(|(a, b)| a == b).count();
    let part = |text: &str| text.chars().skip(same.saturating_sub(100)).take(300).collect::<String>();
    format!("\n        proved code: {}\n        not:         {}", part(&ours), part(&theirs))
}

#[derive(Default)]
pub struct Report {
    passed: u64,
    failed: u64,
}

impl Report {
    fn note(&mut self, passed: bool) {
        *(if passed { &mut self.passed } else { &mut self.failed }) += 1;
    }

    /// Tells of a function once all its cases were tried, and counts its checks.
    pub fn close(&mut self, check: Check) {
        println!("{}: {} cases", check.name, check.cases);
        for (name, against) in OTHERS.iter().zip(&check.against) {
            let [equal, listed, our_rule, differ] = against.verdicts;
            // every case must have been judged
            let passed = check.cases > 0 && differ == 0 && equal + listed + our_rule >= check.cases;
            self.note(passed);
            let how = if passed { "equal to" } else { "FAILED against" };
            println!("    {} {}: {} equal, {} of the listed difference, {} by a rule that it does not have, {} differ",
                how, name, equal, listed, our_rule, differ);
            against.shortest.iter().for_each(|text| println!("    shortest: {}", text));
        }
        for &number in check.numbers {
            self.meet(check.met[number as usize], &format!("the answer {} of {}", number, check.name));
        }
        if check.listed {
            let times = check.against[REAL].verdicts[Listed as usize];
            self.meet(times, &format!("the listed difference of {}", check.name));
        }
    }

    /// Counts a check of its own: what must be met in a run, so many times it was.
    pub fn meet(&mut self, times: u64, what: &str) {
        self.note(times > 0);
        println!("    {}{}: met {} times", if times > 0 { "" } else { "FAILED: " }, what, times);
    }

    /// The last line of a run, and its exit status.
    pub fn end(self) -> i32 {
        println!("{} passed, {} failed", self.passed, self.failed);
        i32::from(self.failed > 0)
    }
}
