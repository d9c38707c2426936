//! Compares libzagvulem.a with a second implementation of documents 01 and 02: answers, places and every byte of every lent
//! buffer.
//!
//! harness [--cases N] [--seed S] [--case K] [--plant FAULT] [--threads N] [--verbose] [--count]

mod calls;
mod compile_faults;
mod compiling;
mod dead;
mod edges;
mod examples;
mod expression_edges;
mod expressions;
mod fewest;
mod generate;
mod library;
mod masks;
mod plant;
mod random;
mod reference;
mod report;
mod rewriting;
mod round_trip;
mod saving;
mod sequences;
mod turn_faults;
mod turns;
mod wide;

use calls::{Answer, Call, Operation, Outcome, OPERATIONS};
use fewest::Tried;
use library::{Against, Library};
use plant::Fault;
use random::Random;
use rewriting::Laws;
use std::collections::{BTreeMap, BTreeSet};
use std::sync::{Mutex, OnceLock};

struct Options {
    cases: u64,
    seed: u64,
    only: Option<u64>,
    plant: Option<Fault>,
    threads: u64,
    verbose: bool,
    count: bool,
}

fn usage() -> ! {
    eprintln!("usage: harness [--cases N] [--seed S] [--case K] [--plant FAULT] [--threads N] [--verbose] [--count]");
    eprintln!("faults: {}", plant::FAULTS.iter().map(|f| f.name()).collect::<Vec<_>>().join(", "));
    std::process::exit(2)
}

fn options() -> Options {
    let threads = std::thread::available_parallelism().map_or(1, |n| n.get() as u64);
    let mut options =
        Options { cases: 20_000, seed: 1, only: None, plant: None, threads, verbose: false, count: false };
    let mut words = std::env::args().skip(1);
    while let Some(word) = words.next() {
        let mut number = || words.next().and_then(|n| n.parse().ok()).unwrap_or_else(|| usage());
        match word.as_str() {
            "--cases" => options.cases = number(),
            "--seed" => options.seed = number(),
            "--case" => options.only = Some(number()),
            "--plant" => {
                let name = words.next().unwrap_or_else(|| usage());
                options.plant = Some(Fault::of(&name).unwrap_or_else(|| usage()));
            }
            "--threads" => options.threads = number(),
            "--verbose" => options.verbose = true,
            "--count" => options.count = true,
            _ => usage(),
        }
    }
    options
}

/// How often each operation answered each number.
type Met = BTreeMap<(Operation, u8), u64>;

/// What a thread has met and tried.
type Found = (Met, Tried, rewriting::Tried, sequences::Tried, compiling::Tried);

struct Run {
    library: Library,
    plant: Option<Fault>,
    met: Met,
    tried: Tried,
    laws: Laws,
    turns: sequences::Tried,
    compiled: compiling::Tried,
}

impl Run {
    fn new(plant: Option<Fault>) -> Run {
        Run {
            library: Library::new(),
            plant,
            met: Met::new(),
            tried: Tried::default(),
            laws: Laws::default(),
            turns: sequences::Tried { planted: plant, ..sequences::Tried::default() },
            compiled: compiling::Tried::default(),
        }
    }

    fn case(&mut self, seed: u64, case: u64) -> Result<(), String> {
        let calls = generate::case(&mut Random::of(seed, case));
        calls.iter().try_for_each(|call| self.compare(&format!("case {case} of seed {seed}"), call))
    }

    /// Compares one call; of a difference, what is printed, with a reproduction.
    fn compare(&mut self, what: &str, call: &Call) -> Result<(), String> {
        let second = calls::expected(call);
        for against in [Against::Front, Against::Back] {
            if let Some(difference) = self.difference(call, against, &second) {
                let small = report::shrink(call, |c| self.difference(c, against, &calls::expected(c)).is_some());
                let ours = plant::run(self.plant, &mut self.library, &small, against);
                let reproduction = report::reproduction(&small, &ours, &calls::expected(&small));
                return Err(format!("DIFFERENCE in {what}: {difference}\n{reproduction}"));
            }
        }
        if let Err((law, difference)) = self.law(call, &second) {
            let small = report::shrink(call, |c| self.law(c, &calls::expected(c)).is_err());
            let second = calls::expected(&small);
            let reproduction = report::reproduction(&small, &Ok(second.clone()), &second);
            return Err(format!("{law} in {what}: {difference}\n{reproduction}"));
        }
        if let Some(text) = round_trip::written(&mut self.library, call) {
            let reproduction = || report::reproduction(call, &Ok(second.clone()), &second);
            if let Some(difference) = round_trip::broken(&mut self.library, call, &text) {
                return Err(format!("ROUND TRIP in {what}: {difference}\n{}", reproduction()));
            }
            if let Some(difference) = self.tried.list(&mut self.library, call, &text) {
                return Err(format!("NOT THE FEWEST in {what}: {difference}\n{}", reproduction()));
            }
        }
        *self.met.entry((call.operation, Answer(second.answer).number())).or_default() += 1;
        Ok(())
    }

    /// Of the laws of the library's calls among themselves, the first that is broken, and how.
    fn law(&mut self, call: &Call, second: &Outcome) -> Result<(), (&'static str, String)> {
        self.laws.check(&mut self.library, call, second).map_err(|how| ("REWRITING", how))?;
        self.turns.check(&mut self.library, call, second).map_err(|how| ("TURNS", how))?;
        self.compiled.check(&mut self.library, call, second).map_err(|how| ("RULE OF AN EXPRESSION", how))
    }

    fn difference(&mut self, call: &Call, against: Against, second: &Outcome) -> Option<String> {
        match plant::run(self.plant, &mut self.library, call, against) {
            Err(guard) => Some(guard),
            Ok(ours) if ours.answer != second.answer => {
                Some(format!("the library answers {}, the second {}", Answer(ours.answer), Answer(second.answer)))
            }
            Ok(ours) => call
                .buffers()
                .iter()
                .zip(ours.buffers.iter().zip(&second.buffers))
                .find(|(_, (a, b))| a != b)
                .map(|((name, _), _)| format!("other bytes in {name}")),
        }
    }
}

/// The numbers that each operation can answer.
fn possible(operation: Operation) -> Vec<u8> {
    let book = 0..=13;
    match operation {
        Operation::ReadBook => book.collect(),
        Operation::ReadBookStrict => book.chain([33]).collect(),
        Operation::RewriteBook => book.chain([22]).collect(),
        Operation::Rule => book.chain([18]).collect(),
        Operation::Lex => book.chain(14..=15).collect(),
        Operation::LexBuiltin => vec![0, 14, 15],
        Operation::LexWithin => book.chain([14, 15, 27]).collect(),
        Operation::Print => book.chain(16..=22).collect(),
        Operation::PrintSeparated => book.chain(16..=20).chain(22..=26).collect(),
        Operation::Compile => vec![0, 6, 22, 30, 31, 32],
    }
}

/// Prints how often each number was met; the operations and numbers that never were.
fn never_met(met: &Met) -> Vec<String> {
    let mut missing = Vec::new();
    for operation in OPERATIONS {
        let mut counts = Vec::new();
        for number in possible(operation) {
            let count = met.get(&(operation, number)).copied().unwrap_or(0);
            if count == 0 {
                missing.push(format!("{} {number}", operation.name()));
            }
            counts.push(format!("{number}:{count}"));
        }
        println!("{}: {}", operation.name(), counts.join(" "));
    }
    missing
}

/// The random cases, then the edges, each by its number, for as many threads as take them.
struct Work<'a> {
    options: &'a Options,
    edges: OnceLock<Vec<(String, Call)>>,
    state: Mutex<State>,
}

#[derive(Default)]
struct State {
    next: u64,
    running: BTreeSet<u64>,
    /// The least number with a difference so far, and what is printed of it.
    first: Option<(u64, String)>,
}

impl Work<'_> {
    /// The edges, which are made once the random cases are taken.
    fn edges(&self) -> &[(String, Call)] {
        self.edges.get_or_init(edges::calls)
    }

    fn run(&self) -> Found {
        let mut run = Run::new(self.options.plant);
        while let Some(number) = self.take() {
            let result = self.one(&mut run, number);
            self.done(number, result);
        }
        (run.met, run.tried, run.laws.tried, run.turns, run.compiled)
    }

    /// The next number; none where there is no more or one before it has a difference.
    fn take(&self) -> Option<u64> {
        let mut state = self.state.lock().unwrap();
        let number = state.next;
        let cases = self.options.cases;
        if state.first.is_some() || (number >= cases && number - cases >= self.edges().len() as u64) {
            return None;
        }
        state.next += 1;
        state.running.insert(number);
        Some(number)
    }

    /// Ends the program once a number has a difference and every one before it has none, so that the same difference is
    /// reported whatever the number of threads.
    fn done(&self, number: u64, result: Result<(), String>) {
        let mut state = self.state.lock().unwrap();
        state.running.remove(&number);
        if let Err(difference) = result {
            if state.first.as_ref().map_or(true, |(n, _)| number < *n) {
                state.first = Some((number, difference));
            }
        }
        if let Some((n, difference)) = &state.first {
            if state.running.range(..n).next().is_none() {
                differs(difference);
            }
        }
    }

    fn one(&self, run: &mut Run, number: u64) -> Result<(), String> {
        let Options { cases, seed, verbose, .. } = *self.options;
        if number < cases {
            if verbose {
                eprintln!("case {number}");
            }
            return run.case(seed, number);
        }
        let (name, call) = &self.edges()[(number - cases) as usize];
        if verbose {
            eprintln!("{name}");
        }
        run.compare(name, call)
    }
}

/// As large as that of a main thread.
const STACK: usize = 8 << 20;

fn differs(difference: &str) -> ! {
    println!("{difference}");
    std::process::exit(1)
}

pub fn main() {
    let options = options();
    if options.count {
        println!("{} edges", edges::calls().len());
        return;
    }
    if let Some(case) = options.only {
        if let Err(difference) = Run::new(options.plant).case(options.seed, case) {
            differs(&difference);
        }
        println!("case {case} of seed {}: no difference", options.seed);
        return;
    }
    let wrong = if options.plant.is_none() { examples::run(&mut Library::new()) } else { 0 };
    // random cases first: a difference among them is smaller than one at an edge
    let work = Work { options: &options, edges: OnceLock::new(), state: Mutex::default() };
    let each: Vec<Found> = std::thread::scope(|scope| {
        let spawn = |_| std::thread::Builder::new().stack_size(STACK).spawn_scoped(scope, || work.run()).unwrap();
        let started: Vec<_> = (0..options.threads).map(spawn).collect();
        started.into_iter().map(|thread| thread.join().unwrap()).collect()
    });
    let mut met = Met::new();
    let mut tried = Tried::default();
    let mut books = rewriting::Tried::default();
    let mut turns = sequences::Tried::default();
    let mut expressions = compiling::Tried::default();
    for (answers, lists, rewritten, in_turns, compiled) in each {
        answers.into_iter().for_each(|(answer, count)| *met.entry(answer).or_default() += count);
        tried.add(lists);
        books.add(rewritten);
        turns.add(in_turns);
        expressions.add(compiled);
    }
    let mut missing = never_met(&met);
    let Tried { lists, ways, tighter } = tried;
    println!(
        "fewest separators: {lists} lists, {ways} ways with fewer copies; in mode 1 {tighter} lists can be tighter"
    );
    if ways == 0 || tighter == 0 {
        missing.push("a list that wants separators".to_string());
    }
    let rewriting::Tried { repeated, same } = books;
    println!("rewriting: {repeated} calls repeated by the rewritten book, {same} by a book that stays as it is");
    if repeated == 0 || same == 0 {
        missing.push("a book to be rewritten".to_string());
    }
    let sequences::Tried { extended, sequences, turns, idle, saves, .. } = turns;
    println!(
        "turns: {extended} that a larger budget extends; {sequences} times to the finish, in {turns} turns, {idle} of them idle; \
         {saves} times saved before it"
    );
    if extended == 0 || turns == sequences || idle == 0 || saves == 0 {
        missing.push("a text that takes several turns".to_string());
    }
    let compiling::Tried { rules, tokens, too_long, too_many, empty } = expressions;
    println!(
        "expressions: {rules} rules read, {tokens} tokens by them; not read for their bytes {too_long}, their moves {too_many}, the \
         empty string {empty}"
    );
    if [rules, tokens, too_long, too_many, empty].contains(&0) {
        missing.push("an expression whose rule is read, or not".to_string());
    }
    let numbers: BTreeSet<u8> = met.keys().map(|(_, n)| *n).filter(|n| *n > 0).collect();
    println!(
        "seed {}: {} cases, {} edges, {} calls, {} refusal numbers met, {wrong} examples wrong, no difference",
        options.seed,
        options.cases,
        work.edges().len(),
        met.values().sum::<u64>(),
        numbers.len()
    );
    if !missing.is_empty() {
        println!("never met: {}", missing.join(", "));
    }
    if !missing.is_empty() || wrong > 0 {
        std::process::exit(1);
    }
}
