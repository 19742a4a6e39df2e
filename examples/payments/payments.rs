//! A graph of payments between accounts that changes while rules score it, as payments.py says, with what it writes:
//!     cargo run --release --example payments [ACCOUNTS [BATCHES]]
use edgebpf::{assemble, Batch, Feed, Live, Program, Reduction, Version};
use std::cmp::Reverse;
use std::error::Error;
use std::time::Instant;

const PAYMENTS: usize = 1_000;
const REFUNDS: usize = 100;
const BEST: usize = 5;
/// So often the accounts that are chosen among may be halved.
const HALVES: u64 = 12;
/// Batches between two rebases.
const REBASE: u64 = 200;
/// The target's degree.
const KNOWN: &str = "ldxw r1, [r1+4]\ncall 1\nexit";
const COMMON: &str = include_str!("../cookbook/common.script");

/// Numbers that are the same in each language.
struct Numbers(u64);

impl Numbers {
    fn below(&mut self, bound: u64) -> u32 {
        self.0 = self
            .0
            .wrapping_mul(6_364_136_223_846_793_005)
            .wrapping_add(1_442_695_040_888_963_407);
        (((self.0 >> 33) * bound) >> 31) as u32
    }

    /// An account, of which the first pay and are paid most often.
    fn account(&mut self, accounts: u32) -> u32 {
        let halved = self.below(HALVES);
        self.below(u64::from(accounts >> halved))
    }
}

fn take_payments(graph: &Live, accounts: u32, batches: usize) -> Result<(), edgebpf::Error> {
    let (mut numbers, mut paid, mut batch) = (Numbers(1), Vec::new(), Batch::new());
    for _ in 0..batches {
        batch.clear();
        for _ in 0..PAYMENTS {
            let edge = (numbers.account(accounts), numbers.account(accounts));
            batch.insert(edge.0, edge.1);
            paid.push(edge);
        }
        for _ in 0..REFUNDS {
            let (source, target) = paid[numbers.below(paid.len() as u64) as usize];
            batch.remove(source, target);
        }
        graph.apply(Feed::A, &batch)?;
    }
    Ok(())
}

/// The rule that COOKBOOK.md compiles of C: how many neighbours both ends of an edge have.
fn common_neighbours() -> Result<Program, Box<dyn Error>> {
    let digits = COMMON
        .lines()
        .find_map(|line| line.strip_prefix("code common 16 "))
        .ok_or("no program")?;
    let byte = |place: usize| u8::from_str_radix(&digits[place..place + 2], 16);
    let code = (0..digits.len())
        .step_by(2)
        .map(byte)
        .collect::<Result<Vec<u8>, _>>()?;
    Ok(Program::verify(16, &code)?)
}

/// The accounts with the greatest scores, of which the first comes first among equals.
fn best(accounts: impl IntoIterator<Item = u32>, scores: &[u64]) -> String {
    let mut all: Vec<(u32, u64)> = accounts.into_iter().zip(scores.iter().copied()).collect();
    all.sort_unstable_by_key(|&(account, score)| (Reverse(score), account));
    all.truncate(BEST);
    all.iter()
        .map(|(account, score)| format!("{account}:{score}"))
        .collect::<Vec<_>>()
        .join(" ")
}

fn all_scores(version: &Version) -> Result<(), Box<dyn Error>> {
    let program = Program::verify(16, &assemble(KNOWN)?)?;
    let frontier: Vec<u32> = (0..version.vertices()).collect();
    let mut values = vec![0; frontier.len()];
    let totals = version.run(&program, &[], &frontier, Reduction::Sum, &mut values)?;
    println!(
        "scores of {} edges: {}; best {}",
        totals.edges,
        totals.total,
        best(frontier, &values)
    );
    Ok(())
}

/// How many accounts it and each of those that it pays have in common.
fn of_one_account(version: &Version, common: &Program, account: u32) -> Result<(), edgebpf::Error> {
    let numbers = version.numbers_of(common, &[], &[account])?;
    let (count, sum) = (numbers.len(), numbers.iter().sum::<u64>());
    println!(
        "account {account} pays {count}; in common {sum}; best {}",
        best(version.neighbours(account), &numbers)
    );
    Ok(())
}

/// Accounts that the account does not pay, and those do that it pays.
fn whom_to_pay(version: &Version, common: &Program, account: u32) -> Result<(), edgebpf::Error> {
    let own: Vec<u32> = version.neighbours(account).collect();
    let mut others = version.lists(&own)?.targets;
    others.sort_unstable();
    others.dedup();
    others.retain(|other| *other != account && own.binary_search(other).is_err());
    let numbers = version.pairs(common, &[], &vec![account; others.len()], &others)?;
    let (count, sum) = (numbers.len(), numbers.iter().sum::<u64>());
    println!(
        "account {account} may pay {count}; in common {sum}; best {}",
        best(others, &numbers)
    );
    Ok(())
}

fn main() -> Result<(), Box<dyn Error>> {
    let mut words = std::env::args().skip(1);
    let accounts: u32 = words.next().map_or(Ok(100_000), |word| word.parse())?;
    let batches: usize = words.next().map_or(Ok(500), |word| word.parse())?;
    let (common, account, mut begun) = (common_neighbours()?, accounts / 100, Instant::now());
    let mut timed = |what: &str| {
        eprintln!("{what}: {:.1} ms", 1e3 * begun.elapsed().as_secs_f64());
        begun = Instant::now();
    };
    let graph = Live::with_rebases(accounts, REBASE, u64::MAX)?;
    take_payments(&graph, accounts, batches)?;
    let (count, version) = graph.numbered()?;
    let (edges, epoch, number) = (version.edges(), version.epoch(), version.number());
    println!("{edges} edges after {count} batches, epoch {epoch}, number {number}");
    timed("payments");
    all_scores(&version)?;
    timed("scores of all");
    of_one_account(&version, &common, account)?;
    timed("numbers of one account's edges");
    whom_to_pay(&version, &common, account)?;
    timed("numbers of pairs");
    Ok(())
}
