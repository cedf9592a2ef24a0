//! `compare [--seed N] [--messages N]`: compares the kernel with the model, and pairs of its runs.

use model::compare::compare;
use model::exchange;
use model::hidden;
use model::kernel::Embedded;
use reel::words::WORDS;
use std::process::ExitCode;

const SEED: u64 = 1;
const MESSAGES: u64 = 1_000_000;
/// For so many messages that are compared with the model, one is in a pair of files.
const PER_PAIRED: u64 = 4;

/// The seed and the number of messages.
fn arguments(mut given: impl Iterator<Item = String>) -> Option<(u64, u64)> {
    let (mut seed, mut messages) = (SEED, MESSAGES);
    while let Some(name) = given.next() {
        let value = given.next()?.parse().ok()?;
        match name.as_str() {
            "--seed" => seed = value,
            "--messages" => messages = value,
            _ => return None,
        }
    }
    Some((seed, messages))
}

fn main() -> ExitCode {
    let Some((seed, messages)) = arguments(std::env::args().skip(1)) else {
        eprintln!("usage: compare [--seed N] [--messages N]");
        return ExitCode::from(2);
    };
    println!("compare: seed {seed}");
    let exchange = exchange::compare(&Embedded, seed).map_err(|difference| difference.to_string());
    let compared = exchange.and_then(|exchange| {
        let counts = compare(&Embedded, seed, messages)?;
        let hidden = hidden::check(&Embedded, seed, messages / PER_PAIRED)?;
        Ok((exchange, counts, hidden))
    });
    let (exchange, counts, hidden) = match compared {
        Ok(counts) => counts,
        Err(difference) => {
            println!("compare: MISMATCH, seed {seed}\n{difference}");
            return ExitCode::FAILURE;
        }
    };
    for (number, (count, word)) in counts.numbers.iter().zip(WORDS).enumerate() {
        println!("{number:4} {word:33} {count:9}");
    }
    for (reached, count) in counts.reached() {
        println!("     {reached:33} {count:9}");
    }
    println!(
        "{} whole files run, demand 3, the clean cards and the histories of pages checked on {} of them \
         from fresh tables, free, held and retired frames on {} from sound ones; {} parts of files with \
         their replies kept; {} forecasts",
        counts.runs,
        counts.runs_from_fresh,
        counts.runs_from_sound,
        counts.parts,
        counts.forecasts.forecasts
    );
    for (word, count) in exchange.rows() {
        println!("     {word:33} {count:9}");
    }
    println!(
        "{} calls given to the writer, {} times bytes to the reader of replies; {} messages written \
         again and {} replies read back",
        exchange.calls, exchange.replies, counts.turns.written_again, counts.turns.read_back
    );
    for (reached, count) in hidden.reached() {
        println!("     {reached:33} {count:9}");
    }
    println!(
        "{} pairs of files that differ in contents alone, {} messages in each of the two runs",
        hidden.pairs, hidden.messages
    );
    let too_few = [counts.too_few(), exchange.too_few(), hidden.too_few()].concat();
    if !too_few.is_empty() {
        println!("compare: TOO FEW, seed {seed}\n{}", too_few.join("\n"));
        return ExitCode::FAILURE;
    }
    println!("compare: ok, {} messages", counts.messages);
    ExitCode::SUCCESS
}
