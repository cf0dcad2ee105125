//! The known-wrong listings of runs, and which rows and accepted sheets tell them from the right one.

use crate::accepted::{self, Sampled};
use crate::facts::{self, Facts};
use crate::listing::{list_by, Listed};
use crate::parallel;
use crate::path::{Order, Truths};
use crate::runs;
use crate::WRONG_LISTINGS;
use std::io;

/// One known mistake: its name, what is wrong, and the listing with it.
pub type Wrong = (&'static str, &'static str, Listed, Sampled);

/// The seed of the accepted sheets.
const SEED: u64 = 1;

/// The rows, by their numbers in the files' order, whose list is right and not that of a wrong listing.
fn telling(facts: &Facts, wrong: Listed) -> Vec<usize> {
    let tells = |i: &usize| {
        let case = &facts.cases[*i];
        let tells = |listed| list_by(listed, facts, case, Truths::Three, case.order) != case.expected;
        !tells(runs::listed) && tells(wrong)
    };
    (0..facts.cases.len()).filter(tells).collect()
}

/// The order that a mistake, by its name, is one of.
fn order_of(name: &str) -> Order {
    if name.starts_with("free_") || name.starts_with("early_free_") {
        return Order::Free;
    }
    Order::Row
}

/// How many of so many accepted sheets read too early by each mistake, in its order.
fn early(sheets: usize) -> Vec<usize> {
    let told = parallel::each(&accepted::covered(sheets, SEED), |(number, sheet)| {
        let reads = |(name, _, _, sampled): &Wrong| accepted::reads_early(*sampled, sheet, order_of(name), *number, SEED);
        WRONG_LISTINGS.iter().map(reads).collect::<Vec<bool>>()
    });
    (0..WRONG_LISTINGS.len()).map(|i| told.iter().filter(|told| told[i]).count()).collect()
}

/// The table of known mistakes: how many rows tell each, which is the first, and how many of so many accepted sheets read too early by
/// it. One that no row listed in its order tells has failed, and so has one whose name says that it makes a sheet read too early, where
/// none does.
pub fn notice(sheets: usize) -> io::Result<bool> {
    let facts = Facts::read(facts::present()?);
    let early = early(sheets);
    println!("| mistake | what is wrong | rows | first | sheets |\n|---|---|---|---|---|");
    let mut noticed = 0;
    for ((name, title, listed, _), sheets) in WRONG_LISTINGS.iter().zip(early) {
        let telling = telling(&facts, *listed);
        let first = telling.first().map_or("".to_string(), |n| (n + 1).to_string());
        println!("| {name} | {} | {} | {first} | {sheets} |", title.replace('|', "\\|"), telling.len());
        let told = telling.iter().any(|i| facts.cases[*i].order == order_of(name));
        noticed += usize::from(told && (sheets > 0 || !name.starts_with("early_")));
    }
    println!();
    println!("{noticed} passed, {} failed", WRONG_LISTINGS.len() - noticed);
    Ok(noticed == WRONG_LISTINGS.len())
}
