//! Compares every call of the archives with an independent reference on seeded inputs, a line for each group; a difference is reported
//! with its input and makes the run fail. `--selftest` shows that wrong variants of the calls, and wrong charts, are caught by the same
//! comparisons.

mod calls;
mod chart;
mod compare;
mod damaged_spells;
mod digit_faults;
mod digits;
mod faults;
mod full_lists;
mod inputs;
mod inside_faults;
mod insides;
mod itself;
mod lane_faults;
mod lanes;
mod lent;
mod log_alone;
mod nine_faults;
mod over_lists;
mod over_logs;
mod pick_faults;
mod picking;
mod plain;
mod quick;
mod reference;
mod shown;
mod shown_faults;
mod spell_faults;
mod spell_inputs;
mod triple_faults;
mod witness_faults;
mod witness_inputs;
mod witness_laws;
mod witnesses;
mod worked_insides;
mod worked_spells;
mod worked_witnesses;

use std::collections::BTreeSet;

/// The calls on trial, and the part of each group's rounds that is run (1: all, 10: a tenth).
pub struct Trial<'a> {
    pub calls: &'a dyn calls::Calls,
    pub part: usize,
}

impl Trial<'_> {
    pub fn rounds(&self, all: usize) -> usize {
        all / self.part
    }
}

/// The number of comparisons made, or the report of the first difference.
pub type Outcome = Result<usize, String>;

/// A group's name and what it compares.
type Group = (&'static str, fn(&Trial) -> Outcome);

/// Groups that try the calls on seeded inputs.
const SEEDED: [Group; 31] = [
    ("patterns", over_logs::patterns),
    ("lines", over_logs::lines),
    ("logs", over_logs::logs),
    ("long logs", over_logs::long),
    ("bounds", over_logs::bounds),
    ("runs", over_logs::runs),
    ("steps", over_logs::steps),
    ("padding", lanes::padding),
    ("damaged spells", damaged_spells::measures),
    ("long spells", damaged_spells::long),
    ("spells put in", damaged_spells::put_in),
    ("runs with spells", damaged_spells::runs),
    ("long lists", damaged_spells::over_lists),
    ("counts", log_alone::counts),
    ("parts", log_alone::parts),
    ("lists", over_lists::lists),
    ("spoiled lists", over_lists::spoiled),
    ("taking", over_lists::taking),
    ("picks", picking::picks),
    ("refused picks", picking::refused),
    ("long picks", picking::long),
    ("laws of picks", picking::laws),
    ("witnesses", witnesses::witnesses),
    ("refused witnesses", witnesses::refused),
    ("long witnesses", witnesses::long),
    ("laws of witnesses", witness_laws::laws),
    ("witnesses in runs", witness_laws::runs),
    ("digit values", digits::values),
    ("laws of insides", insides::laws),
    ("full lists", full_lists::full),
    ("laws of lists", full_lists::laws),
];

const FIXED: [Group; 12] = [
    ("reference", itself::reference),
    ("worked cases", itself::cases),
    ("lane fields", lanes::cases),
    ("worked numbers", digits::cases),
    ("wall chart", chart::charts),
    ("worked spells", worked_spells::cases),
    ("samples", over_logs::samples),
    ("log alone", log_alone::cases),
    ("worked picks", picking::cases),
    ("worked witnesses", worked_witnesses::cases),
    ("worked insides", worked_insides::cases),
    ("worked full lists", full_lists::cases),
];

/// Runs all groups on the archive; gives the number that failed.
fn compare_archive() -> usize {
    let trial = Trial { calls: &calls::Archive, part: 1 };
    let mut failed = 0;
    for (name, group) in FIXED.iter().chain(&SEEDED) {
        match group(&trial) {
            Ok(count) => println!("{name}: {count} compared, no difference"),
            Err(report) => {
                println!("{name}: DIFFERENCE: {report}");
                failed += 1;
            }
        }
    }
    failed
}

/// Runs the seeded groups, shortened, on the right plain calls and on each wrong variant: the right ones must pass, each wrong one must be
/// caught by some group, and each group must catch some. A wrong chart must be caught too. Gives the number of failures.
fn selftest() -> usize {
    let report = |calls: &plain::Plain, (name, group): &Group| {
        let found = group(&Trial { calls, part: 20 }).err();
        found.map(|report| format!("{name}: {report}"))
    };
    let variants = faults::variants();
    let verbose = std::env::args().any(|arg| arg == "--verbose");
    let mut failed = Vec::new();
    failed.extend(SEEDED.iter().find_map(|group| report(&plain::RIGHT, group)));
    // The group that caught the last one goes first: variants of one call stand together.
    let mut groups: Vec<&Group> = SEEDED.iter().collect();
    let mut busy = BTreeSet::new();
    for (fault, plain) in &variants {
        match groups.iter().enumerate().find_map(|(at, group)| report(plain, group).map(|report| (at, report))) {
            Some((at, report)) => {
                busy.insert(groups[at].0);
                groups[..=at].rotate_right(1);
                if verbose {
                    println!("{fault}: caught by {report}");
                }
            }
            None => failed.push(format!("not caught: {fault}")),
        }
    }
    let others = SEEDED.iter().filter(|(name, _)| !busy.contains(name));
    let idle = others.filter(|group| !variants.iter().any(|(_, plain)| report(plain, group).is_some()));
    failed.extend(idle.map(|(name, _)| format!("{name} catches nothing")));
    let (charts, passed) = chart::selftest();
    failed.extend(passed);
    failed.iter().for_each(|what| println!("selftest: FAILED: {what}"));
    println!("selftest: {} wrong variants and {charts} wrong charts caught, {} failures", variants.len(), failed.len());
    failed.len()
}

fn main() {
    let failed = if std::env::args().any(|arg| arg == "--selftest") { selftest() } else { compare_archive() };
    std::process::exit(i32::from(failed > 0));
}
