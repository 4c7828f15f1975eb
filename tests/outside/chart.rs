//! The wall chart as docs/FORMATS.md prints it and as the finder has it: all fifty entries.

use crate::reference::entry;
use crate::{Outcome, Trial};

const PLACES: usize = 5;

/// A chart's rows by place, the entries as they are spelt.
type Rows = Vec<Vec<String>>;

/// A file with a chart, what finds the rows in its text, how an entry is spelt there, and a text with such rows.
struct Chart {
    file: &'static str,
    rows: fn(&str) -> Result<Rows, String>,
    spelt: fn(u32) -> String,
    text: fn(&Rows) -> String,
}

const PRINTED: Chart = Chart { file: "docs/FORMATS.md", rows: printed, spelt: grouped, text: as_printed };
const CONSTANT: Chart = Chart { file: "crates/digits/src/lib.rt", rows: constant, spelt: |n| n.to_string(), text: as_constant };
const BOTH: [Chart; 2] = [PRINTED, CONSTANT];

/// Where the constant begins.
const DECLARED: &str = "const CHART: Chart =";

/// A number with its thousands parted by a comma.
fn grouped(n: u32) -> String {
    if n < 1_000 {
        n.to_string()
    } else {
        format!("{},{:03}", n / 1_000, n % 1_000)
    }
}

/// The cells of a line of a table.
fn cells(line: &str) -> Option<Vec<&str>> {
    let inner = line.trim().strip_prefix('|')?.strip_suffix('|')?;
    Some(inner.split('|').map(str::trim).collect())
}

/// How deep a heading is; None for another line.
fn depth(line: &str) -> Option<usize> {
    let depth = line.len() - line.trim_start_matches('#').len();
    (depth > 0).then_some(depth)
}

/// The rows of the table under the heading of the wall chart, without their first cells. Those name the places in order, and the table's first
/// line names the digits in order.
fn printed(text: &str) -> Result<Rows, String> {
    let mut lines = text.lines().skip_while(|line| depth(line).is_none() || !line.to_lowercase().contains("wall chart"));
    let heading = lines.next().and_then(depth).ok_or("no heading has \"wall chart\"")?;
    let section = lines.take_while(|line| depth(line).map_or(true, |depth| depth > heading));
    let table: Vec<Vec<&str>> = section.skip_while(|line| cells(line).is_none()).map_while(cells).collect();
    let [digits, _, rows @ ..] = &table[..] else { return Err("no table".into()) };
    let due: Vec<String> = (0..10).map(|digit| digit.to_string()).collect();
    if digits[1..] != due {
        return Err(format!("digits {:?}", &digits[1..]));
    }
    let places = rows.iter().map(|row| row[0]);
    if !places.clone().eq((0..rows.len()).map(|place| place.to_string())) {
        return Err(format!("places {:?}", places.collect::<Vec<_>>()));
    }
    Ok(rows.iter().map(|row| row[1..].iter().map(|text| text.to_string()).collect()).collect())
}

/// The rows of the constant, in whatever lines they stand.
fn constant(text: &str) -> Result<Rows, String> {
    let (_, after) = text.split_once(DECLARED).ok_or("no constant")?;
    let (table, _) = after.split_once(';').ok_or("the constant does not end")?;
    let dense = table.split_whitespace().collect::<String>().replace(",]", "]");
    let rows = dense.strip_prefix("[[").and_then(|rest| rest.strip_suffix("]]")).ok_or("no table")?;
    Ok(rows.split("],[").map(|row| row.split(',').map(str::to_string).collect()).collect())
}

/// The rows due: digit times ten to the place.
fn due(chart: &Chart) -> Rows {
    (0..PLACES).map(|place| (0..10).map(|digit| (chart.spelt)(entry(place, digit))).collect()).collect()
}

/// Compares the chart in a text with the one due; gives the number of entries.
fn check(chart: &Chart, text: &str) -> Outcome {
    let (rows, due) = ((chart.rows)(text)?, due(chart));
    if let Some(place) = (0..PLACES).find(|&place| rows.get(place) != Some(&due[place])) {
        return Err(format!("place {place}: {:?}, should be {:?}", rows.get(place), due[place]));
    }
    if rows.len() > PLACES {
        return Err(format!("{} rows, should be {PLACES}", rows.len()));
    }
    Ok(PLACES * 10)
}

/// The charts of both files.
pub fn charts(_: &Trial) -> Outcome {
    let mut count = 0;
    for chart in BOTH {
        let report = |what: String| format!("{}: {what}", chart.file);
        let text = std::fs::read_to_string(chart.file).map_err(|e| report(e.to_string()))?;
        count += check(&chart, &text).map_err(report)?;
    }
    Ok(count)
}

/// A document with a table of these rows, and other tables before and after it.
fn as_printed(rows: &Rows) -> String {
    let line = |first: &str, cells: &[String]| format!("| {first} | {} |\n", cells.join(" | "));
    let digits: Vec<String> = (0..10).map(|digit| digit.to_string()).collect();
    let table: String = rows.iter().enumerate().map(|(place, row)| line(&place.to_string(), row)).collect();
    let head = line("place", &digits) + &"|---".repeat(11) + "|\n";
    format!(
        "## Numbers\n\n| 0 | 1 |\n\n### The wall chart\n\nEntries:\n\n{head}{table}\nA number:\n\n| 5 | 0 |\n\n## The log\n\n| 5 | 0 |\n"
    )
}

/// A source with these rows in its constant.
fn as_constant(rows: &Rows) -> String {
    let table: String = rows.iter().map(|row| format!("    [{}],\n", row.join(", "))).collect();
    format!("// Entries.\n{DECLARED} [\n{table}];\n\nconst LAST: usize = 9;\n")
}

/// Texts with a wrong chart: an entry changed or left out, a row left out, doubled or exchanged with the next; no table, another heading, other
/// places, other digits.
fn wrong(chart: &Chart) -> Vec<(String, String)> {
    let right = due(chart);
    let mut all = Vec::new();
    let mut push = |what: String, change: &dyn Fn(&mut Rows)| {
        let mut rows = right.clone();
        change(&mut rows);
        all.push((what, (chart.text)(&rows)));
    };
    for place in 0..PLACES {
        for digit in 0..10 {
            let wrong = (chart.spelt)(entry(place, digit as u32) + 1);
            push(format!("place {place}, digit {digit}: {wrong}"), &|rows| rows[place][digit] = wrong.clone());
            push(format!("place {place} without digit {digit}"), &|rows| drop(rows[place].remove(digit)));
        }
        push(format!("no place {place}"), &|rows| drop(rows.remove(place)));
        push(format!("place {place} twice"), &|rows| rows.insert(place, rows[place].clone()));
        push(format!("place {place} exchanged"), &|rows| rows.swap(place, (place + 1) % PLACES));
    }
    push("no rows".into(), &|rows| rows.clear());
    let text = (chart.text)(&right);
    let parts = ["wall chart", "| 3 | 0", "| place | 0 | 1", DECLARED].into_iter().filter(|part| text.contains(part));
    all.extend(parts.map(|part| (format!("another text for {part}"), text.replacen(part, "| 4 | 7", 1))));
    all
}

/// Checks the check: the right charts must pass, and no wrong one. Gives the number of wrong ones and the failures.
pub fn selftest() -> (usize, Vec<String>) {
    let mut failed = Vec::new();
    let mut count = 0;
    for chart in BOTH {
        failed.extend(check(&chart, &(chart.text)(&due(&chart))).err());
        for (what, text) in wrong(&chart) {
            count += 1;
            if check(&chart, &text).is_ok() {
                failed.push(format!("not caught in {}: {what}", chart.file));
            }
        }
    }
    (count, failed)
}
