//! The text of a sheet's page, byte for byte: its fixed parts, and a row for each trace, level and source.

use std::cmp::Reverse;

use super::names::Names;
use super::noted::Noted;
use super::sums::{LeftOut, Sheet};
use crate::bounds::kept::Unkept;
use crate::model::aic::SOURCES;
use crate::stack::Table;

/// All that stands before the first trace.
pub const HEAD: &str = r#"<!DOCTYPE html>
<html xmlns="http://www.w3.org/1999/xhtml" lang="en" xml:lang="en">
<head>
<meta charset="utf-8"/>
<title>Tuning sheet</title>
<style>
body{font:9pt sans-serif;color:black;background:white;max-width:190mm;margin:0 auto;padding:4mm;display:flex;flex-direction:column}
header{order:1}
#stack{order:2}
#sources{order:3}
#meaning{order:4}
#traces{order:5}
table{border-collapse:collapse;margin:2mm 0;font-size:8pt}
th,td{border:1px solid black;padding:0.5mm 1mm;text-align:left;vertical-align:top}
#traces td:nth-child(2){overflow-wrap:anywhere}
#sources td:nth-child(2){overflow-wrap:anywhere;min-width:20mm}
#traces td:last-child{min-width:24mm}
#traces table{margin-bottom:0}
tbody th{white-space:nowrap}
h2,dt{break-after:avoid}
dt{font-weight:bold}
thead{display:table-header-group}
tr{break-inside:avoid}
@page{size:A4;margin:10mm}
@media print{body{padding:0}}
</style>
</head>
<body>
<section id="traces">
<h2>Traces</h2>
<table>
<thead>
<tr><th>trace</th><th>name</th><th>steps played</th><th>steps refused</th><th>marks opened</th><th>idle ends</th><th>entries left open</th><th>ending</th></tr>
</thead>
<tbody>
"#;

/// What each figure counts.
const MEANING: &str = r#"<section id="meaning">
<h2>What each figure counts</h2>
<dl>
<dt>stack</dt><dd>bytes of handler and mark frames open at once. Proved of every trace counted, from reset on: neverMoreKept of stack.</dd>
<dt>table kept</dt><dd>every source that is enabled has the table's priority, type and forcing, at the start and after every step; a trace that breaks this is left out by 18: keepsIs of stack.</dd>
<dt>started</dt><dd>handlers of the source that were started, added up over the traces: startedOf of aic_waits.</dd>
<dt>most seen</dt><dd>handlers of other sources started during one wait of the source, the most of any wait: waitedOf of aic_waits.</dd>
<dt>at most</dt><dd>handlers of other sources that can be started during one wait, the largest bound of the waits that have one: the sum of pending, edges, commands, turns, closed while active and remembered. No such wait saw more: everyMoment of aic_bounds.</dd>
<dt>waits without a bound</dt><dd>waits during which a mode or a forcing was written; at most speaks of the others.</dd>
<dt>closed while active</dt><dd>handlers of level-sensitive sources that ended while their lines were active: where it is not 0, a handler ends before its device is quiet.</dd>
<dt>entries open</dt><dd>handlers and marks open at once while a handler of the source was among them, the most of any moment: entriesOf of aic_waits.</dd>
<dt>marks, idle ends, entries left open, steps refused</dt><dd>no errors, and each is often the only sign of one.</dd>
</dl>
</section>
"#;

/// The row of the nth name.
pub fn row(n: u32, name: &[u8], row: &Result<Noted, LeftOut>) -> String {
    let cells = match row {
        Ok(noted) => {
            let (steps, refused) = (noted.figures.steps, noted.figures.refused);
            let Noted {
                marks, idle, left, ..
            } = noted;
            format!("<td data-figure=\"trace-steps\">{steps} steps</td><td data-figure=\"trace-steps-refused\">{refused} steps</td><td data-figure=\"trace-marks\">{marks} marks</td><td data-figure=\"trace-idle-ends\">{idle} ends</td><td data-figure=\"trace-entries-left-open\">{left} entries</td><td data-figure=\"trace-ending\">{}</td>", ending(noted))
        }
        Err(why) => format!(
            "<td colspan=\"6\" data-figure=\"trace-left-out\">left out by {}</td>",
            left_out(why)
        ),
    };
    format!("<tr><th>{n}</th><td>{}</td>{cells}</tr>\n", escaped(name))
}

fn left_out(why: &LeftOut) -> String {
    match why {
        LeftOut::Full => "16: a sum of the page would pass 4294967295".to_owned(),
        LeftOut::Unopened => "17: it could not be opened or read".to_owned(),
        LeftOut::Unkept(Unkept { step, source }) => {
            format!("18: after step {step} source {source} is enabled and not as in the table")
        }
    }
}

fn ending(noted: &Noted) -> String {
    let ended = match noted.ending {
        (0, _) => "whole".to_owned(),
        (refusal, offset) => format!("E {refusal} {offset}"),
    };
    let more = match (noted.aic, noted.used) {
        (false, _) => ", not of an AIC: steps only",
        (true, 0) => ", enables no source",
        _ => "",
    };
    ended + more
}

/// A name as it is shown: two different ones never look alike.
pub fn escaped(name: &[u8]) -> String {
    let shown = |&byte: &u8| match byte {
        b'&' => "&amp;".to_owned(),
        b'<' => "&lt;".to_owned(),
        b'>' => "&gt;".to_owned(),
        b'"' => "&quot;".to_owned(),
        b'\\' => "\\\\".to_owned(),
        b' '..=b'~' => char::from(byte).to_string(),
        _ => format!("\\x{byte:02X}"),
    };
    name.iter().map(shown).collect()
}

/// Whether a source is on the page: some trace enables it, or the table says something of it.
pub fn is_shown(table: &Table, sheet: &Sheet, source: usize) -> bool {
    let row = table.rows[source];
    sheet.used >> source & 1 == 1 || row.priority | row.kind | row.frame != 0
}

/// The sources on the page, those first that are ahead of others, fast ones last.
pub fn order(table: &Table, sheet: &Sheet) -> Vec<usize> {
    let shown = (0..SOURCES).filter(|&n| is_shown(table, sheet, n));
    let mut shown: Vec<usize> = shown.collect();
    shown.sort_by_key(|&n| (!table.is_normal(n), Reverse(table.rows[n].priority), n));
    shown
}

/// The bytes of a level, and the source whose frame that is unless it is the mark's.
pub fn level(table: &Table, level: u32) -> (u32, Option<usize>) {
    let frames = table.frames_at(level);
    match frames.last() {
        Some(&most) if most > table.mark => {
            let has = |&n: &usize| {
                let row = table.rows[n];
                table.is_normal(n) && (row.priority, row.frame) == (level, most)
            };
            (most, (0..SOURCES).find(has))
        }
        _ => (table.mark, None),
    }
}

/// All that stands behind the last trace.
pub fn end(table: &Table, names: &Names, sheet: &Sheet) -> String {
    let shown = order(table, sheet);
    let sources = shown.iter().enumerate();
    let sources: String = sources
        .map(|(place, &n)| source(table, names, sheet, n, place))
        .collect();
    let waits: String = shown.iter().map(|&n| waits(sheet, n)).collect();
    let (totals, stack, hidden) = (totals(sheet), stack(table, names), SOURCES - shown.len());
    format!(
        r#"</tbody>
</table>
</section>
{totals}{stack}<section id="sources">
<h2>Sources</h2>
<table>
<thead>
<tr><th>source</th><th>name</th><th>priority</th><th>type</th><th>frame</th><th>ahead of it</th><th>started</th><th>started while it waited: most seen</th><th>at most</th><th>waits</th><th>entries open while it was: most</th></tr>
</thead>
<tbody>
{sources}</tbody>
</table>
<table>
<thead>
<tr><th>source</th><th>waits not ended</th><th>waits without a bound</th><th>first of these</th><th>pending</th><th>edges</th><th>commands</th><th>turns</th><th>closed while active</th><th>remembered</th></tr>
</thead>
<tbody>
{waits}</tbody>
</table>
<p><span data-figure="sources-left-out">{hidden} sources</span> are left out: enabled in no trace, and 0 0 0 in the table.</p>
</section>
{MEANING}</body>
</html>
"#
    )
}

/// The figures over all traces.
fn totals(sheet: &Sheet) -> String {
    let [full, unopened, unkept] = [sheet.full, sheet.unopened, sheet.unkept].map(u64::from);
    let out = full + unopened + unkept;
    let (named, steps, refused) = (sheet.named, sheet.steps, sheet.refused);
    let (marks, idle, left) = (sheet.marks, sheet.idle, sheet.left);
    format!(
        r#"<header>
<h1>Tuning sheet</h1>
<table>
<tr><th>traces named</th><td data-figure="traces">{named} traces</td></tr>
<tr><th>traces left out</th><td data-figure="traces-left-out">{out} traces</td></tr>
<tr><th>left out by 16: a sum would be too large</th><td data-refusal="16">{full} traces</td></tr>
<tr><th>left out by 17: not to be opened or read</th><td data-refusal="17">{unopened} traces</td></tr>
<tr><th>left out by 18: the table is not kept</th><td data-refusal="18">{unkept} traces</td></tr>
<tr><th>steps played</th><td data-figure="steps">{steps} steps</td></tr>
<tr><th>steps refused</th><td data-figure="steps-refused">{refused} steps</td></tr>
<tr><th>spurious marks opened</th><td data-figure="marks">{marks} marks</td></tr>
<tr><th>ends of interrupt that found no entry open</th><td data-figure="idle-ends">{idle} ends</td></tr>
<tr><th>entries left open at the end of a trace</th><td data-figure="entries-left-open">{left} entries</td></tr>
</table>
</header>
"#
    )
}

/// The stack's figure, a bar for each level, and whose frame each is.
fn stack(table: &Table, names: &Names) -> String {
    let levels: [(u32, Option<usize>); 8] = std::array::from_fn(|l| level(table, l as u32));
    let longest = levels.iter().fold(1, |most, (bytes, _)| most.max(*bytes));
    let all: u32 = levels.iter().map(|(bytes, _)| bytes).sum();
    let (mut bars, mut rows) = (String::new(), String::new());
    for (l, (bytes, whose)) in levels.iter().enumerate().rev() {
        let (top, width) = (8 + (7 - l) * 24, bytes * 440 / longest);
        let (text, behind) = (top + 12, width + 72);
        let whose = match whose {
            None => "the mark".to_owned(),
            Some(n) if names[*n].is_empty() => format!("source {n}"),
            Some(n) => format!("source {n}, {}", escaped(names[*n].as_bytes())),
        };
        bars += &format!("<text x=\"8\" y=\"{text}\">level {l}</text><rect x=\"64\" y=\"{top}\" width=\"{width}\" height=\"16\" fill=\"none\" stroke=\"black\"/><text x=\"{behind}\" y=\"{text}\">{bytes} bytes</text>\n");
        rows += &format!("<tr><th>level {l}</th><td data-figure=\"level-bytes\" data-level=\"{l}\">{bytes} bytes</td><td data-figure=\"level-source\" data-level=\"{l}\">{whose}</td></tr>\n");
    }
    format!(
        r#"<section id="stack">
<h2>Stack</h2>
<p>Open handlers and marks take at most <b data-figure="stack-bytes">{all} bytes</b>, at every moment of every trace counted: a frame for each of eight levels.</p>
<svg xmlns="http://www.w3.org/2000/svg" viewBox="0 0 640 200" width="640" height="200" font-family="sans-serif" font-size="12">
{bars}</svg>
<table>
<thead>
<tr><th>level</th><th>at most</th><th>whose frame</th></tr>
</thead>
<tbody>
{rows}</tbody>
</table>
</section>
"#
    )
}

/// A type of the table in words.
const TYPES: [&str; 4] = [
    "level, low if external",
    "edge, falling if external",
    "level, high",
    "edge, rising",
];

/// The row of a source; where it is normal, as many are ahead of it as its place on the page says.
fn source(table: &Table, names: &Names, sheet: &Sheet, n: usize, place: usize) -> String {
    let (row, of_it) = (table.rows[n], sheet.totals.sources[n]);
    let (priority, kind, frame) = (row.priority, TYPES[row.kind as usize], row.frame);
    let (started, waited, entries) = (of_it.started, of_it.waited, of_it.entries);
    let (waits, unbounded) = (sheet.waits[n].waits, sheet.waits[n].unbounded);
    let name = match names[n].as_str() {
        "" => "-".to_owned(),
        name => escaped(name.as_bytes()),
    };
    let ahead = match table.is_normal(n) {
        true => format!("{place} sources"),
        false => "-".to_owned(),
    };
    let most = match sheet.waits[n].most {
        Some(terms) => format!("{} handlers", terms.sum()),
        None => if waits == 0 { "-" } else { "none" }.to_owned(),
    };
    let lost = (unbounded > 0).then(|| format!(", {unbounded} without a bound"));
    let (lost, of) = (lost.unwrap_or_default(), format!("data-source=\"{n}\""));
    format!(
        r#"<tr><th>source {n}</th><td>{name}</td><td data-figure="priority" {of}>level {priority}</td><td>{kind}</td><td data-figure="frame-bytes" {of}>{frame} bytes</td><td data-figure="ahead-sources" {of}>{ahead}</td><td data-figure="handlers-started" {of}>{started} handlers</td><td data-figure="most-started-while-waiting" {of}>{waited} handlers</td><td data-figure="most-startable-while-waiting" {of}>{most}</td><td><span data-figure="waits" {of}>{waits} waits</span>{lost}</td><td data-figure="most-entries-open" {of}>{entries} entries</td></tr>
"#
    )
}

/// The row of a source's waits.
fn waits(sheet: &Sheet, n: usize) -> String {
    let waits = sheet.waits[n];
    let (unended, unbounded) = (waits.unended, waits.unbounded);
    let first = match waits.first_unbounded {
        None => "-".to_owned(),
        Some(step) => format!("step {step} of trace {}", sheet.trace[n]),
    };
    let [pending, edges, commands, turns, closed, remembered] = match waits.most {
        None => [(); 6].map(|()| "-".to_owned()),
        Some(terms) => terms.each().map(|term| format!("{term} handlers")),
    };
    let of = format!("data-source=\"{n}\"");
    format!(
        r#"<tr><th>source {n}</th><td data-figure="waits-unended" {of}>{unended} waits</td><td data-figure="waits-unbounded" {of}>{unbounded} waits</td><td data-figure="first-unbounded" {of}>{first}</td><td data-figure="bound-pending" {of}>{pending}</td><td data-figure="bound-edges" {of}>{edges}</td><td data-figure="bound-commands" {of}>{commands}</td><td data-figure="bound-turns" {of}>{turns}</td><td data-figure="bound-closed-active" {of}>{closed}</td><td data-figure="bound-remembered" {of}>{remembered}</td></tr>
"#
    )
}
