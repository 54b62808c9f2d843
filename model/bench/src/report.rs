//! BENCHMARKS.md, from what was measured.

use crate::fixed::{Fixed, WORDS};
use crate::peer::KINDS;
use crate::results::{half_full, Beside, Figure, Line, Results, Row, Soundness};
use crate::results::{JOURNAL, OFFERS, TABLE, TIP_BY_FLUSH};
use crate::scene::Shape;
use crate::timing::{Spread, ROUNDS, TURNS};
use std::fmt::Write;

/// The targets: a call against the baseline at full size and with few words lent, and the test of a store against a plain pass.
const TO_RUST: f64 = 1.1;
const FIXED_TO_RUST: f64 = 1.2;
const TO_PASS: f64 = 2.5;
/// How far a time's growth from some words lent to the most may pass that of the words: what measuring leaves open.
const LEEWAY: f64 = 1.1;

/// What the run was made on.
pub struct Setting {
    /// The machine, the compiler and the versions of the peers, a line each.
    pub lines: Vec<String>,
}

/// The text of the report.
pub fn report(results: &Results, setting: &Setting) -> String {
    let mut text = String::from(INTRODUCTION);
    setting.lines.iter().for_each(|line| text += &format!("- {line}\n"));
    text += MEASURED;
    text += &rounds();
    text += &targets(results);
    text += "\n## Calls at full size\n\n";
    text += &format!(
        "{} table words and {} journal words are lent, whatever they hold; times in microseconds. A step has 64 entries.\n",
        grouped(TABLE),
        grouped(JOURNAL)
    );
    text += IMAGES;
    text += &calls(&results.rows);
    text += "\nA batch on a read set of 64 offers, in nanoseconds:\n\n";
    text += &batches(&results.batches);
    text += &about_fixed();
    text += &fixed(&results.fixed);
    text += SOUNDNESS;
    text += &soundness(&results.soundness);
    text += PEERS;
    text += &beside(&results.beside);
    text += GROWTH;
    text += &growth(&results.lines);
    text
}

const INTRODUCTION: &str = "# Benchmarks

Made by `make bench DOCS=1` from one run of `model/bench` on

";

const MEASURED: &str = "
Each call of the C interface is measured beside

- (a) the same work in safe Rust (`model/bench/src/baseline/`), as one writes it for speed and clarity: on the same lent
  memory, with the same grounds in the same order, and with the whole test of the store in every call. A test holds it
  to the library on random calls. Its head is a struct of typed fields that it is lent by reference, where a C function
  is lent 85 words that may hold anything, which it has to test, to unpack and to pack;
- (w) the baseline (a) on the words that a C function is lent: it tests that those of the head fit, unpacks head and
  tally, makes the call, and packs them where an accepted call may have changed them. It stands in the table of the
  fixed cost alone, where these words are most of the work;
- (b) one plain pass over the words lent, their sum, which the compiler vectorises: the limit of a call that tests all
  of them;
- (c) LMDB and SQLite in memory, for lookups and commits of 64 entries, where they are installed.

All buffers are warm: each side has made the same calls on the same memory just before. Calls that change the store are
timed one by one, what they change is restored before each, and the clock's own time is subtracted. Offers, lists and
stores take turns.

";

const IMAGES: &str = "\
All steps held lie between the checkpoint and the tip whose images and sheets are written. The tip's image is measured
beside (a) in the same one call, and beside a flush of (a) to the tip and the image of the checkpoint that it then is;
the store is copied before the flush, which is not timed. A sheet is one of a table with full rows, of 32 seats each, or
with one seat a row, as the table of every other call has; what the steps add lies in any row.

";

const SOUNDNESS: &str = "
## The test of a store

A release of slot 8 is refused by ground 3, right after the store has been tested. The baseline is measured in a second
form too, whose scans do not stop at the first word that is wrong, so that the compiler vectorises them. Times in
microseconds; a ratio is to the plain pass.

";

const PEERS: &str = "
## Beside LMDB and SQLite

8 steps of 64 entries are held, and the peers have the same prices. A commit is one transaction of 64 entries, in LMDB
without sync on a folder in memory; a lookup is one read transaction. The unit tests all of its lent words in every
call, and says with a price which state named its offer last; the peers do neither. Times in microseconds.

";

const GROWTH: &str = "
## Time against words lent

![time of a call against the words lent](benchmarks.svg)

Table and journal share the words lent as 8,000 to 4,096. The table is full; half of the journal holds up to 32 steps; a
commit has as many entries as a step; a flush is of all steps. Times in nanoseconds. Time counts as growing no faster
than the words where from each size to the largest, if that is four times as many words or more, it grows by no more
than the words do, or than the plain pass does where a nearer cache no longer holds them; a tenth is left to measuring.
A growth is the median of those of the rounds.

";

/// What a figure is of, and how its spread is told.
fn rounds() -> String {
    let quarter = ROUNDS / 4;
    format!(
        "A measurement has {ROUNDS} rounds. Each has its memory at another place, and times {TURNS} batches of calls of each side, one side\n\
         after another; the figure of a round is the median of these. A time is the median of the rounds, and so is a ratio, of\n\
         the ratios of each round. Where three numbers stand together, the **median** stands between the ends of the middle half\n\
         of the rounds: {quarter} of them are below the first number, and {quarter} above the last. No spread shows what the place of code does:\n\
         from one build to the next, with none of the code changed that is measured, the plain pass and the test of a store have\n\
         moved by a third on some processors. Nor does it show the processor's speed, which may change during a run: compare\n\
         ratios alone. A time is the median of one side's own rounds, so that two of them need not have the ratio beside them.\n"
    )
}

/// What the table of the fixed cost shows.
fn about_fixed() -> String {
    let Shape { table, journal, held, step, read, .. } = half_full(WORDS);
    format!(
        "
## The fixed cost of a call

{WORDS} words are lent: a table of {table} that is full, and a journal of {journal} that holds {held} steps of {step} entry each. A list of a
commit or of a read has {read} word. Here the words hardly count, and what every call costs does: above all the head, whose
85 words are more than table and journal have. `price_batch` is lent no store; its read set has 64 offers. Times in
nanoseconds.

"
    )
}

/// Which targets are reached.
fn targets(results: &Results) -> String {
    let mut text = String::from("\n## Targets\n\n| target | reached | |\n|---|---|---|\n");
    for (target, (reached, remark)) in [
        ("every call at full size at most 1.1 times (a)", to_rust(results)),
        (
            "the image of a state above the checkpoint at most 1.1 times a flush and an image of (a)",
            tip_to_flush(results),
        ),
        ("the fixed cost of every call, at 64 words, at most 1.2 times (w)", fixed_to_words(&results.fixed)),
        (
            "the same at most 1.2 times (a), which has no words of a head to unpack",
            fixed_to_rust(&results.fixed),
        ),
        ("the test of a store at most 2.5 times (b)", to_pass(&results.soundness)),
        ("a commit of 64 entries at 8,000 offers below LMDB's without sync", below_lmdb(&results.beside)),
        ("time grows no faster than the words lent", grows(&results.lines)),
    ] {
        let reached = match reached {
            Some(true) => "yes",
            Some(false) => "no",
            None => "not measured",
        };
        let _ = writeln!(text, "| {target} | {reached} | {remark} |");
    }
    text
}

/// A ratio as it is printed, so that what is compared is what is read.
fn rounded(ratio: f64) -> f64 {
    (ratio * 100.0).round() / 100.0
}

fn to_rust(results: &Results) -> (Option<bool>, String) {
    let calls =
        results.rows.iter().flat_map(|row| row.figures.iter().map(|figure| (row.call, &figure.ratio)));
    let batches = results.batches.iter().map(|(_, figure)| ("price_batch", &figure.ratio));
    at_most(TO_RUST, calls.chain(batches).collect())
}

/// Without a step held the tip is the checkpoint.
fn tip_to_flush(results: &Results) -> (Option<bool>, String) {
    let above = results.rows.iter().filter(|row| row.call == TIP_BY_FLUSH && row.held > 0);
    at_most(TO_RUST, above.flat_map(|row| row.figures.iter().map(|it| (row.call, &it.ratio))).collect())
}

fn fixed_to_words(rows: &[Fixed]) -> (Option<bool>, String) {
    at_most(FIXED_TO_RUST, rows.iter().map(|row| (row.call, &row.to_words)).collect())
}

fn fixed_to_rust(rows: &[Fixed]) -> (Option<bool>, String) {
    at_most(FIXED_TO_RUST, rows.iter().map(|row| (row.call, &row.figure.ratio)).collect())
}

/// Whether no call's ratio is above a limit, and which are.
fn at_most(limit: f64, calls: Vec<(&str, &Spread)>) -> (Option<bool>, String) {
    let ratios = calls.iter().map(|(call, ratio)| (*call, rounded(ratio.median)));
    let above: Vec<(&str, f64)> = ratios.filter(|(_, ratio)| *ratio > limit).collect();
    let mut worst: Vec<(&str, f64)> = Vec::new();
    for &(call, ratio) in &above {
        match worst.iter_mut().find(|(other, _)| *other == call) {
            Some((_, highest)) => *highest = highest.max(ratio),
            None => worst.push((call, ratio)),
        }
    }
    let named: Vec<String> = worst.iter().map(|(call, ratio)| format!("{call} ({ratio:.2})")).collect();
    let mut remark = format!("{} of {} figures", calls.len() - above.len(), calls.len());
    if !named.is_empty() {
        let _ = write!(remark, "; above the limit, by the highest figure of each call: {}", named.join(", "));
    }
    (Some(above.is_empty()), remark)
}

fn to_pass(soundness: &[Soundness]) -> (Option<bool>, String) {
    let ratios: Vec<f64> = soundness.iter().map(|row| rounded(row.to_pass[0].median)).collect();
    let lowest = ratios.iter().copied().fold(f64::INFINITY, f64::min);
    let highest = ratios.iter().copied().fold(0.0, f64::max);
    (Some(highest <= TO_PASS), format!("{lowest:.2} to {highest:.2}"))
}

fn below_lmdb(beside: &[Beside]) -> (Option<bool>, String) {
    let commit = beside.iter().find(|row| row.call.starts_with("commit") && row.offers == 8000);
    let lmdb = |row: &Beside| {
        row.peers.iter().zip(&KINDS).find(|(_, kind)| kind.name.starts_with("LMDB"))?.0.as_ref().copied()
    };
    match commit.and_then(|row| Some((row.figure.unit.median, lmdb(row)?.median))) {
        Some((unit, lmdb)) => (Some(unit < lmdb), format!("{} against {} µs", micro(unit), micro(lmdb))),
        None => (None, String::from("LMDB is not installed")),
    }
}

/// From each size to the largest, four times it or more, a time may grow as the words do, or as the plain pass does, which memory
/// slows.
fn grows(lines: &[Line]) -> (Option<bool>, String) {
    let (passes, calls): (Vec<&Line>, Vec<&Line>) = lines.iter().partition(|line| line.call == "plain pass");
    let (first, last) = (calls[0].points[0].words, calls[0].points[calls[0].points.len() - 1].words);
    let mut remarks = Vec::new();
    let mut reached = true;
    for line in calls {
        let points = line.points.iter().zip(&passes[0].points).filter(|(point, _)| 4 * point.words <= last);
        let growth = points.map(|(point, pass)| {
            let allowed = pass.to_last.max(last as f64 / point.words as f64);
            (point.to_last / allowed, point)
        });
        let (most, from) = growth.max_by(|(one, _), (other, _)| one.total_cmp(other)).unwrap();
        let mut remark = format!("{} {:.0} times", line.call, line.points[0].to_last);
        if most > LEEWAY {
            reached = false;
            let _ = write!(remark, " (but {:.1} times from {} words)", from.to_last, grouped(from.words));
        }
        remarks.push(remark);
    }
    let more = last as f64 / first as f64;
    let remark =
        format!("{first} to {} words, {more:.0} times as many: {}", grouped(last), remarks.join(", "));
    (Some(reached), remark)
}

fn calls(rows: &[Row]) -> String {
    let mut text = String::from("| call | steps held |");
    for offers in OFFERS {
        let offers =
            if offers == 1 { String::from("1 offer") } else { format!("{} offers", grouped(offers)) };
        let _ = write!(text, " {offers}: unit | (a) | ratio |");
    }
    text += "\n|---|--:|--:|--:|--:|--:|--:|--:|--:|--:|--:|\n";
    for row in rows {
        let _ = write!(text, "| {} | {} |", row.call, row.held);
        for Figure { unit, rust, ratio } in &row.figures {
            let _ = write!(text, " {} | {} | {} |", micro(unit.median), micro(rust.median), spread(ratio));
        }
        text.push('\n');
    }
    text
}

fn batches(batches: &[(usize, Figure)]) -> String {
    let mut text = String::from("| orders | unit | (a) | ratio |\n|--:|--:|--:|--:|\n");
    for (orders, figure) in batches {
        let _ = writeln!(text, "| {orders} | {} |", in_nanoseconds(figure));
    }
    text
}

fn fixed(rows: &[Fixed]) -> String {
    let mut text = String::from("| call | unit | (a) | ratio | (w) | ratio |\n|---|--:|--:|--:|--:|--:|\n");
    for Fixed { call, figure, words, to_words } in rows {
        let figure = in_nanoseconds(figure);
        let _ = writeln!(text, "| {call} | {figure} | {:.0} | {} |", words.median, spread(to_words));
    }
    text
}

/// The cells of a figure.
fn in_nanoseconds(Figure { unit, rust, ratio }: &Figure) -> String {
    format!("{:.0} | {:.0} | {}", unit.median, rust.median, spread(ratio))
}

fn soundness(rows: &[Soundness]) -> String {
    let mut text = String::from(
        "| offers | steps held | plain pass | unit | ratio | (a) | ratio | (a) without exits | ratio |\n",
    );
    text += "|--:|--:|--:|--:|--:|--:|--:|--:|--:|\n";
    for Soundness { offers, held, figure, without_exits, pass, to_pass } in rows {
        let _ = write!(text, "| {} | {held} | {} |", grouped(*offers), micro(pass.median));
        let times = [&figure.unit, &figure.rust, without_exits];
        for (time, ratio) in times.iter().zip(to_pass) {
            let _ = write!(text, " {} | {} |", micro(time.median), spread(ratio));
        }
        text.push('\n');
    }
    text
}

fn beside(rows: &[Beside]) -> String {
    let mut text = String::from("| call | offers | unit | (a) |");
    KINDS.iter().for_each(|kind| text += &format!(" {} |", kind.name));
    text += "\n|---|--:|--:|--:|";
    KINDS.iter().for_each(|_| text += "--:|");
    text.push('\n');
    for Beside { call, offers, figure, peers } in rows {
        let _ = write!(text, "| {call} | {} |", grouped(*offers));
        for time in [Some(figure.unit), Some(figure.rust)].iter().chain(peers) {
            let time = time.map_or_else(|| String::from("not installed"), in_microseconds);
            let _ = write!(text, " {time} |");
        }
        text.push('\n');
    }
    text
}

fn growth(lines: &[Line]) -> String {
    let mut text = String::from("| words lent |");
    let mut rule = String::from("\n|--:|");
    for line in lines {
        let (columns, rules) = match line.call {
            "plain pass" => (" plain pass |".to_string(), "--:|"),
            call => (format!(" {call}: unit | (a) | ratio |"), "--:|--:|--:|"),
        };
        text += &columns;
        rule += rules;
    }
    text += &rule;
    text.push('\n');
    (0..lines[0].points.len()).for_each(|place| text += &growth_row(lines, place));
    text
}

fn growth_row(lines: &[Line], place: usize) -> String {
    let mut text = format!("| {} |", grouped(lines[0].points[place].words));
    for line in lines {
        let figure = &line.points[place].figure;
        text += &match line.call {
            "plain pass" => format!(" {:.0} |", figure.unit.median),
            _ => format!(" {} |", in_nanoseconds(figure)),
        };
    }
    text.push('\n');
    text
}

/// A ratio between the ends of the middle half of the rounds.
fn spread(ratio: &Spread) -> String {
    format!("{:.2} **{:.2}** {:.2}", ratio.low, ratio.median, ratio.high)
}

/// A time likewise.
fn in_microseconds(time: Spread) -> String {
    format!("{} **{}** {}", micro(time.low), micro(time.median), micro(time.high))
}

/// Nanoseconds as microseconds, with three digits.
fn micro(nanoseconds: f64) -> String {
    let micro = nanoseconds / 1000.0;
    let decimals = if micro < 10.0 { 2 } else { usize::from(micro < 100.0) };
    format!("{micro:.decimals$}")
}

/// A number with a comma before its last three digits, if it has more.
pub fn grouped(number: usize) -> String {
    if number < 1000 {
        return number.to_string();
    }
    format!("{},{:03}", number / 1000, number % 1000)
}

#[cfg(test)]
mod tests {
    use super::{grouped, micro, report, Setting};
    use crate::fixed::Fixed;
    use crate::results::{Beside, Figure, Line, Point, Results, Row, Soundness, TIP_BY_FLUSH};
    use crate::timing::Spread;

    fn about(median: f64) -> Spread {
        Spread { low: 0.9 * median, median, high: 1.2 * median }
    }

    /// Results in which every ratio of the unit to the baseline is the same, and every one to the plain pass.
    fn results(ratio: f64, to_pass: f64, lmdb: Option<f64>, flush_to_last: f64) -> Results {
        let figure = Figure { unit: about(1000.0 * ratio), rust: about(1000.0), ratio: about(ratio) };
        let point = |words, to_last| Point { words, figure, to_last };
        let line = |call, to_last| Line { call, points: vec![point(64, to_last), point(6400, 1.0)] };
        let lmdb = lmdb.map(about);
        let to_words = if ratio > 1.2 { 1.22 } else { 0.75 };
        Results {
            rows: vec![
                Row { call: "load", held: 0, figures: vec![figure; 3] },
                Row { call: TIP_BY_FLUSH, held: 0, figures: vec![figure; 3] },
                Row { call: TIP_BY_FLUSH, held: 8, figures: vec![figure; 3] },
            ],
            batches: vec![(64, figure)],
            fixed: vec![Fixed { call: "release", figure, words: about(1200.0), to_words: about(to_words) }],
            soundness: vec![Soundness {
                offers: 1,
                held: 8,
                figure,
                without_exits: about(800.0),
                pass: about(500.0),
                to_pass: [to_pass, 2.0, 1.6].map(about),
            }],
            beside: vec![Beside {
                call: "commit of 64",
                offers: 8000,
                figure,
                peers: vec![lmdb, lmdb, None],
            }],
            lines: vec![line("flush", flush_to_last), line("plain pass", 120.0)],
        }
    }

    fn lines_of(results: Results) -> Vec<String> {
        let setting = Setting { lines: vec![String::from("a machine")] };
        report(&results, &setting).lines().map(String::from).collect()
    }

    fn target(lines: &[String], begin: &str) -> String {
        lines.iter().find(|line| line.starts_with(&format!("| {begin}"))).unwrap().clone()
    }

    #[test]
    fn targets_that_are_reached() {
        let lines = lines_of(results(1.104, 2.504, Some(1500.0), 130.0));
        assert!(lines.contains(&String::from("- a machine")));
        assert!(target(&lines, "every call at full size").ends_with("| yes | 10 of 10 figures |"));
        assert!(target(&lines, "the image of a state").ends_with("| yes | 3 of 3 figures |"));
        assert!(target(&lines, "the fixed cost").ends_with("| yes | 1 of 1 figures |"));
        assert!(target(&lines, "the same at most 1.2 times (a)").ends_with("| yes | 1 of 1 figures |"));
        assert!(target(&lines, "the test").ends_with("| yes | 2.50 to 2.50 |"));
        assert!(target(&lines, "a commit").ends_with("| yes | 1.10 against 1.50 µs |"));
        assert!(target(&lines, "time grows")
            .contains("| yes | 64 to 6,400 words, 100 times as many: flush 130 times |"));
    }

    #[test]
    fn targets_that_are_not_reached() {
        let lines = lines_of(results(1.21, 2.6, None, 140.0));
        assert!(target(&lines, "every call").ends_with(&format!(
            "| no | 0 of 10 figures; above the limit, by the highest figure of each call: load (1.21), {TIP_BY_FLUSH} (1.21), \
             price_batch (1.21) |"
        )));
        assert!(target(&lines, "the image of a state").ends_with(&format!(
            "| no | 0 of 3 figures; above the limit, by the highest figure of each call: {TIP_BY_FLUSH} (1.21) |"
        )));
        assert!(target(&lines, "the fixed cost").ends_with(
            "| no | 0 of 1 figures; above the limit, by the highest figure of each call: release (1.22) |"
        ));
        assert!(target(&lines, "the same at most 1.2 times (a)").ends_with(
            "| no | 0 of 1 figures; above the limit, by the highest figure of each call: release (1.21) |"
        ));
        assert!(target(&lines, "the test").contains("| no |"));
        assert!(target(&lines, "a commit").contains("| not measured | LMDB is not installed |"));
        assert!(target(&lines, "time grows").contains("| no |"));
        assert!(target(&lines, "time grows").contains("flush 140 times (but 140.0 times from 64 words)"));
    }

    #[test]
    fn medians_stand_between_the_ends_of_the_middle_half() {
        let lines = lines_of(results(1.1, 2.0, None, 100.0));
        let row = target(&lines, "release");
        assert_eq!(row, "| release | 1100 | 1000 | 0.99 **1.10** 1.32 | 1200 | 0.68 **0.75** 0.90 |");
        let row = target(&lines, "commit of 64 | 8,000");
        assert!(row.contains("| 0.99 **1.10** 1.32 |") && row.ends_with("not installed |"), "{row}");
        let row = target(&lines, "6,400");
        assert_eq!(row, "| 6,400 | 1100 | 1000 | 0.99 **1.10** 1.32 | 1100 |");
    }

    #[test]
    fn tables_have_as_many_cells_in_each_row() {
        let lines = lines_of(results(1.1, 2.0, Some(3.0), 100.0));
        let cells = |line: &str| line.matches('|').count();
        for pair in lines.windows(2).filter(|pair| pair.iter().all(|line| line.starts_with('|'))) {
            assert_eq!(cells(&pair[0]), cells(&pair[1]), "{pair:?}");
        }
    }

    #[test]
    fn no_line_of_text_passes_120_columns() {
        let lines = lines_of(results(1.1, 2.0, Some(3.0), 100.0));
        for line in lines.iter().filter(|line| !line.starts_with('|')) {
            assert!(line.chars().count() <= 120, "{line}");
        }
    }

    #[test]
    fn numbers_as_they_are_printed() {
        assert_eq!([640.0, 12_340.0, 123_400.0].map(micro), ["0.64", "12.3", "123"]);
        assert_eq!([1, 999, 1000, 12096].map(grouped), ["1", "999", "1,000", "12,096"]);
    }
}
