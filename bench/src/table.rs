//! What the tables share: their columns, how times and ratios are written, and what stands below the
//! rows.

use crate::timing::Timed;

/// A time with its unit.
pub fn time(timed: &Timed) -> String {
    let mark = if timed.is_slow() { "\\*" } else { "" };
    match timed.best() {
        best if best < 1e4 => format!("{best:.0} ns{mark}"),
        best if best < 1e7 => format!("{:.1} µs{mark}", best / 1e3),
        best => format!("{:.1} ms{mark}", best / 1e6),
    }
}

/// A ratio.
pub fn ratio(ratio: f64) -> String {
    if ratio < 10.0 {
        format!("{ratio:.2}")
    } else {
        format!("{ratio:.0}")
    }
}

/// The time of an earlier build and a ratio with it; none where it lacks the call.
pub fn of_earlier(earlier: Option<&Timed>, over: impl Fn(&Timed) -> f64) -> [String; 2] {
    let none = || ["-".to_string(), "-".to_string()];
    earlier.map_or_else(none, |own| [time(own), ratio(over(own))])
}

/// Prints the names of the columns: those of a case, whose fourth is given, then times and ratios. Where
/// there is an earlier build its time comes last, with this ratio.
pub fn columns(fourth: &str, times: &str, earlier: Option<&str>) {
    let more = earlier.map_or_else(String::new, |ratio| format!(" | (e) | {ratio}"));
    let names = format!("call | policy | words | {fourth} | users | {times}{more}");
    println!("| {names} |");
    println!("|{}", "---|".repeat(names.split(" | ").count()));
}

/// Prints one line: what a row is called, and its times and ratios.
pub fn line(name: &str, cells: &[String]) {
    println!("| {name} | {} |", cells.join(" | "));
}

/// The largest of some numbers, and what the row that has it is called.
pub fn largest<'a>(rows: impl Iterator<Item = (&'a str, f64)>) -> String {
    let worst = rows.max_by(|x, y| x.1.total_cmp(&y.1));
    worst.map_or_else(String::new, |(name, number)| {
        format!("{number:.2} ({})", name.replace(" | ", ", "))
    })
}

/// Prints how many rows miss the goal, by the times of the library and of tuned code in each: at most 1.25
/// times the time of tuned code, or within 100 ns of it.
pub fn goal<'a>(rows: impl Iterator<Item = (&'a Timed, &'a Timed)>) {
    let (mut all, mut above, mut far) = (0, 0, 0);
    for (proved, tuned) in rows {
        let misses = proved.over(tuned) > 1.25;
        all += 1;
        above += usize::from(misses);
        far += usize::from(misses && proved.best() - tuned.best() > 100.0);
    }
    println!(
        "Rows with a/c above 1.25: {above} of {all}; of these more than 100 ns behind: {far}."
    );
}

/// Prints how far the turns of the library differed, from its times in all rows.
pub fn noise<'a>(proved: impl Iterator<Item = &'a Timed>) {
    let noise = proved.map(Timed::noise).fold(1.0, f64::max);
    println!("Noise: the middle turn of (a) took up to {noise:.2} times its best one.");
}
