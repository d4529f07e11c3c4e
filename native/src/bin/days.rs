//! `days SEED COUNT`: seeded traces, cut into parts at random places, through the proved sheet and through the second program's. After
//! every part the proved state is compared with the state that takes the uncut bytes at once, and its sheet with the second
//! program's of these bytes. Leaves with 1 on the first difference.

use native::Day;
use second::edition::TODAY;
use second::sheet::Sheet;
use std::process::ExitCode;

fn main() -> ExitCode {
    let mut words = std::env::args().skip(1).map(|word| word.parse::<u64>());
    let (Some(Ok(seed)), Some(Ok(count)), None) = (words.next(), words.next(), words.next()) else {
        eprintln!("usage: days SEED COUNT");
        return ExitCode::from(2);
    };
    println!("comparing {count} days in parts, seed {seed}, through the library");
    let mut parts_taken = 0u64;
    let mut apart = None;
    let agreed = second::agree::sheets(seed, count, TODAY.longest, |parts| {
        let (mut day, mut uncut) = (Day::default(), Vec::new());
        let mut sheets: Vec<Sheet> = Vec::new();
        for part in parts {
            day.take(part);
            uncut.extend(part);
            let mut at_once = Day::default();
            at_once.take(&uncut);
            if day != at_once {
                apart.get_or_insert_with(|| format!("{parts:?}\nafter {} parts: {day:?}\nat once: {at_once:?}", sheets.len() + 1));
            }
            sheets.push(day.sheet());
        }
        parts_taken += parts.len() as u64;
        sheets
    });
    if let Some(apart) = apart {
        println!("parts give another state than the uncut trace:\n{apart}");
        return ExitCode::from(1);
    }
    if !second::agree::shown("days", agreed) {
        return ExitCode::from(1);
    }
    println!("{parts_taken:>9}  parts, and after each the state of the uncut trace");
    ExitCode::SUCCESS
}
