//! How many listed steps the search takes on dealt grids.

use crate::clock::{median, now};
use crate::table::{print_head, print_machine, print_row, same};
use crate::trails::Slices;
use crate::{clauses_of, decoded, grid, library};

const GRIDS: u64 = 10;

/// The steps are made by this many at a time, between looks at the clock.
const SLICE: u64 = 1000;

enum Ended {
    Found(f64),
    Halted(f64),
}

struct Searched {
    variables: f64,
    elements: f64,
    ended: Ended,
    seconds: f64,
}

/// The search of a dealt grid. What is found must decode to a drawing that the judge accepts; a dealt grid has one.
fn searched(side: usize, seed: u64, most_seconds: f64) -> Searched {
    let what = format!("steps, dealt {side}×{side}");
    let (record, _) = grid::dealt(side, seed);
    let clauses = clauses_of(&what, &record);
    let v = clauses.variables;
    let mut slices = Slices::empty(v);
    let (mut used, mut steps) = (0, 0);
    let start = now();
    let answer = loop {
        let (number, answer) = library::search(v, &clauses.list, &mut slices, used, SLICE);
        same(&what, &number, &0);
        steps += answer[1];
        used = answer[2];
        if answer[0] != 3 || now() - start > most_seconds {
            break answer[0];
        }
    };
    let seconds = now() - start;
    let ended = if answer == 3 { Ended::Halted(steps as f64) } else { Ended::Found(steps as f64) };
    if answer != 3 {
        same(&what, &answer, &1);
        let drawing = decoded(&what, &record, &slices);
        same(&what, &library::judge(&record, &drawing), &(0, [0; 4]));
    }
    Searched { variables: v as f64, elements: clauses.list.len() as f64, ended, seconds }
}

fn line(side: usize, most_seconds: f64) {
    let all: Vec<Searched> = (1..=GRIDS).map(|seed| searched(side, seed, most_seconds)).collect();
    let mut found: Vec<f64> = all.iter().filter_map(|s| if let Ended::Found(n) = s.ended { Some(n) } else { None }).collect();
    found.sort_by(f64::total_cmp);
    let halted: Vec<f64> = all.iter().filter_map(|s| if let Ended::Halted(n) = s.ended { Some(n) } else { None }).collect();
    let of = |get: fn(&Searched) -> f64| format!("{:.0}", median(all.iter().map(get).collect()));
    let some = |n: Option<f64>| n.map_or("–".to_string(), |n| format!("{n:.0}"));
    print_row(&[
        format!("{side}×{side}"),
        of(|s| s.variables),
        of(|s| s.elements),
        format!("{} of {GRIDS}", found.len()),
        some(found.first().copied()),
        some((!found.is_empty()).then(|| median(found.clone()))),
        some(found.last().copied()),
        some(halted.into_iter().reduce(f64::min)),
        format!("{:.2}", median(all.iter().map(|s| s.seconds).collect())),
    ]);
}

/// A search is halted after about so many seconds.
pub fn print(most_seconds: f64) {
    print_machine();
    print_head(&[
        "dealt",
        "V (median)",
        "elements (median)",
        "found",
        "steps, least",
        "median",
        "most",
        "halted after at least",
        "seconds (median)",
    ]);
    for side in 4..=10 {
        line(side, most_seconds);
    }
}
