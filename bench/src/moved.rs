//! Tags moved per insertion, for choosing s and r.

use crate::books;
use crate::plot::{Cell, Panel, Plot};
use crate::store::{Store, Verified};
use crate::table::{grid, thousands};
use crate::words::*;
use draw::Rng;

/// The values of s and of r that are shown.
pub const DEGREES: [u32; 7] = [2, 3, 4, 6, 8, 12, 16];

pub const LOADED: usize = 1_000;
pub const INSERTED: usize = 4_000;

#[derive(Clone, Copy)]
pub enum Pattern {
    Random,
    SamePlace,
    Front,
}

pub const PATTERNS: [(Pattern, &str); 3] =
    [(Pattern::Random, "random places"), (Pattern::SamePlace, "same place"), (Pattern::Front, "front")];

impl Pattern {
    /// The tag that the next of n tags goes behind; none is the front.
    pub fn place(self, n: usize, rng: &mut Rng) -> Option<usize> {
        match self {
            Pattern::Random => Some(rng.below(n)),
            Pattern::SamePlace => Some(LOADED.min(n) / 2),
            Pattern::Front => None,
        }
    }
}

/// Moved tags per insertion, or how many tags stood when refusal 7 came, 0 on the load.
pub type Moved = Result<f64, usize>;

pub fn moved(pattern: Pattern, s: u32, r: u32, inserted: usize) -> Moved {
    let rng = &mut Rng::new(1);
    let mut words = books::loaded::<Verified>(s, r, &[TEXT; LOADED]).ok_or(0usize)?;
    words.resize(words_for(LOADED + inserted), 0);
    let mut sum = 0;
    for n in LOADED..LOADED + inserted {
        let place = pattern.place(n, rng).map_or(NO_TAG, |tag| tag as u32);
        let [refusal, _, moved, _] = Verified::insert(TEXT, place, &mut words);
        if refusal != 0 {
            return Err(n);
        }
        sum += u64::from(moved);
    }
    Ok(sum as f64 / inserted as f64)
}

/// By pattern, s and r.
pub fn all() -> Vec<Vec<Vec<Moved>>> {
    PATTERNS.map(|(it, _)| DEGREES.map(|s| DEGREES.map(|r| moved(it, s, r, INSERTED)).into()).into()).into()
}

/// A count of moved tags per insertion, as precise as it is worth.
pub fn figure(moved: f64) -> String {
    if moved < 9.95 { format!("{moved:.1}") } else { format!("{moved:.0}") }
}

pub fn tables(all: &[Vec<Vec<Moved>>]) -> String {
    let text = |moved: &Moved| match moved {
        Ok(moved) => figure(*moved),
        Err(0) => "–".into(),
        Err(n) => format!("to {}", thousands(*n)),
    };
    let cells = |rows: &Vec<Vec<Moved>>| rows.iter().map(|row| row.iter().map(text).collect()).collect();
    let parts = PATTERNS.iter().zip(all).map(|((_, name), rows)| (name.to_string(), cells(rows)));
    grid("insertion", &parts.collect::<Vec<_>>(), &DEGREES)
}

pub fn plot(all: &[Vec<Vec<Moved>>]) -> Plot {
    let values = || all.iter().flatten().flatten().filter_map(|it| it.as_ref().ok());
    let (low, high) = (values().copied().fold(f64::MAX, f64::min), values().copied().fold(0.0, f64::max));
    // By ratio: from 2 to 4 is as far as from 20 to 40.
    let shade = |moved: f64| (moved / low).ln() / (high / low).ln();
    let cell = |it: &Moved| match it {
        Ok(moved) => Cell { text: figure(*moved), small: String::new(), shade: Some(shade(*moved)) },
        Err(_) => Cell { text: "–".into(), small: String::new(), shade: None },
    };
    let panels = PATTERNS.iter().zip(all).map(|((_, name), rows)| Panel {
        title: format!("Texts inserted: {name}"),
        cells: rows.iter().map(|row| row.iter().map(cell).collect()).collect(),
    });
    Plot {
        title: "Tags moved per insertion, by s and r".into(),
        notes: vec![
            format!("{} texts loaded, then {} inserted one by one.", thousands(LOADED), thousands(INSERTED)),
            "A moved tag interrupts the sessions that hold a pair with it: lighter is better.".into(),
        ],
        degrees: DEGREES.to_vec(),
        panels: panels.collect(),
        scale: "moved tags per insertion (log scale)".into(),
        ticks: [1.0, 2.0, 3.0, 5.0, 10.0, 20.0, 30.0, 50.0, 100.0, 200.0]
            .into_iter()
            .filter(|it| (low..=high).contains(it))
            .map(|it| (shade(it), it.to_string()))
            .collect(),
        blank: "labels of 32 bits run out (refusal 7)".into(),
    }
}
