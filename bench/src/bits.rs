//! Bits of labels, and how many tags a book can have, for choosing s and r.

use crate::books;
use crate::moved::DEGREES;
use crate::plot::{Cell, Panel, Plot};
use crate::store::Verified;
use crate::table::{grid, thousands};
use crate::words::*;

pub const SIZES: [usize; 3] = [1_000, 20_000, 200_000];

pub struct Bits {
    /// Of the largest label of a book just loaded; None where the load is refused with 7.
    pub largest: Option<u32>,
    /// Of the largest label below (f − 1)^H: what the book may come to use before its height grows.
    pub space: u32,
}

fn bits_of(label: u128) -> u32 {
    u128::BITS - label.leading_zeros()
}

/// The smallest height of at least 1 with n < 2·r^H.
fn height(n: usize, r: u32) -> u32 {
    (1..).find(|&height| n < 2 * (r as usize).pow(height)).expect("powers grow")
}

fn space(s: u32, r: u32, height: u32) -> u128 {
    u128::from(s * r - 1).pow(height)
}

pub fn bits(n: usize, s: u32, r: u32) -> Bits {
    let words = books::loaded::<Verified>(s, r, &vec![TEXT; n]);
    let height = words.as_ref().map_or(height(n, r), |words| words[HEIGHT]);
    // A load numbers tags in book order, so the last number has the largest label.
    let largest = words.map(|words| bits_of(u128::from(words[at(n as u32 - 1, LABEL)])));
    Bits { largest, space: bits_of(space(s, r, height) - 1) }
}

/// By size, s and r.
pub fn all() -> Vec<Vec<Vec<Bits>>> {
    SIZES.map(|n| DEGREES.map(|s| DEGREES.map(|r| bits(n, s, r)).into()).into()).into()
}

pub fn tables(all: &[Vec<Vec<Bits>>]) -> String {
    let text = |bits: &Bits| match bits.largest {
        Some(largest) => format!("{largest} / {}", bits.space),
        None => format!("– / {}", bits.space),
    };
    let cells = |rows: &Vec<Vec<Bits>>| rows.iter().map(|row| row.iter().map(text).collect()).collect();
    let parts = SIZES.iter().zip(all).map(|(n, rows)| (thousands(*n), cells(rows)));
    grid("tags", &parts.collect::<Vec<_>>(), &DEGREES)
}

/// The most tags that a load takes, and that insertions reach, with labels of 32 bits.
pub fn room(s: u32, r: u32) -> (usize, usize) {
    let top = (1..).take_while(|&height| space(s, r, height) <= 1 << 32).last().expect("255 is below 2^32");
    let power = (r as usize).pow(top);
    ((2 * power - 1).min(MAX_TAGS), (s as usize * power - 1).min(MAX_TAGS))
}

pub fn room_table() -> String {
    let cells = |pick: fn((usize, usize)) -> usize| {
        DEGREES.map(|s| DEGREES.map(|r| thousands(pick(room(s, r)))).to_vec()).to_vec()
    };
    let parts = [("a load takes".to_string(), cells(|it| it.0)), ("insertions reach".to_string(), cells(|it| it.1))];
    grid("most tags", &parts, &DEGREES)
}

pub fn plot(all: &[Vec<Vec<Bits>>]) -> Plot {
    let values = || all.iter().flatten().flatten().filter(|it| it.largest.is_some()).map(|it| it.space);
    let low = values().min().unwrap_or(0);
    let shade = |bits: u32| f64::from(bits - low) / f64::from(32 - low);
    let cell = |it: &Bits| match it.largest {
        Some(largest) => Cell { text: it.space.to_string(), small: largest.to_string(), shade: Some(shade(it.space)) },
        None => Cell { text: it.space.to_string(), small: String::new(), shade: None },
    };
    let panels = SIZES.iter().zip(all).map(|(n, rows)| Panel {
        title: format!("{} tags loaded", thousands(*n)),
        cells: rows.iter().map(|row| row.iter().map(cell).collect()).collect(),
    });
    Plot {
        title: "Label bits, by s and r".into(),
        notes: vec![
            "Large: bits for all labels below (f − 1)^H, f = s·r: what the book may use at this height.".into(),
            "Small: bits of the largest label right after the load. 32 is the most: lighter leaves more room.".into(),
        ],
        degrees: DEGREES.to_vec(),
        panels: panels.collect(),
        scale: "label bits".into(),
        ticks: (low..=32).filter(|bits| bits % 4 == 0).map(|bits| (shade(bits), bits.to_string())).collect(),
        blank: "over 32 bits: the load is refused (refusal 7)".into(),
    }
}
