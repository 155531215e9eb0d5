//! How a script comes to a program: cut into writes, or as a file. A program that reads blocks must not care.

use draw::Rng;
use std::time::Duration;

#[derive(Clone, Copy, PartialEq, Eq, Debug)]
pub enum Cut {
    Whole,
    /// Pieces of so many bytes.
    Each(usize),
    /// Pieces of one byte up to so many, by a seed.
    Various {
        most: usize,
        seed: u64,
    },
    /// Every line feed is a piece of its own.
    Feeds,
    /// No pipe: the program's standard input is a file.
    File,
}

#[derive(Clone, Copy, PartialEq, Eq, Debug)]
pub struct Pieces {
    pub cut: Cut,
    /// So many pieces are followed by a pause, in which the program can read what has come and wait for more.
    pub pauses: usize,
}

/// Long enough for a reader that is awake, short enough for hundreds of them.
const PAUSE: Duration = Duration::from_micros(100);

/// Scripts up to this length may be written byte by byte.
const SHORT: usize = 20_000;

impl Pieces {
    pub const WHOLE: Pieces = Pieces { cut: Cut::Whole, pauses: 0 };

    /// A cut for a script of this length.
    pub fn any(rng: &mut Rng, len: usize) -> Pieces {
        let seed = rng.draw();
        let small = [Cut::Each(1), Cut::Each(3), Cut::Each(7), Cut::Various { most: 17, seed }, Cut::Feeds];
        let large = [
            Cut::Whole,
            Cut::File,
            Cut::Each(511),
            Cut::Each(2_100),
            Cut::Each(2_101),
            Cut::Each(4_095),
            Cut::Each(4_096),
            Cut::Each(65_537),
            Cut::Various { most: 5_000, seed },
        ];
        let cut = if len <= SHORT && rng.percent(60) { rng.pick(&small) } else { rng.pick(&large) };
        Pieces { cut, pauses: rng.pick(&[0, 0, 20, 100]) }
    }

    /// The script in its pieces, in order.
    pub fn of<'a>(&self, script: &'a [u8]) -> Vec<&'a [u8]> {
        match self.cut {
            Cut::Whole | Cut::File => vec![script],
            Cut::Each(size) => script.chunks(size).collect(),
            Cut::Feeds => script.chunk_by(|one, other| *one != b'\n' && *other != b'\n').collect(),
            Cut::Various { most, seed } => {
                let mut rng = Rng::new(seed);
                let mut rest = script;
                let mut pieces = Vec::new();
                while !rest.is_empty() {
                    let (piece, others) = rest.split_at(rest.len().min(1 + rng.below(most)));
                    pieces.push(piece);
                    rest = others;
                }
                pieces
            }
        }
    }

    /// What to wait after the piece of this number, from 0.
    pub fn pause(&self, piece: usize) -> Option<Duration> {
        (piece < self.pauses).then_some(PAUSE)
    }
}
