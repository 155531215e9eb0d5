//! Rights for parties (document 02, CR 6): a store with a list of grants, and a count that says how many of them are live.

use crate::book::Book;
use crate::fault::{Breach, Fault};
use crate::reply::{Answer, Held, Inserted, Loaded, Refusal};
use crate::store::Store;
use crate::tag::Kind;

/// The rights, which a grant adds up. A party's call brings one.
pub const READ: u32 = 1;
pub const WRITE: u32 = 2;
pub const INSERT: u32 = 4;

/// A record of the list. What the caller has put there may be any words.
#[derive(Clone, Copy, PartialEq, Eq, Debug, Default)]
pub struct Grant {
    pub party: u32,
    /// The number of the section's begin tag.
    pub section: u32,
    pub rights: u32,
}

/// A party's call. The kind is looked at where the right is to insert, and nowhere else.
#[derive(Clone, Copy, PartialEq, Eq, Debug)]
pub struct Ask {
    pub party: u32,
    pub pair: Held,
    pub d: u32,
    pub right: u32,
    pub kind: u8,
}

/// What a party's call gets where it is not refused. There is no no: that is refusal 18.
#[derive(Clone, Copy, PartialEq, Eq, Debug)]
pub enum Access {
    Yes,
    Stale,
    Inserted(Inserted),
}

/// The live grants are the first `count` records. All stand open, as the words of a store do.
#[derive(Clone, PartialEq, Eq, Debug, Default)]
pub struct Rights {
    pub store: Store,
    pub grants: Vec<Grant>,
    pub count: usize,
}

/// The refusal, where something is wrong.
fn unless(wrong: bool, refusal: Refusal) -> Result<(), Refusal> {
    if wrong { Err(refusal) } else { Ok(()) }
}

fn insertable(kind: u8) -> Result<(), Refusal> {
    unless(!matches!(Kind::of_byte(kind), Some(Kind::Begin | Kind::Text)), Refusal::Kind)
}

impl Rights {
    /// A load that ends all grants, also where the count is above the list's length.
    pub fn load(&mut self, s: u32, r: u32, book: u32, kinds: &[u8]) -> Result<Loaded, Refusal> {
        let reply = self.store.load(s, r, book, kinds);
        self.end(reply, Breach::LoadKeeps)
    }

    /// A reading of a file that ends all grants.
    pub fn read_file(&mut self, bytes: &[u8]) -> Result<Loaded, Refusal> {
        let reply = self.store.read_file(bytes);
        self.end(reply, Breach::ReadKeeps)
    }

    /// Where the call is accepted no grant is live behind it.
    fn end(&mut self, reply: Result<Loaded, Refusal>, keeps: Breach) -> Result<Loaded, Refusal> {
        if (reply.is_ok() && !self.commits(keeps)) || (reply.is_err() && self.commits(Breach::RefusedEnds)) {
            self.count = 0;
        }
        reply
    }

    /// Puts a grant behind the live ones, and gives the new count. Refusals: 17, 1, 2, 8, 9, 10, 19. The store stays.
    pub fn grant(&mut self, grant: Grant) -> Result<usize, Refusal> {
        let book = self.book_in_range(grant.party, (1..=7).contains(&grant.rights))?;
        let text = self.commits(Breach::TextGranted);
        let section = if text { book.section(grant.section) } else { book.element(grant.section) };
        let full = unless(self.count == self.grants.len(), Refusal::ListFull);
        if section == Err(Refusal::WrongTag) && self.commits(Breach::FullFirst) {
            full?;
        }
        section?;
        full?;
        if self.commits(Breach::DoublesDropped) && self.live().contains(&grant) {
            return Ok(self.count);
        }
        self.grants[self.count] = grant;
        self.count += 1;
        self.stamp_under(Breach::GrantStamps);
        Ok(self.count)
    }

    /// Takes out every live grant of the party on the section, and gives their number. Refusal: 17. The others move up in
    /// order, and the records behind them stay as they were. The store is not looked at.
    pub fn revoke(&mut self, party: u32, section: u32) -> Result<usize, Refusal> {
        self.in_range(party, true)?;
        let (any_party, any_section) = (self.commits(Breach::RevokesSection), self.commits(Breach::RevokesParty));
        let goes = |it: &Grant| (it.party == party || any_party) && (it.section == section || any_section);
        let live = self.live();
        let mut left = live.to_vec();
        match live.iter().position(goes) {
            Some(first) if self.commits(Breach::RevokesOne) => drop(left.remove(first)),
            _ if self.commits(Breach::GapByLast) => {
                while let Some(at) = left.iter().position(goes) {
                    left.swap_remove(at);
                }
            }
            _ => left.retain(|it| !goes(it)),
        }
        let gone = live.len() - left.len();
        self.close(&left);
        Ok(gone)
    }

    /// These are the live grants now.
    fn close(&mut self, left: &[Grant]) {
        self.grants[..left.len()].copy_from_slice(left);
        if self.commits(Breach::LastCleared) {
            self.grants[left.len()..self.count].fill(Grant::default());
        }
        if !self.commits(Breach::CountStays) {
            self.count = left.len();
        }
    }

    /// A party's call. In order: 17; what the question replies, but for yes and no; 18; where it inserts 4, 6, 7.
    pub fn call(&mut self, ask: Ask) -> Result<Access, Refusal> {
        let together = self.commits(Breach::RightsTogether) && (1..=7).contains(&ask.right);
        let book = self.book_in_range(ask.party, [READ, WRITE, INSERT].contains(&ask.right) || together)?;
        let granted = self.granted(&ask);
        if !granted && self.commits(Breach::GrantFirst) {
            return Err(Refusal::NotAllowed);
        }
        let answer = book.question(ask.pair, ask.d)?;
        if answer == Answer::Stale {
            return Ok(Access::Stale);
        }
        if ask.right == INSERT && self.commits(Breach::KindFirst) || self.commits(Breach::KindForAll) {
            insertable(ask.kind)?;
        }
        if !granted || !self.inside(&ask, answer, &book) {
            self.stamp_under(Breach::RefusedStamps);
            return Err(Refusal::NotAllowed);
        }
        if ask.right != INSERT {
            return Ok(Access::Yes);
        }
        self.store.insert(ask.kind, ask.d).map(Access::Inserted)
    }

    /// Whether some live grant of the party on the pair's section gives the right.
    fn granted(&self, ask: &Ask) -> bool {
        let gives = |it: &Grant| {
            let party = if self.commits(Breach::PartyCut) { it.party % 65_536 } else { it.party };
            (party == ask.party || self.commits(Breach::PartyNotAsked))
                && (it.section == ask.pair.tag || self.commits(Breach::SectionNotAsked))
                && self.gives(it.rights, ask.right)
        };
        let found = match self.live() {
            _ if self.commits(Breach::BehindCount) => &self.grants,
            [but_last @ .., _] if self.commits(Breach::LastNotFound) => but_last,
            live => live,
        };
        found.iter().any(gives)
    }

    fn gives(&self, rights: u32, right: u32) -> bool {
        match self.store.fault {
            Fault::Misgrants(Breach::RightNotAsked) => true,
            Fault::Misgrants(Breach::RightsTogether) => rights & right == right,
            Fault::Misgrants(Breach::OddRightsGiveNone) if rights > 7 => false,
            _ => rights / right % 2 == 1,
        }
    }

    /// Whether the call stays inside its section, by what the question has answered: an insertion may also go right behind
    /// the section's begin.
    fn inside(&self, ask: &Ask, answer: Answer, book: &Book) -> bool {
        let inserts = ask.right == INSERT;
        let at_begin = (inserts && !self.commits(Breach::BeginRefused)) || self.commits(Breach::BeginForAll);
        let at_end = inserts && self.commits(Breach::EndAllowed);
        answer == Answer::Yes
            || (at_begin && ask.d == ask.pair.tag)
            || (at_end && book.tags[ask.pair.tag as usize].mate as u32 == ask.d)
            || self.commits(Breach::NoIsYes)
    }

    fn live(&self) -> &[Grant] {
        &self.grants[..self.count.min(self.grants.len())]
    }

    /// Refusal 17, of the party, of the count, and of what else the call has looked at.
    fn in_range(&mut self, party: u32, right: bool) -> Result<(), Refusal> {
        if self.commits(Breach::CountCut) {
            self.count = self.count.min(self.grants.len());
        }
        let wrong = !(1..=65_535).contains(&party) || !right || self.count > self.grants.len();
        unless(wrong, Refusal::OutOfRange)
    }

    /// Refusals 17, 1 and 2.
    fn book_in_range(&mut self, party: u32, right: bool) -> Result<Book, Refusal> {
        if self.commits(Breach::RangeLate) {
            self.store.book()?;
        }
        self.in_range(party, right)?;
        self.store.book()
    }

    fn commits(&self, breach: Breach) -> bool {
        self.store.fault.misgrants(breach)
    }

    /// Only for two seeded faults. The store is sound where this comes.
    fn stamp_under(&mut self, breach: Breach) {
        if self.commits(breach) {
            self.store.words[7] += 1;
        }
    }
}
