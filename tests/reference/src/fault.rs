//! Faults that a test can switch on, to see that the comparison notices them.
//!
//! They are the mistakes that document 01 lists under "Plausible and false", two wrong moved counts, a soundness
//! test that overlooks one clause, and mistakes in reading the book program's lines and sheets, in files, in inserting
//! whole sheets and in the rights of parties. Everything outside tests uses `Fault::None`.

#[derive(Clone, Copy, PartialEq, Eq, Debug, Default)]
pub enum Fault {
    #[default]
    None,
    /// The lowest full ancestor is split instead of the highest.
    LowestFull,
    /// The trees that replace a split node are renumbered, their right siblings not.
    RightSiblingsStay,
    /// Labels are digits in base f instead of f - 1.
    BaseF,
    /// Marked leaves do not count in l.
    MarkedLeftOut,
    /// The reply of an insertion says one moved tag too many.
    MovedOffByOne,
    /// Marked tags count as moved.
    MarkedMoved,
    /// Words are taken for a sound store though this clause fails.
    Overlooks(Clause),
    /// Numbers in lines may have leading zeros.
    LeadingZeros,
    /// Numbers in lines that do not fit a word are cut to one.
    NumbersCut,
    /// Any run of spaces parts two fields, and spaces around a line do not count.
    SpacesAlike,
    /// A carriage return before the line feed is no part of the line.
    CarriageReturn,
    /// A line of 2,101 bytes is read.
    LongLine,
    /// A last line without a line feed gets no reply.
    LastLineDropped,
    /// Sheets are read with this slip.
    Misreads(Slip),
    /// Files are written and read with this lapse.
    Misfiles(Lapse),
    /// Sheets are inserted with this blunder.
    Misputs(Blunder),
    /// The rights of parties are kept with this breach.
    Misgrants(Breach),
}

/// A clause of document 01's "Sound means", and document 02's of depth. That labels have H digits is none of its own: a root with more children
/// than b has too many leaves.
#[derive(Clone, Copy, PartialEq, Eq, Debug)]
pub enum Clause {
    /// The first word is 1.
    One,
    /// Prior is the reverse of next.
    Prior,
    /// Labels rise strictly.
    Rise,
    /// Children stand at 0, 1, 2 without gaps.
    Gaps,
    /// A node below the root has r^j leaves or more.
    Thin,
    /// A node below the root has fewer than s·r^j leaves.
    Full,
    /// A root of height 2 or more has 2·r^(H - 1) leaves or more.
    ThinRoot,
    /// The root has fewer than s·r^H leaves.
    FullRoot,
    /// Mates spell the nesting.
    Mates,
    /// Ups spell the nesting.
    Ups,
    /// Depths are those of the nesting.
    Depth,
    /// A tag under a marked begin is marked.
    MarksClosed,
    /// Mates are marked together.
    MarksPaired,
    /// The stamp is at most n plus the marked tags.
    Stamp,
}

impl Clause {
    pub const ALL: [Clause; 14] = [
        Clause::One,
        Clause::Prior,
        Clause::Rise,
        Clause::Gaps,
        Clause::Thin,
        Clause::Full,
        Clause::ThinRoot,
        Clause::FullRoot,
        Clause::Mates,
        Clause::Ups,
        Clause::Depth,
        Clause::MarksClosed,
        Clause::MarksPaired,
        Clause::Stamp,
    ];
}

/// A reading of a sheet that looks right and is not.
#[derive(Clone, Copy, PartialEq, Eq, Debug)]
pub enum Slip {
    /// A reference or a CDATA section ends a text.
    TextsParted,
    /// A comment does not end a text.
    CommentsJoin,
    /// Data of spaces alone is no text.
    BlanksDropped,
    /// `]]>` may stand in data.
    CloserInData,
    /// `--` may stand in a comment.
    DashesInComments,
    /// `&#60;` is a reference.
    NumberedReferences,
    /// Bytes from 128 on are allowed.
    HighBytes,
    /// `<` may stand in a value.
    LessInValues,
    /// Two attributes need no space between them.
    AttributesTogether,
    /// An attribute may be repeated.
    AttributesRepeated,
    /// An end tag of any name closes the open element.
    AnyEndCloses,
    /// 65 elements may be open.
    OneDeeper,
    /// 64 open elements are told before the tag has been read whole.
    DepthFirst,
    /// `<!DOCTYPE` is told only where a space stands behind it.
    DoctypeWhole,
    /// A `<?` anywhere in what cannot be completed is told.
    InstructionAnywhere,
    /// A list that is too short is told before what else is wrong behind.
    ShortListFirst,
    /// Kinds are written as they are found, before the sheet is known to be one.
    WrittenEarly,
}

impl Slip {
    pub const ALL: [Slip; 17] = [
        Slip::TextsParted,
        Slip::CommentsJoin,
        Slip::BlanksDropped,
        Slip::CloserInData,
        Slip::DashesInComments,
        Slip::NumberedReferences,
        Slip::HighBytes,
        Slip::LessInValues,
        Slip::AttributesTogether,
        Slip::AttributesRepeated,
        Slip::AnyEndCloses,
        Slip::OneDeeper,
        Slip::DepthFirst,
        Slip::DoctypeWhole,
        Slip::InstructionAnywhere,
        Slip::ShortListFirst,
        Slip::WrittenEarly,
    ];
}

/// A way to write or read files that looks right and is not.
#[derive(Clone, Copy, PartialEq, Eq, Debug)]
pub enum Lapse {
    /// The kind of a record has its high byte first.
    KindsTurned,
    /// A record's length counts its words alone, without its kind.
    LengthOfWords,
    /// Something may stand behind the last record.
    MoreBehind,
    /// The header's number of tags is not compared with the records.
    HeaderCount,
    /// The last record's number of tags is not compared with the records.
    LastCount,
    /// The records of tags may come in any order.
    AnyOrder,
    /// The records of tags are written by number.
    ByNumber,
    /// The stamp is written as 0.
    StampLost,
    /// Word 0 is not written on reading.
    FirstWordStays,
    /// On reading, 1 comes before 15 where not even a header has room.
    WordsFirst,
    /// On reading, 2 comes before 1.
    SoundFirst,
    /// The header is written before the file is judged.
    HeaderEarly,
    /// On writing, 16 comes before 1 and 2 where not even an empty book has room.
    RoomFirst,
    /// On writing, one byte too few is lent and taken.
    ByteLate,
    /// The depth of a tag is in the file too.
    DepthKept,
}

impl Lapse {
    pub const ALL: [Lapse; 15] = [
        Lapse::KindsTurned,
        Lapse::LengthOfWords,
        Lapse::MoreBehind,
        Lapse::HeaderCount,
        Lapse::LastCount,
        Lapse::AnyOrder,
        Lapse::ByNumber,
        Lapse::StampLost,
        Lapse::FirstWordStays,
        Lapse::WordsFirst,
        Lapse::SoundFirst,
        Lapse::HeaderEarly,
        Lapse::RoomFirst,
        Lapse::ByteLate,
        Lapse::DepthKept,
    ];
}

/// A way to insert a sheet that looks right and is not.
#[derive(Clone, Copy, PartialEq, Eq, Debug)]
pub enum Blunder {
    /// The tags go in from the last to the first, each behind the place.
    Backwards,
    /// The height of the last split is replied, not the greatest.
    LastSplit,
    /// The moved numbers of the single insertions are summed up: a tag that moves twice counts twice, a new one too.
    MovedInTurn,
    /// The top level of the sheet has no up.
    NoUp,
    /// The depth of the sheet's tags is that in the sheet, wherever its place is.
    NoDepth,
    /// Every tag raises the stamp.
    StampByTags,
    /// The empty sheet raises the stamp.
    EmptyStamps,
    /// Labels are told to suffice where one height more has them.
    OneHeight,
    /// 8 and 9 come before 4 and 5.
    NestingLate,
}

impl Blunder {
    pub const ALL: [Blunder; 9] = [
        Blunder::Backwards,
        Blunder::LastSplit,
        Blunder::MovedInTurn,
        Blunder::NoUp,
        Blunder::NoDepth,
        Blunder::StampByTags,
        Blunder::EmptyStamps,
        Blunder::OneHeight,
        Blunder::NestingLate,
    ];
}

/// A way to keep the rights of parties that looks right and is not.
#[derive(Clone, Copy, PartialEq, Eq, Debug)]
pub enum Breach {
    /// Any grant on the section gives every right.
    RightNotAsked,
    /// A grant on any section counts.
    SectionNotAsked,
    /// Anybody's grant counts.
    PartyNotAsked,
    /// Of a record's party 16 bits are compared.
    PartyCut,
    /// A record with rights above 7 gives none.
    OddRightsGiveNone,
    /// A grant behind the count is found.
    BehindCount,
    /// The last live grant is not found.
    LastNotFound,
    /// An insertion may go right after the section's end.
    EndAllowed,
    /// No insertion goes right after the section's begin.
    BeginRefused,
    /// The section's begin may be read and written too.
    BeginForAll,
    /// A no counts as a yes.
    NoIsYes,
    /// A call's right may be a sum of rights.
    RightsTogether,
    /// The kind is looked at with every right.
    KindForAll,
    /// 18 comes after 4.
    KindFirst,
    /// Without a grant 18 comes before what the question replies.
    GrantFirst,
    /// 17 comes after 2.
    RangeLate,
    /// A count above the list counts as the list's length.
    CountCut,
    /// 19 comes before 10.
    FullFirst,
    /// A text is granted too.
    TextGranted,
    /// A grant that stands there is not written again.
    DoublesDropped,
    /// A grant raises the stamp.
    GrantStamps,
    /// Revoking compares the party alone.
    RevokesParty,
    /// Revoking compares the section alone.
    RevokesSection,
    /// Revoking takes out the first grant alone.
    RevokesOne,
    /// The gap is closed by the last grant.
    GapByLast,
    /// The records that a gap has left behind the count are cleared.
    LastCleared,
    /// Revoking does not lower the count.
    CountStays,
    /// A load leaves the count.
    LoadKeeps,
    /// A reading of a file leaves the count.
    ReadKeeps,
    /// A refused load or reading sets the count to 0.
    RefusedEnds,
    /// A call that is not allowed raises the stamp.
    RefusedStamps,
}

impl Breach {
    pub const ALL: [Breach; 31] = [
        Breach::RightNotAsked,
        Breach::SectionNotAsked,
        Breach::PartyNotAsked,
        Breach::PartyCut,
        Breach::OddRightsGiveNone,
        Breach::BehindCount,
        Breach::LastNotFound,
        Breach::EndAllowed,
        Breach::BeginRefused,
        Breach::BeginForAll,
        Breach::NoIsYes,
        Breach::RightsTogether,
        Breach::KindForAll,
        Breach::KindFirst,
        Breach::GrantFirst,
        Breach::RangeLate,
        Breach::CountCut,
        Breach::FullFirst,
        Breach::TextGranted,
        Breach::DoublesDropped,
        Breach::GrantStamps,
        Breach::RevokesParty,
        Breach::RevokesSection,
        Breach::RevokesOne,
        Breach::GapByLast,
        Breach::LastCleared,
        Breach::CountStays,
        Breach::LoadKeeps,
        Breach::ReadKeeps,
        Breach::RefusedEnds,
        Breach::RefusedStamps,
    ];
}

impl Fault {
    pub(crate) fn overlooks(self, clause: Clause) -> bool {
        self == Fault::Overlooks(clause)
    }

    pub(crate) fn misreads(self, slip: Slip) -> bool {
        self == Fault::Misreads(slip)
    }

    pub(crate) fn misfiles(self, lapse: Lapse) -> bool {
        self == Fault::Misfiles(lapse)
    }

    pub(crate) fn misputs(self, blunder: Blunder) -> bool {
        self == Fault::Misputs(blunder)
    }

    pub(crate) fn misgrants(self, breach: Breach) -> bool {
        self == Fault::Misgrants(breach)
    }
}
