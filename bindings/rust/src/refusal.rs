//! The causes of refusal (docs/FORMAT.md, "Refusals").
use bofrashem_sys as ffi;
use std::fmt;

/// Why a call was refused. Nothing was changed. What stands in brackets is the place that the cause names: of a node,
/// of a junction, or of one of two sections, two limits, or of the lists.
///
/// Later versions may have more causes.
///
/// ```
/// use bofrashem::{Cell, Refusal};
/// let refused = Cell::read(&[0; 111], &[]).unwrap_err();
/// assert_eq!((refused, refused.number(), refused.place()), (Refusal::FewSystemBytes, 1, 0));
/// assert_eq!(refused.to_string(), "refused 1 0: 1 to 111 system bytes");
/// let error: Box<dyn std::error::Error + Send + Sync> = refused.into();
/// # drop(error);
/// ```
#[derive(Clone, Copy, Debug, PartialEq, Eq, Hash)]
#[non_exhaustive]
pub enum Refusal {
    /// 1: 1 to 111 system bytes.
    FewSystemBytes,
    /// 2: a section over 16,777,216 bytes (0 system, 1 graphics).
    SectionTooLong(usize),
    /// 3: an array's address or extent is bad (0 nodes, 1 links, 2 junctions, 3 heightmap, 4 refs).
    BadArray(usize),
    /// 4: a node's link start, or start plus count, over the list's length.
    BadLinkRange(usize),
    /// 5: a junction's heightmap start, or start plus width × height, over the bytes' length.
    BadHeightmapRange(usize),
    /// 6: more than 65,536 nodes (0) or 4,096 junctions (1).
    TooMany(usize),
    /// 7: lent memory too short (0 to 4 as for 3, 5 section, 6 scratch, 7 new places, 8 visited,
    /// listed, round, path, 9 path scratch, 10 members). A cell that lends its own memory does not meet it.
    LentTooShort(usize),
    /// 8: over 31 links on writing.
    OverThirtyOneLinks(usize),
    /// 9: links before this node, which has links, over 65,535 on writing.
    LinksBeforeNode(usize),
    /// 10: heightmap bytes before a junction over 65,535 on writing.
    HeightsBeforeJunction(usize),
    /// 11: refs over 65,535 on writing.
    TooManyRefs,
    /// 12: heightmap values not width × height.
    ValuesNotSize,
    /// 13: no such place or member, area not in the set, round's start that no node has, or grid number over 31.
    NoSuchPlace,
    /// 14: over a limit: 65,536 nodes of cell or set, 4,096 junctions, 255 links a node, 9 members, 32-bit counts.
    AtLimit,
    /// 15: a round file's first five bytes aren't the mark and a version that the reader takes.
    NoRoundFile,
    /// 16: a round file under 9 bytes (version 2: 11), or not that plus its count; over 65,535 choices on writing.
    BadRoundLength,
    /// 17: no walk joins the two places.
    Unreachable,
    /// 18: the area is already in the set.
    AreaInSet,
    /// 19: a version 2 round's area isn't the cell's.
    OtherArea,
    /// A number that this version of the wrapper doesn't know, with its place: the library is a later one.
    Unknown(u32, usize),
}

impl Refusal {
    /// The refusal's number.
    pub fn number(self) -> u32 {
        self.parts().0
    }

    /// The place, 0 where the cause names none.
    pub fn place(self) -> usize {
        self.parts().1
    }

    fn parts(self) -> (u32, usize) {
        match self {
            Refusal::FewSystemBytes => (1, 0),
            Refusal::SectionTooLong(p) => (2, p),
            Refusal::BadArray(p) => (3, p),
            Refusal::BadLinkRange(p) => (4, p),
            Refusal::BadHeightmapRange(p) => (5, p),
            Refusal::TooMany(p) => (6, p),
            Refusal::LentTooShort(p) => (7, p),
            Refusal::OverThirtyOneLinks(p) => (8, p),
            Refusal::LinksBeforeNode(p) => (9, p),
            Refusal::HeightsBeforeJunction(p) => (10, p),
            Refusal::TooManyRefs => (11, 0),
            Refusal::ValuesNotSize => (12, 0),
            Refusal::NoSuchPlace => (13, 0),
            Refusal::AtLimit => (14, 0),
            Refusal::NoRoundFile => (15, 0),
            Refusal::BadRoundLength => (16, 0),
            Refusal::Unreachable => (17, 0),
            Refusal::AreaInSet => (18, 0),
            Refusal::OtherArea => (19, 0),
            Refusal::Unknown(number, place) => (number, place),
        }
    }

    /// The cause in the library's words.
    ///
    /// ```
    /// assert_eq!(bofrashem::Refusal::ValuesNotSize.text(), "heightmap values not width times height");
    /// ```
    pub fn text(self) -> String {
        let mut text = [0u8; ffi::YND_TEXT_MOST];
        let length =
            unsafe { ffi::ynd_refusal_text(self.number(), text.as_mut_ptr().cast(), text.len()) };
        String::from_utf8_lossy(&text[..length.min(text.len() - 1)]).into_owned()
    }

    fn of(number: u32, place: usize) -> Refusal {
        match number {
            1 => Refusal::FewSystemBytes,
            2 => Refusal::SectionTooLong(place),
            3 => Refusal::BadArray(place),
            4 => Refusal::BadLinkRange(place),
            5 => Refusal::BadHeightmapRange(place),
            6 => Refusal::TooMany(place),
            7 => Refusal::LentTooShort(place),
            8 => Refusal::OverThirtyOneLinks(place),
            9 => Refusal::LinksBeforeNode(place),
            10 => Refusal::HeightsBeforeJunction(place),
            11 => Refusal::TooManyRefs,
            12 => Refusal::ValuesNotSize,
            13 => Refusal::NoSuchPlace,
            14 => Refusal::AtLimit,
            15 => Refusal::NoRoundFile,
            16 => Refusal::BadRoundLength,
            17 => Refusal::Unreachable,
            18 => Refusal::AreaInSet,
            19 => Refusal::OtherArea,
            _ => Refusal::Unknown(number, place),
        }
    }
}

/// A call's answer: it returns a number, 0 where it was accepted, and leaves the place.
pub(crate) fn answered(call: impl FnOnce(&mut usize) -> u32) -> Result<(), Refusal> {
    let mut place = 0;
    match call(&mut place) {
        0 => Ok(()),
        number => Err(Refusal::of(number, place)),
    }
}

impl fmt::Display for Refusal {
    fn fmt(&self, f: &mut fmt::Formatter<'_>) -> fmt::Result {
        write!(
            f,
            "refused {} {}: {}",
            self.number(),
            self.place(),
            self.text()
        )
    }
}

impl std::error::Error for Refusal {}
