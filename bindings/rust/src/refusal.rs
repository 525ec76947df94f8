// Refusals, by the table of document 01 and the change requests.

/// Why a call was refused. The discriminant is its number in the table.
#[derive(Clone, Copy, Debug, PartialEq, Eq)]
#[repr(u8)]
pub enum Refusal {
    /// The frame isn't 186 long.
    FrameLength = 1,
    /// The face store isn't 210 long.
    FaceStoreLength = 2,
    /// The sphere store isn't [`SPHERE_STORE`](crate::SPHERE_STORE) long.
    SphereStoreLength = 3,
    /// The origin's number is above 11.
    UnknownOrigin = 4,
    /// A number passed is infinite or NaN.
    NotFinite = 5,
    /// A number passed is outside its range.
    OutOfRange = 6,
    /// Open's frame hasn't 62 rows: never with the built-in table, as is proved.
    FrameRows = 7,
    /// A triangle that must be built has no vertex in the frame: the set was not opened, or its table has triangles that are not
    /// in its frame.
    NoVertex = 8,
    /// The answer would have a number that isn't finite.
    AnswerNotFinite = 9,
    /// There is no such slot: 30 or more (face), 240 or more (sphere).
    UnknownSlot = 10,
    /// The strike program's: the input's header is missing, wrong or short.
    Header = 11,
    /// The strike program's: a record's kind isn't 1 or 2, or kind 1 with a non-zero origin byte. In a panel's byte 5: another
    /// command than 0, 1 or 2.
    RecordKind = 12,
    /// The strike program's: the input ends inside a record.
    CutOff = 13,
    /// A list's and a region's: the lent places aren't as many as the positions.
    ResultCount = 14,
    /// A region's: there are no positions, or more than 256.
    PositionCount = 15,
    /// A region's: two positions have different nearest origins.
    OriginsDiffer = 16,
    /// A window's: the minute is earlier than the last accepted one.
    EarlierMinute = 17,
    /// A window's: 4,096 strikes remain after the drop.
    WindowFull = 18,
    /// Inverse and unplace: no corner is returned, and the angle from the area share is finite and beyond ±64: the point is
    /// too far off the face.
    AngleOutside = 19,
    /// A table isn't 84 numbers long; a table file's length, mark or version is wrong.
    TableFile = 20,
    /// A number of a table isn't finite or is outside its range.
    TableNumber = 21,
    /// A row of a table has a quaternion off unit length by more than 1e-12.
    TableQuaternion = 22,
    /// A panel's: the register block isn't 32 bytes.
    BlockLength = 23,
    /// Fair turns: not exactly 16 wishes.
    WishCount = 24,
    /// Fair turns: not exactly 16 places for grants.
    GrantCount = 25,
    /// A sheet's: the lent page isn't 4,860 bytes.
    PageLength = 26,
}

impl Refusal {
    /// Every refusal, in the table's order.
    pub const ALL: [Refusal; 26] = [
        Refusal::FrameLength,
        Refusal::FaceStoreLength,
        Refusal::SphereStoreLength,
        Refusal::UnknownOrigin,
        Refusal::NotFinite,
        Refusal::OutOfRange,
        Refusal::FrameRows,
        Refusal::NoVertex,
        Refusal::AnswerNotFinite,
        Refusal::UnknownSlot,
        Refusal::Header,
        Refusal::RecordKind,
        Refusal::CutOff,
        Refusal::ResultCount,
        Refusal::PositionCount,
        Refusal::OriginsDiffer,
        Refusal::EarlierMinute,
        Refusal::WindowFull,
        Refusal::AngleOutside,
        Refusal::TableFile,
        Refusal::TableNumber,
        Refusal::TableQuaternion,
        Refusal::BlockLength,
        Refusal::WishCount,
        Refusal::GrantCount,
        Refusal::PageLength,
    ];

    /// The number in the table.
    pub fn number(self) -> u8 {
        self as u8
    }

    /// The refusal of a number.
    pub fn from_number(number: u8) -> Option<Refusal> {
        Refusal::ALL.into_iter().find(|r| r.number() == number)
    }
}

impl std::fmt::Display for Refusal {
    fn fmt(&self, f: &mut std::fmt::Formatter<'_>) -> std::fmt::Result {
        write!(f, "refused with {}, {self:?}", self.number())
    }
}

impl std::error::Error for Refusal {}
