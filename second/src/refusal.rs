//! The numbers of document 01's "Who can cause which refusal", and those of document 02.

/// Unknown kind or cut body.
pub const KIND: u32 = 1;
/// A count, constant, server number, column number, N or Q outside its limits.
pub const LIMIT: u32 = 2;
/// A wire not yet made, or an entry not below L.
pub const WIRE: u32 = 3;
/// N times a column's largest value is p or more.
pub const WRAPS: u32 = 4;
/// Not one value per column, or a value outside its column.
pub const VALUES: u32 = 5;
/// Not the right number of random elements, or one not below p.
pub const RANDOM: u32 = 6;
/// Share of the wrong kind byte, length or server.
pub const SHARE: u32 = 7;
/// Share element not below p.
pub const ELEMENT: u32 = 8;
/// r or s outside its range.
pub const CHALLENGE: u32 = 9;
/// Id already decided, or waiting.
pub const DECIDED: u32 = 10;
/// A call the stage does not allow, or a table that comes from no opening.
pub const STAGE: u32 = 11;
/// Joined round or totals messages at fault.
pub const JOINED: u32 = 12;
/// N returns decided or waiting.
pub const FULL: u32 = 13;
/// Output buffer too short.
pub const ROOM: u32 = 14;
/// Fewer than Q returns entered.
pub const FEW: u32 = 15;
/// Challenges that differ among round one messages.
pub const UNEQUAL: u32 = 16;
/// More than 4,096 lists.
pub const MANY: u32 = 17;
/// No line: a determinant of zero.
pub const NO_LINE: u32 = 18;
/// A run that is not R × W bytes.
pub const RUN: u32 = 19;
