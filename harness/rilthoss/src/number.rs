//! The published numbers.

/// Accepted, admitted, written; the plan meets the rule; no job is left.
pub const OK: u32 = 0;

// Of a plan text.

/// It has more than `MAX_TEXT` bytes.
pub const TOO_LONG: u32 = 1;
/// The line does not end with LF, or holds a byte other than a tab and 32 to 126.
pub const BAD_LINE: u32 = 2;
/// The letter is not in the list, not C in the first record, or of an earlier section.
pub const BAD_LETTER: u32 = 3;
/// Not the right count of fields, or a field that is not 1 to 5 digits.
pub const BAD_FIELDS: u32 = 4;
/// A number is out of range, or there are more than 128 stages.
pub const OUT_OF_RANGE: u32 = 5;
/// A record with this key was there before.
pub const REPEATED: u32 = 6;
/// A C, R, T, S or B is missing, or K is given for some resources only.
pub const INCOMPLETE: u32 = 7;

/// Of bytes: a written plan has no room in the buffer; and, beyond the papers' list and for a host
/// alone, fewer bytes than a cell has.
pub const NO_ROOM: u32 = 9;

// Of an event; the first also of a check and of a written plan, the first two also of a drain.

/// The plan is not sound.
pub const UNSOUND_PLAN: u32 = 11;
/// The table does not agree with the plan.
pub const DISAGREEMENT: u32 = 12;
/// The job number is out of range.
pub const BAD_NUMBER: u32 = 13;
/// To load: the number is active; else: it is not.
pub const WRONG_ACTIVITY: u32 = 14;
/// The type is not in the plan.
pub const UNKNOWN_TYPE: u32 = 15;
/// `MAX_JOBS` jobs are active.
pub const FULL: u32 = 16;
/// To advance: no next stage; to unload: not the last one.
pub const WRONG_STAGE: u32 = 17;
/// A capacity would be exceeded.
pub const OVER_CAPACITY: u32 = 18;
/// A row would be broken.
pub const ROW_BROKEN: u32 = 19;

// Of the upstream check.

/// A resource has no rank.
pub const NO_RANK: u32 = 21;
/// A stage does not demand exactly one unit of one resource.
pub const NOT_ONE_UNIT: u32 = 22;
/// There are not as many rows as resources.
pub const ROW_COUNT: u32 = 23;
/// A row has a wrong weight.
pub const WRONG_WEIGHT: u32 = 24;
/// A row has a wrong bound.
pub const WRONG_BOUND: u32 = 25;

// Of a drain.

/// The budget of moves is spent.
pub const OUT_OF_BUDGET: u32 = 31;
/// Jobs remain and no job's move is admitted.
pub const NO_MOVE: u32 = 32;

/// Of an event line, in an output of `run` alone: it has another form, or no LF.
pub const MALFORMED: u32 = 41;
