//! The kinds of nodes: the first number of each. The second one is 0 but where it is said; the parts follow in the table.

/// The end of a list of alternatives.
pub const EMPTY: u16 = 0;
/// An alternative. Parts: a term, the rest of the list.
pub const ALTERNATIVE: u16 = 1;
/// A bound variable. Number: the binders (kinds 5, 6, 8) between it and its own.
pub const BOUND: u16 = 2;
/// A free variable. Number: the variable, 0 to 16,383; to 2,047 for the calls of [`small`](crate::small).
pub const FREE: u16 = 3;
/// A constructor. Number: the constructor, 0 to 65,535; 0 is `ok`.
pub const CONSTRUCTOR: u16 = 4;
/// An abstraction. Part: a list of alternatives.
pub const ABSTRACTION: u16 = 5;
/// An allocated abstraction. Number: the location, in the range of a free variable; part: a list of alternatives.
pub const ALLOCATED: u16 = 6;
/// An application. Parts: two terms.
pub const APPLICATION: u16 = 7;
/// A fresh variable. Part: a term.
pub const FRESH: u16 = 8;
/// A guard. Parts: two terms.
pub const GUARD: u16 = 9;
/// A unification. Parts: two terms.
pub const UNIFICATION: u16 = 10;
