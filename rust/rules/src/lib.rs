//! Rule sets for people: their readable form and their canonical text, and how they run by the proved library. The command `rules` is this
//! library on the command line.
//!
//! ```
//! use rules::run::{describe, run, RuleSet, STEPS};
//!
//! # fn main() -> Result<(), Box<dyn std::error::Error>> {
//! let rule_set = RuleSet::of(b"= red c6001  ((n tenant (g (u tenant red) tenant)))")?;
//! assert_eq!(rule_set.text(), b"((1:n(1:g(1:u(1:v1:0)(1:c4:6001))(1:v1:0))))");
//!
//! let end = run(&rule_set, STEPS)?;
//! let told = describe(&end, &rule_set.names);
//! assert!(told.ends_with("thread 0: answer\n  red\n"));
//! # Ok(())
//! # }
//! ```

#![warn(missing_docs)]
#![forbid(unsafe_code)]

pub mod follow;
pub mod memory;
pub mod notation;
pub mod page;
pub mod redex;
pub mod run;
pub mod story;
pub mod term;
pub mod trace;
pub mod why;
