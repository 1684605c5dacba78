//! A plain reference simulator of document 01, with a worker count for each
//! run, the schedule maker, a class for each step, the step that a worker waits
//! for, work and span, and the histogram of phase loads as document 02 has them:
//! reading a task tree, running it under scheduler events, recording, replaying,
//! making schedules, finding the heaviest chain of steps, adding traces to a
//! histogram, and the listing program. It is written from these two documents
//! alone and shares no code with the library it is meant to test.

pub mod cover;
pub mod histogram;
pub mod phases;
pub mod random;
pub mod record;
pub mod replay;
pub mod run;
pub mod schedule;
pub mod span;
pub mod tree;

pub use histogram::{add, Added, Histogram};
pub use record::{record, RecordAnswer};
pub use replay::{replay, ReplayAnswer};
pub use run::{Policy, Run};
pub use schedule::{schedule, ScheduleAnswer};
pub use span::{span, SpanAnswer};
pub use tree::{Refusal, Tree};
