//! The parts of the rule that a build may leave out, so that the test is seen to find out. Each is there by default.
pub const LOG: bool = !cfg!(feature = "without_log");
pub const PRUNING_RULE: bool = !cfg!(feature = "without_pruning_rule");
pub const SKIP: bool = !cfg!(feature = "without_skip");
pub const FIRST_SNAPSHOT: bool = !cfg!(feature = "without_first_snapshot");
pub const REPEATS_GUARD: bool = !cfg!(feature = "without_repeats_guard");
pub const EMPTYING: bool = !cfg!(feature = "without_emptying");
pub const CANCEL: bool = !cfg!(feature = "without_cancel");
pub const TABLE: bool = !cfg!(feature = "without_table");
