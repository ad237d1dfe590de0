//! The C entry over the second machine, which is taken from the folder
//! `second/` as it stands there.

// Public, so that what the entry does not need counts as used.
#[path = "../../second/src/machine.rs"]
pub mod machine;

include!("../border.rs");

c_entry!(second_judge, machine::judge::<machine::Paper>);
