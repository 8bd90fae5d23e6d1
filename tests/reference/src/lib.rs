//! Reference model of document 01 and Jobs 1 and 3 to 7 of document 02 for tests, with the readings that
//! docs/DECISIONS.md chooses. It was written from the text and from no Rattle file, so that the two can be compared.
//! 01's words in the field's names: hub = coordinator, box = participant, handover = transaction, PC = presume_commit.

pub mod bills;
pub mod clean_lists;
pub mod codec;
pub mod drill;
pub mod facts;
pub mod joint;
pub mod judge;
pub mod log;
pub mod losses;
pub mod mask_lists;
pub mod monitor;
pub mod numbers;
pub mod order_lists;
pub mod random;
pub mod random_images;
pub mod random_steps;
pub mod read_only;
pub mod restart;
pub mod send_order;
pub mod step;
pub mod totals;
