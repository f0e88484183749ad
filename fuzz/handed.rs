//! What the driver has of a row that is handed in: the state that it shows, and whether that is sound. It is compiled for
//! itself, so that coverage is counted in it.

#[path = "../driver/src/row.rs"]
pub mod row;
#[path = "../driver/src/sound.rs"]
pub mod sound;
