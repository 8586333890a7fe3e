//! Random menus, the flaws put into them, the sittings played on them, keys to mark them by and records of them: the same for the
//! same seed.

pub mod cases;
pub mod components;
pub mod dates;
pub mod flaws;
pub mod forging;
pub mod lay;
pub mod marking;
pub mod menus;
pub mod recording;
pub mod replaying;
pub mod sitting;
pub mod watching;
