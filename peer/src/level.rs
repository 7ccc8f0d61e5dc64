/// The level that the box is held to: so many of the requests of document 02 have landed, L1 and on; 0 is document 01.
pub const LEVEL: u32 = 5;

/// The last kind of event at that level.
#[allow(dead_code)] // bench/ has this file too, and not the makers of cases
pub const LAST_KIND: u32 = 15;

/// The refusals of events that those requests have added to 1 to 18.
#[allow(dead_code)]
pub const ADDED: [u32; 4] = [30, 31, 34, 35];
