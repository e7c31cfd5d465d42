//! The numbers of 01, each named once.

/// "Topics are numbered 0 to 15."
pub const TOPICS: usize = 16;
/// "each with .. 1 to 64 partitions. Partition p of topic t is slot 64t + p."
pub const PARTITIONS: usize = 64;
/// "There are 1,024 slots, sixteen topics by sixty-four."
pub const SLOTS: usize = TOPICS * PARTITIONS;
/// "Members: at most 32, at places 0 to 31."
pub const PLACES: usize = 32;

/// "No event needs more than 4,096 bytes."
pub const LARGEST_BATCH: usize = 4_096;

/// Install: "a place or 255 for none".
pub const NO_PLACE: u8 = 255;
/// "list length not 1,024 (slot reported 65,535)".
pub const NO_SLOT: u16 = 65_535;

/// "Epoch 0 joins, -1 leaves, above 0 is ordinary."
pub const JOINS: i32 = 0;
pub const LEAVES: i32 = -1;
/// "a timeout (-1: not given)".
pub const NO_TIMEOUT: i32 = -1;
/// "timeout neither -1 nor 1 to 1,800,000".
pub const LARGEST_TIMEOUT: i32 = 1_800_000;
/// "Epochs are signed 32-bit."
pub const LARGEST_EPOCH: i32 = i32::MAX;

/// "Session timeout 45,000; heartbeat interval 5,000."
pub const SESSION_TIMEOUT: u32 = 45_000;
pub const HEARTBEAT_INTERVAL: u32 = 5_000;
/// "wrapped (tick - last tick) is 2^31 or more".
pub const CLOCK_WENT_BACK: u32 = 1 << 31;

/// "ID all zero".
pub const ZERO_ID: [u8; 16] = [0; 16];
