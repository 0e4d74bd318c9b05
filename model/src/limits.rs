//! The fixed sizes and limits of 01 and 02.

/// The most clients, volumes and objects of a setup (01, Tables; 02, A6).
pub const CLIENTS: usize = 16;
pub const VOLUMES: usize = 8;
pub const OBJECTS: usize = 28;

/// The most ticks of volume lease, object lease and message timeout (01,
/// Tables).
pub const VOLUME_LEASE: u32 = 3_600;
pub const OBJECT_LEASE: u32 = 1_000_000;
pub const TIMEOUT: u32 = 60;

/// The most ticks that a client with notes stays reachable after its volume
/// lease (02, A6).
pub const DELAY: u32 = 65_535;

/// The most messages under way (01, Tables).
pub const QUEUE: usize = 64;

/// The largest clock, and the largest expiry, guard or latest end: the largest
/// clock plus the longest object lease (01, Questions at the gate).
pub const CLOCK_MAX: u32 = 2_147_483_647;
pub const EXPIRY_MAX: u32 = 2_148_483_647;

/// How many named states there are (02, A7).
pub const NAMES: usize = 4;

/// The sizes of frames and run files in bytes, and the most steps of a file
/// (01, Frame, run file and listing).
pub const FRAME_BYTES: usize = 32;
pub const FILE_BYTES: usize = 65_536;
pub const SETUP_BYTES: usize = 48;
pub const STEP_BYTES: usize = 16;
pub const TRAILER_BYTES: usize = 8;
pub const STEPS: usize = 4_000;

/// The refusal numbers (01, Questions at the gate).
pub const UNSOUND: u8 = 1;
pub const UNKNOWN_KIND: u8 = 2;
pub const NO_SUCH_ITEM: u8 = 3;
pub const BAD_TIME: u8 = 4;
pub const WRITE_STANDS: u8 = 5;
pub const NO_NUMBER_LEFT: u8 = 6;
pub const BAD_SETUP: u8 = 7;
pub const BAD_FRAME: u8 = 8;
pub const BAD_FILE: u8 = 9;

/// The refusal of a workload or a run file that is not written (02, A5).
pub const NOT_WRITTEN: u8 = 10;

/// The refusal of a name that does not exist or, for a return, was never saved
/// (02, A7).
pub const NO_SUCH_NAME: u8 = 11;
