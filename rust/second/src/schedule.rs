//! Schedules as placings of recalls (document 01, "One step of the machine").

/// Whether the schedule asks for a recall at the instruction reached as number
/// k: bit k, least significant bit of a byte first. Past its end it asks for
/// none.
pub fn asks(schedule: &[u8], k: usize) -> bool {
    schedule.get(k / 8).is_some_and(|byte| byte >> (k % 8) & 1 == 1)
}
