//! Random lists of calls, played to two implementations at once and compared call by call. The seed is `DOOR_LINK_SEED`, the number of
//! calls `DOOR_LINK_CALLS`.

pub mod calls;
pub mod counts;
pub mod every;
pub mod finder;
pub mod frames;
pub mod generations;
pub mod init;
pub mod isolation;
pub mod judge;
pub mod limits;
pub mod links;
pub mod list;
pub mod options;
pub mod pieces;
pub mod places;
pub mod random;
pub mod seen;
pub mod stray;

/// Fails with what differs between two outcomes of one call.
pub fn alike<T: PartialEq + std::fmt::Debug>(
    call: impl FnOnce() -> String,
    reference: &T,
    tested: &T,
) -> Result<(), String> {
    if reference == tested {
        return Ok(());
    }
    Err(format!(
        "{}\n  reference: {reference:?}\n  tested:    {tested:?}",
        call()
    ))
}
