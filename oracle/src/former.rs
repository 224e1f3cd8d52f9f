//! Lists from when a mask that does no work was still taken, as the calls of that time kept them:
//! the same calls, under the check of that time. What becomes of such a list is compared with this.

use crate::holdfile::write_unchecked;
use crate::index::{Answer, Settings};
use crate::table::{hold_unchecked, lookup_unchecked, release_unchecked};

fn check_table(settings: Settings, table: &[u16]) -> Answer<()> {
    settings.former_check()?;
    if table.len() != 4 * settings.buckets as usize {
        return Err(5);
    }
    Ok(())
}

pub fn lookup(settings: Settings, table: &[u16], tag: &[u8]) -> Answer<u32> {
    check_table(settings, table)?;
    lookup_unchecked(settings, table, tag)
}

pub fn release(settings: Settings, table: &mut [u16], tag: &[u8]) -> Answer<bool> {
    check_table(settings, table)?;
    release_unchecked(settings, table, tag)
}

pub fn hold(settings: Settings, table: &mut [u16], scratch: &mut [u32], tag: &[u8]) -> Answer<u32> {
    check_table(settings, table)?;
    hold_unchecked(settings, table, scratch, tag)
}

/// Writes the hold file, and answers how many bytes it has.
pub fn write(settings: Settings, table: &[u16], out: &mut [u8]) -> Answer<usize> {
    check_table(settings, table)?;
    write_unchecked(settings, table, out)
}
