//! The boundary: the functions of the archive, and for each a safe function over slices.
//!
//! The functions ask nothing of the values that they are given. What is left of a caller's duty is
//! that a buffer is there for as many elements as its count says, is aligned, and, where it is
//! written, overlaps no other. A slice is that: shared ones may coincide, and nothing overlaps a
//! `&mut`. An empty slice has a pointer that is not null, and nothing is read or written through
//! it.

use crate::{Refusal, Settings};
use std::mem::size_of;

mod c {
    use crate::Settings;

    extern "C" {
        pub fn holdlist_settings_check(settings: *const Settings) -> i64;
        pub fn holdlist_fingerprint(
            settings: *const Settings,
            tag: *const u8,
            tag_count: usize,
        ) -> i64;
        pub fn holdlist_home(settings: *const Settings, tag: *const u8, tag_count: usize) -> i64;
        pub fn holdlist_offset(settings: *const Settings, fingerprint: u16) -> i64;
        pub fn holdlist_candidates(
            settings: *const Settings,
            fingerprint: u16,
            bucket: u32,
            out: *mut u32,
        ) -> i64;
        pub fn holdlist_clear(
            settings: *const Settings,
            table: *mut u16,
            table_count: usize,
        ) -> i64;
        pub fn holdlist_lookup(
            settings: *const Settings,
            table: *const u16,
            table_count: usize,
            tag: *const u8,
            tag_count: usize,
        ) -> i64;
        pub fn holdlist_release(
            settings: *const Settings,
            table: *mut u16,
            table_count: usize,
            tag: *const u8,
            tag_count: usize,
        ) -> i64;
        pub fn holdlist_hold(
            settings: *const Settings,
            table: *mut u16,
            table_count: usize,
            scratch: *mut u32,
            scratch_count: usize,
            tag: *const u8,
            tag_count: usize,
        ) -> i64;
        pub fn holdlist_forecast(
            settings: *const Settings,
            table: *const u16,
            table_count: usize,
            scratch: *mut u32,
            scratch_count: usize,
            tag: *const u8,
            tag_count: usize,
        ) -> i64;
        pub fn holdlist_view_check(
            settings: *const Settings,
            table: *const u16,
            table_count: usize,
            bucket: u32,
        ) -> i64;
        pub fn holdlist_file_length(
            settings: *const Settings,
            table: *const u16,
            table_count: usize,
        ) -> i64;
        pub fn holdlist_file_write(
            settings: *const Settings,
            table: *const u16,
            table_count: usize,
            out: *mut u8,
            out_count: usize,
        ) -> i64;
        pub fn holdlist_file_settings(
            bytes: *const u8,
            bytes_count: usize,
            settings: *mut Settings,
        ) -> i64;
        pub fn holdlist_file_read(
            bytes: *const u8,
            bytes_count: usize,
            table: *mut u16,
            table_count: usize,
            settings: *mut Settings,
        ) -> i64;
        pub fn holdlist_file_convert(
            bytes: *const u8,
            bytes_count: usize,
            out: *mut u8,
            out_count: usize,
        ) -> i64;
        pub fn holdlist_packed_write(
            settings: *const Settings,
            table: *const u16,
            table_count: usize,
            out: *mut u8,
            out_count: usize,
        ) -> i64;
        pub fn holdlist_packed_read(
            settings: *const Settings,
            bytes: *const u8,
            bytes_count: usize,
            table: *mut u16,
            table_count: usize,
        ) -> i64;
    }
}

/// The library takes settings as six 32-bit numbers in a row, of which the last two are the salt, its
/// low half first.
const _: () =
    assert!(size_of::<Settings>() == 6 * size_of::<u32>() && cfg!(target_endian = "little"));

/// A call with settings, which are lent where they stand, and the pointers and counts of slices.
/// SAFETY: as the module says.
macro_rules! call {
    ($f:ident, $s:expr $(, $a:expr)*) => {{
        let s: &Settings = $s;
        told(unsafe { c::$f(s $(, $a)*) })
    }};
}

/// 0 or more is the answer, below 0 minus the number of a refusal.
fn told(result: i64) -> Result<usize, Refusal> {
    if result >= 0 {
        return Ok(result as usize);
    }
    let refusal = u8::try_from(result.unsigned_abs())
        .ok()
        .and_then(Refusal::from_number);
    Err(refusal.expect("every refusal has a number that is listed"))
}

pub fn settings_check(s: &Settings) -> Result<(), Refusal> {
    call!(holdlist_settings_check, s).map(drop)
}

pub fn fingerprint(s: &Settings, tag: &[u8]) -> Result<u16, Refusal> {
    call!(holdlist_fingerprint, s, tag.as_ptr(), tag.len()).map(|p| p as u16)
}

pub fn home(s: &Settings, tag: &[u8]) -> Result<u32, Refusal> {
    call!(holdlist_home, s, tag.as_ptr(), tag.len()).map(|b| b as u32)
}

pub fn offset(s: &Settings, fingerprint: u16) -> Result<u32, Refusal> {
    call!(holdlist_offset, s, fingerprint).map(|d| d as u32)
}

pub fn candidates(
    s: &Settings,
    fingerprint: u16,
    bucket: u32,
    out: &mut [u32; 4],
) -> Result<usize, Refusal> {
    call!(
        holdlist_candidates,
        s,
        fingerprint,
        bucket,
        out.as_mut_ptr()
    )
}

pub fn clear(s: &Settings, table: &mut [u16]) -> Result<(), Refusal> {
    call!(holdlist_clear, s, table.as_mut_ptr(), table.len()).map(drop)
}

pub fn lookup(s: &Settings, table: &[u16], tag: &[u8]) -> Result<u32, Refusal> {
    call!(
        holdlist_lookup,
        s,
        table.as_ptr(),
        table.len(),
        tag.as_ptr(),
        tag.len()
    )
    .map(|copies| copies as u32)
}

pub fn release(s: &Settings, table: &mut [u16], tag: &[u8]) -> Result<bool, Refusal> {
    call!(
        holdlist_release,
        s,
        table.as_mut_ptr(),
        table.len(),
        tag.as_ptr(),
        tag.len()
    )
    .map(|n| n == 1)
}

pub fn hold(
    s: &Settings,
    table: &mut [u16],
    scratch: &mut [u32],
    tag: &[u8],
) -> Result<u32, Refusal> {
    call!(
        holdlist_hold,
        s,
        table.as_mut_ptr(),
        table.len(),
        scratch.as_mut_ptr(),
        scratch.len(),
        tag.as_ptr(),
        tag.len()
    )
    .map(|moves| moves as u32)
}

pub fn forecast(
    s: &Settings,
    table: &[u16],
    scratch: &mut [u32],
    tag: &[u8],
) -> Result<u32, Refusal> {
    call!(
        holdlist_forecast,
        s,
        table.as_ptr(),
        table.len(),
        scratch.as_mut_ptr(),
        scratch.len(),
        tag.as_ptr(),
        tag.len()
    )
    .map(|moves| moves as u32)
}

pub fn view_check(s: &Settings, table: &[u16], bucket: u32) -> Result<(), Refusal> {
    call!(holdlist_view_check, s, table.as_ptr(), table.len(), bucket).map(drop)
}

pub fn file_length(s: &Settings, table: &[u16]) -> Result<usize, Refusal> {
    call!(holdlist_file_length, s, table.as_ptr(), table.len())
}

pub fn file_write(s: &Settings, table: &[u16], out: &mut [u8]) -> Result<usize, Refusal> {
    call!(
        holdlist_file_write,
        s,
        table.as_ptr(),
        table.len(),
        out.as_mut_ptr(),
        out.len()
    )
}

pub fn file_settings(bytes: &[u8]) -> Result<Settings, Refusal> {
    let mut settings = Settings::default();
    // SAFETY: as the module says
    told(unsafe { c::holdlist_file_settings(bytes.as_ptr(), bytes.len(), &mut settings) })?;
    Ok(settings)
}

pub fn file_read(bytes: &[u8], table: &mut [u16]) -> Result<Settings, Refusal> {
    let mut settings = Settings::default();
    // SAFETY: as the module says
    told(unsafe {
        c::holdlist_file_read(
            bytes.as_ptr(),
            bytes.len(),
            table.as_mut_ptr(),
            table.len(),
            &mut settings,
        )
    })?;
    Ok(settings)
}

pub fn file_convert(bytes: &[u8], out: &mut [u8]) -> Result<usize, Refusal> {
    // SAFETY: as the module says
    told(unsafe {
        c::holdlist_file_convert(bytes.as_ptr(), bytes.len(), out.as_mut_ptr(), out.len())
    })
}

pub fn packed_write(s: &Settings, table: &[u16], out: &mut [u8]) -> Result<usize, Refusal> {
    call!(
        holdlist_packed_write,
        s,
        table.as_ptr(),
        table.len(),
        out.as_mut_ptr(),
        out.len()
    )
}

pub fn packed_read(s: &Settings, bytes: &[u8], table: &mut [u16]) -> Result<usize, Refusal> {
    call!(
        holdlist_packed_read,
        s,
        bytes.as_ptr(),
        bytes.len(),
        table.as_mut_ptr(),
        table.len()
    )
}

/// What no call of a `HoldList` can meet: buffers of wrong sizes, cells that are too large, and
/// null pointers.
#[cfg(test)]
mod tests {
    use super::*;
    use std::ptr::{null, null_mut};

    const S: Settings = Settings::plain(4, 1);

    #[test]
    fn a_table_of_another_size_is_refused_with_5() {
        let mut table = [7u16; 5];
        let mut scratch = [3u32; 2];
        let mut out = [9u8; 20];
        assert_eq!(clear(&S, &mut table), Err(Refusal::Table));
        assert_eq!(lookup(&S, &table, b"a"), Err(Refusal::Table));
        assert_eq!(release(&S, &mut table, b"a"), Err(Refusal::Table));
        assert_eq!(
            hold(&S, &mut table, &mut scratch, b"a"),
            Err(Refusal::Table)
        );
        assert_eq!(
            forecast(&S, &table, &mut scratch, b"a"),
            Err(Refusal::Table)
        );
        assert_eq!(view_check(&S, &table, 0), Err(Refusal::Table));
        assert_eq!(file_length(&S, &table), Err(Refusal::Table));
        assert_eq!(file_write(&S, &table, &mut out), Err(Refusal::Table));
        assert_eq!(packed_write(&S, &table, &mut out), Err(Refusal::Table));
        assert_eq!(packed_read(&S, &[0x33, 0], &mut table), Err(Refusal::Table));
        assert_eq!(
            file_read(&[0x26, 4, 0, 0, 0], &mut table),
            Err(Refusal::Table)
        );
        assert_eq!((table, scratch, out), ([7; 5], [3; 2], [9; 20]));
    }

    #[test]
    fn settings_are_checked_before_the_table() {
        let bad = Settings::plain(3, 1);
        assert_eq!(clear(&bad, &mut []), Err(Refusal::Width));
        assert_eq!(lookup(&bad, &[], b""), Err(Refusal::Width));
        assert_eq!(forecast(&bad, &[], &mut [], b""), Err(Refusal::Width));
        assert_eq!(file_length(&bad, &[]), Err(Refusal::Width));
        assert_eq!(packed_read(&bad, &[], &mut []), Err(Refusal::Width));
    }

    #[test]
    fn short_scratch_is_refused_with_6_before_a_bad_tag() {
        let mut table = [0u16; 4];
        let mut scratch = [3u32; 1];
        assert_eq!(
            hold(&S, &mut table, &mut scratch, b""),
            Err(Refusal::Scratch)
        );
        assert_eq!(
            forecast(&S, &table, &mut scratch, b""),
            Err(Refusal::Scratch)
        );
        assert_eq!((table, scratch), ([0; 4], [3]));
        // more than is needed passes
        assert_eq!(forecast(&S, &table, &mut [3; 7], b"a"), Ok(0));
        assert_eq!(hold(&S, &mut table, &mut [3; 7], b"a"), Ok(0));
    }

    #[test]
    fn scratch_stays_where_a_check_refuses() {
        let mut table = [0u16; 4];
        let mut scratch = [3u32; 2];
        assert_eq!(
            hold(&S, &mut table, &mut scratch, &[0; 65]),
            Err(Refusal::Tag)
        );
        assert_eq!(
            forecast(&S, &table, &mut scratch, &[0; 65]),
            Err(Refusal::Tag)
        );
        assert_eq!(scratch, [3; 2]);
    }

    #[test]
    fn a_cell_too_large_is_refused_with_17_before_a_short_output() {
        let table = [0, 16, 0, 0];
        let mut out = [9u8; 1];
        assert_eq!(file_length(&S, &table), Err(Refusal::Cell));
        assert_eq!(file_write(&S, &table, &mut out), Err(Refusal::Cell));
        assert_eq!(packed_write(&S, &table, &mut out), Err(Refusal::Cell));
        assert_eq!(out, [9]);
    }

    #[test]
    fn a_short_output_is_refused_with_16() {
        let table = [0, 9, 0, 3];
        let mut out = [9u8; 8];
        assert_eq!(file_length(&S, &table), Ok(9));
        assert_eq!(file_write(&S, &table, &mut out), Err(Refusal::Output));
        assert_eq!(
            packed_write(&S, &table, &mut out[..1]),
            Err(Refusal::Output)
        );
        assert_eq!(out, [9; 8]);
    }

    #[test]
    fn later_bytes_of_an_output_keep_their_values() {
        let table = [0, 9, 0, 3];
        let mut out = [0xee; 12];
        assert_eq!(file_write(&S, &table, &mut out), Ok(9));
        assert_eq!(out, [0x26, 4, 0, 0, 0x0a, 9, 0, 3, 0, 0xee, 0xee, 0xee]);
        let mut out = [0xee; 4];
        assert_eq!(packed_write(&S, &table, &mut out), Ok(2));
        assert_eq!(out, [0x33, 0, 0xee, 0xee]);
    }

    #[test]
    fn a_refused_call_leaves_its_four_places() {
        let mut out = [8; 4];
        assert_eq!(candidates(&S, 5, 1, &mut out), Err(Refusal::Bucket));
        assert_eq!(out, [8; 4]);
        assert_eq!(candidates(&Settings::plain(12, 8), 5, 1, &mut out), Ok(2));
        assert_eq!((out[0], out[2], out[3]), (1, 0, 0));
    }

    #[test]
    fn a_refused_reading_leaves_settings_and_table() {
        let before = Settings {
            rule: 8,
            width: 8,
            buckets: 8,
            mask: 8,
            salt: 8,
        };
        // the bytes end early; the map; earlier fingerprints; a salt that is cut or 0; each of the
        // settings
        let bad: [&[u8]; 9] = [
            &[0x26, 4, 0],
            &[0x40],
            &[0x06, 4, 0, 0, 0],
            &[0x30, 1, 0, 0, 0, 0, 0, 0],
            &[0x30, 0, 0, 0, 0, 0, 0, 0, 0],
            &[0x27, 3, 4, 0, 0],
            &[0x26, 3, 0, 0],
            &[0x26, 4, 2, 0],
            &[0x2f, 2, 4, 0, 0, 1, 0],
        ];
        for (bytes, number) in bad.into_iter().zip([11, 12, 23, 11, 12, 1, 2, 3, 4]) {
            let mut settings = before;
            let mut table = [1u16; 4];
            // SAFETY: as the module says
            let r =
                unsafe { c::holdlist_file_settings(bytes.as_ptr(), bytes.len(), &mut settings) };
            assert_eq!((r, settings), (-number, before), "{bytes:02x?}");
            // SAFETY: as the module says
            let r = unsafe {
                c::holdlist_file_read(
                    bytes.as_ptr(),
                    bytes.len(),
                    table.as_mut_ptr(),
                    table.len(),
                    &mut settings,
                )
            };
            assert_eq!(
                (r, settings, table),
                (-number, before, [1; 4]),
                "{bytes:02x?}"
            );
        }
    }

    #[test]
    fn the_salt_is_where_the_library_looks_for_it() {
        let bytes = [0x36, 4, 0, 0, 1, 2, 3, 4, 5, 6, 7, 8, 0x0a, 9, 0, 3, 0];
        let salt = 0x0807_0605_0403_0201;
        let mut table = [7; 4];
        assert_eq!(file_settings(&bytes), Ok(S.with_salt(salt)));
        assert_eq!(file_read(&bytes, &mut table), Ok(S.with_salt(salt)));
        let mut out = [0xee; 18];
        assert_eq!(file_write(&S.with_salt(salt), &table, &mut out), Ok(17));
        assert_eq!((&out[..17], out[17]), (&bytes[..], 0xee));
        // "a" under the salts 1 and 2^32, each of which is one of the two words; the low half of its hash
        // is 8601ec8c or 8601ee3f, and has the remainder by 4,095 of its digits to the base 4,096
        let default = Settings::default();
        for (salt, entry) in [
            (0, (1 + 0x86 + 0x01e + 0xc8c, 0xc4c)),
            (1, (1 + 0x86 + 0x01e + 0xe3f, 0xd4c)),
            (1 << 32, (1 + 0x86 + 0x01e + 0xc8c, 0xdff)),
        ] {
            let s = default.with_salt(salt);
            let found = (fingerprint(&s, b"a"), home(&s, b"a"));
            assert_eq!(found, (Ok(entry.0), Ok(entry.1)), "{salt:x}");
        }
    }

    #[test]
    fn a_null_pointer_with_count_0_is_an_empty_buffer() {
        let eight = Settings::plain(12, 8);
        let mut settings = eight;
        // SAFETY: a null pointer with count 0 is an empty buffer
        unsafe {
            assert_eq!(c::holdlist_fingerprint(&eight, null(), 0), -7);
            assert_eq!(c::holdlist_home(&eight, null(), 0), -7);
            assert_eq!(c::holdlist_clear(&eight, null_mut(), 0), -5);
            assert_eq!(c::holdlist_lookup(&eight, null(), 0, null(), 0), -5);
            assert_eq!(c::holdlist_release(&eight, null_mut(), 0, null(), 0), -5);
            assert_eq!(
                c::holdlist_hold(&eight, null_mut(), 0, null_mut(), 0, null(), 0),
                -5
            );
            assert_eq!(
                c::holdlist_forecast(&eight, null(), 0, null_mut(), 0, null(), 0),
                -5
            );
            assert_eq!(c::holdlist_view_check(&eight, null(), 0, 0), -5);
            assert_eq!(c::holdlist_file_length(&eight, null(), 0), -5);
            assert_eq!(c::holdlist_file_write(&eight, null(), 0, null_mut(), 0), -5);
            assert_eq!(
                c::holdlist_file_read(null(), 0, null_mut(), 0, &mut settings),
                -11
            );
            assert_eq!(c::holdlist_file_settings(null(), 0, &mut settings), -11);
            assert_eq!(c::holdlist_file_convert(null(), 0, null_mut(), 0), -11);
            assert_eq!(
                c::holdlist_packed_write(&eight, null(), 0, null_mut(), 0),
                -5
            );
            assert_eq!(
                c::holdlist_packed_read(&eight, null(), 0, null_mut(), 0),
                -5
            );
            let mut table = [0u16; 4];
            assert_eq!(c::holdlist_lookup(&S, table.as_ptr(), 4, null(), 0), -7);
            assert_eq!(
                c::holdlist_hold(&S, table.as_mut_ptr(), 4, null_mut(), 0, null(), 0),
                -6
            );
            assert_eq!(
                c::holdlist_forecast(&S, table.as_ptr(), 4, null_mut(), 0, null(), 0),
                -6
            );
            assert_eq!(
                c::holdlist_file_write(&S, table.as_ptr(), 4, null_mut(), 0),
                -16
            );
            assert_eq!(
                c::holdlist_packed_write(&S, table.as_ptr(), 4, null_mut(), 0),
                -16
            );
            assert_eq!(
                c::holdlist_packed_read(&S, null(), 0, table.as_mut_ptr(), 4),
                -11
            );
        }
    }
}
