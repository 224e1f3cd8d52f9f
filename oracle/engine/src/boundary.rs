//! The functions of the C library, on slices. Settings are lent where they stand, as a C program lends
//! them: a copy for each call would be measured with it.

use oracle::index::Settings;
use std::ptr;

#[rustfmt::skip]
extern "C" {
    fn holdlist_settings_check(settings: *const Settings) -> i64;
    fn holdlist_fingerprint(settings: *const Settings, tag: *const u8, length: usize) -> i64;
    fn holdlist_home(settings: *const Settings, tag: *const u8, length: usize) -> i64;
    fn holdlist_offset(settings: *const Settings, fingerprint: u16) -> i64;
    fn holdlist_candidates(settings: *const Settings, fingerprint: u16, bucket: u32, out: *mut u32) -> i64;
    fn holdlist_clear(settings: *const Settings, table: *mut u16, cells: usize) -> i64;
    fn holdlist_lookup(settings: *const Settings, table: *const u16, cells: usize, tag: *const u8, length: usize) -> i64;
    fn holdlist_release(settings: *const Settings, table: *mut u16, cells: usize, tag: *const u8, length: usize) -> i64;
    fn holdlist_hold(settings: *const Settings, table: *mut u16, cells: usize, scratch: *mut u32, words: usize, tag: *const u8, length: usize) -> i64;
    fn holdlist_forecast(settings: *const Settings, table: *const u16, cells: usize, scratch: *mut u32, words: usize, tag: *const u8, length: usize) -> i64;
    fn holdlist_view_check(settings: *const Settings, table: *const u16, cells: usize, bucket: u32) -> i64;
    fn holdlist_file_write(settings: *const Settings, table: *const u16, cells: usize, out: *mut u8, room: usize) -> i64;
    fn holdlist_file_length(settings: *const Settings, table: *const u16, cells: usize) -> i64;
    fn holdlist_file_settings(bytes: *const u8, length: usize, settings: *mut Settings) -> i64;
    fn holdlist_file_read(bytes: *const u8, length: usize, table: *mut u16, cells: usize, settings: *mut Settings) -> i64;
    fn holdlist_file_convert(bytes: *const u8, length: usize, out: *mut u8, room: usize) -> i64;
    fn holdlist_packed_write(settings: *const Settings, table: *const u16, cells: usize, out: *mut u8, room: usize) -> i64;
    fn holdlist_packed_read(settings: *const Settings, bytes: *const u8, length: usize, table: *mut u16, cells: usize) -> i64;
}

/// Settings as the library writes them: the last two words are the salt, its low half first.
pub type Words = [u32; 6];

pub fn words(s: Settings) -> Words {
    let (low, high) = (s.salt as u32, (s.salt >> 32) as u32);
    [s.rule, s.width, s.buckets, s.mask, low, high]
}

/// The engine. It is lent an empty buffer as null or by its place.
#[derive(Clone, Copy)]
pub struct Engine {
    pub null: bool,
}

// Each call lends slices whole, so that what the library is handed is good for the count that goes
// with it, and no two overlap where one is written.
impl Engine {
    #[inline]
    fn place<T>(self, part: &[T]) -> *const T {
        match self.null && part.is_empty() {
            true => ptr::null(),
            false => part.as_ptr(),
        }
    }

    #[inline]
    fn place_mut<T>(self, part: &mut [T]) -> *mut T {
        match self.null && part.is_empty() {
            true => ptr::null_mut(),
            false => part.as_mut_ptr(),
        }
    }

    #[inline]
    pub fn settings_check(self, s: &Settings) -> i64 {
        unsafe { holdlist_settings_check(s) }
    }

    #[inline]
    pub fn fingerprint(self, s: &Settings, tag: &[u8]) -> i64 {
        let place = self.place(tag);
        unsafe { holdlist_fingerprint(s, place, tag.len()) }
    }

    #[inline]
    pub fn home(self, s: &Settings, tag: &[u8]) -> i64 {
        let place = self.place(tag);
        unsafe { holdlist_home(s, place, tag.len()) }
    }

    #[inline]
    pub fn offset(self, s: &Settings, value: u16) -> i64 {
        unsafe { holdlist_offset(s, value) }
    }

    #[inline]
    pub fn candidates(self, s: &Settings, value: u16, bucket: u32, out: &mut [u32; 4]) -> i64 {
        let place = out.as_mut_ptr();
        unsafe { holdlist_candidates(s, value, bucket, place) }
    }

    #[inline]
    pub fn clear(self, s: &Settings, table: &mut [u16]) -> i64 {
        let place = self.place_mut(table);
        unsafe { holdlist_clear(s, place, table.len()) }
    }

    #[inline]
    pub fn lookup(self, s: &Settings, table: &[u16], tag: &[u8]) -> i64 {
        unsafe {
            holdlist_lookup(
                s,
                self.place(table),
                table.len(),
                self.place(tag),
                tag.len(),
            )
        }
    }

    #[inline]
    pub fn release(self, s: &Settings, table: &mut [u16], tag: &[u8]) -> i64 {
        unsafe {
            holdlist_release(
                s,
                self.place_mut(table),
                table.len(),
                self.place(tag),
                tag.len(),
            )
        }
    }

    #[inline]
    pub fn hold(self, s: &Settings, table: &mut [u16], scratch: &mut [u32], tag: &[u8]) -> i64 {
        unsafe { self.hold_at(s, self.place_mut(table), table.len(), scratch, tag) }
    }

    /// A hold in a table of which not every cell needs to be in reach.
    ///
    /// # Safety
    ///
    /// `table` is good for the cells of the `cells` that the hold reads or writes.
    #[inline]
    pub unsafe fn hold_at(
        self,
        s: &Settings,
        table: *mut u16,
        cells: usize,
        scratch: &mut [u32],
        tag: &[u8],
    ) -> i64 {
        holdlist_hold(
            s,
            table,
            cells,
            self.place_mut(scratch),
            scratch.len(),
            self.place(tag),
            tag.len(),
        )
    }

    #[inline]
    pub fn forecast(self, s: &Settings, table: &[u16], scratch: &mut [u32], tag: &[u8]) -> i64 {
        unsafe { self.forecast_at(s, self.place(table), table.len(), scratch, tag) }
    }

    /// A forecast in a table of which not every cell needs to be in reach.
    ///
    /// # Safety
    ///
    /// `table` is good for the cells of the `cells` that the forecast reads.
    #[inline]
    pub unsafe fn forecast_at(
        self,
        s: &Settings,
        table: *const u16,
        cells: usize,
        scratch: &mut [u32],
        tag: &[u8],
    ) -> i64 {
        holdlist_forecast(
            s,
            table,
            cells,
            self.place_mut(scratch),
            scratch.len(),
            self.place(tag),
            tag.len(),
        )
    }

    #[inline]
    pub fn view_check(self, s: &Settings, table: &[u16], bucket: u32) -> i64 {
        unsafe { holdlist_view_check(s, self.place(table), table.len(), bucket) }
    }

    #[inline]
    pub fn file_write(self, s: &Settings, table: &[u16], out: &mut [u8]) -> i64 {
        unsafe {
            holdlist_file_write(
                s,
                self.place(table),
                table.len(),
                self.place_mut(out),
                out.len(),
            )
        }
    }

    #[inline]
    pub fn file_length(self, s: &Settings, table: &[u16]) -> i64 {
        unsafe { holdlist_file_length(s, self.place(table), table.len()) }
    }

    #[inline]
    pub fn file_settings(self, bytes: &[u8], settings: &mut Words) -> i64 {
        let out = settings.as_mut_ptr().cast();
        unsafe { holdlist_file_settings(self.place(bytes), bytes.len(), out) }
    }

    #[inline]
    pub fn file_read(self, bytes: &[u8], table: &mut [u16], settings: &mut Words) -> i64 {
        unsafe {
            holdlist_file_read(
                self.place(bytes),
                bytes.len(),
                self.place_mut(table),
                table.len(),
                settings.as_mut_ptr().cast(),
            )
        }
    }

    #[inline]
    pub fn file_convert(self, bytes: &[u8], out: &mut [u8]) -> i64 {
        unsafe {
            holdlist_file_convert(
                self.place(bytes),
                bytes.len(),
                self.place_mut(out),
                out.len(),
            )
        }
    }

    #[inline]
    pub fn packed_write(self, s: &Settings, table: &[u16], out: &mut [u8]) -> i64 {
        unsafe {
            holdlist_packed_write(
                s,
                self.place(table),
                table.len(),
                self.place_mut(out),
                out.len(),
            )
        }
    }

    #[inline]
    pub fn packed_read(self, s: &Settings, bytes: &[u8], table: &mut [u16]) -> i64 {
        unsafe {
            holdlist_packed_read(
                s,
                self.place(bytes),
                bytes.len(),
                self.place_mut(table),
                table.len(),
            )
        }
    }
}
