//! The library's functions, as include/poolsheet.h declares them: what each reads, writes and returns stands there. [`calls`](crate::calls) has
//! them over slices.

use crate::Event;

extern "C" {
    /// Counts: events, end, cells.
    pub fn poolsheet_head(
        sheet: *const u8,
        sheet_len: usize,
        offset: usize,
        code_indented: bool,
        lazy: bool,
        pierced: bool,
        raw: *mut Event,
        raw_len: usize,
        counts: *mut [usize; 3],
    ) -> u8;

    /// Counts: events, end.
    pub fn poolsheet_row(
        sheet: *const u8,
        sheet_len: usize,
        offset: usize,
        lazy: bool,
        raw: *mut Event,
        raw_len: usize,
        counts: *mut [usize; 2],
    ) -> u8;

    /// Count: result events.
    pub fn poolsheet_resolve(
        list: *const Event,
        list_len: usize,
        results: *mut Event,
        results_len: usize,
        counts: *mut [usize; 1],
    ) -> u8;

    /// Count: result events.
    pub fn poolsheet_edit(
        list: *const Event,
        list_len: usize,
        edits: *mut usize,
        edits_len: usize,
        pool: *const Event,
        pool_len: usize,
        results: *mut Event,
        results_len: usize,
        counts: *mut [usize; 1],
    ) -> u8;

    /// Count: alignments.
    pub fn poolsheet_align(
        list: *const Event,
        list_len: usize,
        index: usize,
        alignments: *mut u8,
        alignments_len: usize,
        counts: *mut [usize; 1],
    ) -> u8;

    /// Counts: tables, raw events, result events, alignments.
    pub fn poolsheet_sheet(
        sheet: *const u8,
        sheet_len: usize,
        kinds: *const u8,
        kinds_len: usize,
        code_indented: bool,
        raw: *mut Event,
        raw_len: usize,
        results: *mut Event,
        results_len: usize,
        alignments: *mut u8,
        alignments_len: usize,
        counts: *mut [usize; 4],
    ) -> u8;
}

#[cfg(test)]
mod tests {
    use super::*;
    use crate::KINDS;

    /// The number and the counts of `a`, `:-`, read under so many of the built-in kinds, one of them changed, with one slot of each sort.
    fn sheet_counts(kinds: usize, byte: u8, kind: u8) -> (u8, [usize; 4]) {
        let (sheet, mut counts) = (b"a\n:-", [7; 4]);
        let (mut raw, mut results, mut alignments) = ([Event::BLANK; 1], [Event::BLANK; 1], [0; 1]);
        let mut table = KINDS;
        table[usize::from(byte)] = kind;
        // SAFETY: each pointer and length is that of an array, or a part of one, that is borrowed for the call alone.
        let number = unsafe {
            poolsheet_sheet(
                sheet.as_ptr(),
                sheet.len(),
                table.as_ptr(),
                kinds,
                true,
                raw.as_mut_ptr(),
                raw.len(),
                results.as_mut_ptr(),
                results.len(),
                alignments.as_mut_ptr(),
                alignments.len(),
                &mut counts,
            )
        };
        (number, counts)
    }

    /// Refused, every count is 0, whatever it was before.
    #[test]
    fn counts_of_refused_sheets() {
        assert_eq!(sheet_counts(256, b'a', 0), (9, [0; 4]));
        assert_eq!(sheet_counts(255, b'a', 0), (20, [0; 4]));
        assert_eq!(sheet_counts(256, b'a', 7), (20, [0; 4]));
        assert_eq!(sheet_counts(256, b'a', 1), (21, [0; 4]));
        assert_eq!(sheet_counts(256, b'a', 3), (22, [0; 4]));
    }

    /// The same of the other calls.
    #[test]
    fn counts_of_refusals() {
        let (sheet, mut slots, mut bytes) = (b"a\n:-", [Event::BLANK; 1], [0; 1]);
        let (p, n) = (sheet.as_ptr(), sheet.len());
        let (mut one, mut two, mut three) = ([7; 1], [7; 2], [7; 3]);
        let (list, results) = ([Event::BLANK; 1], slots.as_mut_ptr());
        // SAFETY: each pointer and length is that of an array that is borrowed for the call alone.
        unsafe {
            assert_eq!(poolsheet_head(p, n, 0, true, false, false, results, 1, &mut three), 9);
            assert_eq!(poolsheet_row(p, n, 0, false, results, 1, &mut two), 9);
            assert_eq!((three, two), ([0; 3], [0; 2]));
            assert_eq!(poolsheet_resolve(list.as_ptr(), 1, results, 1, &mut one), 10);
            assert_eq!(one, [0]);
            one = [7];
            assert_eq!(
                poolsheet_edit(
                    list.as_ptr(),
                    1,
                    [2, 1, 0, 0, 0].as_mut_ptr(),
                    5,
                    list.as_ptr(),
                    1,
                    results,
                    1,
                    &mut one
                ),
                11
            );
            assert_eq!(one, [0]);
            one = [7];
            assert_eq!(poolsheet_align(list.as_ptr(), 1, 0, bytes.as_mut_ptr(), 1, &mut one), 13);
            assert_eq!(one, [0]);
        }
    }
}
