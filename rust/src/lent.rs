//! The library's calls on memory that the caller lends, as `include/yovtirak.h` has them. Any bytes
//! and words may be lent: what is no sound state is answered with STATE.

/// Words of a state.
pub const STATE_WORDS: usize = 178;
/// Counts, in the order taken, repeated, refused, completed, dropped.
pub const COUNTS: usize = 5;
/// Words that tell where a finished object is: its slot, its header's length and its body's.
pub const PLACE_WORDS: usize = 3;
/// Words that tell what a header says: BodySize, HeaderSize, ContentType, ContentSubType, Priority
/// (256 where it is absent), and where the data of ContentName starts in the header and how many
/// bytes it has (0 where it is absent).
pub const FIELD_WORDS: usize = 7;
/// Bytes of the header store, for each slot.
pub const HEADER_SHARE: usize = 1_024;
/// Marks, for each slot.
pub const MARKS_SHARE: usize = 1_088;

mod linked {
    extern "C" {
        pub fn yovtirak_open(
            limit: usize,
            slots: usize,
            state: *mut u64,
            state_words: usize,
            counts: *mut u32,
            counts_words: usize,
            header: *const u8,
            header_bytes: usize,
            body: *const u8,
            body_bytes: usize,
            marks: *mut u8,
            marks_bytes: usize,
        ) -> u64;
        pub fn yovtirak_take(
            state: *mut u64,
            state_words: usize,
            counts: *mut u32,
            counts_words: usize,
            group: *const u8,
            group_bytes: usize,
            header: *mut u8,
            header_bytes: usize,
            body: *mut u8,
            body_bytes: usize,
            marks: *mut u8,
            marks_bytes: usize,
        ) -> u64;
        pub fn yovtirak_address(group: *const u8, group_bytes: usize) -> u64;
        pub fn yovtirak_drop(
            state: *mut u64,
            state_words: usize,
            counts: *mut u32,
            counts_words: usize,
            number: u16,
            header: *const u8,
            header_bytes: usize,
            body: *const u8,
            body_bytes: usize,
            marks: *mut u8,
            marks_bytes: usize,
        ) -> u64;
        pub fn yovtirak_missing(
            state: *const u64,
            state_words: usize,
            counts: *const u32,
            counts_words: usize,
            number: u16,
            header: *const u8,
            header_bytes: usize,
            body: *const u8,
            body_bytes: usize,
            marks: *const u8,
            marks_bytes: usize,
        ) -> u64;
        pub fn yovtirak_finished(
            state: *const u64,
            state_words: usize,
            counts: *const u32,
            counts_words: usize,
            number: u16,
            header: *const u8,
            header_bytes: usize,
            body: *const u8,
            body_bytes: usize,
            marks: *const u8,
            marks_bytes: usize,
            place: *mut u64,
            place_words: usize,
        ) -> u64;
        pub fn yovtirak_read(
            state: *const u64,
            state_words: usize,
            counts: *const u32,
            counts_words: usize,
            number: u16,
            header: *const u8,
            header_bytes: usize,
            body: *const u8,
            body_bytes: usize,
            marks: *const u8,
            marks_bytes: usize,
            told: *mut u64,
            told_words: usize,
        ) -> u64;
        pub fn yovtirak_find(
            state: *const u64,
            state_words: usize,
            counts: *const u32,
            counts_words: usize,
            name: *const u8,
            name_bytes: usize,
            header: *const u8,
            header_bytes: usize,
            body: *const u8,
            body_bytes: usize,
            marks: *const u8,
            marks_bytes: usize,
        ) -> u64;
    }
}

// SAFETY, of each call below: every pointer comes with the length of the slice that it is of, a
// slice that is written is lent as `&mut`, and the functions are proved to touch nothing else and to
// keep nothing after they return.

/// Opens a collector: 0, or 25 (LIMITS) and nothing is changed.
pub fn open(
    limit: usize,
    slots: usize,
    state: &mut [u64],
    counts: &mut [u32],
    header: &[u8],
    body: &[u8],
    marks: &mut [u8],
) -> u64 {
    unsafe {
        linked::yovtirak_open(
            limit,
            slots,
            state.as_mut_ptr(),
            state.len(),
            counts.as_mut_ptr(),
            counts.len(),
            header.as_ptr(),
            header.len(),
            body.as_ptr(),
            body.len(),
            marks.as_mut_ptr(),
            marks.len(),
        )
    }
}

/// Takes a group; the answer's word.
pub fn take(
    state: &mut [u64],
    counts: &mut [u32],
    group: &[u8],
    header: &mut [u8],
    body: &mut [u8],
    marks: &mut [u8],
) -> u64 {
    unsafe {
        linked::yovtirak_take(
            state.as_mut_ptr(),
            state.len(),
            counts.as_mut_ptr(),
            counts.len(),
            group.as_ptr(),
            group.len(),
            header.as_mut_ptr(),
            header.len(),
            body.as_mut_ptr(),
            body.len(),
            marks.as_mut_ptr(),
            marks.len(),
        )
    }
}

/// Where the end user address of a group stands: a word with its start times 2^16 and its length
/// times 2^32, or the number of the answer that says why the group doesn't read.
pub fn address(group: &[u8]) -> u64 {
    unsafe { linked::yovtirak_address(group.as_ptr(), group.len()) }
}

/// Drops a number; the answer's word.
pub fn drop(
    state: &mut [u64],
    counts: &mut [u32],
    number: u16,
    header: &[u8],
    body: &[u8],
    marks: &mut [u8],
) -> u64 {
    unsafe {
        linked::yovtirak_drop(
            state.as_mut_ptr(),
            state.len(),
            counts.as_mut_ptr(),
            counts.len(),
            number,
            header.as_ptr(),
            header.len(),
            body.as_ptr(),
            body.len(),
            marks.as_mut_ptr(),
            marks.len(),
        )
    }
}

/// How many bytes of an object are still to come: a word with one more than that times 2^16, 0
/// while it is not known, or the number of the answer that says why there is none.
pub fn missing(
    state: &[u64],
    counts: &[u32],
    number: u16,
    header: &[u8],
    body: &[u8],
    marks: &[u8],
) -> u64 {
    unsafe {
        linked::yovtirak_missing(
            state.as_ptr(),
            state.len(),
            counts.as_ptr(),
            counts.len(),
            number,
            header.as_ptr(),
            header.len(),
            body.as_ptr(),
            body.len(),
            marks.as_ptr(),
            marks.len(),
        )
    }
}

/// Where a finished object is: 0 and `place` told, or the number of the answer that says why not.
pub fn finished(
    state: &[u64],
    counts: &[u32],
    number: u16,
    header: &[u8],
    body: &[u8],
    marks: &[u8],
    place: &mut [u64],
) -> u64 {
    unsafe {
        linked::yovtirak_finished(
            state.as_ptr(),
            state.len(),
            counts.as_ptr(),
            counts.len(),
            number,
            header.as_ptr(),
            header.len(),
            body.as_ptr(),
            body.len(),
            marks.as_ptr(),
            marks.len(),
            place.as_mut_ptr(),
            place.len(),
        )
    }
}

/// What a finished object's header says: 0 and `told` told, or the number of the answer that says
/// why not.
pub fn read(
    state: &[u64],
    counts: &[u32],
    number: u16,
    header: &[u8],
    body: &[u8],
    marks: &[u8],
    told: &mut [u64],
) -> u64 {
    unsafe {
        linked::yovtirak_read(
            state.as_ptr(),
            state.len(),
            counts.as_ptr(),
            counts.len(),
            number,
            header.as_ptr(),
            header.len(),
            body.as_ptr(),
            body.len(),
            marks.as_ptr(),
            marks.len(),
            told.as_mut_ptr(),
            told.len(),
        )
    }
}

/// The finished object that has a name: a word with its transport number, or the number of the
/// answer that says why there is none.
pub fn find(
    state: &[u64],
    counts: &[u32],
    name: &[u8],
    header: &[u8],
    body: &[u8],
    marks: &[u8],
) -> u64 {
    unsafe {
        linked::yovtirak_find(
            state.as_ptr(),
            state.len(),
            counts.as_ptr(),
            counts.len(),
            name.as_ptr(),
            name.len(),
            header.as_ptr(),
            header.len(),
            body.as_ptr(),
            body.len(),
            marks.as_ptr(),
            marks.len(),
        )
    }
}
