//! The functions of the static library. A slice crosses as a pointer and a length, and nothing checks these
//! declarations against the other side.

use compare::Tables;

#[repr(C)]
#[derive(Clone, Copy, Debug, PartialEq, Eq)]
pub struct Refused {
    pub number: u32,
    pub place: u32,
}

#[repr(C)]
#[derive(Clone, Copy, Debug, PartialEq, Eq)]
pub struct Found {
    pub number: u32,
    pub place: u32,
    pub quads: u32,
    pub points: u32,
}

#[repr(C)]
#[derive(Clone, Copy, Debug, PartialEq, Eq)]
pub struct Written {
    pub number: u32,
    pub place: u32,
    pub count: usize,
}

#[rustfmt::skip]
unsafe extern "C" {
    fn mesh_read(
        text: *const u8, text_length: usize,
        corners: *mut u32, corners_length: usize,
        friends: *mut u32, friends_length: usize,
        marks: *mut u32, marks_length: usize,
        starts: *mut u32, starts_length: usize,
    ) -> Found;
    fn mesh_read_counts(text: *const u8, text_length: usize) -> Found;
    fn mesh_judge(
        corners: *const u32, corners_length: usize,
        friends: *const u32, friends_length: usize,
        marks: *const u32, marks_length: usize,
        starts: *const u32, starts_length: usize,
    ) -> Refused;
    fn mesh_refine(
        words: *mut u32, words_length: usize,
        mark: u32,
        corners: *const u32, corners_length: usize,
        friends: *const u32, friends_length: usize,
        marks: *const u32, marks_length: usize,
        starts: *const u32, starts_length: usize,
        levels: u32,
        out: *mut u32, out_length: usize,
    ) -> Found;
    fn mesh_write(
        words: *mut u32, words_length: usize,
        mark: u32,
        corners: *const u32, corners_length: usize,
        friends: *const u32, friends_length: usize,
        marks: *const u32, marks_length: usize,
        starts: *const u32, starts_length: usize,
        out: *mut u8, out_length: usize,
    ) -> Written;
    fn mesh_work(
        words: *mut u32, words_length: usize,
        mark: u32,
        store: *const u32, store_length: usize,
        rows: *const [u32; 6], rows_length: usize,
        answers: *mut [u32; 3], answers_length: usize,
        out: *mut u32, out_length: usize,
    );
    fn mesh_values_coordinates(
        corners: *const u32, corners_length: usize,
        friends: *const u32, friends_length: usize,
        marks: *const u32, marks_length: usize,
        starts: *const u32, starts_length: usize,
        rows: *const [i32; 3], rows_length: usize,
        out: *mut [i32; 3], out_length: usize,
    ) -> Refused;
    fn mesh_values_influences(
        corners: *const u32, corners_length: usize,
        friends: *const u32, friends_length: usize,
        marks: *const u32, marks_length: usize,
        starts: *const u32, starts_length: usize,
        rows: *const u64, rows_length: usize,
        out: *mut u64, out_length: usize,
    ) -> Refused;
    fn mesh_corners_textures(
        corners: *const u32, corners_length: usize,
        friends: *const u32, friends_length: usize,
        marks: *const u32, marks_length: usize,
        starts: *const u32, starts_length: usize,
        rows: *const [f32; 2], rows_length: usize,
        out: *mut [f32; 2], out_length: usize,
    ) -> Refused;
    fn mesh_corners_colours(
        corners: *const u32, corners_length: usize,
        friends: *const u32, friends_length: usize,
        marks: *const u32, marks_length: usize,
        starts: *const u32, starts_length: usize,
        rows: *const [u8; 3], rows_length: usize,
        out: *mut [u8; 3], out_length: usize,
    ) -> Refused;
}

pub fn read(text: &[u8], lent: &mut Tables) -> Found {
    let Tables { corners, friends, marks, starts } = lent;
    // Safe: each pointer and length are those of a slice, no two overlap, and the function asks nothing more.
    unsafe {
        mesh_read(
            text.as_ptr(),
            text.len(),
            corners.as_mut_ptr(),
            corners.len(),
            friends.as_mut_ptr(),
            friends.len(),
            marks.as_mut_ptr(),
            marks.len(),
            starts.as_mut_ptr(),
            starts.len(),
        )
    }
}

pub fn read_counts(text: &[u8]) -> Found {
    // Safe: as above.
    unsafe { mesh_read_counts(text.as_ptr(), text.len()) }
}

pub fn judge(tables: &Tables) -> Refused {
    let Tables { corners, friends, marks, starts } = tables;
    // Safe: as above, and nothing is written.
    unsafe {
        mesh_judge(
            corners.as_ptr(),
            corners.len(),
            friends.as_ptr(),
            friends.len(),
            marks.as_ptr(),
            marks.len(),
            starts.as_ptr(),
            starts.len(),
        )
    }
}

/// Loads and refines so many times; what stands then is copied to the front of `out` where it has room.
pub fn refine(words: &mut [u32], mark: u32, tables: &Tables, levels: u32, out: &mut [u32]) -> Found {
    let Tables { corners, friends, marks, starts } = tables;
    // Safe: as above, and nothing but the words and `out` is written.
    unsafe {
        mesh_refine(
            words.as_mut_ptr(),
            words.len(),
            mark,
            corners.as_ptr(),
            corners.len(),
            friends.as_ptr(),
            friends.len(),
            marks.as_ptr(),
            marks.len(),
            starts.as_ptr(),
            starts.len(),
            levels,
            out.as_mut_ptr(),
            out.len(),
        )
    }
}

/// Loads, and writes the text of what stands.
pub fn write(words: &mut [u32], mark: u32, tables: &Tables, out: &mut [u8]) -> Written {
    let Tables { corners, friends, marks, starts } = tables;
    // Safe: as above.
    unsafe {
        mesh_write(
            words.as_mut_ptr(),
            words.len(),
            mark,
            corners.as_ptr(),
            corners.len(),
            friends.as_ptr(),
            friends.len(),
            marks.as_ptr(),
            marks.len(),
            starts.as_ptr(),
            starts.len(),
            out.as_mut_ptr(),
            out.len(),
        )
    }
}

/// Asks a bench row by row; what stands then is copied to the front of `out` where it has room.
pub fn work(words: &mut [u32], mark: u32, store: &[u32], rows: &[[u32; 6]], answers: &mut [[u32; 3]], out: &mut [u32]) {
    // Safe: as above.
    unsafe {
        mesh_work(
            words.as_mut_ptr(),
            words.len(),
            mark,
            store.as_ptr(),
            store.len(),
            rows.as_ptr(),
            rows.len(),
            answers.as_mut_ptr(),
            answers.len(),
            out.as_mut_ptr(),
            out.len(),
        )
    }
}

/// The values of the next level, from rows to rows.
macro_rules! carried {
    ($name:ident, $function:ident, $row:ty) => {
        pub fn $name(tables: &Tables, rows: &[$row], out: &mut [$row]) -> Refused {
            let Tables { corners, friends, marks, starts } = tables;
            // Safe: as above, and nothing but `out` is written.
            unsafe {
                $function(
                    corners.as_ptr(),
                    corners.len(),
                    friends.as_ptr(),
                    friends.len(),
                    marks.as_ptr(),
                    marks.len(),
                    starts.as_ptr(),
                    starts.len(),
                    rows.as_ptr(),
                    rows.len(),
                    out.as_mut_ptr(),
                    out.len(),
                )
            }
        }
    };
}

carried!(coordinates, mesh_values_coordinates, [i32; 3]);
carried!(influences, mesh_values_influences, u64);
carried!(textures, mesh_corners_textures, [f32; 2]);
carried!(colours, mesh_corners_colours, [u8; 3]);
