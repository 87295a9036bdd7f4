//! The kiosk's C library (include/beamnettle.h), behind safe calls.

pub const DONE: u8 = 0;
pub const TOO_SHORT: u8 = 4;
pub const NONE: u8 = 32;
pub const YES: u8 = 33;
pub const NO: u8 = 34;
pub const NO_FRAME: u8 = 35;
pub const SHARED: u8 = 36;
pub const COVERED: u8 = 37;
pub const CUT: u8 = 38;
/// The number of place 0 of a list of boxes.
pub const FIRST_PLACE: u32 = 256;
/// What a file's length is added to.
pub const FIRST_LENGTH: u32 = 256;

mod c {
    #[link(name = "beamnettle", kind = "static")]
    extern "C" {
        pub fn beamnettle_draw(
            mask: *mut u8,
            mask_length: usize,
            ink: *mut u16,
            ink_length: usize,
            width: usize,
            height: usize,
            x: i32,
            y: i32,
            words: *const i32,
            words_length: usize,
            floats: *mut f32,
            floats_length: usize,
            counters: *mut u64,
            counters_length: usize,
        ) -> u8;
        pub fn beamnettle_lay(
            mask: *mut u8,
            mask_length: usize,
            ink: *mut u16,
            ink_length: usize,
            width: usize,
            height: usize,
            other: *const u8,
            other_length: usize,
            other_width: usize,
            other_height: usize,
            offset_x: i32,
            offset_y: i32,
        ) -> u8;
        pub fn beamnettle_lay_placed(
            mask: *mut u8,
            mask_length: usize,
            ink: *mut u16,
            ink_length: usize,
            width: usize,
            height: usize,
            x: i32,
            y: i32,
            other: *const u8,
            other_length: usize,
            other_width: usize,
            other_height: usize,
            other_x: i32,
            other_y: i32,
        ) -> u8;
        pub fn beamnettle_write_pgm(
            mask: *const u8,
            mask_length: usize,
            width: usize,
            height: usize,
            file: *mut u8,
            file_length: usize,
        ) -> u32;
        pub fn beamnettle_read_pgm(
            file: *const u8,
            file_length: usize,
            mask: *mut u8,
            mask_length: usize,
            ink: *mut u16,
            ink_length: usize,
            size: *mut usize,
            size_length: usize,
            corner: *mut i32,
            corner_length: usize,
        ) -> u8;
        pub fn beamnettle_fit(
            verbs: *const u8,
            verbs_length: usize,
            positions: *const f32,
            positions_length: usize,
            out: *mut f32,
            out_length: usize,
        ) -> u8;
        pub fn beamnettle_fit_outline(
            verbs: *const u8,
            verbs_length: usize,
            positions: *const f32,
            positions_length: usize,
            out: *mut f32,
            out_length: usize,
        ) -> u8;
        pub fn beamnettle_fit_with_cut(
            verbs: *const u8,
            verbs_length: usize,
            positions: *const f32,
            positions_length: usize,
            out: *mut f32,
            out_length: usize,
        ) -> u8;
        pub fn beamnettle_transformed(
            shape: *const f32,
            shape_length: usize,
            frame: *const f32,
            frame_length: usize,
            out: *mut f32,
            out_length: usize,
        ) -> u8;
        pub fn beamnettle_intersection(
            one: *const f32,
            one_length: usize,
            two: *const f32,
            two_length: usize,
            fringe: f32,
            out: *mut f32,
            out_length: usize,
        ) -> u8;
        pub fn beamnettle_rect_intersection(
            one: *const f32,
            one_length: usize,
            two: *const f32,
            two_length: usize,
            out: *mut f32,
            out_length: usize,
        ) -> u8;
        pub fn beamnettle_coverage(
            shape: *const f32,
            shape_length: usize,
            fringe: f32,
            out: *mut f32,
            out_length: usize,
        ) -> u8;
        pub fn beamnettle_bounds(
            shape: *const f32,
            shape_length: usize,
            out: *mut f32,
            out_length: usize,
        ) -> u8;
        pub fn beamnettle_distance(
            coverage: *const f32,
            coverage_length: usize,
            x: f32,
            y: f32,
            out: *mut f32,
            out_length: usize,
        ) -> u8;
        pub fn beamnettle_parallel(
            one: *const f32,
            one_length: usize,
            two: *const f32,
            two_length: usize,
        ) -> u8;
        pub fn beamnettle_contains(
            coverage: *const f32,
            coverage_length: usize,
            shape: *const f32,
            shape_length: usize,
        ) -> u8;
        pub fn beamnettle_touch(
            boxes: *const [f32; 10],
            boxes_length: usize,
            fringe: f32,
            x: f32,
            y: f32,
        ) -> u32;
        pub fn beamnettle_inside(
            boxes: *const [f32; 10],
            boxes_length: usize,
            safe: *const f32,
            safe_length: usize,
            fringe: f32,
        ) -> u32;
        pub fn beamnettle_with_scissor(
            clip: *const f32,
            clip_length: usize,
            scissor: *const f32,
            scissor_length: usize,
            fringe: f32,
            out: *mut f32,
            out_length: usize,
            coverage: *mut f32,
            coverage_length: usize,
        ) -> u8;
        pub fn beamnettle_trimmed_scissor(
            clip: *const f32,
            clip_length: usize,
            scissor: *const f32,
            scissor_length: usize,
            fringe: f32,
            out: *mut f32,
            out_length: usize,
        ) -> u8;
        pub fn beamnettle_rect_fill(
            clip: *const f32,
            clip_length: usize,
            fill: *const f32,
            fill_length: usize,
            fringe: f32,
            out: *mut f32,
            out_length: usize,
        ) -> u8;
        pub fn beamnettle_upright_rect(
            verbs: *const u8,
            verbs_length: usize,
            positions: *const f32,
            positions_length: usize,
            frame: *const f32,
            frame_length: usize,
            out: *mut f32,
            out_length: usize,
        ) -> u8;
        pub fn beamnettle_reach(
            coverage: *const f32,
            coverage_length: usize,
            out: *mut f32,
            out_length: usize,
        ) -> u8;
        pub fn beamnettle_holds(
            coverage: *const f32,
            coverage_length: usize,
            bounds: *const f32,
            bounds_length: usize,
        ) -> u8;
    }
}

// Each call lends whole slices, which Rust keeps valid, aligned and apart while it runs.

pub fn draw(
    mask: &mut [u8],
    ink: &mut [u16],
    size: [usize; 2],
    corner: [i32; 2],
    words: &[i32],
    floats: &mut [f32],
    counters: &mut [u64],
) -> u8 {
    let [width, height] = size;
    unsafe {
        c::beamnettle_draw(
            mask.as_mut_ptr(),
            mask.len(),
            ink.as_mut_ptr(),
            ink.len(),
            width,
            height,
            corner[0],
            corner[1],
            words.as_ptr(),
            words.len(),
            floats.as_mut_ptr(),
            floats.len(),
            counters.as_mut_ptr(),
            counters.len(),
        )
    }
}

pub fn lay(
    mask: &mut [u8],
    ink: &mut [u16],
    size: [usize; 2],
    other: &[u8],
    other_size: [usize; 2],
    offset: [i32; 2],
) -> u8 {
    unsafe {
        c::beamnettle_lay(
            mask.as_mut_ptr(),
            mask.len(),
            ink.as_mut_ptr(),
            ink.len(),
            size[0],
            size[1],
            other.as_ptr(),
            other.len(),
            other_size[0],
            other_size[1],
            offset[0],
            offset[1],
        )
    }
}

pub fn lay_placed(
    mask: &mut [u8],
    ink: &mut [u16],
    size: [usize; 2],
    corner: [i32; 2],
    other: &[u8],
    other_size: [usize; 2],
    other_corner: [i32; 2],
) -> u8 {
    unsafe {
        c::beamnettle_lay_placed(
            mask.as_mut_ptr(),
            mask.len(),
            ink.as_mut_ptr(),
            ink.len(),
            size[0],
            size[1],
            corner[0],
            corner[1],
            other.as_ptr(),
            other.len(),
            other_size[0],
            other_size[1],
            other_corner[0],
            other_corner[1],
        )
    }
}

pub fn write_pgm(mask: &[u8], size: [usize; 2], file: &mut [u8]) -> u32 {
    let [width, height] = size;
    unsafe {
        c::beamnettle_write_pgm(
            mask.as_ptr(),
            mask.len(),
            width,
            height,
            file.as_mut_ptr(),
            file.len(),
        )
    }
}

pub fn read_pgm(
    file: &[u8],
    mask: &mut [u8],
    ink: &mut [u16],
    size: &mut [usize],
    corner: &mut [i32],
) -> u8 {
    unsafe {
        c::beamnettle_read_pgm(
            file.as_ptr(),
            file.len(),
            mask.as_mut_ptr(),
            mask.len(),
            ink.as_mut_ptr(),
            ink.len(),
            size.as_mut_ptr(),
            size.len(),
            corner.as_mut_ptr(),
            corner.len(),
        )
    }
}

pub fn fit(verbs: &[u8], positions: &[f32], out: &mut [f32]) -> u8 {
    unsafe {
        c::beamnettle_fit(
            verbs.as_ptr(),
            verbs.len(),
            positions.as_ptr(),
            positions.len(),
            out.as_mut_ptr(),
            out.len(),
        )
    }
}

pub fn fit_outline(verbs: &[u8], positions: &[f32], out: &mut [f32]) -> u8 {
    unsafe {
        c::beamnettle_fit_outline(
            verbs.as_ptr(),
            verbs.len(),
            positions.as_ptr(),
            positions.len(),
            out.as_mut_ptr(),
            out.len(),
        )
    }
}

pub fn fit_with_cut(verbs: &[u8], positions: &[f32], out: &mut [f32]) -> u8 {
    unsafe {
        c::beamnettle_fit_with_cut(
            verbs.as_ptr(),
            verbs.len(),
            positions.as_ptr(),
            positions.len(),
            out.as_mut_ptr(),
            out.len(),
        )
    }
}

pub fn transformed(shape: &[f32], frame: &[f32], out: &mut [f32]) -> u8 {
    unsafe {
        c::beamnettle_transformed(
            shape.as_ptr(),
            shape.len(),
            frame.as_ptr(),
            frame.len(),
            out.as_mut_ptr(),
            out.len(),
        )
    }
}

pub fn intersection(one: &[f32], two: &[f32], fringe: f32, out: &mut [f32]) -> u8 {
    unsafe {
        c::beamnettle_intersection(
            one.as_ptr(),
            one.len(),
            two.as_ptr(),
            two.len(),
            fringe,
            out.as_mut_ptr(),
            out.len(),
        )
    }
}

pub fn rect_intersection(one: &[f32], two: &[f32], out: &mut [f32]) -> u8 {
    unsafe {
        c::beamnettle_rect_intersection(
            one.as_ptr(),
            one.len(),
            two.as_ptr(),
            two.len(),
            out.as_mut_ptr(),
            out.len(),
        )
    }
}

pub fn coverage(shape: &[f32], fringe: f32, out: &mut [f32]) -> u8 {
    unsafe {
        c::beamnettle_coverage(
            shape.as_ptr(),
            shape.len(),
            fringe,
            out.as_mut_ptr(),
            out.len(),
        )
    }
}

pub fn bounds(shape: &[f32], out: &mut [f32]) -> u8 {
    unsafe { c::beamnettle_bounds(shape.as_ptr(), shape.len(), out.as_mut_ptr(), out.len()) }
}

pub fn distance(coverage: &[f32], point: [f32; 2], out: &mut [f32]) -> u8 {
    let [x, y] = point;
    unsafe {
        c::beamnettle_distance(
            coverage.as_ptr(),
            coverage.len(),
            x,
            y,
            out.as_mut_ptr(),
            out.len(),
        )
    }
}

pub fn parallel(one: &[f32], two: &[f32]) -> u8 {
    unsafe { c::beamnettle_parallel(one.as_ptr(), one.len(), two.as_ptr(), two.len()) }
}

pub fn contains(coverage: &[f32], shape: &[f32]) -> u8 {
    unsafe {
        c::beamnettle_contains(
            coverage.as_ptr(),
            coverage.len(),
            shape.as_ptr(),
            shape.len(),
        )
    }
}

pub fn touch(boxes: &[[f32; 10]], fringe: f32, point: [f32; 2]) -> u32 {
    let [x, y] = point;
    unsafe { c::beamnettle_touch(boxes.as_ptr(), boxes.len(), fringe, x, y) }
}

pub fn inside(boxes: &[[f32; 10]], safe: &[f32], fringe: f32) -> u32 {
    unsafe {
        c::beamnettle_inside(
            boxes.as_ptr(),
            boxes.len(),
            safe.as_ptr(),
            safe.len(),
            fringe,
        )
    }
}

pub fn with_scissor(
    clip: &[f32],
    scissor: &[f32],
    fringe: f32,
    out: &mut [f32],
    coverage: &mut [f32],
) -> u8 {
    unsafe {
        c::beamnettle_with_scissor(
            clip.as_ptr(),
            clip.len(),
            scissor.as_ptr(),
            scissor.len(),
            fringe,
            out.as_mut_ptr(),
            out.len(),
            coverage.as_mut_ptr(),
            coverage.len(),
        )
    }
}

pub fn trimmed_scissor(clip: &[f32], scissor: &[f32], fringe: f32, out: &mut [f32]) -> u8 {
    unsafe {
        c::beamnettle_trimmed_scissor(
            clip.as_ptr(),
            clip.len(),
            scissor.as_ptr(),
            scissor.len(),
            fringe,
            out.as_mut_ptr(),
            out.len(),
        )
    }
}

pub fn rect_fill(clip: &[f32], fill: &[f32], fringe: f32, out: &mut [f32]) -> u8 {
    unsafe {
        c::beamnettle_rect_fill(
            clip.as_ptr(),
            clip.len(),
            fill.as_ptr(),
            fill.len(),
            fringe,
            out.as_mut_ptr(),
            out.len(),
        )
    }
}

pub fn upright_rect(verbs: &[u8], positions: &[f32], frame: &[f32], out: &mut [f32]) -> u8 {
    unsafe {
        c::beamnettle_upright_rect(
            verbs.as_ptr(),
            verbs.len(),
            positions.as_ptr(),
            positions.len(),
            frame.as_ptr(),
            frame.len(),
            out.as_mut_ptr(),
            out.len(),
        )
    }
}

pub fn reach(coverage: &[f32], out: &mut [f32]) -> u8 {
    unsafe {
        c::beamnettle_reach(
            coverage.as_ptr(),
            coverage.len(),
            out.as_mut_ptr(),
            out.len(),
        )
    }
}

pub fn holds(coverage: &[f32], bounds: &[f32]) -> u8 {
    unsafe {
        c::beamnettle_holds(
            coverage.as_ptr(),
            coverage.len(),
            bounds.as_ptr(),
            bounds.len(),
        )
    }
}
