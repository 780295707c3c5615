//! The functions of `include/corbelrush.h` as C declares them. Each call's safety is the same: every pointer comes with the
//! length of its own slice, exclusive references do not overlap, and any other value is taken.
use crate::{Change, Point, Recipe};

/// Two functions of the same parameters, and their type.
macro_rules! alike {
    ($type:ident: $one:ident $other:ident ($($parameter:ident: $of:ty,)*)) => {
        pub type $type = unsafe extern "C" fn($($parameter: $of,)*) -> u32;

        extern "C" {
            pub fn $one($($parameter: $of,)*) -> u32;
            pub fn $other($($parameter: $of,)*) -> u32;
        }
    };
}

alike! {
    Blur: corbelrush_blur corbelrush_blur_planes (
        picture: *mut u8,
        picture_len: usize,
        w: u32,
        h: u32,
        scratch: *mut u8,
        scratch_len: usize,
        weights: *const f32,
        weights_len: usize,
        n: u32,
        strength: f32,
        edge: u32,
    )
}

alike! {
    Shift: corbelrush_shift corbelrush_shift_planes (
        picture: *mut u8,
        picture_len: usize,
        w: u32,
        h: u32,
        dx: f32,
        dy: f32,
    )
}

alike! {
    Shadow: corbelrush_shadow corbelrush_shadow_planes (
        picture: *mut u8,
        picture_len: usize,
        w: u32,
        h: u32,
        scratch: *mut u8,
        scratch_len: usize,
        copy: *mut u8,
        copy_len: usize,
        weights: *const f32,
        weights_len: usize,
        n: u32,
        edge: u32,
        dx: f32,
        dy: f32,
        strength: f32,
        red: f32,
        green: f32,
        blue: f32,
        alpha: f32,
        composite: u32,
    )
}

alike! {
    Convert: corbelrush_to_planes corbelrush_from_planes (
        src: *const u8,
        src_len: usize,
        w: u32,
        h: u32,
        dst: *mut u8,
        dst_len: usize,
    )
}

extern "C" {
    pub fn corbelrush_recipes(
        picture: *mut u8,
        picture_len: usize,
        w: u32,
        h: u32,
        scratch: *mut u8,
        scratch_len: usize,
        copy: *mut u8,
        copy_len: usize,
        recipes: *const Recipe,
        count: usize,
        table: *const f32,
        weights: usize,
        index: *mut u64,
    ) -> u32;
    pub fn corbelrush_blur_whole(
        picture: *mut u8,
        picture_len: usize,
        w: u32,
        h: u32,
        scratch: *mut u8,
        scratch_len: usize,
        numerators: *const u32,
        numerators_len: usize,
        n: u32,
        edge: u32,
    ) -> u32;
    pub fn corbelrush_check(
        picture: *const u8,
        picture_len: usize,
        w: u32,
        h: u32,
        found: *mut u32,
        place: *mut u64,
    ) -> u32;
    pub fn corbelrush_mend(
        picture: *mut u8,
        picture_len: usize,
        w: u32,
        h: u32,
        list: *mut Change,
        room: usize,
        count: *mut u64,
    ) -> u32;
    pub fn corbelrush_rebuild(
        picture: *mut u8,
        picture_len: usize,
        w: u32,
        h: u32,
        list: *const Change,
        count: usize,
    ) -> u32;
    pub fn corbelrush_share(
        w: u32,
        h: u32,
        numerators: *const u32,
        count: usize,
        n: u32,
        edge: u32,
        out_place: u64,
        in_place: u64,
        share: *mut u64,
    ) -> u32;
    pub fn corbelrush_shares(
        w: u32,
        h: u32,
        numerators: *const u32,
        count: usize,
        n: u32,
        edge: u32,
        out_place: u64,
        list: *mut Point,
        room: usize,
        points: *mut u64,
    ) -> u32;
    pub fn corbelrush_view(picture: *const u8, picture_len: usize, w: u32, h: u32, edge: u32) -> u32;
    pub fn corbelrush_sample(picture: *const u8, picture_len: usize, w: u32, h: u32, edge: u32, x: i32, y: i32) -> u32;
    pub fn corbelrush_spread(weights: *const f32, weights_len: usize, n: u32, spread: *mut u64) -> u32;
    pub fn corbelrush_area_build(
        picture: *const u8,
        picture_len: usize,
        w: u32,
        h: u32,
        table: *mut u32,
        entries: usize,
    ) -> u32;
    pub fn corbelrush_area_box(
        table: *const u32,
        entries: usize,
        w: u32,
        h: u32,
        x: u32,
        y: u32,
        wide: u32,
        high: u32,
        sum: *mut u64,
    ) -> u32;
    pub fn corbelrush_area_update(
        table: *mut u32,
        entries: usize,
        w: u32,
        h: u32,
        place: u64,
        old_alpha: u8,
        new_alpha: u8,
    ) -> u32;
    pub fn corbelrush_plate_picture(
        plate: *const u8,
        plate_len: usize,
        index: u32,
        w: *mut u32,
        h: *mut u32,
        offset: *mut u64,
        length: *mut u64,
    ) -> u32;
    pub fn corbelrush_plate_label(
        plate: *const u8,
        plate_len: usize,
        index: u32,
        unit: *mut u32,
        sheet: *mut u16,
    ) -> u32;
    pub fn corbelrush_plate_job(plate: *mut u8, plate_len: usize, scratch: *mut u8, scratch_len: usize) -> u32;
    pub fn corbelrush_plate_start(buffer: *mut u8, buffer_len: usize, version: u32, used: *mut u64) -> u32;
    pub fn corbelrush_plate_add(
        buffer: *mut u8,
        buffer_len: usize,
        used: u64,
        picture: *const u8,
        picture_len: usize,
        w: u32,
        h: u32,
        unit: u32,
        sheet: u16,
        new_used: *mut u64,
    ) -> u32;
    pub fn corbelrush_pam_read(
        file: *const u8,
        file_len: usize,
        picture: *mut u8,
        picture_len: usize,
        w: *mut u32,
        h: *mut u32,
        written: *mut u64,
    ) -> u32;
    pub fn corbelrush_pam_write(
        picture: *const u8,
        picture_len: usize,
        w: u32,
        h: u32,
        file: *mut u8,
        file_len: usize,
        written: *mut u64,
        place: *mut u64,
    ) -> u32;
}
