//! The C functions as a table, filled by the linked library or by the rules.
use rule::mend::{self, Change};
use rule::recipes::{self, Step};
use rule::share::{self, Point};
use rule::{area, blur, grading, pam, planes, plate, plate_write, shadow, shift, whole};
use std::slice;

pub struct Library {
    pub name: &'static str,
    pub blur: Blur,
    pub shift: Shift,
    pub shadow: Shadow,
    pub check: Check,
    pub view: View,
    pub sample: Sample,
    pub spread: Spread,
    pub plate_picture: PlatePicture,
    pub plate_job: PlateJob,
    pub plate_start: PlateStart,
    pub plate_add: PlateAdd,
    pub plate_label: PlateLabel,
    pub pam_read: PamRead,
    pub pam_write: PamWrite,
    pub mend: Mend,
    pub rebuild: Rebuild,
    pub blur_whole: BlurWhole,
    pub area_build: AreaBuild,
    pub area_box: AreaBox,
    pub area_update: AreaUpdate,
    pub share: Share,
    pub shares: Shares,
    pub to_planes: ToPlanes,
    pub from_planes: FromPlanes,
    pub blur_planes: BlurPlanes,
    pub shift_planes: ShiftPlanes,
    pub shadow_planes: ShadowPlanes,
    pub recipes: Recipes,
}

/// The types of the C functions, and the library's own ones where it is linked.
macro_rules! functions {
    ($($type:ident $c:ident ($($arg:ident : $of:ty),*);)*) => {
        $(pub type $type = unsafe extern "C" fn($($arg: $of),*) -> u32;)*

        #[cfg(linked)]
        extern "C" {
            $(fn $c($($arg: $of),*) -> u32;)*
        }
    };
}

functions! {
    Blur corbelrush_blur(
        picture: *mut u8, picture_len: usize, w: u32, h: u32, scratch: *mut u8, scratch_len: usize,
        weights: *const f32, weights_len: usize, n: u32, strength: f32, edge: u32
    );
    Shift corbelrush_shift(picture: *mut u8, picture_len: usize, w: u32, h: u32, dx: f32, dy: f32);
    Shadow corbelrush_shadow(
        picture: *mut u8, picture_len: usize, w: u32, h: u32, scratch: *mut u8, scratch_len: usize,
        copy: *mut u8, copy_len: usize, weights: *const f32, weights_len: usize, n: u32, edge: u32,
        dx: f32, dy: f32, strength: f32, red: f32, green: f32, blue: f32, alpha: f32, composite: u32
    );
    Check corbelrush_check(
        picture: *const u8, picture_len: usize, w: u32, h: u32, found: *mut u32, place: *mut u64
    );
    View corbelrush_view(picture: *const u8, picture_len: usize, w: u32, h: u32, edge: u32);
    Sample corbelrush_sample(
        picture: *const u8, picture_len: usize, w: u32, h: u32, edge: u32, x: i32, y: i32
    );
    Spread corbelrush_spread(weights: *const f32, weights_len: usize, n: u32, spread: *mut u64);
    PlatePicture corbelrush_plate_picture(
        plate: *const u8, plate_len: usize, index: u32, w: *mut u32, h: *mut u32, offset: *mut u64, length: *mut u64
    );
    PlateJob corbelrush_plate_job(plate: *mut u8, plate_len: usize, scratch: *mut u8, scratch_len: usize);
    PlateStart corbelrush_plate_start(buffer: *mut u8, buffer_len: usize, version: u32, used: *mut u64);
    PlateAdd corbelrush_plate_add(
        buffer: *mut u8, buffer_len: usize, used: u64, picture: *const u8, picture_len: usize, w: u32, h: u32,
        unit: u32, sheet: u16, new_used: *mut u64
    );
    PlateLabel corbelrush_plate_label(
        plate: *const u8, plate_len: usize, index: u32, unit: *mut u32, sheet: *mut u16
    );
    PamRead corbelrush_pam_read(
        file: *const u8, file_len: usize, picture: *mut u8, picture_len: usize, w: *mut u32, h: *mut u32,
        written: *mut u64
    );
    PamWrite corbelrush_pam_write(
        picture: *const u8, picture_len: usize, w: u32, h: u32, file: *mut u8, file_len: usize, written: *mut u64,
        place: *mut u64
    );
    Mend corbelrush_mend(
        picture: *mut u8, picture_len: usize, w: u32, h: u32, list: *mut Change, room: usize, count: *mut u64
    );
    Rebuild corbelrush_rebuild(
        picture: *mut u8, picture_len: usize, w: u32, h: u32, list: *const Change, count: usize
    );
    BlurWhole corbelrush_blur_whole(
        picture: *mut u8, picture_len: usize, w: u32, h: u32, scratch: *mut u8, scratch_len: usize,
        numerators: *const u32, count: usize, n: u32, edge: u32
    );
    AreaBuild corbelrush_area_build(
        picture: *const u8, picture_len: usize, w: u32, h: u32, table: *mut u32, entries: usize
    );
    AreaBox corbelrush_area_box(
        table: *const u32, entries: usize, w: u32, h: u32, x: u32, y: u32, wide: u32, high: u32, sum: *mut u64
    );
    AreaUpdate corbelrush_area_update(
        table: *mut u32, entries: usize, w: u32, h: u32, place: u64, old_alpha: u8, new_alpha: u8
    );
    Share corbelrush_share(
        w: u32, h: u32, numerators: *const u32, count: usize, n: u32, edge: u32, out_place: u64, in_place: u64,
        share: *mut u64
    );
    Shares corbelrush_shares(
        w: u32, h: u32, numerators: *const u32, count: usize, n: u32, edge: u32, out_place: u64, list: *mut Point,
        room: usize, points: *mut u64
    );
    ToPlanes corbelrush_to_planes(
        src: *const u8, src_len: usize, w: u32, h: u32, dst: *mut u8, dst_len: usize
    );
    FromPlanes corbelrush_from_planes(
        src: *const u8, src_len: usize, w: u32, h: u32, dst: *mut u8, dst_len: usize
    );
    BlurPlanes corbelrush_blur_planes(
        planes: *mut u8, planes_len: usize, w: u32, h: u32, scratch: *mut u8, scratch_len: usize,
        weights: *const f32, weights_len: usize, n: u32, strength: f32, edge: u32
    );
    ShiftPlanes corbelrush_shift_planes(planes: *mut u8, planes_len: usize, w: u32, h: u32, dx: f32, dy: f32);
    ShadowPlanes corbelrush_shadow_planes(
        planes: *mut u8, planes_len: usize, w: u32, h: u32, scratch: *mut u8, scratch_len: usize,
        copy: *mut u8, copy_len: usize, weights: *const f32, weights_len: usize, n: u32, edge: u32,
        dx: f32, dy: f32, strength: f32, red: f32, green: f32, blue: f32, alpha: f32, composite: u32
    );
    Recipes corbelrush_recipes(
        picture: *mut u8, picture_len: usize, w: u32, h: u32, scratch: *mut u8, scratch_len: usize,
        copy: *mut u8, copy_len: usize, recipes: *const Step, count: usize, table: *const f32, weights: usize,
        index: *mut u64
    );
}

/// The library under test: the linked one, else the rules.
pub fn under_test() -> &'static Library {
    #[cfg(linked)]
    return &LINKED;
    #[cfg(not(linked))]
    return &RULE;
}

#[cfg(linked)]
static LINKED: Library = Library {
    name: "the linked library",
    blur: corbelrush_blur,
    shift: corbelrush_shift,
    shadow: corbelrush_shadow,
    check: corbelrush_check,
    view: corbelrush_view,
    sample: corbelrush_sample,
    spread: corbelrush_spread,
    plate_picture: corbelrush_plate_picture,
    plate_job: corbelrush_plate_job,
    plate_start: corbelrush_plate_start,
    plate_add: corbelrush_plate_add,
    plate_label: corbelrush_plate_label,
    pam_read: corbelrush_pam_read,
    pam_write: corbelrush_pam_write,
    mend: corbelrush_mend,
    rebuild: corbelrush_rebuild,
    blur_whole: corbelrush_blur_whole,
    area_build: corbelrush_area_build,
    area_box: corbelrush_area_box,
    area_update: corbelrush_area_update,
    share: corbelrush_share,
    shares: corbelrush_shares,
    to_planes: corbelrush_to_planes,
    from_planes: corbelrush_from_planes,
    blur_planes: corbelrush_blur_planes,
    shift_planes: corbelrush_shift_planes,
    shadow_planes: corbelrush_shadow_planes,
    recipes: corbelrush_recipes,
};

pub static RULE: Library = Library {
    name: "the rules",
    blur: rule_blur,
    shift: rule_shift,
    shadow: rule_shadow,
    check: rule_check,
    view: rule_view,
    sample: rule_sample,
    spread: rule_spread,
    plate_picture: rule_plate_picture,
    plate_job: rule_plate_job,
    plate_start: rule_plate_start,
    plate_add: rule_plate_add,
    plate_label: rule_plate_label,
    pam_read: rule_pam_read,
    pam_write: rule_pam_write,
    mend: rule_mend,
    rebuild: rule_rebuild,
    blur_whole: rule_blur_whole,
    area_build: rule_area_build,
    area_box: rule_area_box,
    area_update: rule_area_update,
    share: rule_share,
    shares: rule_shares,
    to_planes: rule_to_planes,
    from_planes: rule_from_planes,
    blur_planes: rule_blur_planes,
    shift_planes: rule_shift_planes,
    shadow_planes: rule_shadow_planes,
    recipes: rule_recipes,
};

// SAFETY of all below: the caller lends each buffer for the call, with its length, and no two overlap.

/// A buffer that is read; the pointer of one of length 0 may be null.
unsafe fn read<'a, T>(at: *const T, length: usize) -> &'a [T] {
    if length == 0 {
        &[]
    } else {
        slice::from_raw_parts(at, length)
    }
}

/// A buffer that is written.
unsafe fn written<'a, T>(at: *mut T, length: usize) -> &'a mut [T] {
    if length == 0 {
        &mut []
    } else {
        slice::from_raw_parts_mut(at, length)
    }
}

unsafe extern "C" fn rule_blur(
    picture: *mut u8,
    picture_len: usize,
    w: u32,
    h: u32,
    scratch: *mut u8,
    scratch_len: usize,
    weights: *const f32,
    weights_len: usize,
    n: u32,
    strength: f32,
    edge: u32,
) -> u32 {
    let picture = written(picture, picture_len);
    let scratch = written(scratch, scratch_len);
    blur::blur(picture, w, h, scratch, read(weights, weights_len), n, strength, edge)
}

unsafe extern "C" fn rule_shift(picture: *mut u8, picture_len: usize, w: u32, h: u32, dx: f32, dy: f32) -> u32 {
    shift::shift(written(picture, picture_len), w, h, dx, dy)
}

unsafe extern "C" fn rule_shadow(
    picture: *mut u8,
    picture_len: usize,
    w: u32,
    h: u32,
    scratch: *mut u8,
    scratch_len: usize,
    copy: *mut u8,
    copy_len: usize,
    weights: *const f32,
    weights_len: usize,
    n: u32,
    edge: u32,
    dx: f32,
    dy: f32,
    strength: f32,
    red: f32,
    green: f32,
    blue: f32,
    alpha: f32,
    composite: u32,
) -> u32 {
    let picture = written(picture, picture_len);
    let scratch = written(scratch, scratch_len);
    let copy = written(copy, copy_len);
    let weights = read(weights, weights_len);
    let recipe = shadow::Recipe { dx, dy, strength, colour: [red, green, blue, alpha] };
    shadow::shadow(picture, w, h, scratch, copy, weights, n, edge, recipe, composite != 0)
}

unsafe extern "C" fn rule_check(
    picture: *const u8,
    picture_len: usize,
    w: u32,
    h: u32,
    found: *mut u32,
    place: *mut u64,
) -> u32 {
    let (number, bad, at) = grading::check(read(picture, picture_len), w, h);
    *found = bad.into();
    *place = at;
    number
}

unsafe extern "C" fn rule_view(picture: *const u8, picture_len: usize, w: u32, h: u32, edge: u32) -> u32 {
    grading::view(read(picture, picture_len), w, h, edge)
}

unsafe extern "C" fn rule_sample(
    picture: *const u8,
    picture_len: usize,
    w: u32,
    h: u32,
    edge: u32,
    x: i32,
    y: i32,
) -> u32 {
    u32::from_le_bytes(grading::sample(read(picture, picture_len), w, h, edge, x, y))
}

unsafe extern "C" fn rule_spread(weights: *const f32, weights_len: usize, n: u32, spread: *mut u64) -> u32 {
    let (number, value) = grading::spread(read(weights, weights_len), n);
    *spread = value;
    number
}

unsafe extern "C" fn rule_plate_picture(
    plate: *const u8,
    plate_len: usize,
    index: u32,
    w: *mut u32,
    h: *mut u32,
    offset: *mut u64,
    length: *mut u64,
) -> u32 {
    let (number, picture) = plate::picture(read(plate, plate_len), index);
    *w = picture.w;
    *h = picture.h;
    *offset = picture.offset;
    *length = picture.length;
    number
}

unsafe extern "C" fn rule_plate_job(plate: *mut u8, plate_len: usize, scratch: *mut u8, scratch_len: usize) -> u32 {
    plate::job(written(plate, plate_len), written(scratch, scratch_len))
}

unsafe extern "C" fn rule_plate_start(buffer: *mut u8, buffer_len: usize, version: u32, used: *mut u64) -> u32 {
    let (number, length) = plate_write::start(written(buffer, buffer_len), version);
    *used = length;
    number
}

unsafe extern "C" fn rule_plate_add(
    buffer: *mut u8,
    buffer_len: usize,
    used: u64,
    picture: *const u8,
    picture_len: usize,
    w: u32,
    h: u32,
    unit: u32,
    sheet: u16,
    new_used: *mut u64,
) -> u32 {
    let (buffer, picture) = (written(buffer, buffer_len), read(picture, picture_len));
    let (number, length) = plate_write::add(buffer, used, picture, w, h, unit, sheet);
    *new_used = length;
    number
}

unsafe extern "C" fn rule_plate_label(
    plate: *const u8,
    plate_len: usize,
    index: u32,
    unit: *mut u32,
    sheet: *mut u16,
) -> u32 {
    let number;
    (number, *unit, *sheet) = plate::label(read(plate, plate_len), index);
    number
}

unsafe extern "C" fn rule_pam_read(
    file: *const u8,
    file_len: usize,
    picture: *mut u8,
    picture_len: usize,
    w: *mut u32,
    h: *mut u32,
    length: *mut u64,
) -> u32 {
    let number;
    (number, *w, *h, *length) = pam::read(read(file, file_len), written(picture, picture_len));
    number
}

unsafe extern "C" fn rule_pam_write(
    picture: *const u8,
    picture_len: usize,
    w: u32,
    h: u32,
    file: *mut u8,
    file_len: usize,
    length: *mut u64,
    place: *mut u64,
) -> u32 {
    let number;
    (number, *length, *place) = pam::write(read(picture, picture_len), w, h, written(file, file_len));
    number
}

unsafe extern "C" fn rule_mend(
    picture: *mut u8,
    picture_len: usize,
    w: u32,
    h: u32,
    list: *mut Change,
    room: usize,
    count: *mut u64,
) -> u32 {
    let number;
    (number, *count) = mend::mend(written(picture, picture_len), w, h, written(list, room));
    number
}

unsafe extern "C" fn rule_rebuild(
    picture: *mut u8,
    picture_len: usize,
    w: u32,
    h: u32,
    list: *const Change,
    count: usize,
) -> u32 {
    mend::rebuild(written(picture, picture_len), w, h, read(list, count))
}

unsafe extern "C" fn rule_blur_whole(
    picture: *mut u8,
    picture_len: usize,
    w: u32,
    h: u32,
    scratch: *mut u8,
    scratch_len: usize,
    numerators: *const u32,
    count: usize,
    n: u32,
    edge: u32,
) -> u32 {
    let picture = written(picture, picture_len);
    whole::blur_whole(picture, w, h, written(scratch, scratch_len), read(numerators, count), n, edge)
}

unsafe extern "C" fn rule_area_build(
    picture: *const u8,
    picture_len: usize,
    w: u32,
    h: u32,
    table: *mut u32,
    entries: usize,
) -> u32 {
    area::build(read(picture, picture_len), w, h, written(table, entries))
}

unsafe extern "C" fn rule_area_box(
    table: *const u32,
    entries: usize,
    w: u32,
    h: u32,
    x: u32,
    y: u32,
    wide: u32,
    high: u32,
    sum: *mut u64,
) -> u32 {
    let number;
    (number, *sum) = area::box_sum(read(table, entries), w, h, x, y, wide, high);
    number
}

unsafe extern "C" fn rule_area_update(
    table: *mut u32,
    entries: usize,
    w: u32,
    h: u32,
    place: u64,
    old_alpha: u8,
    new_alpha: u8,
) -> u32 {
    area::update(written(table, entries), w, h, place, old_alpha, new_alpha)
}

unsafe extern "C" fn rule_share(
    w: u32,
    h: u32,
    numerators: *const u32,
    count: usize,
    n: u32,
    edge: u32,
    out_place: u64,
    in_place: u64,
    share: *mut u64,
) -> u32 {
    let number;
    (number, *share) = share::Blur { w, h, numerators: read(numerators, count), n, edge }.share(out_place, in_place);
    number
}

unsafe extern "C" fn rule_shares(
    w: u32,
    h: u32,
    numerators: *const u32,
    count: usize,
    n: u32,
    edge: u32,
    out_place: u64,
    list: *mut Point,
    room: usize,
    points: *mut u64,
) -> u32 {
    let blur = share::Blur { w, h, numerators: read(numerators, count), n, edge };
    let number;
    (number, *points) = blur.shares(out_place, written(list, room));
    number
}

unsafe extern "C" fn rule_to_planes(
    src: *const u8,
    src_len: usize,
    w: u32,
    h: u32,
    dst: *mut u8,
    dst_len: usize,
) -> u32 {
    planes::to_planes(read(src, src_len), w, h, written(dst, dst_len))
}

unsafe extern "C" fn rule_from_planes(
    src: *const u8,
    src_len: usize,
    w: u32,
    h: u32,
    dst: *mut u8,
    dst_len: usize,
) -> u32 {
    planes::from_planes(read(src, src_len), w, h, written(dst, dst_len))
}

unsafe extern "C" fn rule_blur_planes(
    planes: *mut u8,
    planes_len: usize,
    w: u32,
    h: u32,
    scratch: *mut u8,
    scratch_len: usize,
    weights: *const f32,
    weights_len: usize,
    n: u32,
    strength: f32,
    edge: u32,
) -> u32 {
    let planes = written(planes, planes_len);
    let scratch = written(scratch, scratch_len);
    planes::blur_planes(planes, w, h, scratch, read(weights, weights_len), n, strength, edge)
}

unsafe extern "C" fn rule_shift_planes(planes: *mut u8, planes_len: usize, w: u32, h: u32, dx: f32, dy: f32) -> u32 {
    planes::shift_planes(written(planes, planes_len), w, h, dx, dy)
}

unsafe extern "C" fn rule_shadow_planes(
    planes: *mut u8,
    planes_len: usize,
    w: u32,
    h: u32,
    scratch: *mut u8,
    scratch_len: usize,
    copy: *mut u8,
    copy_len: usize,
    weights: *const f32,
    weights_len: usize,
    n: u32,
    edge: u32,
    dx: f32,
    dy: f32,
    strength: f32,
    red: f32,
    green: f32,
    blue: f32,
    alpha: f32,
    composite: u32,
) -> u32 {
    let planes = written(planes, planes_len);
    let scratch = written(scratch, scratch_len);
    let copy = written(copy, copy_len);
    let weights = read(weights, weights_len);
    let recipe = shadow::Recipe { dx, dy, strength, colour: [red, green, blue, alpha] };
    planes::shadow_planes(planes, w, h, scratch, copy, weights, n, edge, recipe, composite != 0)
}

unsafe extern "C" fn rule_recipes(
    picture: *mut u8,
    picture_len: usize,
    w: u32,
    h: u32,
    scratch: *mut u8,
    scratch_len: usize,
    copy: *mut u8,
    copy_len: usize,
    steps: *const Step,
    count: usize,
    table: *const f32,
    weights: usize,
    index: *mut u64,
) -> u32 {
    let picture = written(picture, picture_len);
    let scratch = written(scratch, scratch_len);
    let copy = written(copy, copy_len);
    let number;
    (number, *index) = recipes::recipes(picture, w, h, scratch, copy, read(steps, count), read(table, weights));
    number
}
