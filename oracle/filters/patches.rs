// The mends: for each class of difference the few lines of the Rust that a copy has replaced.
// Each `old` text must occur exactly once in its file.

pub struct Edit {
    pub class: &'static str,
    pub file: &'static str,
    pub old: &'static str,
    pub new: &'static str,
}

const fn edit(class: &'static str, file: &'static str, old: &'static str, new: &'static str) -> Edit {
    Edit { class, file, old, new }
}

pub const CLASSES: [&str; 5] = ["Halving", "Doubling", "Clearing", "Overflow", "Flooring"];

pub const EDITS: &[Edit] = &[
    // Wrap halving in place: take the samples from the picture as it stood before the pass.
    edit(
        "Halving",
        "gaussian_blur.rs",
        "    dst_width: u16,\n    edge_mode: EdgeMode,\n) {\n",
        "    dst_width: u16,\n    edge_mode: EdgeMode,\n) {\n    let before = src.clone();\n",
    ),
    edit("Halving", "gaussian_blur.rs", "sample_x(src, src_x + 1, y", "sample_x(&before, src_x + 1, y"),
    edit("Halving", "gaussian_blur.rs", "sample_x(src, src_x + 2, y", "sample_x(&before, src_x + 2, y"),
    edit(
        "Halving",
        "gaussian_blur.rs",
        "    dst_height: u16,\n    edge_mode: EdgeMode,\n) {\n",
        "    dst_height: u16,\n    edge_mode: EdgeMode,\n) {\n    let before = src.clone();\n",
    ),
    edit("Halving", "gaussian_blur.rs", "sample_y(src, x, src_y + 1", "sample_y(&before, x, src_y + 1"),
    edit("Halving", "gaussian_blur.rs", "sample_y(src, x, src_y + 2", "sample_y(&before, x, src_y + 2"),
    // Wrap doubling in place: likewise.
    edit(
        "Doubling",
        "gaussian_blur.rs",
        "fn upscale_x(src: &mut Pixmap, src_width: u16, src_height: u16, edge_mode: EdgeMode) {\n",
        "fn upscale_x(src: &mut Pixmap, src_width: u16, src_height: u16, edge_mode: EdgeMode) {\n    let before = src.clone();\n",
    ),
    edit("Doubling", "gaussian_blur.rs", "sample_x(src, src_x - 1, y", "sample_x(&before, src_x - 1, y"),
    edit(
        "Doubling",
        "gaussian_blur.rs",
        "fn upscale_y(src: &mut Pixmap, src_width: u16, src_height: u16, edge_mode: EdgeMode) {\n",
        "fn upscale_y(src: &mut Pixmap, src_width: u16, src_height: u16, edge_mode: EdgeMode) {\n    let before = src.clone();\n",
    ),
    edit("Doubling", "gaussian_blur.rs", "sample_y(src, x, src_y - 1", "sample_y(&before, x, src_y - 1"),
    // Clearing through a 16-bit cast: compare in 32 bits.
    edit("Clearing", "shift.rs", "x < dx_pixels as u16", "(x as i32) < dx_pixels"),
    edit(
        "Clearing",
        "shift.rs",
        "x >= (width as i32 + dx_pixels) as u16",
        "x as i32 >= width as i32 + dx_pixels",
    ),
    edit("Clearing", "shift.rs", "y < dy_pixels as u16", "(y as i32) < dy_pixels"),
    edit(
        "Clearing",
        "shift.rs",
        "y >= (height as i32 + dy_pixels) as u16",
        "y as i32 >= height as i32 + dy_pixels",
    ),
    // 32-bit overflow of the moved coordinate: hold it at the limit, which lies outside every picture.
    edit("Overflow", "shift.rs", "x as i32 + dx_pixels;", "(x as i32).saturating_add(dx_pixels);"),
    edit("Overflow", "shift.rs", "y as i32 + dy_pixels;", "(y as i32).saturating_add(dy_pixels);"),
    // The shadow's colour cut down: to the nearest whole number.
    edit(
        "Flooring",
        "drop_shadow.rs",
        "((u16::from(channel) * alpha_u16) / 255) as u8",
        "((u16::from(channel) * alpha_u16 + 127) / 255) as u8",
    ),
];
