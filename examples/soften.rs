//! soften IN OUT: a PAM file, blurred by 1, 4, 6, 4, 1 over 16 with one decimation, written as a PAM file.
use corbelrush::{pam_read, pam_write, Blur, EdgeMode, Kernel, Worker, PAM_HEADER};

fn main() -> Result<(), Box<dyn std::error::Error>> {
    let names: Vec<_> = std::env::args_os().skip(1).collect();
    let [from, to] = names.as_slice() else {
        return Err("usage: soften IN OUT".into());
    };
    let mut file = std::fs::read(from)?;
    let mut picture = vec![0; file.len()];
    let size = pam_read(&file, &mut picture)?;
    picture.truncate(size.bytes());

    let kernel = Kernel::new(&[1.0, 4.0, 6.0, 4.0, 1.0].map(|weight| weight / 16.0))?;
    let how = Blur { kernel: &kernel, decimations: 1, strength: 1.0, edge: EdgeMode::Duplicate };
    Worker::new().blur(&mut picture, size, how)?;

    file.resize(size.bytes() + PAM_HEADER, 0);
    let length = pam_write(&picture, size, &mut file)?;
    std::fs::write(to, &file[..length])?;
    Ok(())
}
