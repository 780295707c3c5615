//! Results of files: of one, or of many on all cores.
use crate::failure::{usage, Failure};
use crate::files;
use crate::options::Options;
use crate::progress;
use std::path::Path;
use std::sync::atomic::{AtomicU8, AtomicUsize, Ordering::Relaxed};
use std::thread;

/// Makes the result of a command's file and writes it; with `-jobs` that of each of its files, into a folder.
pub fn deliver(
    name: &str,
    options: &Options,
    make: impl Fn(Option<&str>) -> Result<Vec<u8>, Failure> + Sync,
) -> Result<(), Failure> {
    if !options.has("jobs") {
        return files::write(options.value("o"), &make(options.file()?)?);
    }
    let folder = options.value("o").ok_or_else(|| Failure::Usage("-jobs wants a folder: -o FOLDER".to_string()))?;
    if options.files.is_empty() {
        return usage("-jobs wants files");
    }
    let results = results(&options.files, folder)?;
    run(name, &options.files, |index| files::write(Some(&results[index]), &make(Some(&options.files[index]))?))
}

/// The result of each file, in a folder, under the file's own name.
fn results(files: &[String], folder: &str) -> Result<Vec<String>, Failure> {
    let mut results = Vec::new();
    for file in files {
        let Some(name) = Path::new(file).file_name() else {
            return usage(format!("{file} names no file"));
        };
        let result = Path::new(folder).join(name).to_string_lossy().into_owned();
        if results.contains(&result) {
            return usage(format!("{result} would be the result of two files"));
        }
        results.push(result);
    }
    Ok(results)
}

/// Does each of some files, as many at once as there are cores. One that fails says so, and the others are done.
fn run(name: &str, files: &[String], work: impl Fn(usize) -> Result<(), Failure> + Sync) -> Result<(), Failure> {
    let (next, worst) = (AtomicUsize::new(0), AtomicU8::new(0));
    progress::all(files.len());
    let worker = || loop {
        let index = next.fetch_add(1, Relaxed);
        let Some(file) = files.get(index) else { return };
        if let Err(failure) = work(index).map_err(|failure| failure.of(file)) {
            worst.fetch_max(failure.status(), Relaxed);
            progress::say(&format!("corbel {name}: {failure}"));
        }
        progress::done();
    };
    let cores = thread::available_parallelism().map_or(1, usize::from);
    thread::scope(|scope| (0..cores.min(files.len())).for_each(|_| drop(scope.spawn(worker))));
    match worst.into_inner() {
        0 => Ok(()),
        status => Err(Failure::Some(status)),
    }
}
