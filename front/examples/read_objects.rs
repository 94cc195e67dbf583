//! The processor time that it takes to look at files, to read them, and to go over all that is in objects: the least of
//! ten rounds. `read_objects FILE..`

use bstr::BString;
use ldi_front::command::read_command;
use ldi_front::inputs::{load, Request};
use ldi_front::objects::{Object, Origin};
use ldi_front::snapshot::{stat, Snapshot};
use rustix::time::{clock_gettime, ClockId};
use std::os::unix::ffi::OsStrExt;
use std::path::PathBuf;

/// Milliseconds of processor time of this process.
fn processor_time() -> f64 {
    let time = clock_gettime(ClockId::ProcessCPUTime);
    time.tv_sec as f64 * 1e3 + time.tv_nsec as f64 / 1e6
}

fn main() {
    let paths: Vec<PathBuf> = std::env::args_os().skip(1).map(PathBuf::from).collect();
    let words: Vec<BString> = paths.iter().map(|path| path.as_os_str().as_bytes().into()).collect();
    let mut best = [f64::MAX; 11];
    let mut counts = [0; 4];
    for _ in 0..10 {
        let mut times = Vec::new();
        let mut begun = processor_time();
        let mut lap = || {
            times.push(processor_time() - begun);
            begun = processor_time();
        };
        assert!(paths.iter().all(|path| stat(path).is_ok()));
        lap();
        let mut snapshot = Snapshot::new();
        let data: Vec<_> = paths.iter().map(|path| snapshot.read(path).unwrap_or_default()).collect();
        lap();
        let objects: Vec<Object> = data
            .iter()
            .zip(&paths)
            .map(|(data, path)| Object::new(path.display().to_string().into(), Origin::of_file(path), data.clone()))
            .collect();
        lap();
        counts = [data.iter().map(|data| data.len()).sum(), 0, 0, 0];
        for object in &objects {
            for section in object.sections() {
                counts[1] += usize::from(!section.name.is_empty());
                counts[3] += object.relocations(section.index).map(|one| one.kind as usize & 1 | 1).sum::<usize>();
            }
            counts[2] += object.symbols().filter(|symbol| symbol.name.len() < 1 << 20).count();
        }
        lap();
        assert!(snapshot.changed().is_empty());
        lap();
        assert!(snapshot.changed().is_empty());
        lap();
        let mut next = snapshot.next();
        assert!(paths.iter().all(|path| next.read(path).is_ok()));
        lap();
        let command = read_command(&words).unwrap_or_default();
        let request = Request { command: &command, scripts: &[], has_own_script: true, wanted: &[] };
        lap();
        let mut loaded = load(&request, &mut next, None).expect("they are objects");
        lap();
        let mut third = next.next();
        let again = load(&request, &mut third, Some(&loaded)).map(|loaded| loaded.objects.len());
        lap();
        assert!(
            matches!(again, Ok(count) if count == paths.len())
                && loaded.take_changed(&command, &mut third, &paths[..1])
        );
        lap();
        best.iter_mut().zip(times).for_each(|(best, time)| *best = best.min(time));
    }
    let [bytes, sections, symbols, relocations] = counts;
    println!("{} files, {bytes} bytes, {sections} sections, {symbols} symbols, {relocations} relocations", paths.len());
    let names = [
        "stat of each",
        "read",
        "tables",
        "go over all",
        "first look",
        "later looks",
        "next snapshot",
        "command",
        "load",
        "load again",
        "one changed",
    ];
    names.iter().zip(best).for_each(|(name, time)| println!("{name:>14} {time:8.2} ms"));
}
