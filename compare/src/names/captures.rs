//! Real traffic: each file of the captures, frame by frame, all at once and as it arrives, and each payload's objects.
use super::{objects, port, reader, Names};
use std::fs;
use std::path::Path;

/// As the parts of a run arrive.
const PARTS: [usize; 2] = [4096, 65_536];

pub fn compare(names: &mut Names, folder: &Path) {
    let mut files: Vec<_> = fs::read_dir(folder)
        .expect("the captures")
        .map(|entry| entry.expect("a capture").path())
        .filter(|path| path.is_dir())
        .flat_map(|path| ["sent.bin", "received.bin"].map(|file| path.join(file)))
        .collect();
    files.sort();
    assert!(!files.is_empty(), "no capture");
    for file in files {
        let run = fs::read(file).expect("a capture");
        reader::hold(names, &run);
        for part in PARTS {
            let ends: Vec<usize> = (0..run.len()).step_by(part).skip(1).collect();
            reader::arriving(names, &run, &ends);
        }
        let frames = port::reader::Reader::new(&run).all().expect("frames");
        for (_, payload) in frames {
            objects::hold(names, &payload.0);
        }
    }
}
