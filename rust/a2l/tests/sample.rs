//! The sample `samples/inlined.elf`, whose frames were worked out by hand.

use a2l::{Context, Error, Frame, Location};
use std::thread;

fn sample() -> Vec<u8> {
    std::fs::read(concat!(env!("CARGO_MANIFEST_DIR"), "/../../samples/inlined.elf")).expect("the sample")
}

fn told(frame: &Frame<'_>) -> (String, String, Option<u64>) {
    let file = frame.location.file.clone().unwrap_or_default();
    let file = String::from_utf8(file).expect("a path of ASCII");
    (frame.function_name().unwrap_or("??").to_owned(), file, frame.location.line)
}

fn inlined() -> Vec<(String, String, Option<u64>)> {
    [("leaf", "/w/a.c", 4), ("mid", "/w/a.c", 30), ("main", "/w/z.c", 20)]
        .map(|(name, file, line)| (name.to_owned(), file.to_owned(), Some(line)))
        .to_vec()
}

#[test]
fn frames_are_innermost_first() {
    let file = sample();
    let mut context = Context::new(&file).expect("a file that is accepted");
    let frames: Vec<_> = context.find_frames(0x401004).expect("frames").map(|frame| told(&frame)).collect();
    assert_eq!(frames, inlined());
}

#[test]
fn names_outlive_the_context() {
    let file = sample();
    let first = {
        let mut context = Context::new(&file).expect("a file that is accepted");
        let first = context.find_frames(0x401004).expect("frames").next();
        first
    };
    assert_eq!(first.expect("a frame").function_name(), Some("leaf"));
}

#[test]
fn locations_and_ranges_agree() {
    let file = sample();
    let mut context = Context::new(&file).expect("a file that is accepted");
    let ranges = context.find_location_range(0, u64::MAX).expect("pieces");
    assert!(!ranges.is_empty());
    for range in ranges {
        let location = context.find_location(range.begin).expect("a location");
        assert_eq!(location, Some(range.location));
    }
}

#[test]
fn nothing_covers_the_first_address() {
    let file = sample();
    let mut context = Context::new(&file).expect("a file that is accepted");
    assert_eq!(context.find_frames(0).expect("no fault").count(), 0);
    assert_eq!(context.find_location(0).expect("no fault"), None::<Location>);
}

#[test]
fn a_cut_file_is_refused() {
    let file = sample();
    let Err(Error::Refused { number, name, .. }) = Context::new(&file[..200]).map(drop) else {
        panic!("a cut file is accepted");
    };
    assert_eq!((number, name.as_str()), (4, "SectionTable"));
    assert!(matches!(Context::new(&[]).map(drop), Err(Error::Refused { number: 1, .. })));
}

#[test]
fn four_threads_agree() {
    let file = sample();
    let mut context = Context::new(&file).expect("a file that is accepted");
    let others: Vec<_> = (0..4).map(|_| context.beside().expect("memory")).collect();
    drop(context);
    thread::scope(|scope| {
        for mut other in others {
            scope.spawn(move || {
                for _ in 0..100 {
                    let frames = other.find_frames(0x401004).expect("frames");
                    assert_eq!(frames.map(|frame| told(&frame)).collect::<Vec<_>>(), inlined());
                }
            });
        }
    });
}

#[test]
fn the_version_is_that_of_the_header() {
    assert_eq!(a2l::version(), 0x100);
}
