//! Check, lookup and bounds on the example files, and what a refusal says.

use composthum::{bounds, check, lookup, Bounds, Checked, Found, Place, Refusal};

fn example(name: &str) -> Vec<u8> {
    std::fs::read(format!("{}/../examples/{name}", env!("CARGO_MANIFEST_DIR"))).expect(name)
}

fn refused<T: std::fmt::Debug>(answer: Result<T, Refusal>) -> [u32; 3] {
    let refusal = answer.unwrap_err();
    [refusal.number, refusal.major, refusal.minor]
}

#[test]
fn sound_images() {
    let sound = [
        ("mesh-a.dmp", 2, 11),
        ("mesh-b.dmp", 2, 14),
        ("mesh-a-with-vertex-5.dmp", 2, 12),
        ("empty-1-part.dmp", 1, 0),
        ("empty-64-parts.dmp", 64, 0),
    ];
    for (name, parts, rows) in sound {
        assert_eq!(check(&example(name)), Ok(Checked { parts, rows }), "{name}");
    }
}

#[test]
fn unsound_images() {
    let unsound =
        [("wrong-remote-slot-of-vertex-2.dmp", [10, 0, 1]), ("wrong-owner-of-edge-3.dmp", [12, 0, 5]), ("triangle-1-in-two-parts.dmp", [11, 0, 6])];
    for (name, refusal) in unsound {
        let image = example(name);
        assert_eq!(refused(check(&image)), refusal, "{name}");
        // lookup and bounds trust no earlier check
        assert_eq!(refused(lookup(&image, 0, 1)), refusal, "{name}");
        assert_eq!(refused(bounds(&image, 0)), refusal, "{name}");
    }
}

#[test]
fn images_that_are_none() {
    assert_eq!(refused(check(&[])), [2, 0, 0]);
    assert_eq!(refused(check(&vec![0; composthum::LONGEST_IMAGE + 1])), [1, 0, 0]);
    let mut cut = example("mesh-b.dmp");
    cut.pop();
    assert_eq!(refused(check(&cut)), [6, 0, 0]);
}

#[test]
fn lookups() {
    let image = example("mesh-b.dmp");
    assert_eq!(lookup(&image, 1, 3), Ok(Found { residence: 3, owner: 0 }));
    assert_eq!(lookup(&image, 0, 4), Ok(Found { residence: 2, owner: 1 }));
    assert_eq!(refused(lookup(&image, 2, 9)), [21, 0, 0]);
    assert_eq!(refused(lookup(&image, 255, 1)), [21, 0, 0]);
    let found = lookup(&image, 0, 4).unwrap();
    assert!(found.resides_in(1) && !found.resides_in(0) && !found.resides_in(64));
}

#[test]
fn boxes() {
    let whole = Bounds { least: [0.0; 3], greatest: [1.0, 1.0, 0.0] };
    assert_eq!(bounds(&example("mesh-b.dmp"), 1), Ok(Some(whole)));
    assert_eq!(bounds(&example("mesh-a.dmp"), 1), Ok(None));
    assert_eq!(refused(bounds(&example("mesh-a.dmp"), 2)), [20, 0, 0]);
}

#[test]
fn every_refusal_has_its_own_words() {
    let refusal = |number| Refusal { number, major: 4, minor: 5 };
    let mut reasons: Vec<&str> = (1..=21).map(|number| refusal(number).reason()).collect();
    reasons.sort();
    reasons.dedup();
    assert_eq!(reasons.len(), 21);
    assert!(!reasons.contains(&refusal(22).reason()));
    assert_eq!(refusal(10).place(), Place::Row { part: 4, slot: 5 });
    assert_eq!(refusal(10).to_string(), "refusal 10 at part 4, slot 5: a remote copy does not agree");
    assert_eq!(refusal(14).to_string(), "refusal 14 at entry 4: destination names no part");
    assert_eq!(refusal(21).to_string(), "refusal 21: lookup finds no entity");
    let _: Box<dyn std::error::Error + Send + Sync> = Box::new(refusal(2));
}

#[test]
fn from_many_threads_at_once() {
    let (sound, unsound) = (example("mesh-b.dmp"), example("wrong-owner-of-edge-3.dmp"));
    std::thread::scope(|threads| {
        for thread in 0..8 {
            let (sound, unsound) = (&sound, &unsound);
            threads.spawn(move || {
                for _ in 0..200 {
                    match thread % 2 {
                        0 => assert_eq!(check(sound), Ok(Checked { parts: 2, rows: 14 })),
                        _ => assert_eq!(refused(check(unsound)), [12, 0, 5]),
                    }
                }
            });
        }
    });
}

#[test]
fn a_call_fits_into_the_stack_that_is_promised() {
    let image = example("mesh-b.dmp");
    let thread = std::thread::Builder::new().stack_size(512 * 1024);
    let calls = move || (check(&image).is_ok(), lookup(&image, 0, 1).is_ok(), bounds(&image, 1).is_ok());
    assert_eq!(thread.spawn(calls).unwrap().join().unwrap(), (true, true, true));
}
