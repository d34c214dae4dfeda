//! A keyring: every key opens, the current one seals, and a key is retired while other threads work.

use luossavin::keyring::Keyring;
use luossavin::streams::SealWriter;
use luossavin::{Edition, Key, Refusal, WipedOnDrop};
use std::sync::atomic::{AtomicBool, Ordering};
use std::thread;

const IV: [u8; 16] = [1; 16];
const JOB: u32 = 4711;
const ROUGH: Edition = Edition(1);
const FINAL: Edition = Edition(2);

fn key(number: u32) -> Key {
    Key::new(&[number as u8; 16], number).unwrap()
}

#[test]
fn every_key_opens_and_the_current_one_seals() {
    let keys = Keyring::new();
    let mut files = Vec::new();
    for number in 1..=5 {
        keys.add_current(key(number)).unwrap();
        files.push(keys.seal(JOB, ROUGH, &[number as u8; 40], &IV).unwrap());
        assert_eq!(keys.current(), Some(number as u16));
    }
    for number in [2, 4] {
        keys.retire(number).unwrap();
    }
    assert_eq!(keys.numbers(), [(1, false), (2, true), (3, false), (4, true), (5, false)]);
    for (number, sealed) in &files {
        assert_eq!(keys.open(*number, JOB, ROUGH, sealed, &IV).unwrap(), [*number as u8; 40]);
        assert_eq!(keys.open(*number, JOB, FINAL, sealed, &IV), Err(Refusal::InvalidTag));
        assert_eq!(keys.opens(*number, JOB, ROUGH, sealed, &IV), Ok(true));
        assert_eq!(keys.opens(*number, JOB, FINAL, sealed, &IV), Ok(false));
        assert_eq!(keys.which(JOB, ROUGH, sealed, &IV).unwrap(), Some(*number));
        assert_eq!(keys.which(JOB, FINAL, sealed, &IV).unwrap(), None);
        let other = number % 5 + 1;
        assert_eq!(keys.open(other, JOB, ROUGH, sealed, &IV), Err(Refusal::InvalidTag));
    }
    assert_eq!(keys.which(JOB, ROUGH, b"short", &IV), Err(Refusal::ShortGcm { missing: 11 }));
    let debug = format!("{keys:?}");
    assert!(debug.contains("number: 2, retired: true") && debug.contains("current: Some(5)"), "{debug}");
}

#[test]
fn a_retired_key_seals_nothing_from_then_on() {
    let keys = Keyring::new();
    assert_eq!(keys.seal(JOB, ROUGH, b"text", &IV), Err(Refusal::UnknownKey));
    assert_eq!(keys.with_current(Key::number), Err(Refusal::UnknownKey));
    keys.add_current(key(1)).unwrap();
    let mut begun =
        keys.with_current(|key| SealWriter::start(key, &ROUGH.label_of(JOB), &IV, Vec::new())).unwrap().unwrap();
    keys.retire(1).unwrap();
    assert_eq!(keys.seal(JOB, ROUGH, b"text", &IV), Err(Refusal::Retired));
    assert_eq!(keys.with_current(Key::is_retired), Ok(true));
    let refused = keys.with(1, |key| SealWriter::start(key, &ROUGH.label_of(JOB), &IV, Vec::new()).map(drop)).unwrap();
    assert_eq!(refused, Err(Refusal::Retired));
    std::io::Write::write_all(&mut begun, b"text").unwrap();
    let (sealed, _) = begun.finish().unwrap();
    assert_eq!(keys.open(1, JOB, ROUGH, &sealed, &IV).unwrap(), b"text", "what was begun goes on to its end");
}

#[test]
fn numbers_that_are_taken_or_unknown_are_refused() {
    let keys = Keyring::new();
    keys.add(key(7)).unwrap();
    assert_eq!(keys.current(), None, "it opens alone");
    assert_eq!(keys.add(key(7)), Err(Refusal::BadKeys));
    assert_eq!(keys.add_current(key(7)), Err(Refusal::BadKeys));
    assert_eq!(keys.add_current(key(8).retire()), Err(Refusal::Retired));
    assert_eq!(keys.retire(8), Err(Refusal::UnknownKey));
    assert_eq!(keys.remove(8), Err(Refusal::UnknownKey));
    assert_eq!(keys.open(8, JOB, ROUGH, &[0; 16], &IV), Err(Refusal::UnknownKey));
    assert_eq!(keys.with(8, |_| ()), Err(Refusal::UnknownKey));
    keys.add_current(key(8)).unwrap();
    keys.remove(8).unwrap();
    assert_eq!((keys.current(), keys.numbers()), (None, vec![(7, false)]));
    fn is_wiped<T: WipedOnDrop>(_: &T) {}
    is_wiped(&keys);
}

#[test]
fn once_retired_it_seals_in_no_thread() {
    let keys = Keyring::new();
    keys.add_current(key(1)).unwrap();
    let is_retired = AtomicBool::new(false);
    let (keys, is_retired) = (&keys, &is_retired);
    thread::scope(|scope| {
        let workers: Vec<_> = (0..4)
            .map(|_| {
                scope.spawn(move || loop {
                    let was_retired = is_retired.load(Ordering::SeqCst);
                    match keys.seal(JOB, ROUGH, &[9; 3000], &IV) {
                        Ok((1, _)) => assert!(!was_retired, "it seals though it is retired"),
                        Err(Refusal::Retired) => break,
                        other => panic!("{other:?}"),
                    }
                })
            })
            .collect();
        thread::sleep(std::time::Duration::from_millis(5));
        keys.retire(1).unwrap();
        is_retired.store(true, Ordering::SeqCst);
        workers.into_iter().for_each(|worker| worker.join().unwrap());
    });
}

#[test]
fn a_thread_that_panics_leaves_the_keys_in_order() {
    let keys = Keyring::new();
    keys.add_current(key(1)).unwrap();
    let lent = &keys;
    assert!(thread::scope(|scope| scope.spawn(|| lent.with(1, |_| panic!("of a test"))).join()).is_err());
    assert_eq!(keys.seal(JOB, ROUGH, b"text", &IV).unwrap().0, 1);
}
