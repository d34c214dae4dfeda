//! Each call that libsm does not have, against the single calls and against what the header says.

#[allow(dead_code)]
#[path = "../../host/rust/random.rs"]
mod random;

use luossavin::detached;
use luossavin::editions::{label, which};
use luossavin::halves::{Half, HashKey};
use luossavin::journal::{replay, Call, Difference};
use luossavin::keyring::Keyring;
use luossavin::pieces::{Ctr, Opens, Seal};
use luossavin::ranges::{ctr_range, Plan, Share};
use luossavin::shelf::{Shelf, LARGEST};
use luossavin::sm4::cipher::Sm4Cipher;
use luossavin::sm4::cipher_mode::{CipherMode, Sm4CipherMode};
use luossavin::streams::SealWriter;
use luossavin::{Direction, Edition, Engine, Key, Refusal, LONGEST_TEXT};
use random::Random;
use std::sync::Arc;

const MODES: [CipherMode; 5] = [CipherMode::Cfb, CipherMode::Ofb, CipherMode::Ctr, CipherMode::Cbc, CipherMode::Gcm];
const IV: [u8; 16] = [0xa5; 16];

fn key(number: u32) -> Key {
    Key::new(b"\x01\x23\x45\x67\x89\xab\xcd\xef\xfe\xdc\xba\x98\x76\x54\x32\x10", number).unwrap()
}

fn gcm() -> Sm4CipherMode {
    Sm4CipherMode::with_key(key(1), CipherMode::Gcm)
}

#[test]
fn keys_and_states_go_between_threads() {
    fn is_sent<T: Send + Sync>() {}
    is_sent::<Key>();
    is_sent::<Sm4Cipher>();
    is_sent::<Sm4CipherMode>();
    is_sent::<Ctr>();
    is_sent::<Seal>();
    is_sent::<Opens>();
    is_sent::<SealWriter<Vec<u8>>>();
    is_sent::<Plan>();
    is_sent::<Share>();
    is_sent::<Shelf>();
    is_sent::<HashKey>();
    is_sent::<Half>();
    is_sent::<Refusal>();
    is_sent::<Keyring>();
}

#[test]
fn debug_shows_nothing_secret() {
    let (ctr, seal) =
        (Ctr::start(&key(12), Direction::Encrypt, &IV).unwrap(), Seal::start(&key(12), b"", &IV).unwrap());
    let h = HashKey::of(&key(12)).unwrap();
    assert_eq!(format!("{:?}", key(12)), "Key { number: 12, retired: false, engine: Chosen, .. }");
    assert_eq!(format!("{ctr:?} {seal:?}"), "Ctr { key: 12, .. } Seal { key: 12, .. }");
    assert_eq!(format!("{:?}", Opens::start(&key(12), b"", &IV).unwrap()), "Opens { key: 12, .. }");
    assert_eq!(format!("{h:?} {:?}", h.half(&[1; 20])), "HashKey { .. } Half { blocks: 2, .. }");
    let cipher = Sm4CipherMode::with_key(key(12).retire(), CipherMode::Ofb);
    assert_eq!(
        format!("{cipher:?}"),
        "Sm4CipherMode { key: Key { number: 12, retired: true, engine: Chosen, .. }, mode: Ofb }"
    );
    let call = Call::of(&cipher, Direction::Decrypt, b"label", b"a text", &IV, 6);
    assert_eq!(format!("{call:?}"), "Call { Decrypt in Ofb under key 12, .. }");
    let shares = format!("{:?}", Plan::make(6, 1).unwrap().shares(b"a text", &mut [0; 6]).unwrap());
    assert_eq!(shares, "[Share { piece: 0..6, .. }]");
    let mut shelf = Shelf::new();
    shelf.put(7, 1, b"sealed").unwrap();
    assert_eq!(
        format!("{shelf:?} {:?}", shelf.find(7).unwrap()),
        "Shelf { size: 65536, used: 18, .. } Record { job: 7, edition: 1, sealed: 6 bytes }"
    );
}

#[test]
fn keys_have_numbers_from_1_to_65535() {
    for number in [1, 2, 255, 256, 65_535] {
        assert_eq!(u32::from(key(number).number()), number);
    }
    for number in [0, 65_536, 65_537, u32::MAX] {
        assert_eq!(Key::new(&[7; 16], number).unwrap_err(), Refusal::WrongNumber);
        assert_eq!(Key::new(&[7; 17], number).unwrap_err(), Refusal::ErrorBlockSize, "it comes first");
    }
}

#[test]
fn a_retired_key_decrypts_alone() {
    for mode in MODES {
        let (current, retired) = (key(5), key(5).retire().with_engine(Engine::Tables));
        assert!(!current.is_retired() && retired.is_retired() && retired.engine() == Engine::Tables);
        let made = Sm4CipherMode::with_key(current, mode).encrypt(b"label", b"a text", &IV).unwrap();
        let cipher = Sm4CipherMode::with_key(retired, mode);
        assert_eq!(cipher.decrypt(b"label", &made, &IV).unwrap(), b"a text");
        assert_eq!(cipher.encrypt(b"label", b"a text", &IV), Err(Refusal::Retired));
    }
    let retired = Arc::new(key(5).retire());
    assert_eq!(Sm4Cipher::with_key(retired.clone()).encrypt(&IV), Err(Refusal::Retired));
    assert_eq!(Ctr::start(&retired, Direction::Encrypt, &IV).unwrap_err(), Refusal::Retired);
    assert!(Ctr::start(&retired, Direction::Decrypt, &IV).is_ok());
    assert_eq!(Seal::start(&retired, b"", &IV).unwrap_err(), Refusal::Retired);
    assert_eq!(HashKey::of(&retired).unwrap_err(), Refusal::Retired);
}

#[test]
fn a_key_has_the_engine_that_it_was_given() {
    assert_eq!(key(1).engine(), Engine::Chosen);
    for engine in [Engine::Chosen, Engine::Tables, Engine::Gates] {
        assert_eq!(key(1).with_engine(engine).engine(), engine);
    }
}

#[test]
fn engines_give_the_same_bytes() {
    let mut random = Random::new(1);
    for mode in MODES {
        for length in [0, 1, 16, 80, 100, 256, 495, 1024, 1040, 3072, 5000, 20000] {
            let (bytes, text, label) = (random.bytes(16), random.bytes(length), random.bytes(length % 40));
            let made = |engine| {
                let key = Key::new(&bytes, 1).unwrap().with_engine(engine);
                Sm4CipherMode::with_key(key, mode).encrypt(&label, &text, &IV).unwrap()
            };
            for engine in [Engine::Tables, Engine::Gates, Engine::Plain] {
                assert_eq!(key(1).with_engine(engine).engine(), engine);
                assert_eq!(made(Engine::Chosen), made(engine), "{mode:?}, {length} bytes, {engine:?}");
            }
        }
    }
}

#[test]
fn a_lent_buffer_needs_its_room_and_is_left_alone_behind_it() {
    for mode in MODES {
        let cipher = Sm4CipherMode::with_key(key(9), mode);
        for length in [0, 1, 15, 16, 17, 100] {
            let text = vec![3; length];
            let made = cipher.encrypt(b"label", &text, &IV).unwrap();
            let room = mode.room_to_encrypt(length);
            let mut out = vec![0xee; room + 5];
            let done = cipher.encrypt_into(b"label", &text, &IV, &mut out).unwrap();
            assert_eq!((done.length, done.key, done.came_round), (room, 9, false));
            assert_eq!((&out[..room], &out[room..]), (&made[..], &[0xee; 5][..]));
            let mut back = vec![0xee; mode.room_to_decrypt(room)];
            let done = cipher.decrypt_into(b"label", &made, &IV, &mut back).unwrap();
            assert_eq!(&back[..done.length], &text[..]);
            assert!(back[done.length..].iter().all(|byte| *byte == 0xee));
            if room > 0 {
                let mut short = vec![0xee; room - 1];
                assert_eq!(cipher.encrypt_into(b"label", &text, &IV, &mut short), Err(Refusal::NoRoom));
                assert_eq!(short, vec![0xee; room - 1]);
            }
        }
    }
}

#[test]
fn lengths_over_the_limit_are_refused_without_as_much_room() {
    let over = vec![0; LONGEST_TEXT + 17];
    for mode in MODES {
        let cipher = Sm4CipherMode::with_key(key(1), mode);
        assert_eq!(cipher.encrypt(b"", &over[..LONGEST_TEXT + 1], &IV), Err(Refusal::TooLong));
        assert_eq!(cipher.decrypt(b"", &over, &IV), Err(Refusal::TooLong));
    }
    assert_eq!(gcm().encrypt(&over[..LONGEST_TEXT + 1], b"", &IV), Err(Refusal::TooLong));
}

#[test]
fn a_counter_that_comes_round_is_told() {
    let ctr = Sm4CipherMode::with_key(key(1), CipherMode::Ctr);
    let came_round = |n: usize| ctr.encrypt_into(b"", &vec![0; n], &[0xff; 16], &mut vec![0; n]).unwrap().came_round;
    assert_eq!([0, 1, 16, 17, 32].map(came_round), [false, false, false, true, true]);
    let mut pieces = Ctr::start(&key(1), Direction::Decrypt, &[0xff; 16]).unwrap();
    assert!(!pieces.piece(&[0; 17], &mut [0; 17]).unwrap().came_round, "the end says it");
    assert!(pieces.end().unwrap().came_round);
}

#[test]
fn pieces_are_the_single_call_however_they_are_cut() {
    let mut random = Random::new(2);
    for length in 0..70 {
        let (text, label) = (random.bytes(length), random.bytes(length % 19));
        let sealed = gcm().encrypt(&label, &text, &IV).unwrap();
        let enciphered = Sm4CipherMode::with_key(key(1), CipherMode::Ctr).encrypt(b"", &text, &IV).unwrap();
        let cut = random.below(length + 1);
        let mut ctr = Ctr::start(&key(1), Direction::Encrypt, &IV).unwrap();
        let mut seal = Seal::start(&key(1), &label, &IV).unwrap();
        let mut opens = Opens::start(&key(1), &label, &IV).unwrap();
        let (mut by_ctr, mut by_seal) = (vec![0; length], vec![0; length]);
        for piece in [0..cut, cut..length] {
            assert_eq!(ctr.piece(&text[piece.clone()], &mut by_ctr[piece.clone()]).unwrap().length, piece.len());
            assert_eq!(seal.piece(&text[piece.clone()], &mut by_seal[piece.clone()]).unwrap().length, piece.len());
            opens.piece(&sealed[piece]).unwrap();
        }
        ctr.end().unwrap();
        assert_eq!(by_ctr, enciphered);
        by_seal.extend(seal.end().unwrap().0);
        assert_eq!(by_seal, sealed);
        assert!(opens.end(&sealed[length..]).unwrap());
    }
}

#[test]
fn a_refused_piece_leaves_the_state_as_it_was() {
    let mut seal = Seal::start(&key(1), b"label", &IV).unwrap();
    let mut out = vec![0xee; 5];
    assert_eq!(seal.piece(b"a text", &mut out), Err(Refusal::NoRoom));
    assert_eq!(out, [0xee; 5]);
    assert_eq!(seal.piece(&vec![0; LONGEST_TEXT + 1], &mut out), Err(Refusal::TooLong));
    out.resize(6, 0);
    seal.piece(b"a text", &mut out).unwrap();
    out.extend(seal.end().unwrap().0);
    assert_eq!(out, gcm().encrypt(b"label", b"a text", &IV).unwrap());
}

#[test]
fn in_place_is_the_same_as_apart() {
    let mut random = Random::new(7);
    for length in [0, 1, 16, 100, 8191, 8192, 8193, 30_000] {
        let (text, label) = (random.bytes(length), random.bytes(length % 19));
        let sealed = gcm().encrypt(&label, &text, &IV).unwrap();
        let mut place = text.clone();
        let tag = detached::seal_in_place(&key(1), &label, &IV, &mut place).unwrap();
        assert_eq!((&place[..], &tag[..]), sealed.split_at(length));
        assert!(detached::opens(&key(1), &label, &IV, &place, &tag).unwrap());
        assert_eq!(detached::open(&key(1).retire(), &label, &IV, &place, &tag).unwrap(), text);
        let mut ctr = Ctr::start(&key(1), Direction::Encrypt, &IV).unwrap();
        let (front, back) = place.split_at_mut(length / 3);
        front.copy_from_slice(&text[..length / 3]);
        back.copy_from_slice(&text[length / 3..]);
        ctr.piece_in_place(front).unwrap();
        ctr.piece_in_place(back).unwrap();
        ctr.end().unwrap();
        assert_eq!(place, Sm4CipherMode::with_key(key(1), CipherMode::Ctr).encrypt(b"", &text, &IV).unwrap());
    }
}

#[test]
fn what_is_refused_in_place_is_as_it_was() {
    let mut long = vec![9; LONGEST_TEXT + 1];
    assert_eq!(detached::seal_in_place(&key(1), b"", &IV, &mut long), Err(Refusal::TooLong));
    assert_eq!(detached::seal_in_place(&key(1), b"", &IV[..13], &mut long), Err(Refusal::WrongIv));
    assert_eq!(detached::seal_in_place(&key(1).retire(), b"", &IV, &mut long), Err(Refusal::Retired));
    let mut seal = Seal::start(&key(1), b"", &IV).unwrap();
    seal.piece_in_place(&mut [9; 10]).unwrap();
    assert_eq!(seal.piece_in_place(&mut long[..LONGEST_TEXT - 9]), Err(Refusal::TooLong));
    assert!(long.iter().all(|byte| *byte == 9));
    assert_eq!(detached::open(&key(1), b"", &IV, &long, &[0; 16]), Err(Refusal::TooLong));
    for (length, missing) in [(0, 16), (15, 1), (17, 0), (300, 0)] {
        let tag = vec![0; length];
        assert_eq!(detached::open(&key(1), b"", &IV, &long[..3], &tag), Err(Refusal::ShortGcm { missing }));
        assert_eq!(detached::opens(&key(1), b"", &IV, &long[..3], &tag), Err(Refusal::ShortGcm { missing }));
    }
    assert_eq!(detached::open(&key(1), b"", &IV, &long[..3], &[0; 16]), Err(Refusal::InvalidTag));
}

#[test]
fn a_question_is_answered_by_its_tag() {
    let sealed = gcm().encrypt(b"label", b"a text", &IV).unwrap();
    let asked = |tag: &[u8]| {
        let mut opens = Opens::start(&key(1), b"label", &IV).unwrap();
        opens.piece(&sealed[..6]).unwrap();
        opens.end(tag)
    };
    assert_eq!(asked(&sealed[6..]), Ok(true));
    for bit in 0..128 {
        let mut tag = sealed[6..].to_vec();
        tag[bit / 8] ^= 1 << (bit % 8);
        assert_eq!(asked(&tag), Ok(false));
    }
    assert_eq!(asked(&sealed[7..]), Err(Refusal::ShortGcm { missing: 1 }));
    assert_eq!(asked(&[&sealed[6..], &[0]].concat()), Err(Refusal::ShortGcm { missing: 0 }));
}

#[test]
fn which_finds_the_first_that_opens() {
    let sealed = gcm().encrypt(&label(4711, 40), b"a text", &IV).unwrap();
    let candidates: Vec<_> = (1..=65).map(|edition| label(4711, edition)).collect();
    let asked = |labels: &[[u8; 6]]| which(&key(1), &sealed, &IV, labels);
    assert_eq!(asked(&candidates[..64]), Ok(Some(39)));
    assert_eq!(asked(&candidates[..39]), Ok(None));
    assert_eq!(asked(&candidates[39..40]), Ok(Some(0)));
    assert_eq!(asked(&[]), Ok(None));
    assert_eq!(asked(&candidates), Err(Refusal::BadList));
    assert_eq!(which(&key(1), &sealed[..3], &IV, &candidates[..2]), Err(Refusal::ShortGcm { missing: 13 }));
    let unlabelled = gcm().encrypt(b"", b"a text", &IV).unwrap();
    assert_eq!(which(&key(1), &unlabelled, &IV, &[&b"x"[..], b"", b"xx", b""]), Ok(Some(1)));
    let long = vec![0; LONGEST_TEXT + 5];
    assert_eq!(which(&key(1), &sealed, &IV, &[&candidates[39][..], &long]), Err(Refusal::TooLong));
    assert_eq!(which(&key(1), &sealed, &IV, &[&long[..]; 100]), Err(Refusal::BadList));
}

#[test]
fn an_edition_is_sealed_asked_and_opened_as_the_single_calls_do() {
    let mut random = Random::new(9);
    for length in [0, 1, 15, 16, 17, 100, 9000] {
        let (text, job, edition) = (random.bytes(length), length as u32 * 65_537, Edition(length as u16 + 1));
        for iv in [&IV[..], &IV[..12]] {
            let sealed = key(1).seal(job, edition, &text, iv).unwrap();
            assert_eq!(sealed, gcm().encrypt(&edition.label_of(job), &text, iv).unwrap());
            assert_eq!(key(1).retire().open(job, edition, &sealed, iv).unwrap(), text);
            assert_eq!(key(1).retire().opens(job, edition, &sealed, iv), Ok(true));
            for (job, edition) in [(job, Edition(0)), (job ^ 1, edition)] {
                assert_eq!(key(1).opens(job, edition, &sealed, iv), Ok(false));
                assert_eq!(key(1).open(job, edition, &sealed, iv), Err(Refusal::InvalidTag));
            }
            let mut damaged = sealed.clone();
            damaged[length / 2] ^= 0x10;
            assert_eq!(key(1).opens(job, edition, &damaged, iv), Ok(false));
            let missing = 16 - (length % 16) as u8;
            let short = key(1).opens(job, edition, &sealed[..length % 16], iv);
            assert_eq!(short, Err(Refusal::ShortGcm { missing }));
        }
    }
    let (job, edition, over) = (1, Edition(1), vec![0; LONGEST_TEXT + 17]);
    assert_eq!(key(1).opens(job, edition, &over, &IV), Err(Refusal::TooLong));
    assert_eq!(key(1).open(job, edition, &over, &IV), Err(Refusal::TooLong));
    assert_eq!(key(1).seal(job, edition, &over, &IV), Err(Refusal::TooLong));
    assert_eq!(key(1).opens(job, edition, &over[..16], &IV[..13]), Err(Refusal::WrongIv));
    assert_eq!(key(1).seal(job, edition, b"", &[]), Err(Refusal::WrongIv));
    assert_eq!(key(1).retire().seal(job, edition, b"", &IV), Err(Refusal::Retired));
}

#[test]
fn shares_of_any_plan_are_the_single_call() {
    let text = Random::new(3).bytes(5000);
    let whole = Sm4CipherMode::with_key(key(1), CipherMode::Ctr).encrypt(b"", &text, &IV).unwrap();
    let key = key(1).with_engine(Engine::Plain);
    let uneven = Plan::of_lengths(&[16, 4096, 32, 856]).unwrap();
    for plan in [Plan::make(5000, 1), Plan::make(5000, 7), Plan::make(5000, 64), Ok(uneven)] {
        let plan = plan.unwrap();
        let mut out = vec![0xee; 5003];
        let shares = plan.shares(&text, &mut out).unwrap();
        assert_eq!(shares.len(), plan.pieces().len());
        std::thread::scope(|scope| {
            // the last one first: their order is nobody's
            for share in shares.into_iter().rev() {
                scope.spawn(|| share.work(&key, Direction::Encrypt, &IV).unwrap());
            }
        });
        assert_eq!((&out[..5000], &out[5000..]), (&whole[..], &[0xee; 3][..]));
        let mut back = vec![0; 5000];
        plan.work(&key, Direction::Decrypt, &IV, &whole, &mut back).unwrap();
        assert_eq!(back, text);
    }
}

#[test]
fn plans_that_are_none_are_refused() {
    assert_eq!(Plan::make(100, 0).unwrap_err(), Refusal::BadWorkers);
    assert_eq!(Plan::make(100, 65).unwrap_err(), Refusal::BadWorkers);
    assert_eq!(Plan::make(LONGEST_TEXT + 1, 4).unwrap_err(), Refusal::TooLong);
    for lengths in [&[5, 16][..], &[16, 0], &[0], &[16; 65], &[usize::MAX - 15, 16, 1], &[1 << 63, 1 << 63]] {
        assert_eq!(Plan::of_lengths(lengths).unwrap_err(), Refusal::NotAccepted, "{lengths:?}");
    }
    assert_eq!(Plan::of_lengths(&[]).unwrap().pieces().len(), 0);
    assert_eq!(Plan::of_lengths(&[16; 64]).unwrap().pieces().last(), Some(1008..1024));
    let plan = Plan::make(100, 3).unwrap();
    assert!(plan.accepts(100) && !plan.accepts(99));
    assert_eq!(plan.shares(&[0; 99], &mut [0; 100]).unwrap_err(), Refusal::NotAccepted);
    assert_eq!(plan.shares(&[0; 100], &mut [0; 99]).unwrap_err(), Refusal::NoRoom);
    assert_eq!(plan.work(&key(1), Direction::Encrypt, &IV, &[0; 99], &mut [0; 99]), Err(Refusal::NotAccepted));
    let by_retired = |direction| plan.work(&key(1).retire(), direction, &IV, &[0; 100], &mut [0; 100]);
    assert_eq!(by_retired(Direction::Encrypt), Err(Refusal::Retired));
    assert!(by_retired(Direction::Decrypt).is_ok());
}

#[test]
fn a_range_starts_at_any_byte() {
    let text = Random::new(4).bytes(70);
    let whole = Sm4CipherMode::with_key(key(1), CipherMode::Ctr).encrypt(b"", &text, &IV).unwrap();
    for start in 0..70 {
        let mut out = vec![0; 70 - start];
        ctr_range(&key(1).retire(), Direction::Decrypt, &IV, start, &text[start..], &mut out).unwrap();
        assert_eq!(out, whole[start..], "from byte {start}");
    }
    let past = |offset| ctr_range(&key(1), Direction::Encrypt, &IV, offset, &[1], &mut [0]);
    assert!(past(LONGEST_TEXT - 1).is_ok());
    assert_eq!(past(LONGEST_TEXT), Err(Refusal::TooLong));
    assert_eq!(past(usize::MAX), Err(Refusal::TooLong));
}

#[test]
fn a_shelf_keeps_what_is_current() {
    let mut shelf = Shelf::load(&[], 100).unwrap();
    shelf.put(7, 0, &[1; 20]).unwrap();
    shelf.put(8, 300, &[2; 20]).unwrap();
    assert_eq!(shelf.as_bytes()[..12], [0x52, 0x44, 0, 0, 0, 7, 0, 0, 0, 0, 0, 20]);
    assert_eq!(shelf.put(8, 300, &[3; 20]), Err(Refusal::NotHigher));
    assert_eq!(shelf.put(9, 1, &[3; 30]), Err(Refusal::NoShelfRoom));
    // it fits where the superseded record is thrown out
    shelf.put(8, 301, &[3; 40]).unwrap();
    let record = shelf.find(8).unwrap();
    assert_eq!((record.job(), record.edition(), record.sealed()), (8, 301, &[3; 40][..]));
    assert_eq!(shelf.as_bytes().len(), 12 + 20 + 12 + 40);
    shelf.put(7, 65_535, &[]).unwrap();
    shelf.collect().unwrap();
    assert_eq!(shelf.as_bytes().len(), 12 + 40 + 12);
    assert_eq!(Shelf::load(shelf.as_bytes(), 100).unwrap().find(7).unwrap().edition(), 65_535);
}

#[test]
fn what_is_no_shelf_is_refused() {
    let mut shelf = Shelf::new();
    shelf.put(7, 1, b"sealed").unwrap();
    let bytes = shelf.as_bytes().to_vec();
    for cut in 1..bytes.len() {
        assert_eq!(Shelf::load(&bytes[..cut], LARGEST), Err(Refusal::BadShelf));
    }
    assert_eq!(Shelf::load(&[&bytes[..], &bytes].concat(), LARGEST), Err(Refusal::BadShelf), "two are current");
    assert_eq!(Shelf::load(&bytes, LARGEST + 1), Err(Refusal::BadShelf));
    assert_eq!(Shelf::load(&bytes, bytes.len() - 1), Err(Refusal::BadShelf));
    assert!(Shelf::load(&bytes, bytes.len()).is_ok());
}

#[test]
fn a_record_opens_under_its_own_label() {
    let mut shelf = Shelf::new();
    shelf.put(4711, 2, &gcm().encrypt(&label(4711, 2), b"final", &IV).unwrap()).unwrap();
    assert_eq!(shelf.find(4711).unwrap().open(&key(1), &IV).unwrap(), b"final");
    shelf.put(4711, 3, &gcm().encrypt(&label(4711, 2), b"final", &IV).unwrap()).unwrap();
    assert_eq!(shelf.find(4711).unwrap().open(&key(1), &IV), Err(Refusal::InvalidTag));
}

/// A journal of a call in each mode under key 12, and one that was refused, with the place of each record.
fn journal() -> (Vec<u8>, Vec<usize>) {
    let (mut journal, mut places) = (vec![], vec![]);
    for mode in MODES {
        let cipher = Sm4CipherMode::with_key(key(12), mode);
        let made = cipher.encrypt(b"label", b"a text", &IV).unwrap();
        places.push(journal.len());
        let call = Call::of(&cipher, Direction::Encrypt, b"label", b"a text", &IV, made.len());
        call.record(Ok(&made), &mut journal).unwrap();
    }
    let cipher = Sm4CipherMode::with_key(key(12), CipherMode::Gcm);
    places.push(journal.len());
    let call = Call::of(&cipher, Direction::Decrypt, b"label", b"not sealed: 20 bytes", &IV, usize::MAX);
    call.record(Err(Refusal::InvalidTag), &mut journal).unwrap();
    (journal, places)
}

#[test]
fn a_replay_agrees_with_what_was_answered() {
    let report = replay(&[&key(3), &key(12)], &journal().0).unwrap();
    assert_eq!(report.records, 6);
    assert_eq!(report.by_mode, [1, 1, 1, 1, 2, 0]);
    assert_eq!((report.by_answer[0], report.by_answer[4], report.by_answer.iter().sum()), (5, 1, 6));
    assert_eq!((report.bytes_in, report.bytes_out), (5 * 6 + 20, 3 * 6 + 16 + 22));
    assert_eq!(report.first_difference, None);
    assert_eq!(replay(&[], &[]).unwrap().records, 0);
}

#[test]
fn a_replay_tells_the_first_that_differs_and_where_it_stops() {
    let (mut journal, places) = journal();
    let last_of_third = places[3] - 1;
    journal[last_of_third] ^= 1;
    let report = replay(&[&key(12)], &journal).unwrap();
    assert_eq!(report.first_difference, Some(Difference { record: 2, place: places[2] }));
    assert_eq!(report.records, 6);
    let stopped = replay(&[&key(12)], &journal[..journal.len() - 1]).unwrap_err();
    assert_eq!((stopped.refusal, stopped.place, stopped.report.records), (Refusal::BadRecord, places[5], 5));
    assert!(stopped.to_string().starts_with(&format!("record 6, which begins at byte {}: 23 BadRecord: ", places[5])));
    let stopped = replay(&[&key(3)], &journal).unwrap_err();
    assert_eq!((stopped.refusal, stopped.place, stopped.report.records), (Refusal::UnknownKey, 0, 0));
}

#[test]
fn keys_of_a_replay_are_eight_at_most_and_not_retired() {
    let keys: Vec<Key> = (1..=9).map(key).collect();
    let lent: Vec<&Key> = keys.iter().collect();
    assert!(replay(&lent[..8], &[]).is_ok());
    assert_eq!(replay(&lent, &[]).unwrap_err().refusal, Refusal::BadKeys);
    assert_eq!(replay(&[lent[0], lent[0]], &[]).unwrap_err().refusal, Refusal::BadKeys);
    let stopped = replay(&[&key(1).retire()], &[]).unwrap_err();
    assert!(stopped.to_string().starts_with("26 BadKeys: "));
}

#[test]
fn what_is_too_long_is_not_recorded() {
    let cipher = gcm();
    let long = vec![0; 16_401];
    let mut journal = vec![];
    let mut record = |aad, data, iv, output| {
        Call::of(&cipher, Direction::Encrypt, aad, data, iv, 16_400).record(Ok(output), &mut journal)
    };
    assert_eq!(record(&long[..16_385], b"", &IV, b""), Err(Refusal::PartTooLong));
    assert_eq!(record(b"", &long[..16_385], &IV, b""), Err(Refusal::PartTooLong));
    assert_eq!(record(b"", b"", &long[..16_385], b""), Err(Refusal::PartTooLong));
    assert_eq!(record(b"", b"", &IV, &long), Err(Refusal::PartTooLong));
    assert_eq!(record(&long[..16_384], &long[..16_384], &long[..16_384], &long[..16_400]), Ok(()));
    assert_eq!(journal.len(), 27 + 3 * 16_384 + 16_400, "a refused one leaves nothing");
    assert_eq!(replay(&[&key(1)], &journal).unwrap().by_answer[10], 1, "an IV of 16,384 bytes");
}

#[test]
fn halves_join_to_the_tag_of_the_whole() {
    let mut random = Random::new(5);
    let h = HashKey::of(&key(1)).unwrap();
    let iv = [7; 12];
    let mut j0 = [0; 16];
    j0[..12].copy_from_slice(&iv);
    j0[15] = 1;
    let mask = u128::from_be_bytes(Sm4Cipher::with_key(key(1)).encrypt(&j0).unwrap());
    for length in 0..80 {
        let label = random.bytes(length % 33);
        let sealed = gcm().encrypt(&label, &random.bytes(length), &iv).unwrap();
        let (text, tag) = sealed.split_at(length);
        for cut in (0..=length).step_by(16) {
            let second = h.half(&text[cut..]);
            assert_eq!(second.blocks(), (length - cut + 15) as u64 / 16);
            // as another host is told it
            let second = Half::from_parts(second.to_bytes(), second.blocks());
            let text = h.join(&h.half(&text[..cut]), &second).unwrap();
            let whole = h.join(&h.half(&label), &text).unwrap();
            let whole = h.join(&whole, &h.lengths(label.len(), length)).unwrap();
            assert_eq!((mask ^ u128::from_be_bytes(whole.to_bytes())).to_be_bytes(), tag);
        }
    }
    let many = Half::from_parts([1; 16], u64::MAX);
    assert_eq!(h.join(&many, &h.half(&[])).unwrap().blocks(), u64::MAX);
    assert_eq!(h.join(&many, &h.half(&[1])).unwrap_err(), Refusal::TooLong);
}
