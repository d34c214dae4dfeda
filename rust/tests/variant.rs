//! Which of the two variants of the library runs on x86-64: the better one where processor and system have all of x86-64-v3, unless
//! LUOSSAVIN_VARIANT asks for the plain one.
#![cfg(target_arch = "x86_64")]

use luossavin::Key;
use std::env;

const PLAIN: u32 = 1;
const V3: u32 = 2;

extern "C" {
    /// What was chosen, before `main`; where it is 0, the next call chooses (lib/choose-x86_64.s).
    static mut luossavin_variant: u32;
}

/// The variant that is chosen with that value of LUOSSAVIN_VARIANT.
fn chosen(value: Option<&str>) -> u32 {
    match value {
        Some(value) => env::set_var("LUOSSAVIN_VARIANT", value),
        None => env::remove_var("LUOSSAVIN_VARIANT"),
    }
    // SAFETY: an integer, and no other thread calls the library: this file has one test.
    unsafe { luossavin_variant = 0 };
    assert!(Key::new(&[0; 16], 1).is_ok());
    // SAFETY: as above.
    unsafe { luossavin_variant }
}

#[test]
fn the_best_variant_is_taken_unless_the_plain_one_is_asked_for() {
    // SAFETY: as above. The choice was made before the first call, and so before any thread could change the environment.
    assert_ne!(unsafe { luossavin_variant }, 0);
    // the standard library asks processor and system by itself
    let has_v3 = is_x86_feature_detected!("sse3")
        && is_x86_feature_detected!("ssse3")
        && is_x86_feature_detected!("sse4.1")
        && is_x86_feature_detected!("sse4.2")
        && is_x86_feature_detected!("popcnt")
        && is_x86_feature_detected!("cmpxchg16b")
        && is_x86_feature_detected!("avx")
        && is_x86_feature_detected!("avx2")
        && is_x86_feature_detected!("bmi1")
        && is_x86_feature_detected!("bmi2")
        && is_x86_feature_detected!("fma")
        && is_x86_feature_detected!("f16c")
        && is_x86_feature_detected!("lzcnt");
    let best = if has_v3 { V3 } else { PLAIN };
    assert_eq!(chosen(None), best);
    assert_eq!(chosen(Some("x86_64")), PLAIN);
    for ignored in ["x86_64-v3", "x86-64", ""] {
        assert_eq!(chosen(Some(ignored)), best, "LUOSSAVIN_VARIANT={}", ignored);
    }
}
