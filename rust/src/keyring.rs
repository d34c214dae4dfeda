//! The keys of a server, by their numbers. Every key opens, the current one seals, and any thread may retire one while
//! others work.

use crate::{Edition, Key, Refusal};
use std::collections::BTreeMap;
use std::fmt;
use std::sync::{Arc, RwLock, RwLockReadGuard, RwLockWriteGuard};

/// Keys by their numbers; one of them may be current. Share a keyring by reference, or in an [`Arc`].
///
/// ```
/// use luossavin::keyring::Keyring;
/// use luossavin::{Edition, Key, Refusal};
///
/// let keys = Keyring::new();
/// keys.add_current(Key::new(&[7; 16], 1)?)?;
/// let (number, sealed) = keys.seal(4711, Edition(1), b"a transcript", &[1; 16])?;
///
/// // another takes its place: old files still open, and new ones are sealed under the new key
/// keys.add_current(Key::new(&[8; 16], 2)?)?;
/// keys.retire(1)?;
/// assert_eq!(keys.open(number, 4711, Edition(1), &sealed, &[1; 16])?, b"a transcript");
/// assert_eq!(keys.seal(4711, Edition(2), b"another", &[2; 16])?.0, 2);
/// # Ok::<(), Refusal>(())
/// ```
///
/// Once [`retire`](Keyring::retire) has returned, every call that begins finds the key retired, in every thread. A call
/// or a stream that began before is finished. A keyring only lends its keys ([`with`](Keyring::with),
/// [`with_current`](Keyring::with_current)), so no copy is left that is not retired.
#[derive(Default)]
pub struct Keyring(RwLock<Keys>);

#[derive(Default)]
struct Keys {
    by_number: BTreeMap<u16, Arc<Key>>,
    current: Option<u16>,
}

impl Keyring {
    /// A keyring without keys.
    #[must_use]
    pub fn new() -> Keyring {
        Keyring::default()
    }

    /// Adds a key that opens. Refused with [`BadKeys`](Refusal::BadKeys) if its number is taken.
    pub fn add(&self, key: Key) -> Result<(), Refusal> {
        let mut keys = self.change();
        if keys.by_number.contains_key(&key.number()) {
            return Err(Refusal::BadKeys);
        }
        keys.by_number.insert(key.number(), Arc::new(key));
        Ok(())
    }

    /// Adds a key, and makes it the current one. The one before still opens; retire it. Refused with
    /// [`BadKeys`](Refusal::BadKeys) if its number is taken, and with [`Retired`](Refusal::Retired).
    pub fn add_current(&self, key: Key) -> Result<(), Refusal> {
        let number = key.number();
        if key.is_retired() {
            return Err(Refusal::Retired);
        }
        let mut keys = self.change();
        if keys.by_number.contains_key(&number) {
            return Err(Refusal::BadKeys);
        }
        keys.by_number.insert(number, Arc::new(key));
        keys.current = Some(number);
        Ok(())
    }

    /// Retires a key: from now on it can open but not seal. If it is the current one, sealing is refused with
    /// [`Retired`](Refusal::Retired) until another is current. Refused with [`UnknownKey`](Refusal::UnknownKey).
    pub fn retire(&self, number: u16) -> Result<(), Refusal> {
        let mut keys = self.change();
        let key = keys.by_number.get_mut(&number).ok_or(Refusal::UnknownKey)?;
        *key = Arc::new(key.retired());
        Ok(())
    }

    /// Removes a key: its files no longer open. It is overwritten when the calls that use it have ended.
    pub fn remove(&self, number: u16) -> Result<(), Refusal> {
        let mut keys = self.change();
        keys.by_number.remove(&number).ok_or(Refusal::UnknownKey)?;
        if keys.current == Some(number) {
            keys.current = None;
        }
        Ok(())
    }

    /// The numbers of the keys, in ascending order, each with whether it is retired.
    #[must_use]
    pub fn numbers(&self) -> Vec<(u16, bool)> {
        self.keys().by_number.iter().map(|(number, key)| (*number, key.is_retired())).collect()
    }

    /// The number of the current key.
    #[must_use]
    pub fn current(&self) -> Option<u16> {
        self.keys().current
    }

    /// Lends the key with this number. Refused with [`UnknownKey`](Refusal::UnknownKey).
    pub fn with<T>(&self, number: u16, work: impl FnOnce(&Key) -> T) -> Result<T, Refusal> {
        Ok(work(&*self.key(number)?))
    }

    /// Lends the current key, for example to start a [`SealWriter`](crate::streams::SealWriter). Refused with
    /// [`UnknownKey`](Refusal::UnknownKey) if none is current.
    pub fn with_current<T>(&self, work: impl FnOnce(&Key) -> T) -> Result<T, Refusal> {
        let key = {
            let keys = self.keys();
            keys.current.and_then(|number| keys.by_number.get(&number).cloned()).ok_or(Refusal::UnknownKey)?
        };
        Ok(work(&key))
    }

    /// Seals a text under an edition with the current key. Keep the number that is returned with the sealed bytes: it
    /// names the key.
    pub fn seal(&self, job: u32, edition: Edition, text: &[u8], iv: &[u8]) -> Result<(u16, Vec<u8>), Refusal> {
        self.with_current(|key| Ok((key.number(), key.seal(job, edition, text, iv)?)))?
    }

    /// Opens a sealed message with the key of this number, retired or not.
    pub fn open(&self, number: u16, job: u32, edition: Edition, sealed: &[u8], iv: &[u8]) -> Result<Vec<u8>, Refusal> {
        self.with(number, |key| key.open(job, edition, sealed, iv))?
    }

    /// Does a sealed message open under this edition, with the key of this number? The key may be retired.
    pub fn opens(&self, number: u16, job: u32, edition: Edition, sealed: &[u8], iv: &[u8]) -> Result<bool, Refusal> {
        self.with(number, |key| key.opens(job, edition, sealed, iv))?
    }

    /// Which of the keys opens a sealed message? For messages whose key number was not kept. It tries the current key
    /// first, then the others in the order of their numbers. No text is made.
    pub fn which(&self, job: u32, edition: Edition, sealed: &[u8], iv: &[u8]) -> Result<Option<u16>, Refusal> {
        let keys: Vec<Arc<Key>> = {
            let keys = self.keys();
            let first = keys.current.and_then(|number| keys.by_number.get(&number));
            let is_other = |key: &&Arc<Key>| Some(key.number()) != keys.current;
            first.into_iter().chain(keys.by_number.values().filter(is_other)).cloned().collect()
        };
        for key in keys {
            if key.opens(job, edition, sealed, iv)? {
                return Ok(Some(key.number()));
            }
        }
        Ok(None)
    }

    fn key(&self, number: u16) -> Result<Arc<Key>, Refusal> {
        self.keys().by_number.get(&number).cloned().ok_or(Refusal::UnknownKey)
    }

    // A thread that panicked while it held the lock left the keys whole: each change is one insertion, removal or assignment
    // behind another that may stand alone.

    fn keys(&self) -> RwLockReadGuard<'_, Keys> {
        self.0.read().unwrap_or_else(|poisoned| poisoned.into_inner())
    }

    fn change(&self) -> RwLockWriteGuard<'_, Keys> {
        self.0.write().unwrap_or_else(|poisoned| poisoned.into_inner())
    }
}

impl fmt::Debug for Keyring {
    fn fmt(&self, f: &mut fmt::Formatter<'_>) -> fmt::Result {
        let keys = self.keys();
        f.debug_struct("Keyring").field("keys", &keys.by_number.values()).field("current", &keys.current).finish()
    }
}
