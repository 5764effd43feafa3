//! Pages of a store that records what was flushed, for tests of caches.
ghost use Rattle.std.specs.Prelude.{◌≡◌, ⊤, false, [], ◌∷◌, IsSome};
ghost use Rattle.std.proofs.Common.{ap};

use crate::async_lru_cache::{AsyncLruCacheBackend, CacheTypes, CachedValue};
use std::alloc::Global;

#[derive(Drop)]
pub(crate) struct Page {
    pub(crate) number: u32,
    pub(crate) modified: bool,
}

// Records each flush that was tried.
#[derive(Drop)]
pub(crate) struct Disk {
    pub(crate) flushed: Vec<(u32, u32)>,
    pub(crate) tried: u32,
    pub(crate) fails: Vec<u32>,
    pub(crate) load_fails: Vec<u32>,
}

#[derive(Drop)]
pub(crate) struct Pages;

impl CachedValue for Page {
    ghost bytes = { λ v. v.number ∷ [] };

    ghost is_modified = { λ v. v.modified };
}

impl CacheTypes for Pages {
    type Key = u32;

    type Value = Page;

    type Error = u32;

    type Store = Disk;
}

impl AsyncLruCacheBackend for Pages {
    ghost steps = { λ _. record {
      loaded = λ _ _ v _. v.modified ≡ false;
      load_failed = λ _ _ _ _. ⊤;
      flushed = λ _ _ v w _. (w.modified ≡ false) × (w.number ≡ v.number);
      flush_failed = λ _ _ _ _ _. ⊤;
    } };

    ghost evicted = { λ _ _ _. ⊤ };

    ghost is_honest = { λ _. ⊥ };

    ghost stored = { λ _ _ _. [] };

    ghost keeps = { λ _ _. ⊤ };

    fn load(&self, _alloc: Global, store: &mut Disk, key: u32) -> Result<Page, u32> {
        if store.load_fails.contains(&key) {
            return Err(key);
        }
        Ok(Page {
            number: key,
            modified: false,
        })
    }

    fn flush(&self, store: &mut Disk, key: u32, value: &mut Page) -> Result<(), u32> {
        store.tried = store.tried.wrapping_add(1);
        if store.fails.contains(&key) || store.flushed.push((key, value.number)).is_err() {
            return Err(key);
        }
        value.modified = false;
        Ok(())
    }

    fn evict(&self, _key: u32, value: Page) {
        drop(value);
    }

    ghost lawful = { λ b. record {
      load_gives = λ s t k v h. h;
      load_reads = λ s t k v h honest. absurd honest;
      failed_load_keeps = λ s t k e h honest. absurd honest;
      flush_cleans = λ s t k v w h. (h.0, ap (λ n. n ∷ []) h.1);
      flush_writes = λ s t k v w h honest. absurd honest;
      failed_flush_keeps = λ s t k v e h honest. absurd honest;
    } };

    ghost keeps_same = { λ _. tt };

    ghost keeps_then = { λ _ _ _ _ _. tt };
}

pub(crate) fn make_disk(alloc: Global) -> Disk {
    Disk {
        flushed: Vec::new(alloc),
        tried: 0,
        fails: Vec::new(alloc),
        load_fails: Vec::new(alloc),
    }
}

pub(crate) fn make_page(number: u32) -> Option<Page>
    ensures { IsSome result }
{
    Some(Page {
        number,
        modified: true,
    })
}
