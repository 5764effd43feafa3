ghost use Rattle.std.specs.Prelude.{◌≡◌, Some, true};
ghost use Rattle.std.proofs.Common.{refl};
ghost use Rattle.std.proofs.lemmas.Grind.{common_steps};
ghost use Rattle.std.proofs.Common.{arith};

use super::{Change, TableBackend, TableCache};
use crate::async_lru_cache::CacheError;
use crate::test_pages::{Page, Pages, make_disk, make_page};
use std::alloc::AllocError;
use std::test::*;

impl TableBackend for Pages {
    fn is_modified(value: &Page) -> bool {
        value.modified
    }

    ghost exact = { λ j k h. Prim.grind (arith, common_steps, h) };

    ghost rests = { λ b s k v h. (h, refl) };
}

// Gives a page another number.
#[derive(Drop)]
struct Renumber {
    number: u32,
}

impl Change<Pages> for Renumber {
    type Answer = u32;

    ghost applied = { λ _ v a w. (w.modified ≡ true) × (a ≡ Some v.number) };

    fn apply(&self, page: &mut Page) -> Option<u32> {
        let before = page.number;
        page.number = self.number;
        page.modified = true;
        Some(before)
    }
}

// Reads a page's number.
#[derive(Drop)]
struct Read;

impl Change<Pages> for Read {
    type Answer = u32;

    ghost applied = { λ _ v a w. (w ≡ v) × (a ≡ Some v.number) };

    fn apply(&self, page: &mut Page) -> Option<u32> {
        Some(page.number)
    }
}

type Answer = Result<Result<bool, CacheError<u32, u32>>, AllocError>;

fn is(answer: Answer, want: bool) -> bool {
    match answer {
        Ok(Ok(got)) => got == want,
        _ => false,
    }
}

fn change(cache: &mut TableCache<Pages>, key: u32, number: u32) -> Option<u32> {
    cache.change(key, &Renumber { number })
}

#[test]
fn modified_entries_alone_are_flushed_the_last_used_first(rt: HostRuntime) -> Result<(), Fail> {
    let mut disk = make_disk(rt.alloc());
    let mut cache = TableCache::new(rt.alloc(), Pages, 8)?;
    for key in 0..8 {
        assert!(rt; is(cache.get_or_insert(&mut disk, key, false), true));
    }
    for key in [2, 5, 7, 3] {
        assert_eq!(rt; change(&mut cache, key, key + 100), Some(key));
    }
    assert!(rt; is(cache.get_or_insert(&mut disk, 2, false), true));
    disk.fails.push(5)?;
    assert!(rt; matches!(cache.flush(&mut disk), Err(CacheError::Backend(5))));
    assert_eq!(rt; disk.tried, 4);
    assert_eq!(rt;
        disk.flushed.as_slice(),
        [(2, 102), (7, 107), (3, 103)].as_slice()
    );
    disk.fails.clear();
    assert!(rt; cache.flush(&mut disk).is_ok());
    assert_eq!(rt;
        disk.flushed.as_slice(),
        [(2, 102), (7, 107), (3, 103), (5, 105)].as_slice()
    );
    Ok(())
}

#[test]
fn entries_are_numbered_anew_at_the_greatest_number(rt: HostRuntime) -> Result<(), Fail> {
    let mut disk = make_disk(rt.alloc());
    let mut cache = TableCache::numbered_from(rt.alloc(), Pages, 4, u64::MAX - 3)?;
    for key in [0, 1, 2] {
        assert!(rt; is(cache.get_or_insert(&mut disk, key, false), true));
    }
    assert_eq!(rt; change(&mut cache, 0, 100), Some(0));
    assert_eq!(rt; change(&mut cache, 2, 102), Some(2));
    assert!(rt; is(cache.get_or_insert(&mut disk, 3, false), true));
    assert!(rt; is(cache.get_or_insert(&mut disk, 0, false), true));
    assert!(rt; cache.flush(&mut disk).is_ok());
    assert_eq!(rt; disk.flushed.as_slice(), [(0, 100), (2, 102)].as_slice());
    Ok(())
}

#[test]
fn an_entry_goes_once_it_is_flushed(rt: HostRuntime) -> Result<(), Fail> {
    let mut disk = make_disk(rt.alloc());
    let mut cache = TableCache::new(rt.alloc(), Pages, 2)?;
    assert!(rt; is(cache.get_or_insert(&mut disk, 0, false), true));
    assert_eq!(rt; change(&mut cache, 0, 100), Some(0));
    assert!(rt; cache.pin(0) && cache.is_pinned(0) && cache.first_pinned().is_some());
    assert!(rt; !cache.remove(0) && cache.unpin(0));
    let mut page = make_page(7);
    assert!(rt; is(cache.insert(&mut disk, 7, &mut page, false), true));
    disk.fails.push(0)?;
    assert!(rt;
        matches!(
            cache.get_or_insert(&mut disk, 1, true),
            Ok(Err(CacheError::Backend(0)))
        )
    );
    disk.fails.clear();
    disk.load_fails.push(1)?;
    assert!(rt;
        matches!(
            cache.get_or_insert(&mut disk, 1, true),
            Ok(Err(CacheError::Backend(1)))
        )
    );
    assert!(rt; cache.peek(0).is_none() && cache.peek(7).is_some());
    assert!(rt; cache.flush(&mut disk).is_ok());
    assert_eq!(rt; disk.flushed.as_slice(), [(0, 100), (7, 7)].as_slice());
    assert!(rt; cache.remove(7));
    Ok(())
}

#[test]
fn a_key_is_marked_where_it_stands_in_the_order(rt: HostRuntime) -> Result<(), Fail> {
    let mut disk = make_disk(rt.alloc());
    let mut cache = TableCache::new(rt.alloc(), Pages, 4)?;
    for key in 0..4 {
        assert!(rt; is(cache.get_or_insert(&mut disk, key, false), true));
    }
    // The last used one is changed first, and the order of the flush is that of the last uses.
    for key in [3, 0, 2] {
        assert_eq!(rt; change(&mut cache, key, key + 100), Some(key));
    }
    assert_eq!(rt; cache.change(1, &Read), Some(1));
    assert_eq!(rt; cache.change(2, &Read), Some(102));
    assert_eq!(rt; cache.change(9, &Read), None);
    assert!(rt; cache.flush(&mut disk).is_ok());
    assert_eq!(rt;
        disk.flushed.as_slice(),
        [(3, 103), (2, 102), (0, 100)].as_slice()
    );
    Ok(())
}

#[test]
fn a_modified_entry_that_comes_to_the_front_is_flushed_first(rt: HostRuntime) -> Result<(), Fail> {
    let mut disk = make_disk(rt.alloc());
    let mut cache = TableCache::new(rt.alloc(), Pages, 4)?;
    for key in 0..3 {
        assert!(rt; is(cache.get_or_insert(&mut disk, key, false), true));
        assert_eq!(rt; change(&mut cache, key, key + 100), Some(key));
    }
    assert!(rt; is(cache.get_or_insert(&mut disk, 0, false), true));
    let mut page = make_page(7);
    assert!(rt; is(cache.insert(&mut disk, 1, &mut page, true), true));
    assert!(rt; cache.flush(&mut disk).is_ok());
    assert_eq!(rt;
        disk.flushed.as_slice(),
        [(1, 101), (1, 7), (0, 100), (2, 102)].as_slice()
    );
    Ok(())
}

#[test]
fn pinned_entries_stay_as_the_others_are_taken_out(rt: HostRuntime) -> Result<(), Fail> {
    let mut disk = make_disk(rt.alloc());
    let mut cache = TableCache::new(rt.alloc(), Pages, 4)?;
    for key in 0..4 {
        assert!(rt; is(cache.get_or_insert(&mut disk, key, false), true));
        assert_eq!(rt; change(&mut cache, key, key + 100), Some(key));
    }
    assert!(rt; cache.pin(2) && cache.pin(0));
    match cache.invalidate() {
        Err(CacheError::StillInUse(keys)) => {
            assert_eq!(rt; keys.as_slice(), [2, 0].as_slice());
        }
        _ => assert!(rt; false),
    }
    assert!(rt; cache.peek(1).is_none() && cache.peek(3).is_none());
    assert!(rt; cache.flush(&mut disk).is_ok());
    assert_eq!(rt; disk.flushed.as_slice(), [(2, 102), (0, 100)].as_slice());
    assert!(rt; cache.unpin(2) && cache.unpin(0));
    assert!(rt; cache.invalidate().is_ok());
    assert!(rt; cache.peek(2).is_none() && cache.peek(0).is_none());
    assert!(rt; cache.flush(&mut disk).is_ok());
    assert_eq!(rt; disk.tried, 2);
    Ok(())
}
