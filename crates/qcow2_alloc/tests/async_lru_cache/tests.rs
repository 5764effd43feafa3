use super::{AsyncLruCache, CacheError};
use crate::test_pages::{Pages, make_disk, make_page};
use std::test::*;

type Answer = Result<bool, CacheError<u32, u32>>;

fn number_at(cache: &AsyncLruCache<Pages>, key: u32) -> Option<u32> {
    let page = cache.peek(key)?;
    Some(page.number)
}

fn is(answer: Answer, want: bool) -> bool {
    match answer {
        Ok(got) => got == want,
        Err(_) => false,
    }
}

fn failed_at(answer: Answer) -> Option<u32> {
    match answer {
        Err(CacheError::Backend(key)) => Some(key),
        _ => None,
    }
}

fn is_in_use(answer: Answer) -> bool {
    matches!(answer, Err(CacheError::InUse))
}

#[test]
fn the_least_recently_used_goes(rt: HostRuntime) -> Result<(), Fail> {
    let mut disk = make_disk(rt.alloc());
    let mut cache = AsyncLruCache::new(rt.alloc(), Pages, 3)?;
    for key in [0, 1, 2, 0] {
        assert!(rt; is(cache.get_or_insert(&mut disk, key, false), true));
    }
    assert!(rt; is(cache.get_or_insert(&mut disk, 3, false), false));
    assert!(rt; is(cache.get_or_insert(&mut disk, 3, true), true));
    assert_eq!(rt; disk.flushed.as_slice(), [(1, 1)].as_slice());
    Ok(())
}

#[test]
fn a_pinned_entry_stays(rt: HostRuntime) -> Result<(), Fail> {
    let mut disk = make_disk(rt.alloc());
    let mut cache = AsyncLruCache::new(rt.alloc(), Pages, 2)?;
    assert!(rt; is(cache.get_or_insert(&mut disk, 0, false), true));
    assert!(rt; cache.pin(0));
    assert!(rt; is(cache.get_or_insert(&mut disk, 1, false), true));
    assert!(rt; is(cache.get_or_insert(&mut disk, 2, false), false));
    assert!(rt; is(cache.get_or_insert(&mut disk, 2, true), true));
    assert_eq!(rt; disk.flushed.as_slice(), [(1, 1)].as_slice());
    assert_eq!(rt; number_at(&cache, 0), Some(0));
    assert!(rt; cache.unpin(0));
    assert!(rt; !cache.unpin(0));
    assert!(rt; !cache.pin(9));
    Ok(())
}

#[test]
fn everything_is_in_use(rt: HostRuntime) -> Result<(), Fail> {
    let mut disk = make_disk(rt.alloc());
    let mut cache = AsyncLruCache::new(rt.alloc(), Pages, 23)?;
    for key in 0..23 {
        assert!(rt; is(cache.get_or_insert(&mut disk, key, false), true));
        assert!(rt; cache.pin(key));
    }
    assert!(rt; is(cache.get_or_insert(&mut disk, 23, false), false));
    assert!(rt; is_in_use(cache.get_or_insert(&mut disk, 23, true)));
    Ok(())
}

#[test]
fn a_flush_goes_on_past_failures(rt: HostRuntime) -> Result<(), Fail> {
    let mut disk = make_disk(rt.alloc());
    let mut cache = AsyncLruCache::new(rt.alloc(), Pages, 42)?;
    for key in 0..42 {
        assert!(rt; is(cache.get_or_insert(&mut disk, key, false), true));
        if key % 2 == 1 {
            disk.fails.push(key)?;
        }
    }
    assert!(rt; matches!(cache.flush(&mut disk), Err(CacheError::Backend(41))));
    assert_eq!(rt; disk.tried, 42);
    assert_eq!(rt; disk.flushed.len(), 21);
    assert_eq!(rt; disk.flushed[0], (40, 40));
    Ok(())
}

#[test]
fn an_invalidation_keeps_what_is_pinned(rt: HostRuntime) -> Result<(), Fail> {
    let mut disk = make_disk(rt.alloc());
    let mut cache = AsyncLruCache::new(rt.alloc(), Pages, 16)?;
    assert!(rt; is(cache.get_or_insert(&mut disk, 0, false), true));
    assert!(rt; cache.pin(0));
    assert!(rt; is(cache.get_or_insert(&mut disk, 1, false), true));
    assert!(rt; is(cache.get_or_insert(&mut disk, 2, false), true));
    match cache.invalidate() {
        Err(CacheError::StillInUse(keys)) => assert_eq!(rt; keys.as_slice(), [0].as_slice()),
        _ => panic!(rt; "not in use"),
    }
    assert_eq!(rt; cache.len(), 1);
    assert!(rt; !cache.remove(0));
    assert!(rt; cache.unpin(0));
    assert!(rt; cache.remove(0));
    assert_eq!(rt; cache.len(), 0);
    assert!(rt; cache.invalidate().is_ok());
    assert_eq!(rt; disk.tried, 0);
    Ok(())
}

#[test]
fn a_failed_flush_keeps_the_entries(rt: HostRuntime) -> Result<(), Fail> {
    let mut disk = make_disk(rt.alloc());
    for key in 0..3 {
        disk.fails.push(key)?;
    }
    let mut cache = AsyncLruCache::new(rt.alloc(), Pages, 2)?;
    for key in [0, 1] {
        assert!(rt; is(cache.get_or_insert(&mut disk, key, false), true));
    }
    assert_eq!(rt; failed_at(cache.get_or_insert(&mut disk, 2, true)), Some(0));
    assert_eq!(rt; cache.len(), 2);
    assert_eq!(rt; number_at(&cache, 0), Some(0));
    assert_eq!(rt; number_at(&cache, 1), Some(1));
    Ok(())
}

#[test]
fn an_insert_flushes_what_it_replaces(rt: HostRuntime) -> Result<(), Fail> {
    let mut disk = make_disk(rt.alloc());
    let mut cache = AsyncLruCache::new(rt.alloc(), Pages, 16)?;
    assert!(rt; is(cache.get_or_insert(&mut disk, 5, false), true));
    let mut value = make_page(55);
    assert!(rt; is(cache.insert(&mut disk, 5, &mut value, false), false));
    assert!(rt; value.is_some());
    assert!(rt; value.is_some() && is(cache.insert(&mut disk, 5, &mut value, true), true));
    assert!(rt; value.is_none());
    assert_eq!(rt; disk.flushed.as_slice(), [(5, 5)].as_slice());
    assert_eq!(rt; number_at(&cache, 5), Some(55));
    assert_eq!(rt; cache.len(), 1);
    if let Some(page) = cache.peek_mut(5) {
        page.number = 56;
    }
    assert_eq!(rt; number_at(&cache, 5), Some(56));
    Ok(())
}

#[test]
fn a_cache_of_size_0_holds_nothing(rt: HostRuntime) -> Result<(), Fail> {
    let mut disk = make_disk(rt.alloc());
    let mut cache = AsyncLruCache::new(rt.alloc(), Pages, 0)?;
    assert!(rt; is(cache.get_or_insert(&mut disk, 0, false), false));
    assert!(rt; is_in_use(cache.get_or_insert(&mut disk, 0, true)));
    Ok(())
}

#[test]
fn a_failed_load_leaves_room(rt: HostRuntime) -> Result<(), Fail> {
    let mut disk = make_disk(rt.alloc());
    disk.load_fails.push(2)?;
    let mut cache = AsyncLruCache::new(rt.alloc(), Pages, 2)?;
    for key in [0, 1] {
        assert!(rt; is(cache.get_or_insert(&mut disk, key, false), true));
    }
    assert_eq!(rt; failed_at(cache.get_or_insert(&mut disk, 2, true)), Some(2));
    assert_eq!(rt; cache.len(), 1);
    assert_eq!(rt; disk.flushed.as_slice(), [(0, 0)].as_slice());
    assert_eq!(rt; number_at(&cache, 0), None);
    Ok(())
}
