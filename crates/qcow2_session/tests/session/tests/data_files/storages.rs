//! What flushes, syncs and invalidations reach, and which storages an image lists.
ghost use Rattle.std.specs.Prelude.{◌≡◌, []};
ghost use Rattle.image_access.specs.Changes.{counts_all, only_all};
ghost use Rattle.image_access.specs.TraceStorage.{view_of_trace};

use super::super::refusal;
use super::{asking, empty};
use crate::session::write;
use image_access::{
    BackingDisk, MemBacking, Storage, StorageError, StoragePreallocate, TraceStorage, WrappedFormat,
};
use qcow2_image::{ImageError, Qcow2};
use std::alloc::{AllocError, Global};
use std::test::Fail;

// A call of a storage that isn't for its bytes.
#[derive(Clone, Copy, PartialEq, Eq, Debug)]
enum Told {
    Flush,
    Sync,
    Invalidation,
}

// A storage with a number that keeps how often it was told each of these, and may refuse one of them.
#[derive(Drop)]
struct ToldStorage {
    inner: TraceStorage,
    number: u64,
    refuses: Option<(Told, bool)>,
    counts: [u64; 3],
    changes_at_flush: usize,
}

impl ToldStorage {
    fn new(inner: TraceStorage, number: u64, refuses: Option<(Told, bool)>) -> Self {
        ToldStorage {
            inner,
            number,
            refuses,
            counts: [0; 3],
            changes_at_flush: 0,
        }
    }

    // Counts a call, and refuses it where it was chosen: by a fault, or for want of memory.
    fn tell(&mut self, told: Told) -> Result<(), StorageError> {
        match told {
            Told::Flush => self.counts[0] += 1,
            Told::Sync => self.counts[1] += 1,
            Told::Invalidation => self.counts[2] += 1,
        }
        let Some((refused, for_memory)) = self.refuses else {
            return Ok(());
        };
        if refused != told {
            return Ok(());
        }
        if for_memory {
            return Err(StorageError::Memory);
        }
        self.inner.fail_at(1);
        self.inner.flush()
    }
}

impl Storage for ToldStorage {
    ghost view = { λ s. view_of_trace s.inner };

    ghost counts_now = { λ s t h le. counts_all s.inner.start s.inner.changes t le };

    ghost only_now = { λ s c had. only_all s.inner.start s.inner.changes c had };

    ghost passes = { λ call old new result. new ≡ new };

    fn name(&self) -> &str {
        "told"
    }

    fn size(&mut self) -> Result<u64, StorageError> {
        self.inner.size()
    }

    fn read(&mut self, at: u64, buf: &mut [u8]) -> Result<(), StorageError> {
        self.inner.read(at, buf)
    }

    fn write(&mut self, at: u64, bytes: &[u8]) -> Result<(), StorageError> {
        self.inner.write(at, bytes)
    }

    fn write_zeroes(&mut self, at: u64, length: u64) -> Result<(), StorageError> {
        self.inner.write_zeroes(at, length)
    }

    fn write_allocated_zeroes(&mut self, at: u64, length: u64) -> Result<(), StorageError> {
        self.inner.write_allocated_zeroes(at, length)
    }

    fn resize(&mut self, size: u64, preallocate: StoragePreallocate) -> Result<(), StorageError> {
        self.inner.resize(size, preallocate)
    }

    fn flush(&mut self) -> Result<(), StorageError> {
        self.changes_at_flush = self.inner.changes().len();
        self.tell(Told::Flush)
    }

    fn sync(&mut self) -> Result<(), StorageError> {
        self.tell(Told::Sync)
    }

    fn invalidate_cache(&mut self) -> Result<(), StorageError> {
        self.tell(Told::Invalidation)
    }

    fn req_align(&self) -> usize {
        1
    }

    fn mem_align(&self) -> usize {
        1
    }
}

type Image = Qcow2<ToldStorage, MemBacking>;

type Choice = Option<(Told, bool)>;

// An image whose storages, the first and the second, refuse what was chosen.
fn told_image(alloc: Global, own: Choice, data: Choice) -> Result<Image, Fail> {
    let storage = ToldStorage::new(asking(alloc, 65536)?, 1, own);
    let file = ToldStorage::new(empty(alloc)?, 2, data);
    match Qcow2::builder(storage, 1)
        .write(true)
        .data_file(Some(file))
        .open(alloc)
    {
        Ok(image) => Ok(image),
        Err((_storage, refusal)) => Err(refusal)?,
    }
}

// How often the two storages were told each call.
fn told(alloc: Global, image: &Image) -> Result<[[u64; 3]; 2], Fail> {
    let mut counts = [[0; 3]; 2];
    for (all, storage) in counts
        .iter_mut()
        .zip(image.collect_storage_dependencies(alloc)?)
    {
        *all = storage.counts;
    }
    Ok(counts)
}

// Calls the image so that it tells its storages.
fn tell(image: &mut Image, told: Told) -> Result<(), ImageError> {
    match told {
        Told::Flush => image.flush(),
        Told::Sync => image.sync(),
        Told::Invalidation => image.invalidate_cache(),
    }
}

// How often each storage is told one call alone.
fn once(told: Told) -> [u64; 3] {
    match told {
        Told::Flush => [1, 0, 0],
        Told::Sync => [0, 1, 0],
        Told::Invalidation => [0, 0, 1],
    }
}

const ALL: [Told; 3] = [Told::Flush, Told::Sync, Told::Invalidation];

#[test]
fn both_files_are_told(rt: HostRuntime) -> Result<(), Fail> {
    let alloc = rt.alloc();
    for call in ALL {
        let mut image = told_image(alloc, None, None)?;
        tell(&mut image, call)?;
        assert_eq!(rt; told(alloc, &image)?, [once(call), once(call)], "{call:?}");
    }
    Ok(())
}

// A flush writes what is cached before it tells the storages.
#[test]
fn both_files_are_flushed_after_all_changes(rt: HostRuntime) -> Result<(), Fail> {
    let alloc = rt.alloc();
    let mut image = told_image(alloc, None, None)?;
    assert!(rt; write(&mut image, 0, &[0x11; 600]).is_ok());
    image.flush()?;
    for storage in image.collect_storage_dependencies(alloc)? {
        assert!(rt; storage.changes_at_flush > 0);
        assert_eq!(rt; storage.changes_at_flush, storage.inner.changes().len());
    }
    Ok(())
}

// The image's own file comes first at flushes and syncs: where it refuses, the data file is told nothing.
#[test]
fn the_own_file_is_told_before_the_data_file(rt: HostRuntime) -> Result<(), Fail> {
    let alloc = rt.alloc();
    for call in [Told::Flush, Told::Sync] {
        for (for_memory, number, next) in [(false, 15, 16), (true, 14, 14)] {
            let chosen = Some((call, for_memory));
            let mut image = told_image(alloc, chosen, None)?;
            assert_eq!(rt; refusal(tell(&mut image, call)), number, "{call:?}");
            assert_eq!(rt; told(alloc, &image)?, [once(call), [0; 3]], "{call:?}");
            assert_eq!(rt; refusal(tell(&mut image, call)), next, "{call:?}");
            let mut image = told_image(alloc, None, chosen)?;
            assert_eq!(rt; refusal(tell(&mut image, call)), number, "{call:?}");
            assert_eq!(rt; told(alloc, &image)?, [once(call), once(call)], "{call:?}");
            assert_eq!(rt; refusal(tell(&mut image, call)), next, "{call:?}");
        }
    }
    Ok(())
}

// A fault fails the image, and want of memory doesn't.
#[test]
fn a_refused_invalidation_of_either_file_is_told(rt: HostRuntime) -> Result<(), Fail> {
    let alloc = rt.alloc();
    for (for_memory, number, next) in [(false, 15, 16), (true, 14, 0)] {
        let chosen = Some((Told::Invalidation, for_memory));
        for (own, data) in [(chosen, None), (None, chosen)] {
            let mut image = told_image(alloc, own, data)?;
            assert_eq!(rt; refusal(image.invalidate_cache()), number);
            assert_eq!(rt; refusal(image.check_read(0, 1)), next);
        }
    }
    Ok(())
}

// A disk below that uses a storage, and shows zeros.
#[derive(Drop)]
struct OverStorage {
    storage: ToldStorage,
}

impl BackingDisk for OverStorage {
    ghost backing = { λ _. record { bytes = []; faults = 0; is_honest = Unit {0} } };

    fn size(&self) -> u64 {
        0
    }

    fn read(&mut self, _at: u64, buf: &mut [u8]) -> Result<(), StorageError> {
        buf.fill(0);
        Ok(())
    }
}

impl WrappedFormat<ToldStorage> for OverStorage {
    ghost dependencies = { λ d. [] };

    fn storage_dependencies(&self, alloc: Global) -> Result<Vec<&ToldStorage>, AllocError> {
        let mut storages = Vec::new(alloc);
        storages.push(&self.storage)?;
        Ok(storages)
    }
}

#[test]
fn the_data_file_is_listed_last(rt: HostRuntime) -> Result<(), Fail> {
    let alloc = rt.alloc();
    let below = OverStorage {
        storage: ToldStorage::new(empty(alloc)?, 3, None),
    };
    let storage = ToldStorage::new(asking(alloc, 65536)?, 1, None);
    let file = ToldStorage::new(empty(alloc)?, 2, Some((Told::Sync, false)));
    let builder = Qcow2::builder(storage, 1).backing(Some(below));
    let Ok(mut image) = builder.data_file(Some(file)).open(alloc) else {
        return Err("it doesn't open")?;
    };
    let mut numbers = Vec::new(alloc);
    for storage in image.collect_storage_dependencies(alloc)? {
        numbers.push(storage.number)?;
    }
    assert_eq!(rt; numbers.as_slice(), [3, 1, 2].as_slice());
    assert_eq!(rt; image.to_string(alloc)?.as_str(), "qcow2[told]");
    // a failed image lists them too
    assert_eq!(rt; refusal(image.sync()), 15);
    assert_eq!(rt; image.collect_storage_dependencies(alloc)?.len(), 3);
    // the image's own file is handed back
    assert_eq!(rt; image.into_storage().number, 1);
    Ok(())
}
