use crate::{StreamedFile, create, open, open_read_only};
use image_access::{MemStorage, Storage, StorageError, StoragePreallocate};
use std::alloc::Global;
use std::process::Abort;
use std::test::Fail;

/// Numbers that look random, from a seed on.
#[derive(Drop)]
struct Dice {
    seed: u64,
}

impl Dice {
    fn below(&mut self, limit: u64) -> u64 {
        self.seed = self
            .seed
            .wrapping_mul(6364136223846793005)
            .wrapping_add(1442695040888963407);
        (self.seed >> 33) % limit
    }
}

// Reads a range of both, and compares the bytes.
fn compare<S: Storage, T: Storage>(
    rt: &impl Abort,
    alloc: Global,
    storage: &mut S,
    wanted: &mut T,
    at: u64,
    count: usize,
) -> Result<(), Fail> {
    let mut buf = vec![in alloc; 1; count]?;
    let mut want = vec![in alloc; 2; count]?;
    storage.read(at, &mut buf)?;
    wanted.read(at, &mut want)?;
    assert_eq!(rt; buf.as_slice(), want.as_slice());
    Ok(())
}

// The same change of both.
fn change<S: Storage, T: Storage>(
    alloc: Global,
    dice: &mut Dice,
    storage: &mut S,
    wanted: &mut T,
    at: u64,
    count: usize,
) -> Result<(), StorageError> {
    match dice.below(12) {
        0 => {
            storage.write_zeroes(at, count as u64)?;
            wanted.write_zeroes(at, count as u64)
        }
        1 => {
            storage.write_allocated_zeroes(at, count as u64)?;
            wanted.write_allocated_zeroes(at, count as u64)
        }
        2 => {
            storage.resize(at, StoragePreallocate::None)?;
            wanted.resize(at, StoragePreallocate::None)
        }
        _ => {
            let bytes = vec![in alloc; dice.below(256) as u8; count]?;
            storage.write(at, &bytes)?;
            wanted.write(at, &bytes)
        }
    }
}

// Runs of reads or of changes, each from a place of its own on.
fn work<S: Storage, T: Storage>(
    rt: &impl Abort,
    alloc: Global,
    dice: &mut Dice,
    storage: &mut S,
    wanted: &mut T,
) -> Result<(), Fail> {
    for _ in 0..16 {
        let mut at = dice.below(600000);
        let is_change = dice.below(2) == 0;
        let long = [1, 500, 4096, 32767, 32768, 70000][dice.below(6) as usize];
        for _ in 0..dice.below(40) {
            if is_change {
                change(alloc, dice, storage, wanted, at, long)?;
            } else {
                compare(rt, alloc, storage, wanted, at, long)?;
            }
            at = (at + long as u64) % 1000000;
        }
        assert_eq!(rt; storage.size()?, wanted.size()?);
    }
    Ok(())
}

#[test]
fn a_streamed_file_keeps_its_bytes(rt: HostRuntime) -> Result<(), Fail> {
    let alloc = rt.alloc();
    for seed in 0..2 {
        let mut dice = Dice { seed };
        let mut wanted = MemStorage::new(Vec::new(alloc));
        let _ = std::fs::remove_file(&rt, "streamed");
        let mut storage = StreamedFile::new(alloc, create(&rt, "streamed")?)?;
        work(&rt, alloc, &mut dice, &mut storage, &mut wanted)?;
        storage.flush()?;
        let size = wanted.size()?;
        {
            let _held = storage;
        }
        let mut file = open_read_only(&rt, "streamed")?;
        assert_eq!(rt; file.size()?, size);
        compare(&rt, alloc, &mut file, &mut wanted, 0, size as usize)?;
    }
    std::fs::remove_file(&rt, "streamed")?;
    Ok(())
}

#[test]
fn a_file_with_holes_is_read(rt: HostRuntime) -> Result<(), Fail> {
    let alloc = rt.alloc();
    let _ = std::fs::remove_file(&rt, "holes");
    let mut file = create(&rt, "holes")?;
    let mut wanted = MemStorage::new(Vec::new(alloc));
    for place in [0, 1 << 20, 5 << 20] {
        file.write(place, &[3; 9000])?;
        wanted.write(place, &[3; 9000])?;
    }
    file.resize(7 << 20, StoragePreallocate::None)?;
    wanted.resize(7 << 20, StoragePreallocate::None)?;
    let mut storage = StreamedFile::new(alloc, file)?;
    for count in [4096usize, 65536] {
        let mut at = 0;
        while at < 8 << 20 {
            compare(&rt, alloc, &mut storage, &mut wanted, at, count)?;
            at += count as u64;
        }
    }
    std::fs::remove_file(&rt, "holes")?;
    Ok(())
}

#[test]
fn writes_are_held_until_they_are_asked_for(rt: HostRuntime) -> Result<(), Fail> {
    let alloc = rt.alloc();
    let _ = std::fs::remove_file(&rt, "held");
    let mut storage = StreamedFile::new(alloc, create(&rt, "held")?)?;
    storage.write(0, &[1; 100])?;
    storage.write(100, &[2; 100])?;
    assert_eq!(rt; std::fs::metadata(&rt, "held")?.len(), 0);
    storage.flush()?;
    assert_eq!(rt; std::fs::metadata(&rt, "held")?.len(), 200);
    storage.write(200, &[3; 100])?;
    storage.write(500, &[4; 100])?;
    assert_eq!(rt; std::fs::metadata(&rt, "held")?.len(), 300);
    assert_eq!(rt; storage.size()?, 600);
    std::fs::remove_file(&rt, "held")?;
    Ok(())
}

#[test]
fn what_cannot_be_written_stays_a_fault(rt: HostRuntime) -> Result<(), Fail> {
    let alloc = rt.alloc();
    let mut storage = StreamedFile::new(alloc, open(&rt, "/dev/full")?)?;
    storage.write(0, &[1; 100])?;
    for _ in 0..2 {
        assert!(rt; storage.flush().is_err());
        assert!(rt; storage.write(300, &[1; 100]).is_err());
        assert!(rt; storage.size().is_err());
        assert!(rt; storage.last_error().is_some());
    }
    Ok(())
}
