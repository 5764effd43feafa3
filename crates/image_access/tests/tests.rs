use crate::{
    BackingDisk, Change, DynStorage, MemBacking, MemStorage, Storage, StorageError,
    StoragePreallocate, TraceStorage, WrappedFormat,
};
use std::alloc::{AllocError, Global};
use std::process::Abort;
use std::test::Fail;

// Writes at 2, zeros at 3, cuts to 5, and zeros at 2.
fn change<S: Storage>(storage: &mut S) -> Result<(), StorageError> {
    storage.write(2, &[7, 8])?;
    storage.write_zeroes(3, 3)?;
    storage.resize(5, StoragePreallocate::None)?;
    storage.write_allocated_zeroes(2, 1)
}

fn settle<S: Storage>(storage: &mut S) -> Result<(), StorageError> {
    storage.flush()?;
    storage.sync()?;
    storage.invalidate_cache()
}

fn check_read<S: Storage>(
    rt: &impl Abort,
    storage: &mut S,
    at: u64,
    want: &[u8; 6],
) -> Result<(), StorageError> {
    let mut buf = [1; 6];
    storage.read(at, &mut buf)?;
    assert_eq!(rt; buf.as_slice(), want.as_slice());
    Ok(())
}

#[test]
fn a_trace_keeps_its_changes(rt: HostRuntime) -> Result<(), Fail> {
    let alloc = rt.alloc();
    let mut storage = TraceStorage::new(alloc, [9].to_vec(alloc)?)?;
    change(&mut storage)?;
    settle(&mut storage)?;
    check_read(&rt, &mut storage, 0, &[9, 0, 0, 0, 0, 0])?;
    assert_eq!(rt; storage.reads(), 1);
    assert_eq!(rt; storage.calls(), 8);
    assert_eq!(rt; storage.writes(alloc)?.as_slice(), [2, 3, 2].as_slice());
    let [Change::Write { at, bytes }, _, _, _] = storage.changes() else {
        return Err("four changes, the first a write")?;
    };
    assert_eq!(rt; *at, 2);
    assert_eq!(rt; bytes.as_slice(), [7, 8].as_slice());
    Ok(())
}

#[test]
fn a_trace_gives_its_past(rt: HostRuntime) -> Result<(), Fail> {
    let alloc = rt.alloc();
    let mut storage = TraceStorage::new(alloc, [9].to_vec(alloc)?)?;
    change(&mut storage)?;
    assert_eq!(rt; storage.after(alloc, 0)?.as_slice(), [9].as_slice());
    assert_eq!(rt;
        storage.after(alloc, 1)?.as_slice(),
        [9, 0, 7, 8].as_slice()
    );
    assert_eq!(rt;
        storage.after(alloc, 2)?.as_slice(),
        [9, 0, 7, 0, 0, 0].as_slice()
    );
    assert_eq!(rt;
        storage.after(alloc, 3)?.as_slice(),
        [9, 0, 0, 0, 0].as_slice()
    );
    assert_eq!(rt;
        storage.after(alloc, 4)?.as_slice(),
        [9, 0, 0, 0, 0].as_slice()
    );
    Ok(())
}

#[test]
fn a_trace_fails_where_told(rt: HostRuntime) -> Result<(), Fail> {
    let alloc = rt.alloc();
    let mut storage = TraceStorage::new(alloc, Vec::new(alloc))?;
    storage.fail_at(2);
    assert_eq!(rt; change(&mut storage), Err(StorageError::Fault));
    assert_eq!(rt; storage.as_slice(), [0, 0, 7, 8].as_slice());
    assert_eq!(rt; storage.faults(), 1);
    storage.refuse_memory_at(3);
    assert_eq!(rt; change(&mut storage), Err(StorageError::Memory));
    assert_eq!(rt; storage.as_slice(), [0, 0, 7, 0, 0, 0].as_slice());
    assert_eq!(rt; storage.faults(), 1);
    Ok(())
}

#[test]
fn boxes_mix_storages(rt: HostRuntime) -> Result<(), Fail> {
    let alloc = rt.alloc();
    let memory: Box<dyn DynStorage> = Box::new(alloc, MemStorage::new(Vec::new(alloc)))?;
    let trace: Box<dyn DynStorage> = Box::new(alloc, TraceStorage::new(alloc, Vec::new(alloc))?)?;
    let mut storages = [memory, trace];
    for (storage, name) in storages.iter_mut().zip(["mem", "trace"]) {
        change(storage)?;
        settle(storage)?;
        check_read(&rt, storage, 1, &[0, 0, 0, 0, 0, 0])?;
        assert_eq!(rt; storage.size(), Ok(5));
        assert_eq!(rt; storage.name(), name);
        assert_eq!(rt; storage.req_align(), storage.mem_align());
    }
    Ok(())
}

// A storage that fails at its first call.
fn failing(alloc: Global) -> Result<Box<dyn DynStorage>, AllocError> {
    let mut trace = TraceStorage::new(alloc, Vec::new(alloc))?;
    trace.fail_at(1);
    Ok(Box::new(alloc, trace)?)
}

#[test]
fn a_box_hands_each_call_on(rt: HostRuntime) -> Result<(), Fail> {
    let alloc = rt.alloc();
    let fault = Err(StorageError::Fault);
    assert_eq!(rt; failing(alloc)?.size(), Err(StorageError::Fault));
    assert_eq!(rt; failing(alloc)?.read(0, &mut [0]), fault);
    assert_eq!(rt; failing(alloc)?.write(0, &[1]), fault);
    assert_eq!(rt; failing(alloc)?.write_zeroes(0, 1), fault);
    assert_eq!(rt; failing(alloc)?.write_allocated_zeroes(0, 1), fault);
    assert_eq!(rt; failing(alloc)?.resize(1, StoragePreallocate::None), fault);
    assert_eq!(rt; failing(alloc)?.flush(), fault);
    assert_eq!(rt; failing(alloc)?.sync(), fault);
    assert_eq!(rt; failing(alloc)?.invalidate_cache(), fault);
    Ok(())
}

// A growth that is refused leaves the storage as it was.
fn check_growth<S: Storage>(rt: &impl Abort, storage: &mut S) -> Result<(), StorageError> {
    storage.write(0, &[5])?;
    assert_eq!(rt; storage.write(1 << 60, &[1]), Err(StorageError::Memory));
    assert_eq!(rt; storage.write(u64::MAX, &[1, 2]), Err(StorageError::Memory));
    assert_eq!(rt;
        storage.write_zeroes(u64::MAX, 2),
        Err(StorageError::Memory)
    );
    assert_eq!(rt;
        storage.write_allocated_zeroes(0, u64::MAX),
        Err(StorageError::Memory)
    );
    assert_eq!(rt;
        storage.resize(1 << 60, StoragePreallocate::Zero),
        Err(StorageError::Memory)
    );
    check_read(rt, storage, 0, &[5, 0, 0, 0, 0, 0])
}

// No bytes change nothing, and all is zero past the end, also at the greatest offset.
fn check_end<S: Storage>(rt: &impl Abort, storage: &mut S) -> Result<(), StorageError> {
    storage.write(u64::MAX, &[])?;
    storage.write_zeroes(u64::MAX, 0)?;
    assert_eq!(rt; storage.size(), Ok(1));
    check_read(rt, storage, u64::MAX, &[0, 0, 0, 0, 0, 0])
}

#[test]
fn growth_is_refused(rt: HostRuntime) -> Result<(), Fail> {
    let alloc = rt.alloc();
    let mut memory = MemStorage::new(Vec::new(alloc));
    check_growth(&rt, &mut memory)?;
    check_end(&rt, &mut memory)?;
    assert_eq!(rt; memory.as_slice(), [5].as_slice());
    let mut trace = TraceStorage::new(alloc, Vec::new(alloc))?;
    check_growth(&rt, &mut trace)?;
    check_end(&rt, &mut trace)?;
    assert_eq!(rt; trace.as_slice(), [5].as_slice());
    Ok(())
}

fn check_backing<F: WrappedFormat<MemStorage>>(
    rt: &impl Abort,
    alloc: Global,
    backing: &mut F,
) -> Result<(), StorageError> {
    let mut buf = [1; 4];
    backing.read(1, &mut buf)?;
    assert_eq!(rt; buf.as_slice(), [6, 7, 0, 0].as_slice());
    assert_eq!(rt; backing.size(), 3);
    assert_eq!(rt; backing.storage_dependencies(alloc)?.len(), 0);
    Ok(())
}

#[test]
fn a_backing_disk_is_read(rt: HostRuntime) -> Result<(), Fail> {
    let alloc = rt.alloc();
    let mut backing = MemBacking::new([5, 6, 7].to_vec(alloc)?);
    backing.fail_at(2);
    backing.refuse_memory_at(3);
    check_backing(&rt, alloc, &mut backing)?;
    assert_eq!(rt;
        check_backing(&rt, alloc, &mut backing),
        Err(StorageError::Fault)
    );
    assert_eq!(rt;
        check_backing(&rt, alloc, &mut backing),
        Err(StorageError::Memory)
    );
    assert_eq!(rt; backing.reads(), 3);
    let mut boxed: Box<dyn BackingDisk> = Box::new(alloc, backing)?;
    check_backing(&rt, alloc, &mut boxed)?;
    Ok(())
}

#[test]
fn errors_are_printed(rt: HostRuntime) -> Result<(), Fail> {
    let alloc = rt.alloc();
    for (error, text) in [
        (StorageError::Fault, "the storage failed"),
        (StorageError::Memory, "out of memory"),
    ] {
        assert_eq!(rt; error.to_string(alloc)?.as_str(), text);
    }
    Ok(())
}
