//! Data files that fail, or for which memory runs out.
use super::super::{copied, refusal};
use super::{Image, asking, empty, opened_with, put};
use crate::session::{read, release};
use image_access::{MemBacking, PreallocateMode, TraceStorage};
use qcow2_image::{CommitRefused, ImageError};
use std::alloc::Global;
use std::test::Fail;

// How many steps there are.
const STEPS: usize = 15;

// Prepares the fourth cluster, writes a part of it and commits it.
fn commit_fourth(image: &mut Image) -> Result<(), ImageError> {
    let prepared = image.prepare_data_mapping(1536, 512, false)?;
    if let Err(refusal) = image.write_mapped(&prepared, 100, &[0x44; 4]) {
        release(image, prepared);
        return Err(refusal);
    }
    match image.commit_data_mapping(prepared) {
        Ok(()) => Ok(()),
        Err(CommitRefused::Spent(refusal)) => Err(refusal),
        Err(CommitRefused::Kept(refusal, prepared)) => {
            release(image, prepared);
            Err(refusal)
        }
    }
}

// A step of a session. Each calls the data file.
fn step(alloc: Global, image: &mut Image, number: usize) -> Result<(), ImageError> {
    match number {
        0 => put(image, 10, &[0x11; 600]),
        1 => put(image, 20, &[0x22; 4]),
        2 => image.flush(),
        3 => image.sync(),
        4 => image.invalidate_cache(),
        5 => {
            let bytes = read(alloc, image, 0, 1024)?;
            if bytes.len() == 1024 {
                Ok(())
            } else {
                Err(ImageError::Metadata)
            }
        }
        6 => {
            image.ensure_zero_mapping(0, 512)?;
            put(image, 30, &[0x33; 4])
        }
        7 => {
            image.discard_to_zero_unsafe(512, 512)?;
            put(image, 600, &[0x33; 4])
        }
        8 => commit_fourth(image),
        9 => image.resize_grow(2500, PreallocateMode::None),
        10 => image.resize_grow(3000, PreallocateMode::Zero),
        11 => image.resize_grow(4000, PreallocateMode::FormatAllocate),
        12 => image.resize_grow(5000, PreallocateMode::FullAllocate),
        13 => image.resize_grow(40000, PreallocateMode::WriteData),
        _ => match image.resize_shrink(1000) {
            Ok(_end) => Ok(()),
            Err(refusal) => Err(refusal),
        },
    }
}

// The first step that is refused, its refusal, and the refusals of it and of all later steps when they are tried again.
fn first_refused(alloc: Global, image: &mut Image) -> Option<(usize, u8, Vec<u8>)> {
    for number in 0..STEPS {
        let refused = refusal(step(alloc, image, number));
        if refused != 0 {
            let mut again = Vec::new(alloc);
            for later in number..STEPS {
                let _pushed = again.push(refusal(step(alloc, image, later)));
            }
            return Some((number, refused, again));
        }
    }
    None
}

// An image whose data file refuses its call of that number, by a fault or for want of memory.
fn refusing(alloc: Global, storage: &TraceStorage, call: u64, memory: bool) -> Result<Image, Fail> {
    let mut file = empty(alloc)?;
    if memory {
        file.refuse_memory_at(call);
    } else {
        file.fail_at(call);
    }
    Ok(opened_with(alloc, copied(alloc, storage)?, file, None)?)
}

// How many calls the data file was given, and how many of them failed.
fn calls_of(alloc: Global, image: &Image) -> Result<(u64, u64), Fail> {
    match image.collect_storage_dependencies(alloc)?.last() {
        Some(file) => Ok((file.calls(), file.faults())),
        None => Err("there is no storage")?,
    }
}

#[test]
fn each_failing_call_of_a_data_file_fails_the_image(rt: HostRuntime) -> Result<(), Fail> {
    let alloc = rt.alloc();
    let storage = asking(alloc, 2048)?;
    let mut image = refusing(alloc, &storage, 0, false)?;
    let mut last = 0;
    for number in 0..STEPS {
        assert_eq!(rt;
            refusal(step(alloc, &mut image, number)),
            0,
            "step {number}"
        );
        let (calls, _faults) = calls_of(alloc, &image)?;
        assert!(rt; calls > last, "step {number}");
        last = calls;
    }
    let mut refused_steps = [0u64; STEPS];
    for call in 1..=last {
        let mut image = refusing(alloc, &storage, call, false)?;
        let Some((number, refused, again)) = first_refused(alloc, &mut image) else {
            return Err("nothing is refused")?;
        };
        assert_eq!(rt; refused, 15, "call {call}, step {number}");
        refused_steps[number] += 1;
        // all is refused then, and the data file is called no more
        assert_eq!(rt; again.len(), STEPS - number);
        assert!(rt;
            again.iter().all(|it| *it == 16),
            "call {call}, step {number}"
        );
        assert_eq!(rt;
            calls_of(alloc, &image)?,
            (call, 1),
            "call {call}, step {number}"
        );
    }
    // each step is refused once at least
    assert!(rt; refused_steps.iter().all(|it| *it > 0));
    let mut image = refusing(alloc, &storage, last + 1, false)?;
    assert!(rt; first_refused(alloc, &mut image).is_none());
    Ok(())
}

// Where memory runs out, a step fails the image only if it had changed something: then all is refused. Otherwise it is done when it is tried again.
#[test]
fn memory_that_runs_out_for_a_data_file_is_told(rt: HostRuntime) -> Result<(), Fail> {
    let alloc = rt.alloc();
    let storage = asking(alloc, 2048)?;
    let mut image = refusing(alloc, &storage, 0, true)?;
    assert!(rt; first_refused(alloc, &mut image).is_none());
    let (last, _faults) = calls_of(alloc, &image)?;
    let mut went_on = [false; STEPS];
    for call in 1..=last {
        let mut image = refusing(alloc, &storage, call, true)?;
        let Some((number, refused, again)) = first_refused(alloc, &mut image) else {
            return Err("nothing is refused")?;
        };
        assert_eq!(rt; refused, 14, "call {call}, step {number}");
        let wanted = if again.first() == Some(&0) { 0 } else { 16 };
        assert!(rt;
            again.iter().all(|it| *it == wanted),
            "call {call}, step {number}"
        );
        went_on[number] = went_on[number] || wanted == 0;
    }
    // of these steps a refused call comes first: a write in place, a sync, an invalidation, a read, and resizes
    for number in [1, 3, 4, 5, 9, 10, 14] {
        assert!(rt; went_on[number], "step {number}");
    }
    Ok(())
}

// A disk below that fails while it is copied into the data file: nothing is shown that wasn't written.
#[test]
fn a_failing_disk_below_fails_the_image(rt: HostRuntime) -> Result<(), Fail> {
    let alloc = rt.alloc();
    for (for_memory, number, next) in [(false, 15, 16), (true, 14, 0)] {
        let mut below = MemBacking::new(vec![in alloc; 0x55; 700]?);
        let mut image = opened_with(alloc, asking(alloc, 2048)?, empty(alloc)?, None)?;
        // the L2 table is there already
        put(&mut image, 1536, &[0x11; 512])?;
        if for_memory {
            below.refuse_memory_at(1);
        } else {
            below.fail_at(1);
        }
        assert!(rt; image.set_backing(Some(below)).is_ok());
        assert_eq!(rt; refusal(put(&mut image, 10, &[0x22; 4])), number);
        assert_eq!(rt; refusal(put(&mut image, 10, &[0x22; 4])), next);
        if next == 0 {
            assert_eq!(rt;
                read(alloc, &mut image, 9, 6)?.as_slice(),
                [0x55, 0x22, 0x22, 0x22, 0x22, 0x55].as_slice()
            );
        }
    }
    Ok(())
}

// A failed write leaves what was flushed before.
#[test]
fn a_failed_image_has_what_was_flushed(rt: HostRuntime) -> Result<(), Fail> {
    let alloc = rt.alloc();
    let mut file = empty(alloc)?;
    file.fail_at(4);
    let mut image = opened_with(alloc, asking(alloc, 2048)?, file, None)?;
    // a cluster is filled, or written whole, and the flush is the third call
    put(&mut image, 0, &[0x11; 512])?;
    put(&mut image, 512, &[0x22; 512])?;
    image.flush()?;
    assert_eq!(rt; refusal(put(&mut image, 1024, &[0x33; 512])), 15);
    let file = super::data_file_of(alloc, &image)?;
    let storage = copied(alloc, &image.into_storage())?;
    let mut image = opened_with(alloc, storage, file, None)?;
    let mut shown = [0; 2048];
    shown[..512].fill(0x11);
    shown[512..1024].fill(0x22);
    assert_eq!(rt;
        read(alloc, &mut image, 0, 2048)?.as_slice(),
        shown.as_slice()
    );
    Ok(())
}

// Prepares two clusters that are filled one after the other, and drops them.
fn prepare_two(image: &mut Image) -> Result<(), ImageError> {
    let prepared = image.prepare_data_mapping(0, 1024, false)?;
    release(image, prepared);
    Ok(())
}

// Clusters are filled with zeros, or with what the disk below shows. The L2 table is there already, so that filling the first cluster is the
// first change.
#[test]
fn memory_that_runs_out_behind_a_change_fails_the_image(rt: HostRuntime) -> Result<(), Fail> {
    let alloc = rt.alloc();
    for is_over in [false, true] {
        for (call, next) in [(1, 0), (2, 16)] {
            let mut image = opened_with(alloc, asking(alloc, 2048)?, empty(alloc)?, None)?;
            put(&mut image, 1536, &[0x11; 512])?;
            image.flush()?;
            let storage = copied(alloc, &image.into_storage())?;
            let mut image = refusing(alloc, &storage, call, true)?;
            if is_over {
                let below = MemBacking::new(vec![in alloc; 0x55; 2048]?);
                assert!(rt; image.set_backing(Some(below)).is_ok());
            }
            assert_eq!(rt; refusal(prepare_two(&mut image)), 14, "call {call}");
            assert_eq!(rt; refusal(image.check_read(0, 1)), next, "call {call}");
            assert_eq!(rt; refusal(prepare_two(&mut image)), next, "call {call}");
        }
    }
    Ok(())
}

// An image of 1,000 bytes whose own file finds no memory for its next call.
fn lacking_memory(alloc: Global) -> Result<Image, Fail> {
    let mut storage = asking(alloc, 1000)?;
    let opened = opened_with(alloc, copied(alloc, &storage)?, empty(alloc)?, None)?;
    storage.refuse_memory_at(opened.into_storage().calls() + 1);
    Ok(opened_with(alloc, storage, empty(alloc)?, None)?)
}

// The data file has another size by then, and the image doesn't.
#[test]
fn memory_that_runs_out_behind_a_resize_fails_the_image(rt: HostRuntime) -> Result<(), Fail> {
    let alloc = rt.alloc();
    for mode in [PreallocateMode::None, PreallocateMode::Zero] {
        let mut image = lacking_memory(alloc)?;
        assert_eq!(rt; refusal(image.resize_grow(70000, mode)), 14, "{mode:?}");
        assert_eq!(rt;
            (image.size(), refusal(image.flush())),
            (1000, 16),
            "{mode:?}"
        );
    }
    let mut image = lacking_memory(alloc)?;
    assert_eq!(rt; refusal(image.resize_shrink(100)), 14);
    assert_eq!(rt; (image.size(), refusal(image.flush())), (1000, 16));
    Ok(())
}
