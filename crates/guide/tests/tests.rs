use crate::block_server::{Request, serve};
use crate::checking::leaked;
use crate::converting::{export, import};
use crate::copying::merge;
use crate::opening::{make, open};
use crate::overlays::open_over;
use image_access::{MemBacking, MemStorage, Storage};
use qcow2_image::{ImageError, Qcow2};
use qcow2_session::{read, write};
use std::alloc::Global;
use std::test::Fail;

const SIZE: u64 = 200000;

fn empty(alloc: Global, number: u64) -> Result<Qcow2<MemStorage>, ImageError> {
    make(alloc, MemStorage::new(Vec::new(alloc)), SIZE, number)
}

// Serves a write, a flush and a read over its edge.
fn served<S: Storage>(alloc: Global, image: &mut Qcow2<S>) -> Result<Vec<u8>, ImageError> {
    let bytes = vec![in alloc; 0x22; 3]?;
    serve(
        alloc,
        image,
        &Request::Write {
            offset: 99999,
            bytes,
        },
    )?;
    serve(alloc, image, &Request::Flush)?;
    serve(
        alloc,
        image,
        &Request::Read {
            offset: 99998,
            length: 5,
        },
    )
}

#[test]
fn a_block_server_reads_what_it_wrote(rt: HostRuntime) -> Result<(), Fail> {
    let alloc = rt.alloc();
    let mut image = empty(alloc, 1)?;
    assert_eq!(rt;
        served(alloc, &mut image)?.as_slice(),
        [0, 0x22, 0x22, 0x22, 0].as_slice()
    );
    let mut again = open(alloc, image.into_storage(), 2)?;
    assert_eq!(rt;
        read(alloc, &mut again, 100001, 2)?.as_slice(),
        [0x22, 0].as_slice()
    );
    Ok(())
}

// Zeroes a range, which begins and ends inside clusters, and frees the clusters of another, which reads as zeros then.
fn cleared<S: Storage>(alloc: Global, image: &mut Qcow2<S>) -> Result<Vec<u8>, ImageError> {
    let bytes = vec![in alloc; 0x33; 200000]?;
    serve(alloc, image, &Request::Write { offset: 0, bytes })?;
    serve(
        alloc,
        image,
        &Request::Zero {
            offset: 60000,
            length: 80000,
        },
    )?;
    serve(
        alloc,
        image,
        &Request::Discard {
            offset: 140000,
            length: 60000,
        },
    )?;
    serve(
        alloc,
        image,
        &Request::Read {
            offset: 0,
            length: image.size(),
        },
    )
}

#[test]
fn a_block_server_zeroes_and_discards(rt: HostRuntime) -> Result<(), Fail> {
    let alloc = rt.alloc();
    let mut image = empty(alloc, 1)?;
    let bytes = cleared(alloc, &mut image)?;
    assert_eq!(rt; bytes.len(), 200000);
    assert_eq!(rt; (bytes[59999], bytes[60000]), (0x33, 0));
    assert_eq!(rt; (bytes[139999], bytes[140000]), (0, 0x33));
    assert_eq!(rt; bytes[65536..131072].iter().all(|byte| *byte == 0), true);
    // the last cluster ends with the disk
    assert_eq!(rt; (bytes[196607], bytes[196608]), (0x33, 0));
    Ok(())
}

#[test]
fn an_overlay_is_merged(rt: HostRuntime) -> Result<(), Fail> {
    let alloc = rt.alloc();
    let (mut overlay, mut below) = (empty(alloc, 1)?, empty(alloc, 2)?);
    served(alloc, &mut overlay)?;
    merge(alloc, &mut overlay, &mut below)?;
    assert_eq!(rt;
        read(alloc, &mut below, 99998, 5)?.as_slice(),
        [0, 0x22, 0x22, 0x22, 0].as_slice()
    );
    Ok(())
}

// The bytes of the image below are read until they are overwritten.
fn read_over(alloc: Global) -> Result<Vec<u8>, ImageError> {
    let storage = empty(alloc, 1)?.into_storage();
    let below = MemBacking::new(vec![in alloc; 0x55; 700]?);
    let mut image = open_over(alloc, storage, 1, below)?;
    let mut bytes = read(alloc, &mut image, 0, 2)?;
    if let Err((refusal, _written)) = write(&mut image, 512, &[0x66]) {
        return Err(refusal);
    }
    for part in [
        read(alloc, &mut image, 511, 3)?,
        read(alloc, &mut image, 698, 4)?,
    ] {
        bytes.extend_from_slice(&part)?;
    }
    Ok(bytes)
}

#[test]
fn an_overlay_shows_what_stands_below(rt: HostRuntime) -> Result<(), Fail> {
    assert_eq!(rt;
        read_over(rt.alloc())?.as_slice(),
        [0x55, 0x55, 0x55, 0x66, 0x55, 0x55, 0x55, 0, 0].as_slice()
    );
    Ok(())
}

// A raw disk goes into an image and back, and the image is checked.
fn there_and_back(alloc: Global) -> Result<(Vec<u8>, Option<usize>), ImageError> {
    let mut bytes = vec![in alloc; 0; 70000]?;
    bytes[69999] = 0x22;
    let mut raw = MemStorage::new(bytes);
    let mut image = import(alloc, &mut raw, MemStorage::new(Vec::new(alloc)), 1)?;
    let mut back = MemStorage::new(Vec::new(alloc));
    export(alloc, &mut image, &mut back)?;
    let mut end = vec![in alloc; 1; 3]?;
    back.read(69998, &mut end)?;
    Ok((end, leaked(alloc, &mut image.into_storage())?))
}

#[test]
fn a_raw_disk_goes_into_an_image_and_back(rt: HostRuntime) -> Result<(), Fail> {
    let (end, leaks) = there_and_back(rt.alloc())?;
    assert_eq!(rt; end.as_slice(), [0, 0x22, 0].as_slice());
    assert_eq!(rt; leaks, Some(0));
    Ok(())
}
