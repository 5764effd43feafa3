//! Files of images, for tests.
use crate::{ClustersToFreeList, ImageFile, ImageStorage, MetadataCaches};
use image_access::Storage;
use qcow2_metadata::Header;
use std::alloc::{AllocError, Global};

// A file over a storage, with two cached tables of each kind at most.
pub(crate) fn file_of<S: Storage>(
    alloc: Global,
    storage: S,
    header: Header,
) -> Result<ImageFile<S>, AllocError> {
    file_with(alloc, storage, header, 2)
}

// A file over a storage, with two cached L2 tables at most, and so many refblocks.
pub(crate) fn file_with<S: Storage>(
    alloc: Global,
    storage: S,
    header: Header,
    refblocks: usize,
) -> Result<ImageFile<S>, AllocError> {
    let caches = MetadataCaches::new(alloc, &header, 2, refblocks)?;
    Ok(ImageFile {
        alloc,
        storage: ImageStorage::new(storage),
        header,
        caches,
        free_list: ClustersToFreeList::new(),
    })
}
