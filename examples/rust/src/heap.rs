//! What the library asks of an allocator, over Rust's. It frees without a size, so a block has its own in front.
use std::alloc::{alloc, dealloc, realloc, Layout};

#[repr(C)]
struct Tried {
    ok: u64,
    block: *mut u8,
}

const FRONT: usize = 16;

/// The layout of a block of `size` bytes and its front; none where that is larger than memory.
fn layout_of(size: usize) -> Option<Layout> {
    Layout::from_size_align(size.checked_add(FRONT)?, FRONT).ok()
}

/// A block by its front, which takes the size.
unsafe fn block_of(front: *mut u8, size: usize) -> Tried {
    if front.is_null() {
        return refused();
    }
    front.cast::<usize>().write(size);
    Tried { ok: 1, block: front.add(FRONT) }
}

/// A refusal's block is never null.
fn refused() -> Tried {
    Tried { ok: 0, block: FRONT as *mut u8 }
}

#[no_mangle]
unsafe extern "C" fn rattle_alloc(size: usize, _align: usize) -> Tried {
    match layout_of(size) {
        Some(layout) => block_of(alloc(layout), size),
        None => refused(),
    }
}

#[no_mangle]
unsafe extern "C" fn rattle_realloc(block: *mut u8, _kept: usize, size: usize, _align: usize) -> Tried {
    let front = block.sub(FRONT);
    match (layout_of(front.cast::<usize>().read()), layout_of(size)) {
        (Some(was), Some(wanted)) => block_of(realloc(front, was, wanted.size()), size),
        _ => refused(),
    }
}

#[no_mangle]
unsafe extern "C" fn rattle_dealloc(block: *mut u8) {
    let front = block.sub(FRONT);
    if let Some(layout) = layout_of(front.cast::<usize>().read()) {
        dealloc(front, layout);
    }
}
