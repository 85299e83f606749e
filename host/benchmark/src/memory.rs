//! Memory: the stack that a call touched, the heap that it took, and the process's peak.

use std::alloc::{GlobalAlloc, Layout, System};
use std::fs;
use std::sync::atomic::{AtomicUsize, Ordering::Relaxed};
use std::thread;

/// The system's allocator, with the bytes now in use and the most since the last `reset`.
pub struct Counting;

static IN_USE: AtomicUsize = AtomicUsize::new(0);
static MOST: AtomicUsize = AtomicUsize::new(0);

unsafe impl GlobalAlloc for Counting {
    unsafe fn alloc(&self, layout: Layout) -> *mut u8 {
        let in_use = IN_USE.fetch_add(layout.size(), Relaxed) + layout.size();
        MOST.fetch_max(in_use, Relaxed);
        System.alloc(layout)
    }

    unsafe fn dealloc(&self, pointer: *mut u8, layout: Layout) {
        IN_USE.fetch_sub(layout.size(), Relaxed);
        System.dealloc(pointer, layout)
    }
}

/// The most heap that the call had in use beyond what was in use before, and the stack that it touched, in bytes.
pub fn heap_and_stack(call: impl FnOnce() + Send) -> (usize, usize) {
    on_large_stack(|| {
        let before = IN_USE.load(Relaxed);
        let untouched = touched_stack();
        MOST.store(before, Relaxed);
        call();
        let heap = MOST.load(Relaxed) - before;
        (heap, touched_stack() - untouched)
    })
}

/// Runs the call on a new thread: the library keeps some megabytes on the stack of its caller.
pub fn on_large_stack<T: Send>(call: impl FnOnce() -> T + Send) -> T {
    thread::scope(|scope| {
        let thread = thread::Builder::new().stack_size(64 << 20).spawn_scoped(scope, call);
        thread.expect("a thread with a stack of 64 MB").join().expect("the thread ends")
    })
}

/// The bytes of this thread's stack that were ever touched: what is resident of the mapping that holds a local.
fn touched_stack() -> usize {
    let local = 0u8;
    let address = &raw const local as usize;
    let maps = fs::read_to_string("/proc/self/smaps").unwrap_or_default();
    let mut inside = false;
    for line in maps.lines() {
        if let Some((low, high)) = line.split_once(' ').and_then(|(range, _)| range.split_once('-')) {
            let bound = |text| usize::from_str_radix(text, 16).unwrap_or(0);
            inside = bound(low) <= address && address < bound(high);
        } else if inside && line.starts_with("Rss:") {
            return kilobytes(line) << 10;
        }
    }
    0
}

/// The most memory that this process ever had resident, in bytes.
pub fn peak() -> usize {
    let status = fs::read_to_string("/proc/self/status").unwrap_or_default();
    status.lines().find(|line| line.starts_with("VmHWM:")).map_or(0, kilobytes) << 10
}

fn kilobytes(line: &str) -> usize {
    line.split_whitespace().nth(1).and_then(|number| number.parse().ok()).unwrap_or(0)
}
