//! How deep a call runs on the stack: it is made on a thread whose stack was filled with a pattern,
//! and the pattern is gone as far down as something was written.

use std::ffi::c_void;
use std::hint::black_box;

const WORDS: usize = 1 << 17;
const PATTERN: u64 = 0x5bd1_e995_9e37_79b9;

mod c {
    use std::ffi::c_void;

    /// Opaque, and no larger than this in glibc or musl on x86-64.
    #[repr(C)]
    pub struct ThreadAttributes(pub [u64; 8]);

    pub type ThreadMain = extern "C" fn(*mut c_void) -> *mut c_void;

    extern "C" {
        pub fn pthread_attr_init(attributes: *mut ThreadAttributes) -> i32;
        pub fn pthread_attr_setstack(
            attributes: *mut ThreadAttributes,
            lowest: *mut c_void,
            size: usize,
        ) -> i32;
        pub fn pthread_attr_destroy(attributes: *mut ThreadAttributes) -> i32;
        pub fn pthread_create(
            thread: *mut u64,
            attributes: *const ThreadAttributes,
            main: ThreadMain,
            argument: *mut c_void,
        ) -> i32;
        pub fn pthread_join(thread: u64, result: *mut *mut c_void) -> i32;
    }
}

struct Dive<'a> {
    call: &'a mut dyn FnMut(),
    lowest: *const u64,
    depth: usize,
}

/// The bytes of stack that a call writes to, from its caller's frame down.
pub fn depth(call: &mut dyn FnMut()) -> usize {
    let mut stack = vec![PATTERN; WORDS];
    let lowest = stack.as_mut_ptr();
    let mut dive = Dive {
        call,
        lowest,
        depth: 0,
    };
    // SAFETY: the stack is ours alone, aligned and of the size that is told, and both it and the dive
    // outlive the thread, which is joined here.
    unsafe {
        let mut attributes = c::ThreadAttributes([0; 8]);
        let mut thread = 0;
        let argument = (&raw mut dive).cast();
        done(c::pthread_attr_init(&mut attributes));
        done(c::pthread_attr_setstack(
            &mut attributes,
            lowest.cast(),
            8 * WORDS,
        ));
        done(c::pthread_create(&mut thread, &attributes, go, argument));
        done(c::pthread_join(thread, std::ptr::null_mut()));
        done(c::pthread_attr_destroy(&mut attributes));
    }
    dive.depth
}

fn done(error: i32) {
    assert_eq!(error, 0, "a thread can be run on a stack of ours");
}

/// Makes the call and looks for the lowest word without the pattern before anything else runs.
extern "C" fn go(dive: *mut c_void) -> *mut c_void {
    // SAFETY: `depth` passes its dive and waits.
    let dive = unsafe { &mut *dive.cast::<Dive>() };
    let here = 0u64;
    let top = black_box(&raw const here);
    (dive.call)();
    let mut word = dive.lowest;
    // SAFETY: `word` stays in the stack: `here` has another value than the pattern.
    while unsafe { word.read_volatile() } == PATTERN {
        word = word.wrapping_add(1);
    }
    dive.depth = top as usize - word as usize;
    std::ptr::null_mut()
}
