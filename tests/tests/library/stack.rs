//! The stack that a call uses: it runs in a thread whose stack was painted before, down to a guard page, and what of the
//! paint is gone is counted.

use std::ffi::c_void;

use crate::guarded::Guarded;

/// Bytes of the thread's stack.
const ROOM: usize = 1 << 20;
/// Two paints, for a call may write the one.
const PAINTS: [u8; 2] = [0xA5, 0x3C];

/// Longer than the C library's own.
type Attributes = [u64; 32];
type Body = extern "C" fn(*mut c_void) -> *mut c_void;

extern "C" {
    fn pthread_attr_init(attributes: *mut Attributes) -> i32;
    fn pthread_attr_setstack(attributes: *mut Attributes, lowest: *mut c_void, len: usize) -> i32;
    fn pthread_attr_destroy(attributes: *mut Attributes) -> i32;
    fn pthread_create(thread: *mut usize, attributes: *const Attributes, body: Body, given: *mut c_void) -> i32;
    fn pthread_join(thread: usize, result: *mut *mut c_void) -> i32;
}

type Call<'a> = &'a mut dyn FnMut();

extern "C" fn body(given: *mut c_void) -> *mut c_void {
    let call = unsafe { &mut *(given as *mut Call) };
    call();
    std::ptr::null_mut()
}

/// The bytes from the lowest one that lost its paint up to the stack's end.
fn unpainted(room: &mut Guarded, paint: u8, mut call: Call) -> usize {
    let stack = room.at_start(&vec![paint; ROOM]);
    unsafe {
        let mut attributes: Attributes = [0; 32];
        let mut thread = 0;
        assert_eq!(pthread_attr_init(&mut attributes), 0);
        assert_eq!(pthread_attr_setstack(&mut attributes, stack.as_mut_ptr().cast(), ROOM), 0);
        assert_eq!(pthread_create(&mut thread, &attributes, body, (&raw mut call).cast()), 0);
        assert_eq!(pthread_join(thread, std::ptr::null_mut()), 0);
        assert_eq!(pthread_attr_destroy(&mut attributes), 0);
    }
    let left = stack.iter().take_while(|&&byte| byte == paint).count();
    ROOM - left
}

/// The bytes of stack that the call uses, over those of a thread that does nothing.
pub fn used_by(call: Call) -> usize {
    let mut room = Guarded::new(ROOM);
    let mut most = |call: Call| PAINTS.map(|paint| unpainted(&mut room, paint, call)).into_iter().max().unwrap_or(0);
    let nothing = most(&mut || {});
    most(call) - nothing
}
