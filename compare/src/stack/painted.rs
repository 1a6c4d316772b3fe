//! A thread whose stack is memory of ours, painted before: what is no longer paint was used.
use std::ffi::c_void;

/// Far more than any call takes, so that one that takes too much is told and does not end the run.
const STACK: usize = 8 << 20;
const PAINT: u128 = 0xa5a5_5a5a_c3c3_3c3c_9696_6969_f00f_0ff0_u128;

/// Larger than glibc's on any machine.
#[repr(C, align(16))]
struct Attributes([u8; 256]);

extern "C" {
    fn pthread_attr_init(attributes: *mut Attributes) -> i32;
    fn pthread_attr_setstack(attributes: *mut Attributes, stack: *mut c_void, size: usize) -> i32;
    fn pthread_create(
        thread: *mut usize,
        attributes: *const Attributes,
        start: extern "C" fn(*mut c_void) -> *mut c_void,
        argument: *mut c_void,
    ) -> i32;
    fn pthread_join(thread: usize, answer: *mut *mut c_void) -> i32;
}

extern "C" fn start(argument: *mut c_void) -> *mut c_void {
    let call = unsafe { &mut *argument.cast::<&mut dyn FnMut()>() };
    call();
    std::ptr::null_mut()
}

fn run_on(stack: &mut [u128], mut call: &mut dyn FnMut()) {
    let mut attributes = Attributes([0; 256]);
    let mut thread = 0;
    let argument: *mut &mut dyn FnMut() = &mut call;
    let failed = unsafe {
        pthread_attr_init(&mut attributes) != 0
            || pthread_attr_setstack(&mut attributes, stack.as_mut_ptr().cast(), size_of_val(stack)) != 0
            || pthread_create(&mut thread, &attributes, start, argument.cast()) != 0
            || pthread_join(thread, std::ptr::null_mut()) != 0
    };
    assert!(!failed, "no thread on a painted stack");
}

fn touched(call: &mut dyn FnMut()) -> usize {
    let mut stack = vec![PAINT; STACK / size_of::<u128>()];
    run_on(&mut stack, call);
    let left = stack.iter().take_while(|word| **word == PAINT).count();
    (stack.len() - left) * size_of::<u128>()
}

/// The bytes of stack that a call takes, but for what a thread takes anyway.
pub fn used(call: &mut dyn FnMut()) -> usize {
    touched(call).saturating_sub(touched(&mut || ()))
}
