//! How deep a call goes into the stack: it runs on a thread whose stack was painted, and the lowest changed byte is looked for.
use std::ffi::c_void;

const SIZE: usize = 1 << 20;
const PAINT: u8 = 0xA5;

extern "C" {
    fn pthread_attr_init(attr: *mut [u64; 16]) -> i32;
    fn pthread_attr_setstack(attr: *mut [u64; 16], stack: *mut c_void, size: usize) -> i32;
    fn pthread_create(
        thread: *mut u64,
        attr: *const [u64; 16],
        start: extern "C" fn(*mut c_void) -> *mut c_void,
        arg: *mut c_void,
    ) -> i32;
    fn pthread_join(thread: u64, value: *mut *mut c_void) -> i32;
}

struct Job<'a> {
    call: &'a mut dyn FnMut(),
    from: usize,
}

extern "C" fn start(job: *mut c_void) -> *mut c_void {
    let job = unsafe { &mut *(job as *mut Job) };
    let here = 0u8;
    job.from = std::hint::black_box(&here) as *const u8 as usize;
    (job.call)();
    std::ptr::null_mut()
}

/// Bytes of stack that the call touched, the caller's frame aside.
pub fn depth(call: &mut dyn FnMut()) -> usize {
    let mut stack: Vec<u8> = vec![PAINT; SIZE + 4096];
    let low = (stack.as_mut_ptr() as usize + 4095) & !4095;
    let mut job = Job { call, from: 0 };
    unsafe {
        let mut attr = [0u64; 16];
        let mut thread = 0;
        assert_eq!(pthread_attr_init(&mut attr), 0);
        assert_eq!(pthread_attr_setstack(&mut attr, low as *mut c_void, SIZE), 0);
        assert_eq!(pthread_create(&mut thread, &attr, start, &mut job as *mut Job as *mut c_void), 0);
        assert_eq!(pthread_join(thread, std::ptr::null_mut()), 0);
    }
    let skip = low - stack.as_ptr() as usize;
    let lowest = stack[skip..].iter().position(|&byte| byte != PAINT).expect("the thread ran");
    job.from - (low + lowest)
}
