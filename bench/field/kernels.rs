// The functions of libkernels.a. A slice is passed as a pointer and a length. Each answers 0, or 1 where its arguments
// do not fit.
mod c {
    #[link(name = "kernels", kind = "static")]
    extern "C" {
        pub fn kernel_inner(a: *const u32, a_len: usize, b: *const u32, b_len: usize, out: *mut u32) -> u32;
        pub fn kernel_ascending(x: u32, out: *mut u32, len: usize) -> u32;
        pub fn kernel_powers(s: u32, out: *mut u32, len: usize) -> u32;
    }
}

pub fn inner(a: &[u32], b: &[u32], out: &mut u32) -> u32 {
    unsafe { c::kernel_inner(a.as_ptr(), a.len(), b.as_ptr(), b.len(), out) }
}

pub fn ascending(x: u32, out: &mut [u32]) -> u32 {
    unsafe { c::kernel_ascending(x, out.as_mut_ptr(), out.len()) }
}

pub fn powers(s: u32, out: &mut [u32]) -> u32 {
    unsafe { c::kernel_powers(s, out.as_mut_ptr(), out.len()) }
}
