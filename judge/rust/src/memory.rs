//! The memory of a run: numbers that the test and its child process can share.
use std::fs::File;
use std::io;
use std::ops::Deref;
use std::sync::atomic::AtomicU32;

/// Numbers in the memory of the current process, or in a file that processes share.
pub enum Memory {
    Own(Vec<AtomicU32>),
    #[cfg_attr(not(unix), allow(dead_code))]
    Shared(&'static [AtomicU32]),
}

impl Memory {
    pub fn own(size: usize) -> Memory {
        Memory::Own((0..size).map(|_| AtomicU32::new(0)).collect())
    }

    #[cfg(unix)]
    pub fn of(file: &File, size: usize) -> io::Result<Memory> {
        use std::os::unix::io::AsRawFd;
        const READ_AND_WRITE: i32 = 3;
        const SHARED: i32 = 1;
        // SAFETY: a new mapping does not overlap memory that is in use.
        let place = unsafe { system::mmap(std::ptr::null_mut(), 4 * size, READ_AND_WRITE, SHARED, file.as_raw_fd(), 0) };
        if place as isize == -1 {
            return Err(io::Error::last_os_error());
        }
        // SAFETY: the mapping exists until it is dropped, and every bit pattern is a valid number.
        Ok(Memory::Shared(unsafe { std::slice::from_raw_parts(place.cast(), size) }))
    }

    #[cfg(not(unix))]
    pub fn of(_: &File, _: usize) -> io::Result<Memory> {
        Err(io::ErrorKind::Unsupported.into())
    }
}

impl Memory {
    pub fn is_shared(&self) -> bool {
        matches!(self, Memory::Shared(_))
    }
}

impl Deref for Memory {
    type Target = [AtomicU32];

    fn deref(&self) -> &[AtomicU32] {
        match self {
            Memory::Own(numbers) => numbers,
            Memory::Shared(numbers) => numbers,
        }
    }
}

impl Drop for Memory {
    fn drop(&mut self) {
        #[cfg(unix)]
        if let Memory::Shared(numbers) = self {
            // SAFETY: nothing refers to the mapping any more.
            unsafe { system::munmap((numbers.as_ptr() as *mut std::sync::atomic::AtomicU32).cast(), 4 * numbers.len()) };
        }
    }
}

#[cfg(unix)]
mod system {
    use std::ffi::c_void;

    extern "C" {
        pub fn mmap(at: *mut c_void, size: usize, protection: i32, flags: i32, file: i32, offset: isize) -> *mut c_void;
        pub fn munmap(at: *mut c_void, size: usize) -> i32;
    }
}
