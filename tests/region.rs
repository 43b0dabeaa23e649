//! Pages between two that can't be touched, for files and work areas that a call of the library must not leave.

extern "C" {
    fn mmap(at: *mut u8, length: usize, protection: i32, flags: i32, file: i32, offset: i64) -> *mut u8;
    fn mprotect(at: *mut u8, length: usize, protection: i32) -> i32;
    fn munmap(at: *mut u8, length: usize) -> i32;
}

pub const PAGE: usize = 4_096;
pub const READ: i32 = 1;
pub const WRITE_TOO: i32 = 3;

pub struct Region {
    all: *mut u8,
    pub room: usize,
}

impl Region {
    pub fn new(bytes: usize) -> Region {
        const PRIVATE_ANONYMOUS: i32 = 0x22;
        let room = bytes.div_ceil(PAGE) * PAGE;
        let all = unsafe { mmap(std::ptr::null_mut(), room + 2 * PAGE, 0, PRIVATE_ANONYMOUS, -1, 0) };
        assert!(all as isize != -1, "mmap");
        let region = Region { all, room };
        region.protect(room, WRITE_TOO);
        region
    }

    /// The last pages, which hold so many bytes.
    pub fn protect(&self, bytes: usize, how: i32) {
        let touched = bytes.div_ceil(PAGE) * PAGE;
        assert!(unsafe { mprotect(self.all.add(PAGE + self.room - touched), touched, how) } == 0, "mprotect");
    }

    pub fn bytes(&self, at: usize, length: usize) -> *mut u8 {
        assert!(at + length <= self.room);
        unsafe { self.all.add(PAGE + at) }
    }

    /// The last bytes, up against the page that can't be touched.
    pub fn last(&mut self, length: usize) -> &mut [u8] {
        assert!(length <= self.room);
        unsafe { std::slice::from_raw_parts_mut(self.bytes(self.room - length, length), length) }
    }
}

impl Drop for Region {
    fn drop(&mut self) {
        assert!(unsafe { munmap(self.all, self.room + 2 * PAGE) } == 0, "munmap");
    }
}
