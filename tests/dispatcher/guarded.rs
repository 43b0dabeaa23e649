//! Files and work areas between pages that can't be touched. A file can only be read; before an area there is room that nobody may write.

use crate::region::{Region, PAGE, READ};

/// The bytes of a file, once up against the page behind them and once against the page before them.
pub struct File {
    copies: [Region; 2],
    pub length: usize,
}

impl File {
    pub fn new(bytes: &[u8]) -> File {
        let file = File { copies: [Region::new(bytes.len()), Region::new(bytes.len())], length: bytes.len() };
        for copy in 0..2 {
            unsafe { std::ptr::copy_nonoverlapping(bytes.as_ptr(), file.at(copy) as *mut u8, bytes.len()) };
            file.copies[copy].protect(bytes.len(), READ);
        }
        file
    }

    pub fn at(&self, copy: usize) -> *const u8 {
        let region = &self.copies[copy];
        region.bytes(if copy == 0 { region.room - self.length } else { 0 }, self.length)
    }

    pub fn bytes(&self) -> &[u8] {
        unsafe { std::slice::from_raw_parts(self.at(0), self.length) }
    }
}

/// A work area, up against the page behind it.
pub struct Area {
    region: Region,
    pub length: usize,
}

impl Area {
    pub fn new(bytes: &[u8]) -> Area {
        let mut area = Area { region: Region::new(PAGE + bytes.len()), length: bytes.len() };
        area.bytes().copy_from_slice(bytes);
        area
    }

    pub fn start(&self) -> *mut u8 {
        self.region.bytes(self.region.room - self.length, self.length)
    }

    pub fn bytes(&mut self) -> &mut [u8] {
        self.region.last(self.length)
    }

    pub fn seen(&self) -> &[u8] {
        unsafe { std::slice::from_raw_parts(self.start(), self.length) }
    }

    /// Nothing before the area was written: its region was all 0.
    pub fn is_alone(&self) -> bool {
        let before = self.region.room - self.length;
        unsafe { std::slice::from_raw_parts(self.region.bytes(0, before), before) }.iter().all(|byte| *byte == 0)
    }
}

/// At another address.
impl Clone for Area {
    fn clone(&self) -> Area {
        Area::new(self.seen())
    }
}
