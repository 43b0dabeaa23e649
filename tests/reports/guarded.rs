//! Calls of the library's judge of reports. Each file and the work area end at a page that can't be touched, behind another such page; a file can only be
//! read during the call, and the area is filled with a pattern of no 0.

use crate::region::{Region, PAGE, READ, WRITE_TOO};
use crate::reports::{judge, Judged};
use crate::small::AREA;

#[repr(C)]
#[derive(Clone, Copy, PartialEq, Debug)]
struct Verdict {
    kind: u64,
    first: u64,
    second: u64,
    step: [u64; 3],
    record_file: u64,
    record_at: u64,
    record_length: u64,
}

extern "C" {
    fn hrafnolt_report(file: *const u8, file_len: usize, work: *mut u8, work_len: usize) -> Verdict;
}

pub struct Caller {
    file: Region,
    work: Region,
    pub calls: usize,
}

impl Caller {
    pub fn new() -> Caller {
        Caller { file: Region::new(PAGE), work: Region::new(AREA + PAGE), calls: 0 }
    }

    fn call(&mut self, file: &[u8], area: usize) -> Result<Verdict, String> {
        if file.len() > self.file.room {
            self.file = Region::new(file.len());
        }
        if area + PAGE > self.work.room {
            self.work = Region::new(area + PAGE);
        }
        self.calls += 1;
        let filling = (self.calls % 251 + 1) as u8;
        self.file.last(file.len()).copy_from_slice(file);
        self.work.last(area + PAGE).fill(filling);
        self.file.protect(file.len(), READ);
        let (bytes, work) = (self.file.last(file.len()).as_ptr(), self.work.last(area).as_mut_ptr());
        let v = unsafe { hrafnolt_report(bytes, file.len(), work, area) };
        self.file.protect(file.len(), WRITE_TOO);
        let zeroed = if v.kind == 2 && v.first == 8 { 0 } else { 16_384 + 12 * reference::entries_allowed(area) };
        let (before, work) = self.work.last(area + PAGE).split_at(PAGE);
        let untouched = |part: &[u8]| part.iter().all(|byte| *byte == filling);
        if !untouched(before) || zeroed > area || work[..zeroed].iter().any(|byte| *byte != 0) || !untouched(&work[zeroed..]) {
            return Err(format!("the area of {} bytes is not as it must be, after {:?}", area, v));
        }
        Ok(v)
    }

    /// The library's answer is this one, with this record.
    pub fn expect(&mut self, file: &[u8], area: usize, (wanted, at, length): (Judged, usize, usize)) -> Result<(), String> {
        let v = self.call(file, area)?;
        let (kind, first, second) = match wanted {
            Judged::Needed(marks, entries) => (4, marks, entries),
            Judged::Refused(number, place) => (2, number, place),
        };
        let own = Verdict { kind, first, second, step: [0; 3], record_file: 0, record_at: at as u64, record_length: length as u64 };
        if v == own { Ok(()) } else { Err(format!("{:?} and not {}, record {} {}", v, wanted, at, length)) }
    }

    pub fn same(&mut self, file: &[u8], area: usize) -> Result<(), String> {
        let (judged, record) = judge(file, area);
        let said = self.expect(file, area, (judged, record.at, record.length));
        said.map_err(|what| format!("{}: {:02x?}", what, &file[..file.len().min(300)]))
    }
}
