//! The library's five calls. All that is unsafe stands here.

use std::ptr;

use crate::expect::Asked;

extern "C" {
    fn drive_bounds(
        sheet: *const u8,
        sheet_length: usize,
        demand: u32,
        allowance: u32,
        list: *mut u8,
        list_length: usize,
        answer: *mut u8,
        answer_length: usize,
    ) -> u32;
    fn drive_set(
        sheet: *const u8,
        sheet_length: usize,
        demands: *const u8,
        demands_length: usize,
        allowance: u32,
        list: *mut u8,
        list_length: usize,
        shares: *mut u8,
        shares_length: usize,
        answer: *mut u8,
        answer_length: usize,
    ) -> u32;
    fn drive_speed(
        sheet: *const u8,
        sheet_length: usize,
        target: u32,
        allowance: u32,
        list: *mut u8,
        list_length: usize,
        answer: *mut u8,
        answer_length: usize,
    ) -> u32;
    fn drive_write_sheet(
        plan: *const u8,
        plan_length: usize,
        sheet: *mut u8,
        sheet_length: usize,
        answer: *mut u8,
        answer_length: usize,
    ) -> u32;
    fn drive_read_sheet(sheet: *const u8, sheet_length: usize, plan: *mut u8, plan_length: usize) -> u32;
}

/// A slice that is lent to be read: NULL where it is empty and `null` says so.
fn read(bytes: &[u8], null: bool) -> *const u8 {
    if null && bytes.is_empty() {
        ptr::null()
    } else {
        bytes.as_ptr()
    }
}

/// A slice that is lent to be written.
fn written(bytes: &mut [u8], null: bool) -> *mut u8 {
    if null && bytes.is_empty() {
        ptr::null_mut()
    } else {
        bytes.as_mut_ptr()
    }
}

// Safety of the five: slices that do not overlap, each pointer with its own slice's length.

/// What is lent to drive_bounds, drive_set or drive_speed. Only drive_set gets the demands and the shares' buffer.
pub struct Lent<'a> {
    pub sheet: &'a [u8],
    pub demands: &'a [u8],
    pub list: &'a mut [u8],
    pub shares: &'a mut [u8],
    pub answer: &'a mut [u8],
}

/// drive_bounds, drive_set or drive_speed.
pub fn ask(asked: &Asked, allowance: u32, lent: Lent, null: bool) -> u32 {
    let (sheet, sheet_length) = (read(lent.sheet, null), lent.sheet.len());
    let (list, list_length) = (written(lent.list, null), lent.list.len());
    let (answer, answer_length) = (written(lent.answer, null), lent.answer.len());
    match asked {
        Asked::Demand(demand) => unsafe {
            drive_bounds(sheet, sheet_length, *demand, allowance, list, list_length, answer, answer_length)
        },
        Asked::Target(target) => unsafe {
            drive_speed(sheet, sheet_length, *target, allowance, list, list_length, answer, answer_length)
        },
        Asked::Set(_) => unsafe {
            drive_set(
                sheet,
                sheet_length,
                read(lent.demands, null),
                lent.demands.len(),
                allowance,
                list,
                list_length,
                written(lent.shares, null),
                lent.shares.len(),
                answer,
                answer_length,
            )
        },
    }
}

pub fn write_sheet(plan: &[u8], sheet: &mut [u8], answer: &mut [u8], null: bool) -> u32 {
    unsafe {
        drive_write_sheet(
            read(plan, null),
            plan.len(),
            written(sheet, null),
            sheet.len(),
            written(answer, null),
            answer.len(),
        )
    }
}

pub fn read_sheet(sheet: &[u8], plan: &mut [u8], null: bool) -> u32 {
    unsafe { drive_read_sheet(read(sheet, null), sheet.len(), written(plan, null), plan.len()) }
}
