//! The calls from Rust: the archive linked statically, its buffers as slices.

extern "C" {
    fn drive_bounds(
        sheet: *const u8, sheet_length: usize, demand: u32, allowance: u32,
        list: *mut u8, list_length: usize, answer: *mut u8, answer_length: usize,
    ) -> u32;
    fn drive_set(
        sheet: *const u8, sheet_length: usize, demands: *const u8, demands_length: usize, allowance: u32,
        list: *mut u8, list_length: usize, shares: *mut u8, shares_length: usize, answer: *mut u8, answer_length: usize,
    ) -> u32;
    fn drive_speed(
        sheet: *const u8, sheet_length: usize, target: u32, allowance: u32,
        list: *mut u8, list_length: usize, answer: *mut u8, answer_length: usize,
    ) -> u32;
    fn drive_write_sheet(
        plan: *const u8, plan_length: usize, sheet: *mut u8, sheet_length: usize, answer: *mut u8, answer_length: usize,
    ) -> u32;
    fn drive_read_sheet(sheet: *const u8, sheet_length: usize, plan: *mut u8, plan_length: usize) -> u32;
}

const LIST_BYTES: usize = 9216;
/// What versions before 5.0.0 needed.
const OLD_LIST_BYTES: usize = 16384;
const ANSWER_BYTES: usize = 40;
const SET_ANSWER_BYTES: usize = 24;
const SPEED_ANSWER_BYTES: usize = 48;
const PLAN_BYTES: usize = 336;
const LENGTH_BYTES: usize = 8;

/// Two modules in series, T 100 each: [0,4] 20, [3,8] 67, [7,10] 13 and [0,6] 67, [8,10] 33.
const W: [u8; 30] = [
    0x12, 0x1E, //
    0x30, 0x64, 0x00, 0x00, 0x04, 0x05, 0x00, 0x0C, 0x02, 0x04, 0x30, 0x07, 0x00, 0xA0, 0x34, //
    0x20, 0x64, 0x00, 0x00, 0x06, 0x10, 0xC0, 0x20, 0x02, 0x82, 0x10, //
    0x01, 0x80,
];

/// Two modules that drive together, T 1 each: 4,095 and 1.
const SHARED: [u8; 18] = [
    0x12, 0x12, //
    0x10, 0x01, 0xFF, 0xFF, 0xFF, 0x00, 0x40, //
    0x10, 0x01, 0x00, 0x10, 0x01, 0x00, 0x40, //
    0x01, 0x90,
];

/// One module: T 2, from 5 to 8 and from 5 to 9, weight 1 each.
const ONE: [u8; 14] = [0x11, 0x0E, 0x20, 0x02, 0x00, 0x50, 0x08, 0x00, 0x40, 0x14, 0x02, 0x40, 0x10, 0x00];

fn call(sheet: &[u8], demand: u32, allowance: u32, list: &mut [u8], answer: &mut [u8]) -> u32 {
    // Safety: three slices that do not overlap, each with its own length.
    unsafe {
        drive_bounds(
            sheet.as_ptr(), sheet.len(), demand, allowance,
            list.as_mut_ptr(), list.len(), answer.as_mut_ptr(), answer.len(),
        )
    }
}

fn speed(sheet: &[u8], target: u32, allowance: u32, list: &mut [u8], answer: &mut [u8]) -> u32 {
    // Safety: as above.
    unsafe {
        drive_speed(
            sheet.as_ptr(), sheet.len(), target, allowance,
            list.as_mut_ptr(), list.len(), answer.as_mut_ptr(), answer.len(),
        )
    }
}

/// The demands as numbers; `cut` bytes are left out at their end.
fn set(sheet: &[u8], demands: &[u32], cut: usize, allowance: u32, list: &mut [u8], shares: &mut [u8], answer: &mut [u8]) -> u32 {
    let bytes: Vec<u8> = demands.iter().flat_map(|demand| demand.to_be_bytes()).collect();
    let demands = &bytes[..bytes.len() - cut];
    // Safety: as above, with five.
    unsafe {
        drive_set(
            sheet.as_ptr(), sheet.len(), demands.as_ptr(), demands.len(), allowance,
            list.as_mut_ptr(), list.len(), shares.as_mut_ptr(), shares.len(), answer.as_mut_ptr(), answer.len(),
        )
    }
}

fn write(plan: &[u8], sheet: &mut [u8], answer: &mut [u8]) -> u32 {
    // Safety: as above.
    unsafe {
        drive_write_sheet(plan.as_ptr(), plan.len(), sheet.as_mut_ptr(), sheet.len(), answer.as_mut_ptr(), answer.len())
    }
}

fn read(sheet: &[u8], plan: &mut [u8]) -> u32 {
    // Safety: as above.
    unsafe { drive_read_sheet(sheet.as_ptr(), sheet.len(), plan.as_mut_ptr(), plan.len()) }
}

/// The plan of W, each number in two bytes.
fn plan_of_w() -> Vec<u8> {
    let mut numbers = vec![0u16; PLAN_BYTES / 2];
    numbers[0] = 2;
    numbers[1..3].copy_from_slice(&[3, 100]);
    numbers[3..6].copy_from_slice(&[0, 3, 7]);
    numbers[11..14].copy_from_slice(&[4, 8, 10]);
    numbers[19..22].copy_from_slice(&[20, 67, 13]);
    numbers[27..29].copy_from_slice(&[2, 100]);
    numbers[29..31].copy_from_slice(&[0, 8]);
    numbers[37..39].copy_from_slice(&[6, 10]);
    numbers[45..47].copy_from_slice(&[67, 33]);
    numbers[157..160].copy_from_slice(&[0, 1, 8]);
    numbers.iter().flat_map(|n| n.to_be_bytes()).collect()
}

fn number(bytes: &[u8]) -> u64 {
    bytes.iter().fold(0, |value, byte| value << 8 | u64::from(*byte))
}

fn answers(answer: &[u8]) -> Vec<u64> {
    answer.chunks(8).map(number).collect()
}

fn records(list: &[u8]) -> Vec<(u64, u64, u64)> {
    list.chunks(12).map(|r| (number(&r[..2]), number(&r[2..4]), number(&r[4..]))).collect()
}

fn main() {
    let mut list = vec![0xEE; LIST_BYTES + 3];
    let mut answer = vec![0xEE; ANSWER_BYTES + 3];

    assert_eq!(call(&W, 7, 6, &mut list, &mut answer), 0);
    assert_eq!(answers(&answer[..ANSWER_BYTES]), [10000, 429, 2640, 6, 4]);
    assert_eq!(records(&list[..48]), [(7, 10, 429), (3, 8, 2211), (0, 6, 5360), (0, 4, 2000)]);
    assert!(list[48..LIST_BYTES].iter().all(|byte| *byte == 0));
    assert!(list[LIST_BYTES..].iter().chain(&answer[ANSWER_BYTES..]).all(|byte| *byte == 0xEE));
    assert_eq!(call(&ONE, 9, 0, &mut list, &mut answer), 0);
    assert_eq!(answers(&answer[..ANSWER_BYTES]), [2, 0, 1, 0, 2]);
    assert_eq!(records(&list[..24]), [(5, 9, 1), (5, 8, 1)]);
    println!("ok Rust: accepted calls");

    assert_eq!(call(&W, 7, 5, &mut list, &mut answer), 13);
    assert!(list[..LIST_BYTES].iter().chain(&answer[..ANSWER_BYTES]).all(|byte| *byte == 0));
    assert_eq!(call(&[], 7, 6, &mut [], &mut []), 1);
    assert_eq!(call(&W, 7, 6, &mut [], &mut answer), 12);
    list.fill(0xEE);
    answer.fill(0xEE);
    assert_eq!(call(&W, 7, 6, &mut list, &mut answer[..ANSWER_BYTES - 1]), 12);
    assert!(list.iter().chain(&answer).all(|byte| *byte == 0xEE));
    assert_eq!(call(&W, 7, 6, &mut list[..LIST_BYTES - 1], &mut answer), 12);
    assert!(list.iter().all(|byte| *byte == 0xEE) && answers(&answer[..ANSWER_BYTES]) == [0; 5]);
    println!("ok Rust: refusals and short slices");

    // A longer list buffer: the same front, and bytes behind it stay.
    for (allowance, number) in [(6, 0), (5, 13)] {
        let mut exact = vec![0xEE; LIST_BYTES];
        assert_eq!(call(&W, 7, allowance, &mut exact, &mut answer), number);
        for length in [LIST_BYTES + 1, OLD_LIST_BYTES] {
            let mut longer = vec![0xEE; length];
            assert_eq!(call(&W, 7, allowance, &mut longer, &mut answer), number);
            assert!(longer[..LIST_BYTES] == exact && longer[LIST_BYTES..].iter().all(|byte| *byte == 0xEE));
        }
    }
    println!("ok Rust: longer list buffers");

    let mut bounds_list = vec![0xEE; LIST_BYTES + 3];
    let mut answer = vec![0xEE; SPEED_ANSWER_BYTES + 3];
    assert_eq!(call(&W, 3, 6, &mut bounds_list, &mut answer), 0);
    assert_eq!(speed(&W, 264, 6, &mut list, &mut answer), 0);
    assert_eq!(answers(&answer[..SPEED_ANSWER_BYTES]), [10000, 2640, 10000, 6, 4, 3]);
    assert!(list == bounds_list && answer[SPEED_ANSWER_BYTES..] == [0xEE; 3]);
    assert_eq!(speed(&W, 1000, 6, &mut list, &mut answer), 0);
    assert_eq!(answers(&answer[..SPEED_ANSWER_BYTES]), [10000, 10000, 10000, 6, 4, 0]);
    println!("ok Rust: the speed for a share of the time");

    for target in [0, 1001, u32::MAX] {
        answer.fill(0xEE);
        assert_eq!(speed(&W, target, 5, &mut list, &mut answer), 16);
        assert!(list == bounds_list && answers(&answer[..SPEED_ANSWER_BYTES]) == [0; 6]);
        answer.fill(0xEE);
        assert_eq!(speed(&W, target, 6, &mut list, &mut answer[..SPEED_ANSWER_BYTES - 1]), 12);
        assert!(list == bounds_list && answer.iter().all(|byte| *byte == 0xEE));
        assert_eq!(speed(&W[..29], target, 6, &mut [], &mut []), 1);
    }
    assert_eq!(speed(&W, 1, 5, &mut list, &mut answer), 13);
    assert!(list[..LIST_BYTES].iter().chain(&answer[..SPEED_ANSWER_BYTES]).all(|byte| *byte == 0));
    println!("ok Rust: refusals of drive_speed");

    let demands = [7, 0, 11, 3, 7, u32::MAX, 8, 4, 10, 1, 6, 65536 + 3, 5, 9, 2, 256 + 3];
    let mut answer = vec![0xEE; SET_ANSWER_BYTES + 3];
    for count in 1..=16 {
        let mut shares = vec![0xEE; 16 * count + 3];
        list.fill(0xEE);
        assert_eq!(set(&W, &demands[..count], 0, 6, &mut list, &mut shares, &mut answer), 0);
        assert_eq!(answers(&answer[..SET_ANSWER_BYTES]), [10000, 6, 4]);
        assert!(list == bounds_list && shares[16 * count..] == [0xEE; 3] && answer[SET_ANSWER_BYTES..] == [0xEE; 3]);
        for (pair, demand) in shares.chunks_exact(16).zip(demands) {
            let mut five = vec![0xEE; ANSWER_BYTES];
            assert_eq!(call(&W, demand, 6, &mut list, &mut five), 0);
            assert_eq!(pair, &five[8..24]);
        }
    }
    println!("ok Rust: sixteen demands in one call");

    let mut shares = vec![0xEE; 16 * 17];
    let refusals = [(&demands[..0], 0, 272, 17), (&demands[..1], 2, 272, 17), (&demands, 1, 0, 17), (&demands, 0, 255, 18)];
    for (demands, cut, room, number) in refusals {
        answer.fill(0xEE);
        assert_eq!(set(&W, demands, cut, 5, &mut list, &mut shares[..room], &mut answer), number);
        assert!(list == bounds_list && answers(&answer[..SET_ANSWER_BYTES]) == [0; 3]);
        answer.fill(0xEE);
        assert_eq!(set(&W, demands, cut, 6, &mut list, &mut shares[..room], &mut answer[..SET_ANSWER_BYTES - 1]), 12);
        assert!(list == bounds_list && answer.iter().all(|byte| *byte == 0xEE));
        assert_eq!(set(&W, demands, cut, 6, &mut list[..LIST_BYTES - 1], &mut shares[..room], &mut answer), 12);
        assert_eq!(set(&W[..29], demands, cut, 6, &mut [], &mut [], &mut []), 1);
    }
    assert_eq!(set(&W, &[1; 17], 0, 6, &mut list, &mut shares, &mut answer), 17);
    assert_eq!(set(&W, &demands, 0, 5, &mut list, &mut shares, &mut answer), 13);
    assert!(list[..LIST_BYTES].iter().chain(&answer[..SET_ANSWER_BYTES]).all(|byte| *byte == 0));
    assert!(shares.iter().all(|byte| *byte == 0xEE));
    println!("ok Rust: refusals of drive_set");

    let mut plan = plan_of_w();
    let mut sheet = vec![0xEE; W.len() + 3];
    let mut length = vec![0xEE; LENGTH_BYTES + 3];
    assert_eq!(write(&plan, &mut sheet, &mut length), 0);
    assert_eq!(sheet[..W.len()], W);
    assert_eq!(number(&length[..LENGTH_BYTES]), W.len() as u64);
    assert!(sheet[W.len()..].iter().chain(&length[LENGTH_BYTES..]).all(|byte| *byte == 0xEE));
    let mut read_back = vec![0xEE; PLAN_BYTES + 3];
    assert_eq!(read(&W, &mut read_back), 0);
    assert!(read_back[..PLAN_BYTES] == plan && read_back[PLAN_BYTES..].iter().all(|byte| *byte == 0xEE));
    println!("ok Rust: a plan written and read back");

    assert_eq!(read(&W[..29], &mut read_back), 1);
    assert!(read_back[..PLAN_BYTES].iter().all(|byte| *byte == 0));
    assert_eq!(read(&W, &mut read_back[..PLAN_BYTES - 1]), 12);
    sheet.fill(0xEE);
    assert_eq!(write(&plan[..PLAN_BYTES - 1], &mut sheet, &mut length), 12);
    assert_eq!(number(&length[..LENGTH_BYTES]), W.len() as u64);
    assert_eq!(write(&plan, &mut sheet[..W.len() - 1], &mut length), 15);
    assert_eq!(number(&length[..LENGTH_BYTES]), 0);
    plan[2 * 159] = 1; // the last entry is 256 + 8
    assert_eq!(write(&plan, &mut sheet, &mut []), 9);
    assert!(sheet.iter().all(|byte| *byte == 0xEE));
    println!("ok Rust: refusals of the writer and the reader");

    // The first module's T is byte 3 of the sheet and byte 5 of the plan: 110 leaves a rest of 10, 99 is less than the weights.
    let mut other = W;
    let mut plan = plan_of_w();
    let mut answer = vec![0xEE; SPEED_ANSWER_BYTES];
    (other[3], plan[5]) = (110, 110);
    assert_eq!(call(&other, 7, 8, &mut list, &mut answer), 0);
    assert_eq!(answers(&answer[..ANSWER_BYTES]), [11000, 429, 2970, 8, 5]);
    assert_eq!(records(&list[..60]), [(7, 10, 429), (3, 8, 2211), (0, 10, 330), (0, 6, 6030), (0, 4, 2000)]);
    assert!(list[60..LIST_BYTES].iter().all(|byte| *byte == 0));
    assert_eq!(set(&other, &[0, 3], 0, 8, &mut list, &mut shares, &mut answer), 0);
    assert_eq!(answers(&shares[..32]), [11000, 11000, 2640, 11000]);
    assert_eq!(speed(&other, 240, 8, &mut list, &mut answer), 0);
    assert_eq!(answers(&answer), [11000, 2640, 11000, 8, 5, 3]);
    assert_eq!(speed(&other, 241, 8, &mut list, &mut answer), 0);
    assert_eq!(answers(&answer), [11000, 11000, 11000, 8, 5, 0]);
    assert_eq!(read(&other, &mut read_back), 0);
    assert_eq!(read_back[..PLAN_BYTES], plan);
    assert_eq!(write(&plan, &mut sheet, &mut length), 0);
    assert_eq!(sheet[..W.len()], other);
    (other[3], plan[5]) = (99, 99);
    assert_eq!(call(&other, 7, 8, &mut list, &mut answer), 8);
    assert_eq!(set(&other, &[7], 0, 8, &mut list, &mut shares, &mut answer), 8);
    assert_eq!(speed(&other, 1, 8, &mut list, &mut answer), 8);
    assert_eq!(read(&other, &mut read_back), 8);
    assert_eq!(write(&plan, &mut sheet, &mut length), 8);
    println!("ok Rust: a rest, and weights above the total");

    for (demand, share) in [(4095, 1), (4096, 0)] {
        assert_eq!(call(&SHARED, demand, 1, &mut list, &mut answer), 0);
        assert_eq!(answers(&answer[..ANSWER_BYTES]), [1, share, share, 1, 1]);
        assert_eq!(records(&list[..24]), [(4095, 4095, 1), (0, 0, 0)]);
    }
    assert_eq!(set(&SHARED, &[4096, 4095], 0, 1, &mut list, &mut shares, &mut answer), 0);
    assert_eq!(answers(&shares[..32]), [0, 0, 1, 1]);
    assert_eq!(speed(&SHARED, 1000, 1, &mut list, &mut answer), 0);
    assert_eq!(answers(&answer), [1, 1, 1, 1, 1, 4095]);
    println!("ok Rust: 4,095 with 1 in a shared join gives 4,095");
}
