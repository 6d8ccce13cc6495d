// The yardstick of kernels: an interpreter by hand in safe Rust, under the loops of `bench kernels`. Nothing here is proved.
//
//   rustc --edition 2021 -C opt-level=3 examples/bench/interpreter.rs -o yardstick_interpreter
//   ./yardstick_interpreter 512 15        # items, and how often each kernel is run
//
// A kernel is flat steps of 16 bytes, whose operands are places of one file: registers, and constants after them. Each step
// is counted against the item's 65,536; each access finds its region by the address's upper half, and asks for its right
// and its end; what a group writes lies aside, with a bit for each byte, until the group has ended.
use std::time::Instant;

const PLACES: usize = 256;
const PAGE: usize = 4096;
const BUDGET: u32 = 65_536;
const READ: u8 = 2;
const WRITE: u8 = 4;

#[derive(Clone, Copy, PartialEq)]
#[repr(u16)]
#[allow(dead_code)]
enum Operation {
    Add64, Sub64, Mul64, And64, Or64, Xor64, Shl64, Shr64, Sar64, Min64, Max64, Div64, Rem64, Mad64, Not64,
    Add32, Sub32, Mul32, And32, Or32, Xor32, Shl32, Shr32, Sar32, Min32, Max32, Div32, Rem32, Mad32, Not32,
    Equal, Differ, Less, AtMost, LessSigned, AtMostSigned, Choose, Move, Extend8, Extend16, Extend32, SignExtend32,
    Load64, Load32, Load16, Load8, Store64, Store32, Store16, Store8, Branch, BranchIf, Return,
}

#[derive(Clone, Copy)]
struct Step {
    operation: Operation,
    target: u8,
    first: u8,
    second: u8,
    // the place of a branch, how far behind an address, or the third place
    further: u64,
}

#[derive(Clone, Copy, Debug, PartialEq)]
enum Rule {
    OutsideRegions,
    WithoutRight,
    PastEnd,
    PastBudget,
}

// A page of a region as a group sees it: what it wrote, and which bytes of it.
struct Page {
    bytes: [u8; PAGE],
    written: Option<Box<[u64; PAGE / 64]>>,
}

struct Region {
    length: u64,
    rights: u8,
    pages: Vec<Page>,
}

struct View {
    regions: Vec<Region>,
    place_of: [u8; 65],
}

impl View {
    #[inline(always)]
    fn find(&mut self, address: u64, count: u64, right: u8) -> Result<&mut Region, Rule> {
        let place = self.place_of.get((address >> 32) as usize).ok_or(Rule::OutsideRegions)?;
        let region = &mut self.regions[*place as usize];
        let offset = address & 0xffff_ffff;
        if offset >= region.length {
            return Err(Rule::OutsideRegions);
        }
        if region.rights & right == 0 {
            return Err(Rule::WithoutRight);
        }
        if offset + count > region.length {
            return Err(Rule::PastEnd);
        }
        Ok(region)
    }

    #[inline(always)]
    fn load<const COUNT: usize>(&mut self, address: u64) -> Result<u64, Rule> {
        let region = self.find(address, COUNT as u64, READ)?;
        let offset = address as u32 as usize;
        let mut number = [0; 8];
        if offset % PAGE + COUNT > PAGE {
            for place in 0..COUNT {
                number[place] = region.pages[(offset + place) / PAGE].bytes[(offset + place) % PAGE];
            }
        } else {
            let at = offset % PAGE;
            number[..COUNT].copy_from_slice(&region.pages[offset / PAGE].bytes[at..at + COUNT]);
        }
        Ok(u64::from_le_bytes(number))
    }

    #[inline(always)]
    fn store<const COUNT: usize>(&mut self, address: u64, number: u64) -> Result<(), Rule> {
        let region = self.find(address, COUNT as u64, WRITE)?;
        let offset = address as u32 as usize;
        let at = offset % PAGE;
        if at % 64 + COUNT > 64 {
            for (place, byte) in number.to_le_bytes()[..COUNT].iter().enumerate() {
                let page = &mut region.pages[(offset + place) / PAGE];
                let at = (offset + place) % PAGE;
                page.bytes[at] = *byte;
                page.written.get_or_insert_with(|| Box::new([0; PAGE / 64]))[at / 64] |= 1 << (at % 64);
            }
            return Ok(());
        }
        let page = &mut region.pages[offset / PAGE];
        page.bytes[at..at + COUNT].copy_from_slice(&number.to_le_bytes()[..COUNT]);
        page.written.get_or_insert_with(|| Box::new([0; PAGE / 64]))[at / 64] |= (u64::MAX >> (64 - COUNT)) << (at % 64);
        Ok(())
    }
}

#[inline(never)]
fn run_item(steps: &[Step], file: &mut [u64; PLACES], view: &mut View) -> Result<(), Rule> {
    use Operation::*;
    let mut next = 0usize;
    let mut left = BUDGET;
    loop {
        let Step { operation, target, first, second, further } = steps[next];
        if left == 0 {
            return Err(Rule::PastBudget);
        }
        left -= 1;
        next += 1;
        let a = file[first as usize];
        let b = file[second as usize];
        let (low_a, low_b) = (a as u32, b as u32);
        file[target as usize] = match operation {
            Add64 => a.wrapping_add(b),
            Sub64 => a.wrapping_sub(b),
            Mul64 => a.wrapping_mul(b),
            And64 => a & b,
            Or64 => a | b,
            Xor64 => a ^ b,
            Shl64 => a << (b & 63),
            Shr64 => a >> (b & 63),
            Sar64 => (a as i64 >> (b & 63)) as u64,
            Min64 => a.min(b),
            Max64 => a.max(b),
            Div64 => a.checked_div(b).unwrap_or(0),
            Rem64 => a.checked_rem(b).unwrap_or(0),
            Mad64 => a.wrapping_mul(b).wrapping_add(file[further as u8 as usize]),
            Not64 => !a,
            Add32 => low_a.wrapping_add(low_b) as u64,
            Sub32 => low_a.wrapping_sub(low_b) as u64,
            Mul32 => low_a.wrapping_mul(low_b) as u64,
            And32 => (low_a & low_b) as u64,
            Or32 => (low_a | low_b) as u64,
            Xor32 => (low_a ^ low_b) as u64,
            Shl32 => (low_a << (low_b & 31)) as u64,
            Shr32 => (low_a >> (low_b & 31)) as u64,
            Sar32 => (low_a as i32 >> (low_b & 31)) as u32 as u64,
            Min32 => low_a.min(low_b) as u64,
            Max32 => low_a.max(low_b) as u64,
            Div32 => low_a.checked_div(low_b).unwrap_or(0) as u64,
            Rem32 => low_a.checked_rem(low_b).unwrap_or(0) as u64,
            Mad32 => low_a.wrapping_mul(low_b).wrapping_add(file[further as u8 as usize] as u32) as u64,
            Not32 => !low_a as u64,
            Equal => (a == b) as u64,
            Differ => (a != b) as u64,
            Less => (a < b) as u64,
            AtMost => (a <= b) as u64,
            LessSigned => ((a as i64) < b as i64) as u64,
            AtMostSigned => (a as i64 <= b as i64) as u64,
            Choose => if file[further as u8 as usize] != 0 { a } else { b },
            Move => a,
            Extend8 => a as u8 as u64,
            Extend16 => a as u16 as u64,
            Extend32 => low_a as u64,
            SignExtend32 => low_a as i32 as u64,
            Load64 => view.load::<8>(a.wrapping_add(further))?,
            Load32 => view.load::<4>(a.wrapping_add(further))?,
            Load16 => view.load::<2>(a.wrapping_add(further))?,
            Load8 => view.load::<1>(a.wrapping_add(further))?,
            Store64 => { view.store::<8>(a.wrapping_add(further), b)?; continue }
            Store32 => { view.store::<4>(a.wrapping_add(further), b)?; continue }
            Store16 => { view.store::<2>(a.wrapping_add(further), b)?; continue }
            Store8 => { view.store::<1>(a.wrapping_add(further), b)?; continue }
            Branch => { next = further as usize; continue }
            BranchIf => { if a != 0 { next = further as usize } continue }
            Return => return Ok(()),
        };
    }
}

fn step(operation: Operation, target: u8, first: u8, second: u8, further: u64) -> Step {
    Step { operation, target, first, second, further }
}

// Constants begin behind the registers; the last place is the item's number.
const CONSTANTS: u8 = 192;
const ITEM: u8 = 255;

// The kernel that counts down in registers: 2 steps, 13,106 turns of 5 steps, and the end.
fn counting() -> (Vec<Step>, Vec<u64>, u64) {
    use Operation::*;
    let k = CONSTANTS;
    let steps = vec![
        step(Move, 0, k, 0, 0),
        step(Move, 1, k + 1, 0, 0),
        step(Add32, 0, 0, k + 2, 0),
        step(Xor32, 2, 0, 1, 0),
        step(Sub32, 1, 1, k + 3, 0),
        step(Differ, 3, 1, k, 0),
        step(BranchIf, 0, 3, 0, 2),
        step(Return, 0, 0, 0, 0),
    ];
    (steps, vec![0, 13_106, 3, 1], 65_533)
}

// The kernel that adds 1 to a word at a random place of 8,192 bytes: 3 steps, 6,553 turns of 10 steps, and the end.
fn storing() -> (Vec<Step>, Vec<u64>, u64) {
    use Operation::*;
    let k = CONSTANTS;
    let steps = vec![
        step(Move, 10, k, 0, 0),
        step(Move, 0, ITEM, 0, 0),
        step(Move, 1, k + 2, 0, 0),
        step(Mad32, 0, 0, k + 3, u64::from(k + 4)),
        step(Shr32, 2, 0, k + 5, 0),
        step(Extend32, 11, 2, 0, 0),
        step(Mad64, 11, 11, k + 6, 10),
        step(Load32, 3, 11, 0, 0),
        step(Add32, 3, 3, k + 7, 0),
        step(Store32, 0, 11, 3, 0),
        step(Sub32, 1, 1, k + 7, 0),
        step(Differ, 4, 1, k + 1, 0),
        step(BranchIf, 0, 4, 0, 3),
        step(Return, 0, 0, 0, 0),
    ];
    (steps, vec![64 << 32, 0, 6_553, 1_664_525, 1_013_904_223, 21, 4, 1], 65_534)
}

// Runs a work-group of so many items, and answers the nanoseconds of a step, and the sum of what was stored.
fn run(kernel: (Vec<Step>, Vec<u64>, u64), items: u64) -> (f64, u64) {
    let (steps, constants, count) = kernel;
    let pages = || (0..2).map(|_| Page { bytes: [0; PAGE], written: None }).collect();
    let mut place_of = [0; 65];
    let mut regions = vec![Region { length: 0, rights: 0, pages: Vec::new() }];
    for number in 1..=64 {
        regions.push(Region { length: 8192, rights: READ | WRITE, pages: pages() });
        place_of[number] = number as u8;
    }
    let mut view = View { regions, place_of };
    let mut first = [0; PLACES];
    first[CONSTANTS as usize..CONSTANTS as usize + constants.len()].copy_from_slice(&constants);
    let start = Instant::now();
    for item in 0..items {
        let mut file = first;
        file[ITEM as usize] = item;
        run_item(&steps, &mut file, &mut view).expect("no rule is broken");
    }
    let time = start.elapsed().as_nanos() as f64 / (items * count) as f64;
    let sum = view.regions[64].pages.iter().flat_map(|page| page.bytes.chunks(4)).map(|word| u64::from(u32::from_le_bytes(word.try_into().unwrap()))).sum();
    (time, sum)
}

fn main() {
    let words: Vec<u64> = std::env::args().skip(1).map(|word| word.parse().expect("a number")).collect();
    let (items, runs) = (words.first().copied().unwrap_or(512), words.get(1).copied().unwrap_or(7));
    for (name, kernel, stored) in [("counting", counting as fn() -> _, 0), ("storing", storing as fn() -> _, 6_553 * items)] {
        let mut least = f64::MAX;
        for _ in 0..runs {
            let (time, sum) = run(kernel(), items);
            assert_eq!(sum, stored, "what was stored adds up");
            least = least.min(time);
        }
        println!("{name}: {least:.3} nanoseconds a step, {:.0} million steps a second", 1e3 / least);
    }
}
