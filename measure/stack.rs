//! The stack that an operation needs: it runs on a thread whose stack is a piece of memory that was painted before, and what is no longer
//! painted afterwards was used. A second run, with no more memory than that, shows that it does; with a page less it ends by a signal.
use crate::cases::{answer_buffer, Case};
use crate::ours;
use crate::table::{cases, deep_cases};
use std::ptr::null_mut;

/// More than any operation needs.
const REGION: usize = 1 << 24;
const PAGE: usize = 4096;
const PAINT: u8 = 0xa5;

const NO_ACCESS: i32 = 0;
const READ_AND_WRITE: i32 = 3;
const PRIVATE_ANONYMOUS: i32 = 0x22;
/// The size of glibc's attributes of a thread on x86-64, in words.
const ATTRIBUTE_WORDS: usize = 7;

type Start = extern "C" fn(*mut u8) -> *mut u8;

extern "C" {
    fn mmap(at: *mut u8, bytes: usize, protection: i32, flags: i32, file: i32, offset: i64) -> *mut u8;
    fn mprotect(at: *mut u8, bytes: usize, protection: i32) -> i32;
    fn pthread_attr_init(attributes: *mut usize) -> i32;
    fn pthread_attr_setstack(attributes: *mut usize, stack: *mut u8, bytes: usize) -> i32;
    fn pthread_create(thread: *mut usize, attributes: *const usize, start: Start, job: *mut u8) -> i32;
    fn pthread_join(thread: usize, result: *mut *mut u8) -> i32;
}

/// What the thread is to run: nothing, to see what a thread itself takes, or a case.
struct Job<'a> {
    case: Option<&'a Case>,
    answer: Vec<u8>,
    right: bool,
}

extern "C" fn start(job: *mut u8) -> *mut u8 {
    // It is the job of `used`, which waits for the thread before it looks at it again.
    let job = unsafe { &mut *(job as *mut Job) };
    if let Some(case) = job.case {
        let words = ours::run(case, &mut job.answer);
        job.right = case.answer_of(&words) == case.wanted;
    }
    null_mut()
}

/// Runs the case with so many bytes of stack at the top of the region, and gives how many of them were used.
fn used(case: Option<&Case>, bytes: usize) -> usize {
    let mut job = Job { case, answer: answer_buffer(), right: true };
    let mut attributes = [0; ATTRIBUTE_WORDS];
    let mut thread = 0;
    // The region is mapped here and stays mapped; the thread alone uses it until it is joined.
    let painted: &[u8] = unsafe {
        let region = mmap(null_mut(), REGION, READ_AND_WRITE, PRIVATE_ANONYMOUS, -1, 0);
        assert!(region as isize != -1, "no memory for a stack");
        let low = region.add(REGION - bytes);
        std::ptr::write_bytes(low, PAINT, bytes);
        assert_eq!(mprotect(region, REGION - bytes, NO_ACCESS), 0);
        assert_eq!(pthread_attr_init(attributes.as_mut_ptr()), 0);
        assert_eq!(pthread_attr_setstack(attributes.as_mut_ptr(), region, REGION), 0);
        assert_eq!(pthread_create(&mut thread, attributes.as_ptr(), start, &mut job as *mut Job as *mut u8), 0);
        assert_eq!(pthread_join(thread, null_mut()), 0);
        std::slice::from_raw_parts(low, bytes)
    };
    assert!(job.right, "another answer on a small stack");
    bytes - painted.iter().position(|&byte| byte != PAINT).unwrap_or(bytes)
}

fn pages(bytes: usize) -> usize {
    (bytes + PAGE - 1) / PAGE * PAGE
}

fn cases_of(name: &str) -> Vec<Case> {
    // Broken off early, the deepest come first.
    deep_cases().into_iter().chain(cases()).filter(|case| case.operation.name() == name).collect()
}

/// The case of the operation that uses most, and how much.
fn worst(name: &str) -> (usize, String) {
    cases_of(name).into_iter().map(|case| (used(Some(&case), REGION / 2), case.input)).max().expect("NAME is an operation")
}

/// For each operation: bytes below its caller, the pages that a thread needs for them, and the input.
pub fn print_needs() {
    let thread = used(None, REGION / 2);
    let mut names: Vec<&str> = cases().iter().map(|case| case.operation.name()).collect();
    names.dedup();
    println!("| operation | bytes of stack | with the thread's own, in pages | the input that took most |");
    println!("|---|--:|--:|---|");
    for name in names {
        let (most, input) = worst(name);
        println!("| {} | {} | {} | {} |", name, most - thread, pages(most), input);
    }
}

/// All cases of the operation with no more than so many bytes, a thread's own among them.
pub fn run_within(name: &str, bytes: usize) {
    assert_eq!(bytes % PAGE, 0, "BYTES is a number of whole pages");
    for case in cases_of(name) {
        used(Some(&case), bytes);
    }
}
