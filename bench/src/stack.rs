//! How much stack a call takes. It is made in a thread whose stack is filled with a pattern before; what is another byte afterwards was used.

use crate::answer::Answer;
use crate::inputs::{self, Alike, Ordinary, Own, HOST};
use crate::library::{paused, paused_records, search, search_records};
use reference::card::{MOST_CERTIFICATES, MOST_ROOTS};
use reference::room::ENOUGH;
use std::ffi::c_void;
use std::hint::black_box;
use std::ptr::null_mut;

/// The bytes of the stack that a call is given, and what they are filled with.
const STACK: usize = 1 << 20;
const PATTERN: u8 = 0xC5;

/// The steps that a search may take: enough to go as deep as there are certificates.
const STEPS: u64 = 1000;

type Call = fn(&[u8], &mut [u8]) -> Answer;

/// Prints the most that each function takes on any of the files. What its caller here has on the stack at the call is counted too, which is
/// an answer and some words.
pub fn tell() {
    let calls: [(&str, Call); 4] = [
        ("savuneco_search", search),
        ("savuneco_paused", |file, room| paused(file, STEPS, room)),
        ("savuneco_search_records", search_records),
        ("savuneco_paused_records", |file, room| {
            paused_records(file, STEPS, room)
        }),
    ];
    let files = files();
    for (name, call) in calls {
        let most = files.iter().map(|file| taken(call, file)).max();
        println!("{name}: {} bytes of stack", most.unwrap_or(0));
    }
}

/// The largest file of each kind: names compared in every way, paths as deep as can be, a host, and as many bytes as there can be.
fn files() -> Vec<Vec<u8>> {
    let largest = |own| {
        inputs::alike(Alike {
            certificates: MOST_CERTIFICATES,
            roots: MOST_ROOTS,
            signed: true,
            own,
            budget: STEPS,
        })
    };
    let hosted = Ordinary {
        certificates: 6,
        roots: MOST_ROOTS,
        host: HOST,
    };
    vec![
        largest(Own::Alike),
        largest(Own::Respelt),
        largest(Own::Turned),
        inputs::complete(MOST_CERTIFICATES, STEPS),
        inputs::barred(16, STEPS),
        inputs::ordinary(hosted).file(),
        inputs::long(65_000),
        vec![],
    ]
}

/// A call, and the address down from which the stack is free before it.
struct Job<'a> {
    call: Call,
    file: &'a [u8],
    from: usize,
}

/// What is left of the pattern below the job's own variable was not used.
fn taken(call: Call, file: &[u8]) -> usize {
    let mut stack = vec![PATTERN; STACK];
    let mut job = Job {
        call,
        file,
        from: 0,
    };
    run_on(&mut stack, &mut job);
    let unused = stack.iter().take_while(|byte| **byte == PATTERN).count();
    job.from - (stack.as_ptr() as usize + unused)
}

extern "C" fn run(job: *mut c_void) -> *mut c_void {
    // SAFETY: `run_on` hands a job over that nobody else uses until the thread has ended.
    let job = unsafe { &mut *job.cast::<Job>() };
    let mut room = Box::new(ENOUGH);
    let here = 0;
    job.from = black_box(&here) as *const i32 as usize;
    black_box((job.call)(job.file, &mut room[..]));
    null_mut()
}

/// As large as `pthread_attr_t` is anywhere, or larger.
#[repr(C, align(16))]
struct Attributes([u8; 256]);

extern "C" {
    fn pthread_attr_init(attributes: *mut Attributes) -> i32;
    fn pthread_attr_setstack(attributes: *mut Attributes, stack: *mut u8, size: usize) -> i32;
    fn pthread_create(
        thread: *mut usize,
        attributes: *const Attributes,
        run: extern "C" fn(*mut c_void) -> *mut c_void,
        job: *mut c_void,
    ) -> i32;
    fn pthread_join(thread: usize, answer: *mut *mut c_void) -> i32;
}

/// Runs a job to its end in a thread that has these bytes as its stack.
fn run_on(stack: &mut [u8], job: &mut Job) {
    let mut attributes = Attributes([0; 256]);
    let mut thread = 0;
    let job: *mut Job = job;
    // SAFETY: stack and job are lent to the thread alone, which has ended when this returns.
    let failed = unsafe {
        [
            pthread_attr_init(&mut attributes),
            pthread_attr_setstack(&mut attributes, stack.as_mut_ptr(), stack.len()),
            pthread_create(&mut thread, &attributes, run, job.cast()),
            pthread_join(thread, null_mut()),
        ]
    };
    assert_eq!(failed, [0; 4], "no thread could be run on this stack");
}
