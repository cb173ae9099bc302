//! Times versions of the search side by side: turn about in one process, over and over, by the time that the thread was given.

use crate::answer::Answer;
use crate::versions::Version;
use reference::card::MOST_CERTIFICATES;
use reference::room::{ENOUGH, MOST_SLOTS};
use std::hint::black_box;
use std::time::{Duration, Instant};

/// A turn calls a version so often that it takes about this long, in nanoseconds.
const TURN: u64 = 40_000;

/// The fastest turn in so many is discarded, since the clock slips at times; the fastest of the others is the time that is told.
const PASSED_OVER: usize = 100;

/// The fewest turns that are tried.
const LEAST_TURNS: usize = 20;

/// A file that a version is to answer.
#[derive(Clone, Copy)]
pub struct Job<'a> {
    pub file: &'a [u8],
    pub version: &'a Version,
}

/// The time of a call of each job, in nanoseconds. Each call is lent cleared room.
pub fn times(jobs: &[Job], lasting: Duration) -> Vec<f64> {
    let calls: Vec<u64> = jobs.iter().map(|job| calls(*job)).collect();
    let mut turns = vec![vec![]; jobs.len()];
    let start = Instant::now();
    while start.elapsed() < lasting || turns[0].len() < LEAST_TURNS {
        for at in 0..jobs.len() {
            turns[at].push(turn(jobs[at], calls[at]));
        }
    }
    let best = |(mut turns, calls): (Vec<u64>, u64)| {
        turns.sort();
        turns[turns.len() / PASSED_OVER] as f64 / calls as f64
    };
    turns.into_iter().zip(calls).map(best).collect()
}

/// How often a job is called in a turn: by the fastest of a few calls, since by one that was interrupted a turn would have so few that the
/// clock's own time shows.
fn calls(job: Job) -> u64 {
    let once = (0..5).map(|_| turn(job, 1)).min();
    (TURN / once.unwrap_or(TURN).max(1)).clamp(1, 1000)
}

fn turn(job: Job, calls: u64) -> u64 {
    let mut room = ENOUGH;
    let start = now();
    for _ in 0..calls {
        black_box((job.version.search)(
            black_box(job.file),
            black_box(&mut room),
        ));
    }
    now() - start
}

#[repr(C)]
struct Timespec {
    seconds: i64,
    nanoseconds: i64,
}

extern "C" {
    fn clock_gettime(clock: i32, time: *mut Timespec) -> i32;
}

/// Linux's clock of the time that a thread was given: what other programs take of the machine is not in it.
const THREAD_TIME: i32 = 3;

fn now() -> u64 {
    let mut time = Timespec {
        seconds: 0,
        nanoseconds: 0,
    };
    // SAFETY: the clock writes one time, to a place that holds one.
    let failed = unsafe { clock_gettime(THREAD_TIME, &mut time) };
    assert_eq!(failed, 0, "there is no clock of the thread's time");
    time.seconds as u64 * 1_000_000_000 + time.nanoseconds as u64
}

/// What all of these versions answer. They must answer alike, and leave the lent room alike, slot by slot.
pub fn agreed(file: &[u8], versions: &[&Version]) -> Answer {
    let told: Vec<(Answer, Room)> = versions.iter().map(|each| tell(file, each)).collect();
    for (version, this) in versions.iter().zip(&told) {
        assert!(
            *this == told[0],
            "{} answers {:?} and {} {:?}, or they leave other rooms",
            versions[0].name,
            told[0].0,
            version.name,
            this.0
        );
    }
    told[0].0
}

/// How a room is left: what each slot holds, and the part slot at the end.
type Room = (Vec<Option<Vec<u8>>>, Vec<u8>);

/// What a version answers in a room of its own slots that is full of sevens, with a part slot at the end.
fn tell(file: &[u8], version: &Version) -> (Answer, Room) {
    let places = version.places();
    assert!(places <= MOST_CERTIFICATES, "its answer does not fit");
    let slot = 1 + places;
    let mut room = vec![7; MOST_SLOTS * slot + 5];
    let mut answer = (version.search)(file, &mut room);
    // what stands behind a shorter answer is not its
    answer.path[places..].fill(0);
    let slots = room.chunks_exact(slot);
    let part = slots.remainder().to_vec();
    (answer, (slots.map(held).collect(), part))
}

/// What a slot holds, without the zeros at its end; nothing where it is as it was lent.
fn held(slot: &[u8]) -> Option<Vec<u8>> {
    let end = slot.iter().rposition(|byte| *byte != 0);
    let held = &slot[..end.map_or(0, |last| last + 1)];
    slot.iter().any(|byte| *byte != 7).then(|| held.to_vec())
}
