//! `check CARD`: asks the library about a card file, and prints what the file asks where it can be read, the reply in words, the paths
//! that wait after the first step where there is a search, and whether one name written in two ways is the same name. It prints what
//! `check.c` prints.

use std::io::Write;

/// The library as safe Rust: a slice is valid for its length, and a `&mut` one overlaps nothing, so every call keeps what the header asks.
mod savuneco {
    pub const PLACES: usize = 24;
    pub const SLOT: usize = 1 + PLACES;
    pub const ROOM: usize = 254 * SLOT;
    pub const EXHAUSTED: u8 = 2;

    #[repr(C)]
    pub struct Asked {
        pub now: u64,
        pub budget: u64,
        pub host_at: u64,
        pub host_length: u64,
        pub number: u8,
        pub roots: u8,
        pub certificates: u8,
    }

    #[repr(C)]
    pub struct Answer {
        pub steps: u64,
        pub number: u8,
        pub root: u8,
        pub length: u8,
        pub path: [u8; PLACES],
    }

    #[link(name = "desk", kind = "static")]
    extern "C" {
        fn savuneco_task(file: *const u8, file_len: usize) -> Asked;
        fn savuneco_search(file: *const u8, file_len: usize, room: *mut u8, room_len: usize) -> Answer;
        fn savuneco_paused(file: *const u8, file_len: usize, k: u64, room: *mut u8, room_len: usize) -> Answer;
        fn savuneco_same_dn(a: *const u8, a_len: usize, b: *const u8, b_len: usize, normalise: u8) -> u8;
    }

    pub fn task(file: &[u8]) -> Asked {
        unsafe { savuneco_task(file.as_ptr(), file.len()) }
    }

    pub fn search(file: &[u8], room: &mut [u8]) -> Answer {
        unsafe { savuneco_search(file.as_ptr(), file.len(), room.as_mut_ptr(), room.len()) }
    }

    pub fn paused(file: &[u8], k: u64, room: &mut [u8]) -> Answer {
        unsafe { savuneco_paused(file.as_ptr(), file.len(), k, room.as_mut_ptr(), room.len()) }
    }

    /// Whether two encoded names are the same, or the number of what is wrong with the first bad one.
    pub fn same_dn(a: &[u8], b: &[u8], normalise: bool) -> Result<bool, u8> {
        match unsafe { savuneco_same_dn(a.as_ptr(), a.len(), b.as_ptr(), b.len(), normalise as u8) } {
            0 => Ok(false),
            1 => Ok(true),
            number => Err(number),
        }
    }
}

const REPLIES: [&str; 11] = [
    "accepted",
    "refused",
    "exhausted",
    "empty chain",
    "unknown edition",
    "too long",
    "cut short",
    "bad count or length",
    "bad value",
    "bytes left over",
    "no room",
];

/// The line that says what a file asks. The host is bytes, of any encoding.
fn task_line(file: &[u8], asked: &savuneco::Asked) -> Vec<u8> {
    let counts = format!("roots {}, certificates {}", asked.roots, asked.certificates);
    let head = format!("asked: now {}, budget {}, {counts}, host \"", asked.now, asked.budget);
    let host = &file[asked.host_at as usize..][..asked.host_length as usize];
    [head.as_bytes(), host, b"\"\n"].concat()
}

fn path(places: &[u8]) -> String {
    places.iter().map(|place| format!(" {place}")).collect()
}

fn in_words(answer: &savuneco::Answer) -> String {
    let reply = REPLIES[answer.number as usize];
    match answer.number {
        0 => {
            let path = path(&answer.path[..answer.length as usize]);
            format!("{reply}, steps {}, root {}, path{path}", answer.steps, answer.root)
        }
        1 | 2 => format!("{reply}, steps {}", answer.steps),
        _ => reply.to_string(),
    }
}

/// A slot that is not used has length 0.
fn waiting(room: &[u8]) -> String {
    room.chunks_exact(savuneco::SLOT)
        .take_while(|slot| slot[0] != 0)
        .map(|slot| format!(" [{} ]", path(&slot[1..=slot[0] as usize])))
        .collect()
}

/// The name of one RDN of one attribute, with OID 55 04 03.
fn name(value: &[u8]) -> Vec<u8> {
    let head = [1, 1, 3, 0x55, 4, 3, value.len() as u8];
    [&head, value].concat()
}

fn alike(normalise: bool) -> &'static str {
    match savuneco::same_dn(&name(b"Bembo  Roman"), &name(b"bembo roman"), normalise) {
        Ok(true) => "the same",
        _ => "two names",
    }
}

fn main() {
    let Some(Ok(file)) = std::env::args_os().nth(1).map(std::fs::read) else {
        eprintln!("check: give a card file that can be read");
        std::process::exit(2);
    };
    let asked = savuneco::task(&file);
    if asked.number == 0 {
        std::io::stdout().write_all(&task_line(&file, &asked)).expect("standard output takes a line");
    }
    let mut room = [0; savuneco::ROOM];
    println!("{}", in_words(&savuneco::search(&file, &mut room)));
    if savuneco::paused(&file, 1, &mut room).number <= savuneco::EXHAUSTED {
        println!("after the first step these paths wait, the next one last:{}", waiting(&room));
    }
    println!("Bembo  Roman and bembo roman: {} in normal form, {} as they stand", alike(true), alike(false));
}
