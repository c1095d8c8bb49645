//! What the calls need beside what they are lent: stack, and nothing from the allocator.

use crate::block::{lent, Pictures};
use crate::cases::{blocks, on_plane, plane, PATHS, SIDES};
use crate::report::Report;
use crate::{camera, ours, replay};
use std::alloc::{GlobalAlloc, Layout, System};
use std::arch::asm;
use std::sync::atomic::{AtomicUsize, Ordering::Relaxed};

/// The system's allocator, counted.
struct Counting;

static ALLOCATIONS: AtomicUsize = AtomicUsize::new(0);

unsafe impl GlobalAlloc for Counting {
    unsafe fn alloc(&self, layout: Layout) -> *mut u8 {
        ALLOCATIONS.fetch_add(1, Relaxed);
        System.alloc(layout)
    }

    unsafe fn dealloc(&self, at: *mut u8, layout: Layout) {
        System.dealloc(at, layout)
    }
}

#[global_allocator]
static COUNTING: Counting = Counting;

const PAINT: u128 = 0xa5a5_a5a5_a5a5_a5a5_a5a5_a5a5_a5a5_a5a5;

/// How many bytes of stack a call writes, to 16: it runs on a painted stack of its own. The call must
/// not panic.
fn stack_of(mut call: &mut dyn FnMut()) -> usize {
    extern "C" fn run(call: &mut &mut dyn FnMut()) {
        call()
    }
    let mut stack = vec![PAINT; 1 << 14];
    let top = stack.as_mut_ptr_range().end;
    unsafe {
        asm!(
            "xchg rsp, r12",
            "call {run}",
            "mov rsp, r12",
            run = sym run,
            inout("r12") top => _,
            in("rdi") &mut call,
            clobber_abi("C"),
        );
    }
    let untouched = stack.iter().take_while(|word| **word == PAINT).count();
    (stack.len() - untouched) * 16
}

/// The deepest stack and the number of allocations of a call over its sequences.
#[derive(Default)]
pub struct Room {
    stack: usize,
    allocations: usize,
    calls: usize,
}

impl Room {
    pub fn of(&mut self, call: &mut dyn FnMut()) {
        self.stack = self.stack.max(stack_of(call));
        let before = ALLOCATIONS.load(Relaxed);
        call();
        self.allocations += ALLOCATIONS.load(Relaxed) - before;
        self.calls += 1;
    }
}

fn nothing() -> Room {
    let mut room = Room::default();
    room.of(&mut || {});
    room
}

fn mc_plane() -> Room {
    let mut room = Room::default();
    for chroma in [false, true] {
        let plane = plane(chroma, [256; 2], 7);
        let mut pred = vec![0; 4096];
        for (_, filtered) in PATHS {
            for side in SIDES {
                for c in on_plane(chroma, filtered, side.map(|n| n >> u32::from(chroma))) {
                    let mut code = 9;
                    room.of(&mut || code = ours::mc_plane(&c, &plane.data, &mut pred));
                    assert_eq!(code, 0);
                }
            }
        }
    }
    room
}

fn mc2() -> Room {
    let mut room = Room::default();
    let pictures = Pictures::new([256; 2]);
    let mut pred = lent();
    for used in [[true, false], [false, true], [true, true]] {
        for (_, filtered) in PATHS {
            for side in SIDES {
                for (b, mv) in blocks(filtered, side) {
                    let mut code = 9;
                    room.of(&mut || code = pictures.ours(&b, used, mv, &mut pred).code);
                    assert_eq!(code, 0);
                }
            }
        }
    }
    room
}

fn pad() -> Room {
    let mut room = Room::default();
    for chroma in [false, true] {
        let mut plane = plane(chroma, [352, 288], 7);
        let mut code = 9;
        room.of(&mut || code = ours::pad(chroma, [352, 288], &mut plane.data));
        assert_eq!(code, 0);
    }
    room
}

/// A call, and the bytes of stack that include/evc_inter.h says it stays below; of a replay it says
/// "about 27 kB", taken here for below 27,500.
type Call = (&'static str, fn() -> Room, usize);

const CALLS: [Call; 5] = [
    ("evc_mc_plane", mc_plane, 2_500),
    ("evc_mc2", mc2, 2_500),
    ("evc_pad", pad, 256),
    ("evc_trace_replay", replay::room, 27_500),
    ("evc_camera_motion", camera::room, 256),
];

/// Says which of these calls take more stack than the header says, the bench's own frames included,
/// and gives the status to end with.
pub fn guard() -> i32 {
    let none = nothing().stack;
    let mut deep = 0;
    for (name, call, below) in CALLS {
        let stack = call().stack - none;
        if stack >= below {
            deep += 1;
            println!("{name}: {stack} bytes of stack with the bench's, not below {below}");
        }
    }
    i32::from(deep > 0)
}

pub fn run(report: &mut Report) {
    let mut rows = Vec::new();
    let none: (&str, fn() -> Room) = ("no call, for comparison", nothing);
    let calls = CALLS.map(|(name, call, _)| (name, call));
    for (name, call) in [none].into_iter().chain(calls) {
        if report.wants(&format!("room {name}")) {
            let room = call();
            rows.push(vec![
                name.to_string(),
                room.stack.to_string(),
                room.allocations.to_string(),
                room.calls.to_string(),
            ]);
        }
    }
    let head = ["call", "deepest stack, bytes", "allocations", "calls"];
    report.table("Room", &head, &rows);
}
