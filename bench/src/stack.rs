// How deep each call by value goes on the stack, in bytes: a thread whose stack is painted makes the call, and what is no
// longer painted was used. Printed with the bytes of a call that uses none taken off.
use std::hint::black_box;

type Call = extern "C" fn(u64, u64) -> u64;

unsafe extern "C" {
    safe fn probe_made(at: u64, x: u64) -> u64;
    safe fn probe_begin(at: u64, x: u64) -> u64;
    safe fn probe_end(at: u64, x: u64) -> u64;
    safe fn probe_snap(at: u64, x: u64) -> u64;
    safe fn probe_own(at: u64, x: u64) -> u64;
    safe fn probe_oldest(at: u64, x: u64) -> u64;
    safe fn probe_vacuum(at: u64, x: u64) -> u64;
    safe fn probe_stamp(at: u64, x: u64) -> u64;
    safe fn probe_finish(at: u64, x: u64) -> u64;
    safe fn probe_check(at: u64, x: u64) -> u64;
    safe fn probe_settled(at: u64, x: u64) -> u64;
    safe fn probe_usable(at: u64, x: u64) -> u64;
}

extern "C" fn nothing(at: u64, x: u64) -> u64 {
    at ^ x
}

const PAINTED: usize = 512 * 1024;
const PAINT: u8 = 0xa5;

/// Paints the stack below the caller, and says where the paint begins. It is free again when this has returned.
#[inline(never)]
fn paint() -> usize {
    let mut area = [0u8; PAINTED];
    area.fill(PAINT);
    black_box(&mut area).as_ptr() as usize
}

/// How many bytes from the top of the paint down to the lowest that the call has written.
#[inline(never)]
fn measured(call: Call) -> usize {
    let low = paint();
    black_box(call(black_box(7), black_box(9)));
    let mut untouched = 0;
    // SAFETY: the PAINTED bytes from `low` on are this thread's own stack, below every live frame; they are only read.
    while untouched < PAINTED && unsafe { std::ptr::read_volatile((low + untouched) as *const u8) } == PAINT {
        untouched += 1;
    }
    PAINTED - untouched
}

fn main() {
    let calls: [(&str, Call); 12] = [
        ("fresh", probe_made),
        ("begin_transaction", probe_begin),
        ("end_transaction", probe_end),
        ("create_snapshot", probe_snap),
        ("create_transaction_snapshot", probe_own),
        ("oldest_snapshot_xmin", probe_oldest),
        ("vacuum", probe_vacuum),
        ("reserve_publication_clock", probe_stamp),
        ("finish_transaction", probe_finish),
        ("check_table", probe_check),
        ("is_settled", probe_settled),
        ("is_usable", probe_usable),
    ];
    let run = move || {
        let empty = measured(nothing);
        println!("| call | bytes of stack |\n|---|---|");
        for (name, call) in calls {
            println!("| `{name}` | {} |", measured(call).saturating_sub(empty));
        }
    };
    std::thread::Builder::new().stack_size(4 << 20).spawn(run).expect("a thread").join().expect("the thread ends");
}
