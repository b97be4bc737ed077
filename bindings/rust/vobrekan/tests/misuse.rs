//! The safe interface where it is misused, or where memory runs out.
use std::cell::Cell;
use std::ffi::c_void;
use vobrekan::{Client, Desk, Kind, Machine, Order, PassId, Refusal, RegionId, SpaceId, WHOLE};

const SPACE: SpaceId = SpaceId(1);

unsafe extern "C" {
    fn __libc_malloc(size: usize) -> *mut c_void;
}

thread_local! {
    /// Whether the requests of this thread for memory are refused.
    static REFUSES: Cell<bool> = const { Cell::new(false) };
}

/// The `malloc` of this program, in place of that of the C library, whose own it asks.
///
/// # Safety
///
/// As of `malloc`: it may be called at any time, with any size.
#[unsafe(no_mangle)]
pub unsafe extern "C" fn malloc(size: usize) -> *mut c_void {
    if REFUSES.get() {
        return std::ptr::null_mut();
    }
    // SAFETY: the C library's own takes any size.
    unsafe { __libc_malloc(size) }
}

/// What a call answers while no memory is given to this thread.
fn without_memory<T>(call: impl FnOnce() -> T) -> T {
    REFUSES.set(true);
    let answer = call();
    REFUSES.set(false);
    answer
}

/// A machine with RAM at 0, which is in generation 2.
fn small() -> (Machine, RegionId, RegionId) {
    let mut machine = Machine::new(1 << 12).unwrap();
    let (board, ram) = (machine.region(Kind::Container, WHOLE).unwrap(), machine.region(Kind::Ram, 0x1000).unwrap());
    machine.space(SPACE, board).unwrap();
    assert_eq!(machine.add(board, 0, ram, 0), Ok(Some(2)));
    (machine, board, ram)
}

/// Where the only range of the space begins.
fn start(machine: &mut Machine) -> u64 {
    machine.view(SPACE).unwrap()[0].start
}

#[test]
fn a_commit_for_which_memory_runs_out_twice_is_closed_later() {
    let (mut machine, _, ram) = small();
    let mut change = machine.transaction().unwrap();
    change.move_to(ram, 0x4000).unwrap();
    assert_eq!(without_memory(|| change.commit()), Err(Refusal::Memory));
    assert_eq!(without_memory(|| machine.close_transactions()), Err(Refusal::Memory));
    assert_eq!(start(&mut machine), 0);
    assert_eq!(machine.close_transactions(), Ok(Some(3)));
    assert_eq!(start(&mut machine), 0x4000);
    assert_eq!(machine.close_transactions(), Ok(None));
    assert_eq!(machine.move_to(ram, 0), Ok(Some(4)));
}

#[test]
fn a_transaction_that_is_dropped_without_memory_is_closed_by_a_later_one() {
    let (mut machine, _, ram) = small();
    let mut change = machine.transaction().unwrap();
    change.move_to(ram, 0x4000).unwrap();
    without_memory(|| drop(change));
    let mut outer = machine.transaction().unwrap();
    outer.transaction().unwrap().move_to(ram, 0x8000).unwrap();
    assert_eq!(start(&mut outer), 0);
    assert_eq!(outer.commit(), Ok(Some(3)));
    assert_eq!(start(&mut machine), 0x8000);
    assert_eq!(machine.transaction().unwrap().commit(), Ok(None));
}

#[test]
fn a_harvest_of_what_is_no_memory() {
    let (mut machine, board, _) = small();
    let host = machine.region(Kind::Host, 1 << 44).unwrap();
    for region in [board, host] {
        assert_eq!(machine.harvest(region, Client::Migration), Err(Refusal::WrongKind(region)));
    }
    let mut desk = Desk::new(1 << 12).unwrap();
    let system = desk.region(Kind::Container, WHOLE).unwrap();
    desk.ask(Order::Space(SPACE, system)).unwrap();
    assert_eq!(desk.harvest(system, Client::Migration), Err(Refusal::WrongKind(system)));
}

#[test]
fn the_largest_memory_is_harvested() {
    let size = (1 << 29) - (1 << 19);
    let mut machine = Machine::new(1 << 26).unwrap();
    let ram = machine.region(Kind::Ram, size).unwrap();
    machine.space(SPACE, ram).unwrap();
    machine.log(ram, Client::Code, true).unwrap();
    machine.write(PassId(0), SPACE, size - 1, &[1]).unwrap();
    assert_eq!(machine.harvest(ram, Client::Code).unwrap().iter().collect::<Vec<_>>(), [size / 4096 - 1]);
}
