//! A machine through the safe interface.
use vobrekan::{Device, Found, Ioevent, Kind, ListenerId, Machine, PassId, Refusal, RegionId, SpaceId, WHOLE, What};

const SPACE: SpaceId = SpaceId(1);
const PASS: PassId = PassId(0);

fn latch() -> Device {
    Device { regs: 1, valid_min: 1, valid_max: 4, impl_min: 1, impl_max: 4, ..Device::default() }
}

/// A PC in small: memory below with a device over it, and a ROM at the top.
fn pc() -> (Machine, [RegionId; 4]) {
    let mut machine = Machine::new(1 << 14).unwrap();
    let mut change = machine.transaction().unwrap();
    let system = change.region(Kind::Container, WHOLE).unwrap();
    let ram = change.region(Kind::Ram, 0x4000).unwrap();
    let rom = change.region(Kind::Rom, 0x1000).unwrap();
    let uart = change.region(Kind::Io(latch()), 0x100).unwrap();
    change.space(SPACE, system).unwrap();
    change.add(system, 0, ram, 0).unwrap();
    change.add(system, 0x1000, uart, 1).unwrap();
    change.add(system, 0xffff_f000, rom, 0).unwrap();
    assert_eq!(change.commit(), Ok(Some(1)));
    (machine, [system, ram, rom, uart])
}

#[test]
fn a_device_over_memory() {
    let (mut machine, [_, ram, rom, uart]) = pc();
    let found = machine.find(SPACE, 0x1010).unwrap();
    assert_eq!(found, Found { last: 0x10ff, offset: 0x10, region: uart.0, kind: 4, is_there: true, ..Found::default() });
    let leaves: Vec<_> = machine.view(SPACE).unwrap().iter().map(|range| (range.start, range.last, range.region)).collect();
    assert_eq!(leaves, [(0, 0xfff, ram.0), (0x1000, 0x10ff, uart.0), (0x1100, 0x3fff, ram.0), (0xffff_f000, 0xffff_ffff, rom.0)]);
    assert_eq!(machine.move_to(uart, 0x2000), Ok(Some(2)));
    assert_eq!(machine.find(SPACE, 0x1010).unwrap().region, ram.0);
}

#[test]
fn a_transaction_that_is_dropped_is_published() {
    let (mut machine, [_, ram, _, uart]) = pc();
    {
        let mut change = machine.transaction().unwrap();
        change.enable(uart, false).unwrap();
        assert_eq!(change.find(SPACE, 0x1010).unwrap().region, uart.0);
    }
    assert_eq!(machine.find(SPACE, 0x1010).unwrap().region, ram.0);
}

#[test]
fn reads_and_writes() {
    let (mut machine, [_, _, rom, uart]) = pc();
    let mut out = [0; 4];
    machine.write(PASS, SPACE, 0x10, &[1, 2, 3, 4]).unwrap();
    let access = machine.read(PASS, SPACE, 0x10, &mut out).unwrap();
    assert_eq!((out, access.error, access.decode), ([1, 2, 3, 4], false, false));
    machine.load(rom, 0, &[9; 4]).unwrap();
    machine.read(PASS, SPACE, 0xffff_f000, &mut out).unwrap();
    assert_eq!(out, [9; 4]);
    assert!(machine.read(PASS, SPACE, 0x1_0000_0000, &mut out).unwrap().decode);
    let event = Ioevent { offset: 8, size: 4, number: 7, ..Ioevent::default() };
    machine.event(uart, &event).unwrap();
    assert_eq!(machine.notified(7), Ok(false));
    machine.write(PASS, SPACE, 0x1008, &[1, 0, 0, 0]).unwrap();
    assert_eq!(machine.notified(7), Ok(true));
    assert_eq!(machine.notified(7), Ok(false));
}

#[test]
fn refusals_name_what_they_are_about() {
    let (mut machine, [system, ram, rom, _]) = pc();
    assert_eq!(machine.add(ram, 0, system, 0), Err(Refusal::Loop(ram)));
    assert_eq!(machine.del(system, RegionId(99)), Err(Refusal::Unknown(What::Region(RegionId(99)))));
    assert_eq!(machine.resize(rom, 0x2000), Err(Refusal::WrongKind(rom)));
    assert_eq!(machine.space(SPACE, system), Err(Refusal::NameTaken(What::Space(SPACE))));
    assert_eq!(machine.find(SpaceId(9), 0), Err(Refusal::Unknown(What::Space(SpaceId(9)))));
    assert_eq!(machine.unlisten(ListenerId(3)), Err(Refusal::Unknown(What::Listener(ListenerId(3)))));
    assert_eq!(machine.read(PassId(16), SPACE, 0, &mut []), Err(Refusal::Argument(16)));
    assert_eq!(machine.notified(64), Err(Refusal::Argument(64)));
    assert_eq!(machine.region(Kind::Io(Device { kind: 9, ..latch() }), 16), Err(Refusal::Argument(9)));
    assert_eq!(machine.region(Kind::Ram, 100), Err(Refusal::BadSize));
    assert_eq!(machine.drop_region(ram), Err(Refusal::HasContainer(system)));
    assert_eq!(Machine::new(usize::MAX).err(), Some(Refusal::Argument(u64::MAX)));
    assert_eq!(Refusal::Loop(ram).to_string(), format!("region {} cannot be the container: it is reached from the child", ram.0));
}

#[test]
fn regions_come_and_go() {
    let (mut machine, [system, _, _, uart]) = pc();
    machine.del(system, uart).unwrap();
    machine.drop_region(uart).unwrap();
    for _ in 0..2 {
        machine.global(true).unwrap();
        machine.global(false).unwrap();
    }
    assert_eq!(machine.reap(), Ok(vec![uart]));
    assert_eq!(machine.enable(uart, true), Err(Refusal::Unknown(What::Region(uart))));
}

#[test]
fn a_machine_goes_to_another_thread() {
    let (mut machine, [_, ram, _, _]) = pc();
    let found = std::thread::spawn(move || machine.find(SPACE, 0).unwrap()).join().unwrap();
    assert_eq!(found.region, ram.0);
}

#[test]
fn a_listener_is_polled() {
    let (mut machine, [_, _, _, uart]) = pc();
    machine.listen(ListenerId(2), SPACE, 0).unwrap();
    let first = machine.told(0).unwrap();
    assert_eq!(first.iter().map(|call| call.what).collect::<Vec<_>>(), [0, 2, 2, 2, 2, 8]);
    machine.enable(uart, false).unwrap();
    let next = machine.told(first.len()).unwrap();
    assert_eq!(next.first().map(|call| call.what), Some(0));
    assert!(next.iter().any(|call| call.what == 1 && call.range.region == uart.0));
    assert!(machine.told(usize::MAX).unwrap().is_empty());
}

#[test]
fn what_a_listener_was_told_is_forgotten() {
    let (mut machine, [_, _, _, uart]) = pc();
    machine.listen(ListenerId(2), SPACE, 0).unwrap();
    let first = machine.told(0).unwrap();
    machine.enable(uart, false).unwrap();
    let later = machine.told(first.len()).unwrap();
    machine.forget(first.len()).unwrap();
    assert_eq!(machine.told(first.len()).unwrap(), later);
    assert_eq!(machine.told(0), Err(Refusal::Forgotten(first.len() as u64)));
    let end = first.len() + later.len();
    machine.forget(usize::MAX).unwrap();
    assert!(machine.told(end).unwrap().is_empty());
    machine.enable(uart, true).unwrap();
    assert!(machine.told(end).unwrap().iter().any(|call| call.what == 2 && call.range.region == uart.0));
    machine.unlisten(ListenerId(2)).unwrap();
}
