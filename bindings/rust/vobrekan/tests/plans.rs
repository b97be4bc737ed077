//! Accesses over memory and devices of the caller's, by the machine's plan.
use vobrekan::{Bus, Client, Device, Ioevent, Kind, Machine, Refusal, RegionId, SpaceId, WHOLE, Way};

const SPACE: SpaceId = SpaceId(0);

/// Notes what it is asked.
#[derive(Default)]
struct Noted(Vec<String>);

impl Bus for Noted {
    fn read_memory(&mut self, region: RegionId, offset: u64, out: &mut [u8]) {
        self.0.push(format!("read {} {offset:#x} {}", region.0, out.len()));
        out.fill(0xaa);
    }

    fn write_memory(&mut self, region: RegionId, offset: u64, bytes: &[u8]) {
        self.0.push(format!("write {} {offset:#x} {bytes:?}", region.0));
    }

    fn read_device(&mut self, region: RegionId, offset: u64, size: u8) -> Option<u64> {
        self.0.push(format!("ask {} {offset:#x} {size}", region.0));
        Some(0x8877_6655_4433_2211)
    }

    fn write_device(&mut self, region: RegionId, offset: u64, size: u8, value: u64) -> bool {
        self.0.push(format!("tell {} {offset:#x} {size} {value:#x}", region.0));
        true
    }

    fn notify(&mut self, number: u32) {
        self.0.push(format!("notify {number}"));
    }

    fn mark(&mut self, region: RegionId, client: Client, page: u64) {
        self.0.push(format!("mark {} {client:?} {page}", region.0));
    }
}

fn device(valid_max: u8, impl_min: u8) -> Device {
    Device { regs: 1, valid_min: 1, valid_max, impl_min, impl_max: 4, ..Device::default() }
}

/// A PC's configuration ports: 8 bytes at 0xcf8, and over them the reset register at 0xcf9.
fn ports() -> (Machine, RegionId, RegionId) {
    let mut machine = Machine::new(1 << 12).unwrap();
    let mut change = machine.transaction().unwrap();
    let io = change.region(Kind::Container, 0x1_0000).unwrap();
    let config = change.region(Kind::Io(device(4, 4)), 8).unwrap();
    let reset = change.region(Kind::Io(device(1, 1)), 1).unwrap();
    change.space(SPACE, io).unwrap();
    change.add(io, 0xcf8, config, 0).unwrap();
    change.add(io, 0xcf9, reset, 1).unwrap();
    change.commit().unwrap();
    (machine, config, reset)
}

#[test]
fn a_write_to_a_pcs_configuration_port() {
    let (mut machine, config, reset) = ports();
    let value = 0x8000_0810_u32.to_le_bytes();
    let mut bus = Noted::default();
    machine.write_to(&mut bus, Way::Qemu, SPACE, 0xcf8, &value).unwrap();
    assert_eq!(bus.0, [format!("tell {} 0x0 4 0x80000810", config.0)]);
    let mut bus = Noted::default();
    machine.write_to(&mut bus, Way::Chunks, SPACE, 0xcf8, &value).unwrap();
    let parts = [
        format!("tell {} 0x0 4 0x10", config.0),
        format!("tell {} 0x0 1 0x8", reset.0),
        format!("tell {} 0x2 4 0x8000", config.0),
    ];
    assert_eq!(bus.0, parts);
    for way in [Way::Qemu, Way::Chunks] {
        let mut bus = Noted::default();
        machine.write_to(&mut bus, way, SPACE, 0xcf9, &[6]).unwrap();
        assert_eq!(bus.0, [format!("tell {} 0x0 1 0x6", reset.0)]);
    }
}

#[test]
fn memory_of_the_host_and_marks() {
    let mut machine = Machine::new(1 << 12).unwrap();
    let mut change = machine.transaction().unwrap();
    let system = change.region(Kind::Container, WHOLE).unwrap();
    let host = change.region(Kind::Host, 0x2000).unwrap();
    let uart = change.region(Kind::Io(device(4, 1)), 0x10).unwrap();
    change.space(SPACE, system).unwrap();
    change.add(system, 0x1000, host, 0).unwrap();
    change.add(system, 0x3000, uart, 0).unwrap();
    change.log(host, Client::Migration, true).unwrap();
    change.event(uart, &Ioevent { offset: 8, size: 4, number: 5, ..Ioevent::default() }).unwrap();
    change.commit().unwrap();
    let mut bus = Noted::default();
    let ended = machine.write_to(&mut bus, Way::Chunks, SPACE, 0x2fff, &[1, 2, 3]).unwrap();
    assert_eq!(bus.0[..2], [format!("write {} 0x1fff [1]", host.0), format!("mark {} Migration 1", host.0)]);
    assert_eq!(bus.0[2], format!("tell {} 0x0 2 0x302", uart.0));
    assert!(!ended.decode);
    let mut bus = Noted::default();
    machine.write_to(&mut bus, Way::Qemu, SPACE, 0x3008, &[1, 0, 0, 0]).unwrap();
    assert_eq!(bus.0, ["notify 5"]);
    let mut out = [1; 6];
    let mut bus = Noted::default();
    let ended = machine.read_from(&mut bus, Way::Chunks, SPACE, 0xffe, &mut out).unwrap();
    assert_eq!((out, ended.decode), ([0, 0, 0xaa, 0xaa, 0xaa, 0xaa], true));
    assert_eq!(bus.0, [format!("read {} 0x0 4", host.0)]);
    let mut out = [0; 4];
    machine.read_from(&mut bus, Way::Chunks, SPACE, 0x3000, &mut out).unwrap();
    assert_eq!(out, [0x11, 0x22, 0x33, 0x44]);
}

/// A PC shows RAM read-only below its BIOS by such a window (`pam-rom`).
#[test]
fn a_write_through_a_read_only_window() {
    let mut machine = Machine::new(1 << 12).unwrap();
    let mut change = machine.transaction().unwrap();
    let system = change.region(Kind::Container, WHOLE).unwrap();
    let memory = change.region(Kind::Host, 0x2000).unwrap();
    let shut = change.region(Kind::Host, 0x1000).unwrap();
    let window = change.region(Kind::Alias(memory, 0x1000), 0x1000).unwrap();
    change.space(SPACE, system).unwrap();
    change.add(system, 0x8000, window, 0).unwrap();
    change.add(system, 0x9000, shut, 0).unwrap();
    change.readonly(window, true).unwrap();
    change.readonly(shut, true).unwrap();
    change.commit().unwrap();
    let mut bus = Noted::default();
    let ended = machine.write_to(&mut bus, Way::Chunks, SPACE, 0x8010, &[1, 2]).unwrap();
    assert_eq!((bus.0.len(), ended.decode), (0, true));
    let ended = machine.write_to(&mut bus, Way::Qemu, SPACE, 0x8010, &[1, 2]).unwrap();
    assert_eq!((bus.0, ended.decode), (vec![format!("write {} 0x1010 [1, 2]", memory.0)], false));
    for way in [Way::Qemu, Way::Chunks] {
        let mut bus = Noted::default();
        let ended = machine.write_to(&mut bus, way, SPACE, 0x9010, &[1]).unwrap();
        assert_eq!((bus.0.len(), ended.decode), (0, true));
        let mut out = [0; 2];
        machine.read_from(&mut bus, way, SPACE, 0x8010, &mut out).unwrap();
        assert_eq!(bus.0, [format!("read {} 0x1010 2", memory.0)]);
    }
}

#[test]
fn what_is_refused() {
    let (mut machine, _, _) = ports();
    assert_eq!(machine.plan_read(Way::Chunks, SPACE, u64::MAX, 2), Err(Refusal::BadSize));
    assert_eq!(machine.plan_write(Way::Qemu, SPACE, u64::MAX - 2, &[0; 4]), Err(Refusal::BadSize));
    assert_eq!(machine.plan_read(Way::Chunks, SPACE, u64::MAX, 1).unwrap().0.len(), 1);
    assert_eq!(machine.plan_read(Way::Qemu, SPACE, 0, 0).unwrap().0.len(), 0);
    let (plan, _) = machine.plan_read(Way::Chunks, SPACE, 0xcf0, 64).unwrap();
    assert!(plan.len() > 8 || plan.iter().map(|it| it.len).sum::<u64>() == 64);
}
