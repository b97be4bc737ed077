//! How long calls take through a handle: the least of five rounds, a call.
use std::hint::black_box;
use std::time::Instant;
use vobrekan::{Desk, Device, Kind, Machine, Order, PassId, RegionId, SpaceId, WHOLE, Way};

const SPACE: SpaceId = SpaceId(0);
const CPU: PassId = PassId(0);

/// 2,000 regions: 40 containers with 49 regions each, of which every seventh is memory and the others are devices.
fn map(regions: u64) -> (Machine, Vec<RegionId>) {
    let mut machine = Machine::new(1 << 22).unwrap();
    let device = Device { regs: 1, valid_min: 1, valid_max: 8, impl_min: 1, impl_max: 8, ..Device::default() };
    let mut leaves = Vec::new();
    let mut change = machine.transaction().unwrap();
    let system = change.region(Kind::Container, WHOLE).unwrap();
    change.space(SPACE, system).unwrap();
    for i in 0..regions / 50 {
        let part = change.region(Kind::Container, 0x10_0000).unwrap();
        change.add(system, i * 0x10_0000, part, 0).unwrap();
        for j in 0..49 {
            let kind = if j % 7 == 0 { Kind::Ram } else { Kind::Io(device) };
            let leaf = change.region(kind, 0x1000).unwrap();
            change.add(part, j * 0x2000, leaf, 0).unwrap();
            leaves.push(leaf);
        }
    }
    change.commit().unwrap();
    (machine, leaves)
}

/// The same map at the desk of a machine that virtual CPUs share.
fn shared_map(regions: u64) -> Desk {
    let mut desk = Desk::new(1 << 22).unwrap();
    let device = Device { regs: 1, valid_min: 1, valid_max: 8, impl_min: 1, impl_max: 8, ..Device::default() };
    desk.ask(Order::Begin).unwrap();
    let system = desk.region(Kind::Container, WHOLE).unwrap();
    desk.ask(Order::Space(SPACE, system)).unwrap();
    for i in 0..regions / 50 {
        let part = desk.region(Kind::Container, 0x10_0000).unwrap();
        desk.ask(Order::Add(system, i * 0x10_0000, part, 0)).unwrap();
        for j in 0..49 {
            let kind = if j % 7 == 0 { Kind::Ram } else { Kind::Io(device) };
            let leaf = desk.region(kind, 0x1000).unwrap();
            desk.ask(Order::Add(part, j * 0x2000, leaf, 0)).unwrap();
        }
    }
    desk.ask(Order::Commit).unwrap();
    desk
}

/// The least of five rounds of so many calls, in nanoseconds a call.
fn least(calls: u32, mut call: impl FnMut(u32)) -> f64 {
    (0..5)
        .map(|_| {
            let start = Instant::now();
            for i in 0..calls {
                call(i);
            }
            start.elapsed().as_nanos() as f64 / f64::from(calls)
        })
        .fold(f64::INFINITY, f64::min)
}

fn main() {
    let (mut machine, leaves) = map(2_000);
    let (mut some, _) = map(50);
    let at = |i: u32| u64::from(i.wrapping_mul(2_654_435_761) % 40) * 0x10_0000 + u64::from(i % 49) * 0x2000 + 8;
    println!("ns a call, over 2,000 regions");
    println!("{:8.0}  find an address", least(1_000_000, |i| _ = black_box(machine.find(SPACE, at(i)))));
    println!("{:8.0}  the same over 50 regions", least(1_000_000, |i| _ = black_box(some.find(SPACE, u64::from(i % 49) * 0x2000))));
    println!("{:8.0}  read a word of memory, by a pass", least(500_000, |_| _ = black_box(machine.read(CPU, SPACE, 8, &mut [0; 8]))));
    println!("{:8.0}  write a word of memory, by a pass", least(500_000, |i| _ = black_box(machine.write(CPU, SPACE, 8, &u64::from(i).to_le_bytes()))));
    println!("{:8.0}  read a word of a device, by a pass", least(500_000, |_| _ = black_box(machine.read(CPU, SPACE, 0x2000, &mut [0; 8]))));
    println!("{:8.0}  the plan of a read of 8 bytes of a device", least(500_000, |_| _ = black_box(machine.plan_read(Way::Qemu, SPACE, 0x2000, 8))));
    println!("{:8.0}  the plan of a read of 8 bytes of memory", least(500_000, |_| _ = black_box(machine.plan_read(Way::Chunks, SPACE, 8, 8))));
    let mut desk = shared_map(2_000);
    let mut cpu = desk.cpu().unwrap();
    let mut planned = |way, addr| {
        cpu.enter().unwrap();
        _ = black_box(cpu.plan_read(way, SPACE, addr, 8));
        cpu.leave().unwrap();
    };
    println!("{:8.0}  the plan of a read of 8 bytes of a device, by a virtual CPU that enters and leaves for it", least(500_000, |_| planned(Way::Qemu, 0x2000)));
    println!("{:8.0}  the plan of a read of 8 bytes of memory, by a virtual CPU that enters and leaves for it", least(500_000, |_| planned(Way::Chunks, 8)));
    println!("{:8.0}  read a word of memory, by a virtual CPU", least(500_000, |_| _ = black_box(cpu.read(SPACE, 8, &mut [0; 8]))));
    cpu.enter().unwrap();
    println!("{:8.0}  the same while it is entered", least(500_000, |_| _ = black_box(cpu.read(SPACE, 8, &mut [0; 8]))));
    println!("{:8.0}  write a word of memory, by a virtual CPU that is entered", least(500_000, |i| _ = black_box(cpu.write8(SPACE, 8, u64::from(i)))));
    println!("{:8.0}  write four bytes, by a virtual CPU that is entered", least(500_000, |i| _ = black_box(cpu.write(SPACE, 8, &i.to_le_bytes(), 8))));
    println!("{:8.0}  write 4 KiB, by a virtual CPU that is entered", least(20_000, |_| _ = black_box(cpu.write(SPACE, 0, &[7; 4096], 8))));
    println!("{:8.0}  the path of an address", least(100, |i| _ = black_box(machine.path(SPACE, at(i)))));
    let moved = leaves[1000];
    println!("{:8.0}  move a region, and publish", least(200, |i| _ = black_box(machine.move_to(moved, u64::from(i % 2) * 0x800 + 0xc000))));
    println!("{:8.0}  make a machine, and free it", least(1_000, |_| _ = black_box(Machine::new(64))));
}
