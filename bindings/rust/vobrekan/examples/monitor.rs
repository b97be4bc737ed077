//! A monitor in small: a PC's map with 4 GiB of host memory around its PCI hole. A BAR moves, the guest draws on its screen, and the
//! slots of a hypervisor are kept in step by a listener.
use std::collections::BTreeMap;
use vobrekan::{Client, Device, FlatRange, Kind, ListenerId, Machine, PassId, Refusal, RegionId, SpaceId, WHOLE};

const MEMORY: SpaceId = SpaceId(0);
const SLOTS: ListenerId = ListenerId(0);
const CPU: PassId = PassId(0);

const GIB: u64 = 1 << 30;
/// Memory ends here below 4 GiB, and goes on above: the hole is for PCI.
const HOLE: u64 = 0xc000_0000;

/// What a monitor knows of its regions.
struct Board {
    names: BTreeMap<u32, &'static str>,
    bar: RegionId,
    vga: RegionId,
}

fn device(size: u8) -> Device {
    Device { regs: 8, valid_min: 1, valid_max: size, impl_min: 1, impl_max: size, ..Device::default() }
}

/// Makes the map, in one transaction.
fn board(machine: &mut Machine) -> Result<Board, Refusal> {
    let mut change = machine.transaction()?;
    let system = change.region(Kind::Container, WHOLE)?;
    let ram = change.region(Kind::Host, 4 * GIB)?;
    let low = change.region(Kind::Alias(ram, 0), HOLE)?;
    let high = change.region(Kind::Alias(ram, HOLE), 4 * GIB - HOLE)?;
    let pci = change.region(Kind::Container, 4 * GIB - HOLE)?;
    let vga = change.region(Kind::Ram, 0x2_0000)?;
    let bios = change.region(Kind::Rom, 0x4_0000)?;
    let ioapic = change.region(Kind::Io(device(4)), 0x1000)?;
    let bar = change.region(Kind::Io(device(8)), 0x4000)?;
    change.space(MEMORY, system)?;
    change.add(system, 0, low, 0)?;
    change.add(system, 4 * GIB, high, 0)?;
    change.add(system, HOLE, pci, -1)?;
    change.add(system, 0xa_0000, vga, 1)?;
    change.add(system, 4 * GIB - 0x4_0000, bios, 0)?;
    change.add(system, 0xfec0_0000, ioapic, 0)?;
    change.add(pci, 0x2000_0000, bar, 1)?;
    change.log(vga, Client::Display, true)?;
    change.commit()?;
    let names = [(ram, "host memory"), (vga, "vga memory"), (bios, "bios"), (ioapic, "ioapic"), (bar, "bar")];
    Ok(Board { names: names.into_iter().map(|(region, name)| (region.0, name)).collect(), bar, vga })
}

fn show(board: &Board, range: &FlatRange) {
    let name = board.names.get(&range.region).copied().unwrap_or("?");
    let only = if range.readonly { ", read-only" } else { "" };
    println!("{:#013x}-{:#013x} {name} @{:#x}{only}", range.start, range.last, range.offset);
}

/// The slots of the hypervisor: each range of memory that it maps into the guest, by its first address.
#[derive(Default)]
struct Slots {
    slots: BTreeMap<u64, FlatRange>,
    told: usize,
}

impl Slots {
    /// Reads what the listener was told since the last time, and says which slots are set and cleared.
    fn follow(&mut self, machine: &mut Machine, board: &Board, memory: &[RegionId]) -> Result<(), Refusal> {
        for call in machine.told(self.told)? {
            self.told += 1;
            if !memory.contains(&RegionId(call.range.region)) {
                continue;
            }
            match call.what {
                1 => {
                    self.slots.remove(&call.range.start);
                    print!("clear ");
                    show(board, &call.range);
                }
                2 => {
                    self.slots.insert(call.range.start, call.range);
                    print!("set   ");
                    show(board, &call.range);
                }
                _ => {}
            }
        }
        Ok(())
    }
}

fn main() -> Result<(), Refusal> {
    let mut machine = Machine::new(1 << 17)?;
    let board = board(&mut machine)?;
    println!("the map:");
    for range in machine.view(MEMORY)? {
        show(&board, &range);
    }

    println!("the slots at first:");
    machine.listen(SLOTS, MEMORY, 0)?;
    let memory: Vec<RegionId> = board.names.iter().filter(|(_, name)| !["ioapic", "bar"].contains(name)).map(|(it, _)| RegionId(*it)).collect();
    let mut slots = Slots::default();
    slots.follow(&mut machine, &board, &memory)?;

    println!("the guest moves a bar:");
    let before = machine.find(MEMORY, 0xe000_0000)?;
    machine.move_to(board.bar, 0x1000_0000)?;
    let after = machine.find(MEMORY, 0xe000_0000)?;
    println!("0xe0000000 was {}, and is {}", name(&board, before), name(&board, after));
    slots.follow(&mut machine, &board, &memory)?;

    println!("the guest turns vga memory off and on again:");
    machine.enable(board.vga, false)?;
    slots.follow(&mut machine, &board, &memory)?;
    machine.enable(board.vga, true)?;
    slots.follow(&mut machine, &board, &memory)?;
    println!("{} slots", slots.slots.len());

    println!("the guest draws on its screen:");
    let ended = machine.write(CPU, MEMORY, 0xa_1ff0, b"a row")?;
    println!("error {}, nothing there {}", ended.error, ended.decode);
    let mut row = [0; 5];
    machine.read(CPU, MEMORY, 0xa_1ff0, &mut row)?;
    println!("{}", String::from_utf8_lossy(&row));

    println!("what is wrong is refused, by name:");
    println!("{}", machine.add(board.vga, 0, board.bar, 0).unwrap_err());
    println!("{}", machine.find(SpaceId(7), 0).unwrap_err());
    Ok(())
}

fn name(board: &Board, found: vobrekan::Found) -> &'static str {
    if found.is_there { board.names.get(&found.region).copied().unwrap_or("?") } else { "nothing" }
}
