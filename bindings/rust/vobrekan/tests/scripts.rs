//! Scripts, paths of addresses, and pages that were written.
use std::fs;
use std::path::Path;
use vobrekan::{Client, Device, Kind, Machine, PassId, Refusal, SpaceId, WHOLE, run};

const SPACE: SpaceId = SpaceId(0);

#[test]
fn a_script_writes_what_stands_beside_it() {
    let folder = Path::new(env!("CARGO_MANIFEST_DIR")).join("../../../examples/machines");
    let mut count = 0;
    for file in fs::read_dir(folder).unwrap() {
        let name = file.unwrap().path();
        if name.extension().is_some_and(|it| it == "mt") {
            let ran = run(&fs::read(&name).unwrap()).unwrap();
            assert_eq!(ran.fault, None);
            assert!(ran.text == fs::read(name.with_extension("out")).unwrap(), "{name:?}");
            count += 1;
        }
    }
    assert!(count >= 5);
    assert_eq!(run(b"region r container 0x1000\nregion q circle\n").unwrap().fault, Some(2));
}

#[test]
fn the_path_of_an_address() {
    let mut machine = Machine::new(1 << 14).unwrap();
    let mut change = machine.transaction().unwrap();
    let system = change.region(Kind::Container, WHOLE).unwrap();
    let ram = change.region(Kind::Ram, 0x4000).unwrap();
    let window = change.region(Kind::Alias(ram, 0x1000), 0x1000).unwrap();
    change.space(SPACE, system).unwrap();
    change.add(system, 0, window, 0).unwrap();
    change.commit().unwrap();
    assert_eq!(machine.path(SPACE, 0x10).unwrap(), [system, window, ram]);
    assert_eq!(machine.path(SPACE, 0x1000).unwrap(), []);
    assert!(matches!(machine.path(SpaceId(4), 0), Err(Refusal::Unknown(_))));
}

#[test]
fn pages_that_were_written() {
    let mut machine = Machine::new(1 << 17).unwrap();
    let system = machine.region(Kind::Container, WHOLE).unwrap();
    let ram = machine.region(Kind::Ram, 100 * 0x1000).unwrap();
    machine.space(SPACE, system).unwrap();
    machine.add(system, 0, ram, 0).unwrap();
    machine.log(ram, Client::Migration, true).unwrap();
    for addr in [0x10, 0x3fff, 0x4000, 99 * 0x1000] {
        machine.write(PassId(0), SPACE, addr, &[1]).unwrap();
    }
    let pages = machine.harvest(ram, Client::Migration).unwrap();
    assert_eq!(pages.iter().collect::<Vec<_>>(), [0, 3, 4, 99]);
    assert_eq!((pages.len(), pages.words()), (4, &[0x19, 1 << 35][..]));
    assert!(machine.harvest(ram, Client::Migration).unwrap().is_empty());
    let device = Device { regs: 1, valid_min: 1, valid_max: 4, impl_min: 1, impl_max: 4, ..Device::default() };
    let uart = machine.region(Kind::Io(device), 0x100).unwrap();
    assert_eq!(machine.harvest(uart, Client::Migration), Err(Refusal::WrongKind(uart)));
}
