//! A machine with memory, in one transaction.
use vobrekan::{Kind, Machine, Refusal, SpaceId, WHOLE};

fn main() -> Result<(), Refusal> {
    let mut machine = Machine::new(1 << 20)?;
    let mut change = machine.transaction()?;
    let system = change.region(Kind::Container, WHOLE)?;
    let ram = change.region(Kind::Ram, 0x10000)?;
    change.space(SpaceId(0), system)?;
    change.add(system, 0, ram, 0)?;
    assert_eq!(change.commit()?, Some(1)); // or dropped: committed too
    let found = machine.find(SpaceId(0), 0x10)?;
    assert_eq!((found.region, found.offset), (ram.0, 0x10));
    Ok(())
}
