//! Memory and devices that the caller keeps, asked in the order of the machine's plan.
use crate::{Access, Client, Machine, Reached, Refusal, RegionId, SpaceId, Way};
use vobrekan_sys as sys;

/// The memory of the host and the devices of a monitor. Offsets are in the region.
///
/// ```
/// use std::collections::BTreeMap;
/// use vobrekan::*;
///
/// /// Memory by its bytes, and one device that answers the offset at which it is read.
/// #[derive(Default)]
/// struct Mine(BTreeMap<u64, u8>);
///
/// impl Bus for Mine {
///     fn read_memory(&mut self, _: RegionId, offset: u64, out: &mut [u8]) {
///         for (at, byte) in (offset..).zip(out) {
///             *byte = self.0.get(&at).copied().unwrap_or(0);
///         }
///     }
///
///     fn write_memory(&mut self, _: RegionId, offset: u64, bytes: &[u8]) {
///         self.0.extend((offset..).zip(bytes.iter().copied()));
///     }
///
///     fn read_device(&mut self, _: RegionId, offset: u64, _: u8) -> Option<u64> {
///         Some(offset)
///     }
///
///     fn write_device(&mut self, _: RegionId, _: u64, _: u8, _: u64) -> bool {
///         true
///     }
/// }
///
/// let mut machine = Machine::new(1 << 10)?;
/// let device = Device { regs: 1, valid_min: 1, valid_max: 4, impl_min: 1, impl_max: 4, ..Device::default() };
/// let (board, memory) = (machine.region(Kind::Container, WHOLE)?, machine.region(Kind::Host, 1 << 32)?);
/// let port = machine.region(Kind::Io(device), 0x100)?;
/// machine.space(SpaceId(0), board)?;
/// machine.add(board, 0, memory, 0)?;
/// machine.add(board, 0x1000, port, 1)?;
/// let (mut mine, mut bytes) = (Mine::default(), [0; 4]);
/// machine.write_to(&mut mine, Way::Qemu, SpaceId(0), 0xffc, &[1, 2, 3, 4])?;
/// machine.read_from(&mut mine, Way::Qemu, SpaceId(0), 0xffe, &mut bytes)?; // two bytes of memory, two of the device
/// assert_eq!(bytes[..2], [3, 4]);
/// # Ok::<(), Refusal>(())
/// ```
pub trait Bus {
    /// Reads bytes of a region's memory.
    fn read_memory(&mut self, region: RegionId, offset: u64, out: &mut [u8]);

    /// Writes bytes into a region's memory.
    fn write_memory(&mut self, region: RegionId, offset: u64, bytes: &[u8]);

    /// A read by a callback of a device, of 1, 2, 4 or 8 bytes: a number, or `None` where the device answers with an error.
    fn read_device(&mut self, region: RegionId, offset: u64, size: u8) -> Option<u64>;

    /// A write by a callback of a device. It answers whether the device took it.
    fn write_device(&mut self, region: RegionId, offset: u64, size: u8, value: u64) -> bool;

    /// Sets a notifier, in place of the callbacks of its device.
    fn notify(&mut self, _number: u32) {}

    /// Marks a page of 4,096 bytes of a region as written.
    fn mark(&mut self, _region: RegionId, _client: Client, _page: u64) {}
}

/// The first bytes of a number of `size` bytes, in the order of addresses.
fn put(value: u64, size: u8, big: bool, out: &mut [u8]) {
    let (low, high) = (value.to_le_bytes(), value.to_be_bytes());
    let bytes = if big { &high[8 - usize::from(size)..] } else { &low[..] };
    out.copy_from_slice(&bytes[..out.len()]);
}

fn client(number: u32) -> Client {
    match number {
        sys::VB_CLIENT_DISPLAY => Client::Display,
        sys::VB_CLIENT_CODE => Client::Code,
        _ => Client::Migration,
    }
}

impl Machine {
    /// Reads bytes of a space from a bus: each thing that the plan of the read reaches is asked, in order.
    pub fn read_from(&mut self, bus: &mut impl Bus, way: Way, space: SpaceId, addr: u64, out: &mut [u8]) -> Result<Access, Refusal> {
        let (plan, generation) = self.plan_read(way, space, addr, out.len())?;
        let mut access = Access { error: false, decode: false, generation };
        for it in &plan {
            let mine = &mut out[it.at as usize..(it.at + it.len) as usize];
            let region = RegionId(it.region);
            match it.what {
                sys::VB_REACHED_MEMORY => bus.read_memory(region, it.offset, mine),
                sys::VB_REACHED_CALLBACK => match bus.read_device(region, it.offset, it.size) {
                    Some(value) => put(value, it.size, it.big, mine),
                    None => {
                        mine.fill(0);
                        access.error = true;
                    }
                },
                _ => {
                    mine.fill(0);
                    access.decode = true;
                }
            }
        }
        Ok(access)
    }

    /// Writes bytes to a space over a bus: each thing that the plan of the write reaches is asked, in order.
    pub fn write_to(&mut self, bus: &mut impl Bus, way: Way, space: SpaceId, addr: u64, bytes: &[u8]) -> Result<Access, Refusal> {
        let (plan, generation) = self.plan_write(way, space, addr, bytes)?;
        let mut access = Access { error: false, decode: false, generation };
        for it in &plan {
            let mine = &bytes[it.at as usize..(it.at + it.len) as usize];
            let region = RegionId(it.region);
            match it.what {
                sys::VB_REACHED_MEMORY => bus.write_memory(region, it.offset, mine),
                sys::VB_REACHED_CALLBACK => access.error |= !bus.write_device(region, it.offset, it.size, it.value),
                sys::VB_REACHED_NOTIFIER => bus.notify(it.number),
                sys::VB_REACHED_MARK => bus.mark(region, client(it.number), it.offset),
                _ => access.decode = true,
            }
        }
        Ok(access)
    }

    /// What a read of `len` bytes of a space reaches, in order, and the number of the generation in which it does.
    pub fn plan_read(&mut self, way: Way, space: SpaceId, addr: u64, len: usize) -> Result<(Vec<Reached>, u64), Refusal> {
        // SAFETY: the handle and the slices are borrowed for the call, and each pointer comes with the length of its slice.
        planned(|out| unsafe { sys::vb_plan_read(&mut self.handle, way as u32, space.0, addr, len, out.as_mut_ptr(), out.len()) })
    }

    /// What a write of bytes to a space reaches, in order, and the number of the generation in which it does.
    ///
    /// ```
    /// # use vobrekan::*;
    /// # let mut machine = Machine::new(1 << 16)?;
    /// # let (board, ram) = (machine.region(Kind::Container, WHOLE)?, machine.region(Kind::Ram, 0x2000)?);
    /// # machine.space(SpaceId(0), board)?;
    /// # machine.add(board, 0, ram, 0)?;
    /// machine.log(ram, Client::Migration, true)?;
    /// let (plan, generation) = machine.plan_write(Way::Chunks, SpaceId(0), 0x10, &[1, 2])?;
    /// assert_eq!(plan.iter().map(|it| it.what).collect::<Vec<_>>(), [sys::VB_REACHED_MEMORY, sys::VB_REACHED_MARK]);
    /// assert_eq!(generation, 3);
    /// # Ok::<(), Refusal>(())
    /// ```
    pub fn plan_write(&mut self, way: Way, space: SpaceId, addr: u64, bytes: &[u8]) -> Result<(Vec<Reached>, u64), Refusal> {
        // SAFETY: the handle and the slices are borrowed for the call, and each pointer comes with the length of its slice.
        planned(|out| unsafe {
            sys::vb_plan_write(&mut self.handle, way as u32, space.0, addr, bytes.as_ptr(), bytes.len(), out.as_mut_ptr(), out.len())
        })
    }
}

/// A plan, with as much room as it asks for.
pub(crate) fn planned(mut ask: impl FnMut(&mut [Reached]) -> sys::vb_answer) -> Result<(Vec<Reached>, u64), Refusal> {
    let mut list = vec![Reached::default(); 8];
    loop {
        let answer = crate::refusal::accepted(ask(&mut list))?;
        let count = answer.value as usize;
        if count <= list.len() {
            list.truncate(count);
            return Ok((list, answer.other));
        }
        list.resize(count, Reached::default());
    }
}
