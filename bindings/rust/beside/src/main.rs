//! How long the calls of vm-memory take that are like those of libvobrekan: the least of five rounds, a call. It knows memory alone, so
//! the map is that of `bench` without its devices: 280 regions of 4 KiB.
use std::hint::black_box;
use std::time::Instant;
use vm_memory::{Bytes, GuestAddress, GuestAddressSpace, GuestMemory, GuestMemoryAtomic, GuestMemoryMmap};

/// The least of five rounds of so many calls, in nanoseconds a call.
fn least(calls: u32, mut call: impl FnMut(u32)) -> f64 {
    (0..5)
        .map(|_| {
            let start = Instant::now();
            for i in 0..calls {
                call(i);
            }
            start.elapsed().as_nanos() as f64 / f64::from(calls)
        })
        .fold(f64::INFINITY, f64::min)
}

fn main() {
    let ranges: Vec<_> = (0..40u64)
        .flat_map(|i| (0..49).step_by(7).map(move |j| (GuestAddress(i * 0x10_0000 + j * 0x2000), 0x1000)))
        .collect();
    let memory = GuestMemoryMmap::<()>::from_ranges(&ranges).unwrap();
    let shared = GuestMemoryAtomic::new(memory.clone());
    let at = |i: u32| ranges[(i.wrapping_mul(2_654_435_761) % 280) as usize].0;
    println!("ns a call, over {} regions", ranges.len());
    println!("{:8.0}  find an address", least(1_000_000, |i| _ = black_box(memory.find_region(at(i)).is_some())));
    println!("{:8.0}  read a word of memory", least(500_000, |_| _ = black_box(memory.read_obj::<u64>(GuestAddress(8)).unwrap())));
    println!("{:8.0}  write a word of memory", least(500_000, |i| memory.write_obj(u64::from(i), GuestAddress(8)).unwrap()));
    let read = |_| _ = black_box(shared.memory().read_obj::<u64>(GuestAddress(8)).unwrap());
    println!("{:8.0}  read a word of memory that may be replaced", least(500_000, read));
    println!(
        "{:8.0}  take a region out and put it back, and publish",
        least(200, |_| {
            let (fewer, region) = memory.remove_region(ranges[100].0, 0x1000).unwrap();
            shared.lock().unwrap().replace(black_box(fewer.insert_region(region).unwrap()));
        })
    );
}
