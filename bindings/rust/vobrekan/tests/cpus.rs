//! Virtual CPUs on threads of their own, beside the desk of their machine.
use std::thread;
use vobrekan::{Cpu, Desk, Kind, ListenerId, Order, Refusal, RegionId, SpaceId};

const SPACE: SpaceId = SpaceId(0);

/// Memory of two pages at 0x10000, and a window of one page on it at 0, which is answered.
fn map() -> (Desk, RegionId, RegionId) {
    let mut desk = Desk::new(1 << 12).unwrap();
    let root = desk.region(Kind::Container, 0x20000).unwrap();
    let ram = desk.region(Kind::Ram, 0x2000).unwrap();
    let window = desk.region(Kind::Alias(ram, 0), 0x1000).unwrap();
    desk.ask(Order::Begin).unwrap();
    desk.ask(Order::Add(root, 0x10000, ram, 0)).unwrap();
    desk.ask(Order::Add(root, 0, window, 0)).unwrap();
    desk.ask(Order::Space(SPACE, root)).unwrap();
    assert_eq!(desk.ask(Order::Commit), Ok(Some(1)));
    (desk, ram, window)
}

fn word(cpu: &mut Cpu, addr: u64) -> u64 {
    let mut out = [0; 8];
    cpu.read(SPACE, addr, &mut out).unwrap();
    u64::from_le_bytes(out)
}

/// Writes a word through the window, and finds it in just one of the two pages.
fn work(mut cpu: Cpu, at: u64) -> bool {
    (1..=2_000).all(|i| {
        cpu.enter().unwrap();
        cpu.write8(SPACE, at, i).unwrap();
        let (first, second) = (word(&mut cpu, 0x10000 + at), word(&mut cpu, 0x11000 + at));
        cpu.leave().unwrap();
        (first == i) != (second == i)
    })
}

#[test]
fn each_sees_one_map_while_it_is_entered() {
    let (mut desk, _, window) = map();
    let workers: Vec<_> = (0..4)
        .map(|number| {
            let cpu = desk.cpu().unwrap();
            thread::spawn(move || work(cpu, 8 * number))
        })
        .collect();
    let mut moves = 0;
    while moves < 200 {
        match desk.ask(Order::Retarget(window, 0x1000 * (moves % 2))) {
            Ok(_) => moves += 1,
            Err(refusal) => assert!(matches!(refusal, Refusal::Held(..))),
        }
    }
    assert!(workers.into_iter().all(|worker| worker.join().unwrap()));
}

#[test]
fn a_generation_that_is_in_use_stays() {
    let (mut desk, ram, window) = map();
    let mut cpu = desk.cpu().unwrap();
    assert_eq!(cpu.enter(), Ok(1));
    cpu.write8(SPACE, 8, 5).unwrap();
    desk.ask(Order::Retarget(window, 0x1000)).unwrap();
    assert_eq!((word(&mut cpu, 8), desk.find(SPACE, 8).unwrap().offset), (5, 0x1008));
    cpu.leave().unwrap();
    assert_eq!(word(&mut cpu, 8), 0);
    assert_eq!(cpu.write8(SPACE, 12, 5), Err(Refusal::NotWhole(2)));
    assert!(desk.harvest(ram, vobrekan::Client::Display).unwrap().is_empty());
    let mut rest: Vec<_> = (0..15).map(|_| desk.cpu().unwrap()).collect();
    assert_eq!(desk.cpu().err(), Some(Refusal::NoCpu));
    drop(desk);
    assert_eq!(rest[3].enter(), Ok(2));
}

#[test]
fn parts_of_words_are_written_beside_others() {
    let (mut desk, _, _) = map();
    let writers: Vec<_> = (0..4u64)
        .map(|number| {
            let mut cpu = desk.cpu().unwrap();
            thread::spawn(move || {
                (0..2_000u32).all(|i| {
                    let byte = [i as u8];
                    while cpu.write(SPACE, number, &byte, 4).unwrap().count == 0 {}
                    let mut out = [0];
                    cpu.read(SPACE, number, &mut out).unwrap();
                    out == byte
                })
            })
        })
        .collect();
    assert!(writers.into_iter().all(|writer| writer.join().unwrap()));
}

#[test]
fn the_first_bytes_of_a_write() {
    let (mut desk, _, _) = map();
    let mut cpu = desk.cpu().unwrap();
    let written = cpu.write(SPACE, 0x20, b"0123456789", 0).unwrap();
    assert_eq!((written.count, written.begun, written.access.generation), (8, false, 1));
    let written = cpu.write(SPACE, 0xffe, b"0123", 8).unwrap();
    assert_eq!((written.count, written.access.decode), (4, true));
    let mut out = [0; 10];
    cpu.read(SPACE, 0x20, &mut out).unwrap();
    assert_eq!(&out, b"01234567\0\0");
}

#[test]
fn what_the_listeners_of_a_desk_were_told_is_forgotten() {
    let (mut desk, ram, window) = map();
    desk.ask(Order::Listen(ListenerId(3), SPACE, 0)).unwrap();
    let mut end = desk.told(0).unwrap().len();
    for round in 1..=100 {
        desk.forget(end).unwrap();
        assert_eq!(desk.told(end), Ok(vec![]));
        desk.ask(Order::Retarget(window, 0x1000 * (round % 2))).unwrap();
        let told = desk.told(end).unwrap();
        assert!(told.iter().any(|call| call.what == 2 && call.range.start == 0 && call.range.region == ram.0));
        assert_eq!(desk.told(end - 1), Err(Refusal::Forgotten(end as u64)));
        end += told.len();
    }
    desk.forget(usize::MAX).unwrap();
    assert_eq!(desk.told(end), Ok(vec![]));
}
