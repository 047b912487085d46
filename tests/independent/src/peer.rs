//! The proved library where it cannot be linked: it is built for x86-64, and on
//! another processor `tests/c/peer.c` serves it under an emulator. The variable
//! `MODEURWAN_PEER` holds the command. One peer runs for each thread.

use crate::oracle::{Answer, Content, Reading, Writing};
use std::cell::RefCell;
use std::io::{Read, Write};
use std::ops::Range;
use std::process::{Child, Command, Stdio};

thread_local! {
    static PEER: RefCell<Child> = RefCell::new(start());
}

fn start() -> Child {
    let command = std::env::var("MODEURWAN_PEER").expect("MODEURWAN_PEER, the command of the peer");
    let mut words = command.split(' ');
    Command::new(words.next().expect("a command"))
        .args(words)
        .stdin(Stdio::piped())
        .stdout(Stdio::piped())
        .spawn()
        .expect("the peer starts")
}

/// Sends a request: the function, its numbers, the buffers. Gives as many
/// numbers as the function's result has, and fills the buffers to be written.
fn call<const N: usize>(
    function: u8,
    numbers: &[usize],
    sent: &[&[u8]],
    written: &mut [&mut [u8]],
) -> [u32; N] {
    PEER.with(|peer| {
        let mut peer = peer.borrow_mut();
        let mut request = vec![function];
        for &number in numbers {
            request.extend((number as u64).to_le_bytes());
        }
        for bytes in sent {
            request.extend_from_slice(bytes);
        }
        let input = peer.stdin.as_mut().expect("the peer's input");
        input.write_all(&request).expect("the peer listens");
        input.flush().expect("the peer listens");
        let output = peer.stdout.as_mut().expect("the peer's output");
        let result = std::array::from_fn(|_| {
            let mut bytes = [0; 8];
            output.read_exact(&mut bytes).expect("the peer answers");
            u32::try_from(u64::from_le_bytes(bytes)).expect("an answer's numbers are small")
        });
        for bytes in written {
            output.read_exact(bytes).expect("the peer answers");
        }
        result
    })
}

fn answer([number, place, cycles, rows, states]: [u32; 5]) -> Answer {
    Answer {
        number,
        place,
        cycles,
        rows,
        states,
    }
}

pub fn read(graph: &[u8]) -> Reading {
    let [number, place, operations, classes, controls, arcs] =
        call(b'r', &[graph.len()], &[graph], &mut []);
    Reading {
        number,
        place,
        operations,
        classes,
        controls,
        arcs,
    }
}

pub fn schedule(graph: &[u8], slots: &mut [u64], table: &mut [u8]) -> Answer {
    let mut bytes: Vec<u8> = slots.iter().flat_map(|slot| slot.to_le_bytes()).collect();
    let (sent, room) = (bytes.clone(), table.to_vec());
    let result = call(
        b's',
        &[graph.len(), slots.len(), room.len()],
        &[graph, &sent, &room],
        &mut [&mut bytes, table],
    );
    for (slot, bytes) in slots.iter_mut().zip(bytes.chunks_exact(8)) {
        *slot = u64::from_le_bytes(bytes.try_into().expect("eight bytes"));
    }
    answer(result)
}

pub fn check(graph: &[u8], table: &[u8]) -> Answer {
    answer(call(
        b'c',
        &[graph.len(), table.len()],
        &[graph, table],
        &mut [],
    ))
}

pub fn rows_of(graph: &[u8], table: &[u8], cycle: u32) -> Range<usize> {
    let [start, end]: [u32; 2] = call(
        b'q',
        &[graph.len(), table.len(), cycle as usize],
        &[graph, table],
        &mut [],
    );
    start as usize..end as usize
}

pub fn write(content: &Content, output: &mut [u8]) -> Writing {
    let Content {
        edition,
        operations,
        limits,
        controls,
        arcs,
    } = content;
    let room = output.to_vec();
    let sent: [&[u8]; 5] = [operations, limits, controls, arcs, &room];
    let mut numbers = vec![usize::from(*edition)];
    numbers.extend(sent.map(<[u8]>::len));
    let [number, place, length] = call(b'w', &numbers, &sent, &mut [output]);
    Writing {
        number,
        place,
        length,
    }
}
