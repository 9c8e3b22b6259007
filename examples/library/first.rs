//! Two ends, an object and an event, in Rust: docs/library.md, "The same ten lines".
use tribes::{Client, Config, Field, Kind, MAX_DATAGRAM, Object, Server};

fn main() -> Result<(), tribes::Error> {
    let config = Config { client: 0, life: 1_000_000, size: 600, version: 3, move_bits: 22 };
    let fields = [Field { lo: 0, hi: 65_535, bits: 16 }, Field { lo: 0, hi: 100, bits: 7 }];
    let (kinds, tank, mut place) = ([Kind { fields: 2, weight: 8 }], [1_200, 80], [0; MAX_DATAGRAM]);

    let mut server = Server::new(&config, &kinds, &fields, &[b"tank"])?;
    let mut client = Client::new(&config, &kinds, &fields)?;
    server.show(&Object { kind: 0, block: 0, level: 0, control: 1 })?;
    server.post(b"welcome", true)?;
    for _ in 0..3 {
        server.pack(&mut place, |_, field| tank[field as usize])?.map(|bytes| client.arrive(bytes)).transpose()?;
        client.events().for_each(|event| println!("event {}", String::from_utf8_lossy(&event.bytes)));
        client.pack(&mut place)?.map(|bytes| server.arrive(bytes, 32)).transpose()?;
    }
    client.copies().for_each(|(_, copy)| println!("copy {} {}", copy.values[0], copy.values[1]));
    Ok(())
}
