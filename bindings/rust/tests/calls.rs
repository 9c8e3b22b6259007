//! The crate as a program calls it: what comes, what is refused, and that an end may be handed to another thread.
use tribes::{Client, Config, Error, Field, Kind, MAX_DATAGRAM, Object, Server, put_bits, take_bits};

const CONFIG: Config = Config { client: 3, life: 1_000, size: 400, version: 3, move_bits: 24 };
const FIELDS: [Field; 1] = [Field { lo: -100, hi: 100, bits: 8 }];
const KINDS: [Kind; 1] = [Kind { fields: 1, weight: 5 }];

fn ends() -> Result<(Server, Client), Error> {
    Ok((Server::new(&CONFIG, &KINDS, &FIELDS, &[b"drone"])?, Client::new(&CONFIG, &KINDS, &FIELDS)?))
}

/// A packet each way.
fn turn(server: &mut Server, client: &mut Client, value: i64) -> Result<(), Error> {
    let mut place = [0; MAX_DATAGRAM];
    if let Some(bytes) = server.pack(&mut place, |_, _| value)? {
        client.arrive(bytes)?;
    }
    if let Some(bytes) = client.pack(&mut place)? {
        server.arrive(bytes, 32)?;
    }
    Ok(())
}

#[test]
fn what_is_told_comes() -> Result<(), Error> {
    let (mut server, mut client) = ends()?;
    let drone = server.show(&Object { kind: 0, block: 0, level: 1, control: 0 })?;
    server.changed(drone, 1)?;
    for k in 0..20 {
        server.post(&[k], true)?;
        client.sample(put_bits(&[16, 8], &[u64::from(k) * 7, 1])?)?;
    }
    let (mut events, mut moves) = (Vec::new(), Vec::new());
    for _ in 0..6 {
        turn(&mut server, &mut client, -42)?;
        events.extend(client.events().map(|event| event.bytes[0]));
        moves.extend(server.moves());
    }
    assert_eq!(events, (0..20).collect::<Vec<u8>>());
    let parts = moves.iter().map(|bits| take_bits(&[16, 8], *bits)).collect::<Result<Vec<_>, _>>()?;
    assert_eq!(parts, (0..20).map(|k| [k * 7, 1]).collect::<Vec<[u64; 2]>>());
    let shown: Vec<_> = client.copies().map(|(_, copy)| copy.values).collect();
    assert_eq!(shown, [[-42]]);
    assert!(server.settled(drone, 0)?);
    assert_eq!(client.counts().accepted, 20);
    Ok(())
}

#[test]
fn refusals_say_why() -> Result<(), Box<dyn std::error::Error>> {
    let (mut server, mut client) = ends()?;
    let far = server.hide(7).expect_err("no such period");
    assert_eq!((far.code, far.first), (-36, 7));
    assert_eq!(client.arrive(&[0xff]).expect_err("no datagram").code, -42);
    assert_eq!(client.sample(1 << 24).expect_err("a bit too many").code, -74);
    let wide = Client::new(&Config { client: 16, ..CONFIG }, &KINDS, &FIELDS).map(|_| ()).expect_err("no such client");
    let said: Box<dyn std::error::Error> = wide.into();
    assert!(said.to_string().contains("above 15"), "{said}");
    Ok(())
}

#[test]
fn an_end_goes_to_another_thread() -> Result<(), Error> {
    let (mut server, mut client) = ends()?;
    server.post(b"there", true)?;
    let (server, client) = std::thread::spawn(move || turn(&mut server, &mut client, 0).map(|()| (server, client)))
        .join()
        .expect("the thread ends")?;
    let mut client = client;
    assert_eq!(client.events().count(), 1);
    drop(server);
    Ok(())
}
