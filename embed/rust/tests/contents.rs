//! Contents whose bodies come part by part, or are lent: what goes out is what one send puts.
use meadowtray::{
    write_header, write_method, Client, ClientSettings, Content, End, Event, Field, Kind, Limits, Message, Server,
    ServerSettings, Status,
};

/// Carries both ways until nothing is left to say.
fn settle(client: &mut End, server: &mut End) {
    loop {
        let said = client.output().to_vec();
        let mut at = 0;
        while at < said.len() {
            at += server.feed(&said[at..]).unwrap().octets;
        }
        client.wrote(at).unwrap();
        let back = server.output().to_vec();
        let mut at = 0;
        while at < back.len() {
            at += client.feed(&back[at..]).unwrap().octets;
        }
        server.wrote(at).unwrap();
        if said.is_empty() && back.is_empty() {
            return;
        }
    }
}

fn connected() -> (Client, Server) {
    connected_with(true)
}

fn connected_with(lends: bool) -> (Client, Server) {
    let limits = Limits {
        frame_max: 4096,
        lends,
        ..Limits::default()
    };
    let mut client = Client::new(&ClientSettings {
        limits,
        ..ClientSettings::default()
    })
    .unwrap();
    let mut server = Server::new(&ServerSettings {
        limits,
        ..ServerSettings::default()
    })
    .unwrap();
    settle(&mut client, &mut server);
    assert_eq!(client.open_channel(), Ok(1));
    settle(&mut client, &mut server);
    (client, server)
}

fn payloads(size: usize) -> (Vec<u8>, Vec<u8>) {
    let (mut method, mut header) = ([0; 256], [0; 256]);
    let fields = [Field::ShortStr(b""), Field::ShortStr(b"orders"), Field::Bit(false), Field::Bit(false)];
    let long = write_method(Kind::named("basic.publish").unwrap(), &fields, &mut method).unwrap();
    let head = write_header(size as u64, &[], &mut header).unwrap();
    (method[..long].to_vec(), header[..head].to_vec())
}

#[test]
fn parts_are_what_one_send_puts() {
    let body: Vec<u8> = (0..10_000u32).map(|octet| octet as u8).collect();
    let (method, header) = payloads(body.len());
    for part in [1, 4088, 4089, 10_000] {
        let (mut client, mut server) = connected();
        let (mut twin, _other) = connected();
        let message = Message { method: &method, header: &header, body: &body };
        twin.send(1, &message).unwrap();
        let mut content = Content::new().unwrap();
        let mut octets = client.begin_content(&mut content, 1, &method, &header).unwrap().to_vec();
        assert_eq!(content.add_to(octets.len() as u64), twin.output().len() as u64);
        let mut rest = &body[..];
        while content.left() > 0 {
            assert_eq!(content.left(), rest.len() as u64);
            let (now, later) = rest.split_at(part.min(rest.len()));
            octets.extend_from_slice(content.write(now).unwrap());
            rest = later;
        }
        assert_eq!(octets, twin.output());
        assert_eq!(content.write(b"x"), Err(Status::MISFIT));
        let (mut at, mut came, mut whole) = (0, 0, 0);
        while at < octets.len() {
            at += server
                .feed_batch::<4>(&octets[at..], |event| {
                    if let Event::Part(1, octets, last) = event {
                        came += octets.len();
                        whole += usize::from(last);
                    }
                })
                .unwrap();
        }
        assert_eq!((came, whole), (body.len(), 1));
    }
}

#[test]
fn what_waits_goes_first() {
    let (mut client, _server) = connected();
    let (method, header) = payloads(3);
    let mut content = Content::new().unwrap();
    assert_eq!(content.write(b"abc"), Err(Status::NOT_THERE));
    client.beat().unwrap();
    assert_eq!(client.begin_content(&mut content, 1, &method, &header), Err(Status::WAITS));
    let length = client.output().len();
    client.wrote(length).unwrap();
    assert_eq!(client.begin_content(&mut content, 2, &method, &header), Err(Status::ASK_NOT_OPEN));
    assert!(client.begin_content(&mut content, 1, &method, &header).is_ok());
    assert_eq!(client.begin_content(&mut content, 1, &method, &header), Err(Status::WAITS));
    assert_eq!(content.left(), 3);
    assert!(content.write(b"abc").is_ok());
    assert!(client.begin_content(&mut content, 1, &method, &header).is_ok());
}

#[test]
fn an_end_that_gathers_begins_one_too() {
    let (mut client, mut server) = connected_with(false);
    let (method, header) = payloads(3);
    let mut content = Content::new().unwrap();
    let mut sent = client.begin_content(&mut content, 1, &method, &header).unwrap().to_vec();
    sent.extend_from_slice(content.write(b"abc").unwrap());
    let mut at = 0;
    while at < sent.len() {
        let fed = server.feed(&sent[at..]).unwrap();
        at += fed.octets;
        if let Some(Event::Told(channel, message)) = fed.event {
            assert_eq!((channel, message.method, message.header), (1, &method[..], &header[..]));
            assert_eq!(message.body, b"abc");
            assert_eq!(at, sent.len());
        }
    }
    assert_eq!(at, sent.len());
}

#[test]
fn pieces_are_what_one_send_puts() {
    let body: Vec<u8> = (0..10_000u32).map(|octet| octet as u8).collect();
    for length in [0, 1, 4088, 10_000] {
        let (method, header) = payloads(length);
        let (mut client, _server) = connected();
        let (mut twin, _other) = connected();
        let message = Message { method: &method, header: &header, body: &body[..length] };
        twin.send(1, &message).unwrap();
        let mut content = Content::new().unwrap();
        let pieces = client.lend_content(&mut content, 1, &message).unwrap();
        assert_eq!(pieces.len(), 2 * length.div_ceil(4088) + 1);
        let joined: Vec<u8> = pieces.iter().flat_map(|piece| piece.iter().copied()).collect();
        assert_eq!(joined, twin.output());
        assert!(client.output().is_empty());
        let other = Message { body: &body[..length + 1 - 2 * (length / 10_000)], ..message };
        assert_eq!(client.lend_content(&mut content, 1, &other).err(), Some(Status::MISFIT));
    }
}
