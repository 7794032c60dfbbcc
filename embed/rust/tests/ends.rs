//! A client and a server in memory: the handshake however it is cut, a content, closes, and faults.
use meadowtray::{
    write_header, write_method, Cause, ChannelState, Client, ClientSettings, End, Event, Field, FrameKind, Header, Kind,
    Limits, Message, Method, Phase, Rule, Server, ServerSettings, Status,
};

/// An event, without what it lends.
#[derive(PartialEq, Eq, Debug)]
enum Seen {
    Negotiated(u16, u32),
    Opened(u16),
    Told(u16, Vec<u8>, Vec<u8>, Vec<u8>),
    ChannelClosed(u16, Option<(u16, Vec<u8>)>),
    ConnectionClosed(Option<(u16, Vec<u8>)>),
    Blocked(Vec<u8>),
    Other,
}

fn seen(event: Event<'_>) -> Seen {
    match event {
        Event::Negotiated(agreed) => Seen::Negotiated(agreed.channel_max, agreed.frame_max),
        Event::Opened(channel) => Seen::Opened(channel),
        Event::Told(channel, Message { method, header, body }) => {
            Seen::Told(channel, method.to_vec(), header.to_vec(), body.to_vec())
        }
        Event::ChannelClosed(channel, reason) => {
            Seen::ChannelClosed(channel, reason.map(|reason| (reason.code, reason.text.to_vec())))
        }
        Event::ConnectionClosed(reason) => {
            Seen::ConnectionClosed(reason.map(|reason| (reason.code, reason.text.to_vec())))
        }
        Event::Blocked(reason) => Seen::Blocked(reason.to_vec()),
        _ => Seen::Other,
    }
}

/// Carries all that an end has to say to the other, in pieces of so many octets. The answer is what was told.
fn carry(from: &mut End, to: &mut End, size: usize) -> Vec<Seen> {
    let output = from.output().to_vec();
    let mut events = Vec::new();
    for piece in output.chunks(size) {
        let mut rest = piece;
        while !rest.is_empty() {
            let taken = to.feed(rest).unwrap();
            events.extend(taken.event.map(seen));
            rest = &rest[taken.octets..];
        }
    }
    from.wrote(output.len()).unwrap();
    events.retain(|event| *event != Seen::Other);
    events
}

/// Both ways, until nothing is left to say.
fn settle(client: &mut Client, server: &mut Server, size: usize) -> Vec<Seen> {
    let mut events = Vec::new();
    while !client.output().is_empty() || !server.output().is_empty() {
        events.extend(carry(client, server, size));
        events.extend(carry(server, client, size));
    }
    events
}

fn connected(size: usize) -> (Client, Server) {
    connected_to(size, false)
}

/// A client, and a server that lends or gathers.
fn connected_to(size: usize, lends: bool) -> (Client, Server) {
    let mut client = Client::new(&ClientSettings::default()).unwrap();
    let limits = Limits {
        frame_max: 4096,
        lends,
        ..Limits::default()
    };
    let mut server = Server::new(&ServerSettings {
        limits,
        ..ServerSettings::default()
    })
    .unwrap();
    assert_eq!(client.phase(), Phase::Handshake);
    assert_eq!(client.agreed(), None);
    assert_eq!(client.open_channel(), Err(Status::ASK_NOT_RUNNING));
    let negotiated = || Seen::Negotiated(2047, 4096);
    assert_eq!(settle(&mut client, &mut server, size), [negotiated(), negotiated()]);
    assert_eq!(client.lowest_free(), Ok(1));
    assert_eq!(client.open_channel(), Ok(1));
    assert_eq!(client.channel_state(1), ChannelState::Opening);
    assert_eq!(settle(&mut client, &mut server, size), [Seen::Opened(1), Seen::Opened(1)]);
    (client, server)
}

fn method(name: &str, fields: &[Field<'_>]) -> Vec<u8> {
    let mut room = [0; 512];
    let length = write_method(Kind::named(name).unwrap(), fields, &mut room).unwrap();
    room[..length].to_vec()
}

fn header(size: usize) -> Vec<u8> {
    let mut room = [0; 512];
    let length = write_header(size as u64, &[("content-type", Field::ShortStr(b"text/plain"))], &mut room).unwrap();
    room[..length].to_vec()
}

fn publish(queue: &[u8]) -> Vec<u8> {
    let fields = [
        Field::ShortStr(b""),
        Field::ShortStr(queue),
        Field::Bit(false),
        Field::Bit(false),
    ];
    method("basic.publish", &fields)
}

#[test]
fn a_content_in_any_pieces() {
    for size in 1..=40 {
        let (mut client, mut server) = connected(size);
        let body: Vec<u8> = (0..10_000).map(|i| (i * 7) as u8).collect();
        let (method, header) = (publish(b"orders"), header(body.len()));
        let message = Message {
            method: &method,
            header: &header,
            body: &body,
        };
        client.send(1, &message).unwrap();
        let told = carry(&mut client, &mut server, size);
        assert_eq!(told, [Seen::Told(1, method.clone(), header.clone(), body.clone())]);
        let method = Method::read(&method).unwrap();
        assert_eq!(method.field("routing-key"), Some(Field::ShortStr(b"orders")));
        assert_eq!(Header::read(&header).unwrap().body_size(), 10_000);
    }
}

#[test]
fn batches() {
    let (mut client, mut server) = connected(4096);
    for queue in [b"a", b"b", b"c", b"d", b"e"] {
        let (method, header) = (publish(queue), header(1));
        client
            .send(
                1,
                &Message {
                    method: &method,
                    header: &header,
                    body: queue,
                },
            )
            .unwrap();
    }
    let output = client.output().to_vec();
    let (mut rest, mut bodies) = (&output[..], Vec::new());
    while !rest.is_empty() {
        let taken = server
            .feed_batch::<2>(rest, |event| {
                if let Event::Told(1, message) = event {
                    bodies.extend_from_slice(message.body);
                }
            })
            .unwrap();
        rest = &rest[taken..];
    }
    assert_eq!(bodies, b"abcde");
}

#[test]
fn closes_and_refusals() {
    let (mut client, mut server) = connected(4096);
    let qos = method("basic.qos", &[Field::Long(0), Field::Short(1), Field::Bit(false)]);
    let qos = Message {
        method: &qos,
        ..Message::default()
    };
    client.send(1, &qos).unwrap();
    assert_eq!(client.send(1, &qos), Err(Status::ASK_REPLY_PENDING));
    assert_eq!(client.reply_due(1), Kind::named("basic.qos"));
    assert_eq!(client.send(2, &qos), Err(Status::ASK_NOT_OPEN));
    assert_eq!(client.close_channel(1, 1, &[b'x'; 256]), Err(Status::MISFIT));
    carry(&mut client, &mut server, 4096);
    server.blocked(b"disk full").unwrap();
    server.close_channel(1, 404, b"no queue").unwrap();
    assert_eq!(
        settle(&mut client, &mut server, 4096),
        [
            Seen::Blocked(b"disk full".to_vec()),
            Seen::ChannelClosed(1, Some((404, b"no queue".to_vec()))),
            Seen::ChannelClosed(1, None)
        ]
    );
    client.close(200, b"bye").unwrap();
    assert_eq!(
        settle(&mut client, &mut server, 4096),
        [
            Seen::ConnectionClosed(Some((200, b"bye".to_vec()))),
            Seen::ConnectionClosed(None)
        ]
    );
    assert_eq!(client.phase(), Phase::Closed);
    let fault = client.feed(&[8]).unwrap_err();
    assert_eq!((fault.status, fault.code), (Status::END_CLOSED, None));
}

#[test]
fn faults() {
    let (_client, mut server) = connected(4096);
    let fault = server.feed(&[8, 0, 3, 0, 0, 0, 0, 0xce]).unwrap_err();
    assert_eq!(fault.status, Status::END_PEER);
    assert!(fault.code.is_some());
    assert_eq!(server.phase(), Phase::Failed);
    assert!(!server.output().is_empty());
    let length = server.output().len();
    assert_eq!(server.wrote(length + 1), Err(Status::PAST_OUTPUT));
    let settings = ClientSettings {
        virtual_host: &[b'x'; 256],
        ..ClientSettings::default()
    };
    assert_eq!(Client::new(&settings).unwrap_err(), Status::MISFIT);
}

#[test]
fn ends_close_the_connection() {
    let (mut client, mut server) = connected(64);
    client.close(200, b"bye").unwrap();
    assert_eq!(settle(&mut client, &mut server, 64).len(), 2);
}

#[test]
fn blames() {
    let (_client, mut server) = connected(4096);
    assert_eq!((server.blame(), server.blame_line()), (None, None));
    let before = server.octets_taken();
    server.feed(&[8, 0, 3, 0, 0, 0, 0, 0xce]).unwrap_err();
    let blame = server.blame().unwrap();
    let frame = blame.frame.unwrap();
    assert_eq!((blame.octet, blame.rule, blame.code), (before, Rule::HeartbeatOnZero, Some(501)));
    assert_eq!((frame.kind, frame.channel, frame.method, frame.field), (FrameKind::Heartbeat, 3, None, None));
    assert_eq!(server.octets_taken(), before + 8);
    let line = format!("octet {before}, channel 3: a heartbeat on a channel (501)");
    assert_eq!(server.blame_line(), Some(line));
}

#[test]
fn what_was_heard() {
    let (mut client, mut server) = connected(64);
    let start = client.heard(Kind::named("connection.start").unwrap()).unwrap().unwrap();
    let start = Method::read(&start).unwrap();
    assert_eq!(start.field("mechanisms"), Some(Field::LongStr(b"PLAIN")));
    let open = server.heard(Kind::named("connection.open").unwrap()).unwrap().unwrap();
    assert_eq!(Method::read(&open).unwrap().field("virtual-host"), Some(Field::ShortStr(b"/")));
    assert_eq!(server.heard(Kind::named("basic.ack").unwrap()), Ok(None));
    server.forget_heard();
    assert_eq!(server.heard(Kind::named("connection.open").unwrap()), Ok(None));
    assert_eq!((client.heartbeat(), client.phase()), (0, Phase::Running));
}

#[test]
fn closes_name_a_method() {
    let (mut client, mut server) = connected(4096);
    let declare = Kind::named("queue.declare").unwrap();
    assert_eq!(client.closed_for(), None);
    server.close_channel_for(1, 404, b"no queue", declare).unwrap();
    assert_eq!(settle(&mut client, &mut server, 4096).len(), 2);
    let cause = client.closed_for().unwrap();
    assert_eq!((cause.class_id, cause.method_id, cause.kind()), (50, 10, Some(declare)));
    client.close(200, b"bye").unwrap();
    settle(&mut client, &mut server, 4096);
    let none = Cause { class_id: 0, method_id: 0 };
    assert_eq!((server.closed_for(), none.kind()), (Some(none), None));
}

#[test]
fn what_is_kept() {
    let (mut client, mut server) = connected(4096);
    let body = [7; 9000];
    let (method, header) = (publish(b"q"), header(body.len()));
    let message = Message {
        method: &method,
        header: &header,
        body: &body,
    };
    client.send(1, &message).unwrap();
    let output = client.output().to_vec();
    let mut rest = &output[..5000];
    while !rest.is_empty() {
        let octets = server.feed(rest).unwrap().octets;
        rest = &rest[octets..];
    }
    assert_eq!((server.gathered(1), server.gathered_in_all()), (4088, 4088));
    assert_eq!(server.kept(), server.pending() + method.len() + header.len() + 4088);
}

#[test]
fn a_content_that_is_lent() {
    for size in [1, 7, 40, 4096, 20_000] {
        let (mut client, mut server) = connected_to(size, true);
        let body: Vec<u8> = (0..10_000).map(|i| (i * 7) as u8).collect();
        let (method, header) = (publish(b"orders"), header(body.len()));
        let message = Message {
            method: &method,
            header: &header,
            body: &body,
        };
        client.send(1, &message).unwrap();
        let output = client.output().to_vec();
        let (mut came, mut whole) = (Vec::new(), 0);
        for piece in output.chunks(size) {
            let mut rest = piece;
            while !rest.is_empty() {
                let taken = server.feed(rest).unwrap();
                match taken.event {
                    Some(Event::Begins(1, octets)) => assert_eq!(octets, method),
                    Some(Event::Heads(1, octets, false)) => assert_eq!(octets, header),
                    Some(Event::Part(1, octets, ends)) => {
                        came.extend_from_slice(octets);
                        whole += usize::from(ends);
                    }
                    None => {}
                    other => panic!("{other:?}"),
                }
                rest = &rest[taken.octets..];
            }
            assert_eq!(server.gathered_in_all(), 0);
            assert_eq!(server.kept(), server.pending());
        }
        assert_eq!((came, whole), (body, 1));
        server.close_channel(1, 200, b"enough").unwrap();
        client.wrote(output.len()).unwrap();
        assert_eq!(settle(&mut client, &mut server, size).len(), 2);
    }
}

#[test]
fn ends_go_to_other_threads() {
    let (mut client, mut server) = connected(4096);
    client.close(200, b"bye").unwrap();
    let asked = client.output().to_vec();
    let answered = std::thread::spawn(move || {
        server.feed(&asked).unwrap();
        server.output().to_vec()
    })
    .join()
    .unwrap();
    let told = std::thread::spawn(move || client.feed(&answered).unwrap().event.map(seen)).join().unwrap();
    assert_eq!(told, Some(Seen::ConnectionClosed(None)));
}
