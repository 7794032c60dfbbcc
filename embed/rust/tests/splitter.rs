//! A splitter through the crate: frames however the stream is cut, faults, and a splitter in another thread.
use meadowtray::{Frame, FrameKind, Splitter, Status};

const HEARTBEAT: [u8; 8] = [8, 0, 0, 0, 0, 0, 0, 0xce];

fn frame(kind: u8, channel: u16, payload: &[u8]) -> Vec<u8> {
    let mut octets = vec![kind];
    octets.extend(channel.to_be_bytes());
    octets.extend((payload.len() as u32).to_be_bytes());
    octets.extend(payload);
    octets.push(0xce);
    octets
}

fn expected() -> Vec<(FrameKind, u16, Vec<u8>)> {
    vec![
        (FrameKind::Method, 1, vec![0, 20, 0, 10, 0]),
        (FrameKind::Heartbeat, 0, vec![]),
        (FrameKind::Body, 7, (0..300).map(|i| (i * 7) as u8).collect()),
        (FrameKind::Body, 65535, vec![]),
    ]
}

fn stream() -> Vec<u8> {
    let kinds = [1, 8, 3, 3];
    expected()
        .iter()
        .zip(kinds)
        .flat_map(|((_, channel, payload), kind)| frame(kind, *channel, payload))
        .collect()
}

fn owned(frame: Frame<'_>) -> (FrameKind, u16, Vec<u8>) {
    (frame.kind, frame.channel, frame.payload.to_vec())
}

#[test]
fn frames_of_any_pieces() {
    for size in 1..=40 {
        let mut splitter = Splitter::new(4096).unwrap();
        let mut frames = Vec::new();
        for piece in stream().chunks(size) {
            let mut rest = piece;
            while !rest.is_empty() {
                let fed = splitter.feed(rest).unwrap();
                frames.extend(fed.frame.map(owned));
                rest = &rest[fed.taken..];
            }
        }
        assert_eq!(frames, expected(), "pieces of {size}");
    }
}

#[test]
fn batches_of_any_pieces() {
    for size in 1..=40 {
        let mut splitter = Splitter::new(4096).unwrap();
        let mut frames = Vec::new();
        for piece in stream().chunks(size) {
            let mut rest = piece;
            while !rest.is_empty() {
                let taken = splitter
                    .feed_batch::<3>(rest, |frame| frames.push(owned(frame)))
                    .unwrap();
                rest = &rest[taken..];
            }
        }
        assert_eq!(frames, expected(), "pieces of {size}");
    }
}

#[test]
fn faults_have_places() {
    let mut splitter = Splitter::new(4096).unwrap();
    assert_eq!(splitter.feed(&HEARTBEAT).unwrap().taken, 8);
    let fault = splitter.feed(&[9]).unwrap_err();
    assert_eq!((fault.at, fault.status), (8, Status::FRAME_UNKNOWN_TYPE));
    assert_eq!(fault.to_string(), "unknown frame type at octet 8");
    assert_eq!(splitter.feed(&HEARTBEAT).unwrap_err().status, Status::FRAME_FAILED);
}

#[test]
fn limits() {
    assert_eq!(Splitter::new(7).unwrap_err(), Status::LIMIT);
    let mut splitter = Splitter::new(8).unwrap();
    splitter.set_limit(16).unwrap();
    splitter.feed(&[8]).unwrap();
    assert_eq!(splitter.pending(), 1);
    assert_eq!(splitter.set_limit(8).unwrap_err(), Status::LIMIT);
}

#[test]
fn goes_to_another_thread() {
    let mut splitter = Splitter::new(4096).unwrap();
    splitter.feed(&HEARTBEAT[..3]).unwrap();
    let found = std::thread::spawn(move || splitter.feed(&HEARTBEAT[3..]).unwrap().frame.map(owned))
        .join()
        .unwrap();
    assert_eq!(found, Some((FrameKind::Heartbeat, 0, vec![])));
}
