//! Methods, content headers and tables through the crate: what stands in them, and faults with their places.
use meadowtray::{write_header, write_method, write_table};
use meadowtray::{Fault, Field, Header, Kind, Method, Status, Table, Unwritten, Value};

#[test]
fn a_method_by_place_and_by_name() {
    let payload = b"\x00\x3c\x00\x28\x00\x00\x03amq\x01k\x02";
    let method = Method::read(payload).unwrap();
    assert_eq!(method.kind().name(), "basic.publish");
    assert_eq!((method.kind().class_id(), method.kind().method_id()), (60, 40));
    assert_eq!(Method::peek(payload), Some(method.kind()));
    let fields: Vec<_> = method.fields().collect();
    assert_eq!(
        fields,
        [
            Field::ShortStr(b"amq"),
            Field::ShortStr(b"k"),
            Field::Bit(false),
            Field::Bit(true)
        ]
    );
    let names: Vec<_> = method.names().collect();
    assert_eq!(names, ["exchange", "routing-key", "mandatory", "immediate"]);
    assert_eq!(method.field("immediate"), Some(Field::Bit(true)));
    assert_eq!(method.field("queue"), None);
}

#[test]
fn numbers_of_a_method() {
    let method = Method::read(&[0, 10, 0, 30, 7, 255, 0, 2, 0, 0, 0, 60]).unwrap();
    assert_eq!(method.field("channel-max"), Some(Field::Short(2047)));
    assert_eq!(method.field("frame-max"), Some(Field::Long(131072)));
    assert_eq!(method.field("heartbeat"), Some(Field::Short(60)));
    let method = Method::read(&[0, 60, 0, 80, 0, 0, 0, 0, 0, 0, 1, 0, 1]).unwrap();
    assert_eq!(
        method.fields().collect::<Vec<_>>(),
        [Field::LongLong(256), Field::Bit(true)]
    );
}

#[test]
fn faults_have_places() {
    let fault = Method::read(b"\x00\x3c\x00\x28\x00\x00\x03am").unwrap_err();
    assert_eq!(
        fault,
        Fault {
            at: 6,
            status: Status::VALUE_ENDS
        }
    );
    assert_eq!(fault.to_string(), "the octets end early at octet 6");
    assert_eq!(
        Method::read(&[0, 60, 0, 1]).unwrap_err(),
        Fault {
            at: 0,
            status: Status::UNKNOWN_METHOD
        }
    );
    assert_eq!(
        Method::read(&[0, 90, 0, 10, 0]).unwrap_err(),
        Fault {
            at: 4,
            status: Status::TRAILING
        }
    );
    assert_eq!(
        Header::read(&[0, 60, 0, 1]).unwrap_err(),
        Fault {
            at: 2,
            status: Status::BAD_WEIGHT
        }
    );
    assert_eq!(
        Table::read(b"\0\0\0\x03\x01a?").unwrap_err(),
        Fault {
            at: 6,
            status: Status::VALUE_UNKNOWN_TAG
        }
    );
    assert_eq!(Method::peek(&[0, 60, 0]), None);
}

#[test]
fn a_header_by_name() {
    let payload = [
        &[0, 60, 0, 0, 0, 0, 0, 0, 0, 0, 0, 5, 0xb0, 0x40][..],
        b"\x03a/b\0\0\0\x03\x01kV\x02",
        &[0, 0, 0, 0, 0, 0, 1, 0],
    ]
    .concat();
    let header = Header::read(&payload).unwrap();
    assert_eq!(header.body_size(), 5);
    assert_eq!(header.property("content-type"), Some(Field::ShortStr(b"a/b")));
    assert_eq!(header.property("delivery-mode"), Some(Field::Octet(2)));
    assert_eq!(header.property("timestamp"), Some(Field::LongLong(256)));
    assert_eq!(header.property("reply-to"), None);
    assert_eq!(header.properties().count(), 4);
    assert_eq!(header.headers().unwrap().get("k"), Some(Value::Void));
}

#[test]
fn tables_and_arrays_lie_in_tables() {
    let octets = b"\0\0\0\x14\x01aA\0\0\0\x0dF\0\0\0\x03\x01nVA\0\0\0\0rest";
    let table = Table::read(octets).unwrap();
    assert_eq!(table.octets().len(), 24);
    assert_eq!(table.iter().len(), 1);
    let Some(Value::Array(array)) = table.get("a") else {
        panic!("no array");
    };
    let values: Vec<_> = array.iter().collect();
    let [Value::Table(inner), Value::Array(empty)] = values[..] else {
        panic!("{values:?}");
    };
    assert_eq!(inner.iter().collect::<Vec<_>>(), [(&b"n"[..], Value::Void)]);
    assert_eq!(empty.iter().len(), 0);
    assert_eq!(table.get("b"), None);
}

#[test]
fn numbers_of_a_table() {
    let table =
        Table::read(b"\0\0\0\x1f\x01bb\xff\x01sU\x80\0\x01fF\0\0\0\0\x01gf\x3f\xc0\0\0\x01DD\x02\0\0\x01\0").unwrap();
    let values: Vec<_> = table.iter().map(|(_, value)| value).collect();
    assert_eq!(values[0], Value::ShortShortInt(-1));
    assert_eq!(values[1], Value::ShortInt(-32768));
    assert_eq!(values[3], Value::Float(1.5));
    assert_eq!(values[4], Value::Decimal { scale: 2, number: 256 });
}

#[test]
fn a_method_is_written() {
    let publish = Kind::named("basic.publish").unwrap();
    let fields = [
        Field::ShortStr(b"amq"),
        Field::ShortStr(b"k"),
        Field::Bit(false),
        Field::Bit(true),
    ];
    let mut room = [0; 32];
    let length = write_method(publish, &fields, &mut room).unwrap();
    assert_eq!(&room[..length], b"\x00\x3c\x00\x28\x00\x00\x03amq\x01k\x02");
    let unwritten = write_method(publish, &fields, &mut room[..12]).unwrap_err();
    assert_eq!(unwritten.status, Status::NO_ROOM);
    let unwritten = write_method(publish, &fields[..3], &mut room).unwrap_err();
    assert_eq!(
        unwritten,
        Unwritten {
            status: Status::MISFIT,
            value: 3,
            at: 0
        }
    );
    assert_eq!(unwritten.to_string(), "a value that doesn't fit its place, value 3");
    assert_eq!(Kind::named("basic.post"), None);
}

#[test]
fn a_header_is_written() {
    let mut table = [0; 16];
    let length = write_table(&[(b"k", Value::Void)], &mut table).unwrap();
    let headers = Table::read(&table[..length]).unwrap();
    let properties = [("delivery-mode", Field::Octet(2)), ("headers", Field::Table(headers))];
    let mut room = [0; 64];
    let length = write_header(5, &properties, &mut room).unwrap();
    let expected = b"\x00\x3c\0\0\0\0\0\0\0\0\0\x05\x30\0\0\0\0\x03\x01kV\x02";
    assert_eq!(&room[..length], expected);
    let unwritten = write_header(0, &[("priority", Field::Bit(true))], &mut room).unwrap_err();
    assert_eq!((unwritten.status, unwritten.value), (Status::MISFIT, 4));
    assert_eq!(
        write_header(0, &[("colour", Field::Bit(true))], &mut room)
            .unwrap_err()
            .status,
        Status::MISFIT
    );
}

#[test]
fn a_table_is_written_as_it_was_read() {
    let octets = b"\0\0\0\x14\x01aA\0\0\0\x0dF\0\0\0\x03\x01nVA\0\0\0\0";
    let pairs: Vec<_> = Table::read(octets).unwrap().iter().collect();
    let mut room = [0; 32];
    let length = write_table(&pairs, &mut room).unwrap();
    assert_eq!(&room[..length], octets);
    let numbers: [(&[u8], Value); 3] = [
        (b"b", Value::ShortShortInt(-1)),
        (b"f", Value::Float(1.5)),
        (b"D", Value::Decimal { scale: 2, number: 256 }),
    ];
    let length = write_table(&numbers, &mut room).unwrap();
    assert_eq!(
        &room[..length],
        b"\0\0\0\x13\x01bb\xff\x01ff\x3f\xc0\0\0\x01DD\x02\0\0\x01\0"
    );
    let long = [b'n'; 256];
    assert_eq!(
        write_table(&[(&long, Value::Void)], &mut room).unwrap_err().status,
        Status::MISFIT
    );
}
