//! Messages read and written (GM/T 0021-2012, Annex D; document 02, request 3): two written out byte by byte, each refusal and the
//! last that is none, every byte of the output compared.
use dykeladder::{BadArgument, Desk, Heading, Item, Message, MessageType, Refusal, Seconds, ROW_BYTES};

mod hex;
use hex::{bytes, message};

// The answer 0001 to a login.
const LOGGED_IN: &str = "1501010000000000000000313233343536373800050001000100";
// A query's reply: last use 1,800,000,000, errors 2, state 2.
const QUERIED: &str = "19810100000000000000003132333435363738001b1fdfc388010b010b0300010208000000006b49d20000010401020001050102";

const HEADING: Heading = Heading {
    message_type: MessageType::REPLY,
    caller: 0,
    number: u64::from_be_bytes(*b"12345678"),
    service: 0x0001,
    options: 0x0001,
};
const HEADING_OF_A_QUERY: Heading =
    Heading { message_type: MessageType::REPLY_WITH_MAC, service: 0x010b, options: 0x010b, ..HEADING };

// What a caller of `Heading::write` lends it.
#[derive(Clone, Default)]
struct Parts {
    identifiers: Vec<u32>,
    lengths: Vec<u32>,
    contents: Vec<u8>,
}

fn parts(items: &[(u32, &[u8])]) -> Parts {
    Parts {
        identifiers: items.iter().map(|item| item.0).collect(),
        lengths: items.iter().map(|item| item.1.len() as u32).collect(),
        contents: items.iter().flat_map(|item| item.1).copied().collect(),
    }
}

fn parts_of(message: &Message<'_>) -> Parts {
    let items: Vec<_> = message.items().map(|item| (item.identifier, item.content)).collect();
    parts(&items)
}

const UNTOUCHED: u8 = 0xa5;

// What becomes of an output of so many bytes.
fn written(heading: Heading, items: &Parts, room: usize) -> (Result<usize, BadArgument>, Vec<u8>) {
    let mut out = vec![UNTOUCHED; room];
    let answer = heading.write(&items.identifiers, &items.lengths, &items.contents, &mut out);
    (answer, out)
}

// Writes these bytes and no byte behind them, also where there is just room for them, and reads them again.
fn assert_written(heading: Heading, items: &Parts, expected: &[u8]) {
    for behind in [0, 1, 1000] {
        let room = expected.len() + behind;
        let (answer, out) = written(heading, items, room);
        assert_eq!(answer, Ok(expected.len()));
        assert_eq!(out[..expected.len()], *expected);
        assert!(out[expected.len()..].iter().all(|&byte| byte == UNTOUCHED));
    }
    assert_read(expected, heading, items);
}

fn assert_read(message: &[u8], heading: Heading, items: &Parts) {
    let read = Message::read(message).expect("a message");
    assert_eq!(read.heading(), heading);
    assert_eq!(read.items().len(), items.identifiers.len());
    let back = parts_of(&read);
    assert_eq!((back.identifiers, back.lengths), (items.identifiers.clone(), items.lengths.clone()));
    assert_eq!(back.contents, items.contents);
}

fn assert_not_written(heading: Heading, items: &Parts) {
    let (answer, out) = written(heading, items, 70_000);
    assert_eq!(answer, Err(BadArgument), "{heading:?}");
    assert!(out.iter().all(|&byte| byte == UNTOUCHED), "{heading:?}");
}

// The length of what is written, which is read again.
fn length_of(heading: Heading, items: &Parts) -> usize {
    let (answer, out) = written(heading, items, 70_000);
    let length = answer.expect("it can be written");
    assert_written(heading, items, &out[..length]);
    length
}

fn of_a_query() -> Parts {
    parts(&[(0x0102, &1_800_000_000_u64.to_be_bytes()), (0x0104, &[2]), (0x0105, &[2])])
}

#[test]
fn the_two_written_out() {
    assert_written(HEADING, &Parts::default(), &bytes(LOGGED_IN));
    assert_written(HEADING_OF_A_QUERY, &of_a_query(), &bytes(QUERIED));
}

#[test]
fn requests_too() {
    let login = Heading { message_type: MessageType::REQUEST, options: 0, ..HEADING };
    let items = parts(&[(0x0002, &7_u64.to_be_bytes()), (0x0003, b"123456")]);
    let body = "0001 0000 02 00 0002 08 0000000000000007 00 0003 06 313233343536";
    assert_written(login, &items, &message(&["15 00 01 0000000000000000 3132333435363738 001b", body]));
    let with_mac = Heading { message_type: MessageType::REQUEST_WITH_MAC, ..login };
    assert_written(with_mac, &items, &message(&["19 80 01 0000000000000000 3132333435363738 001b 9a719e86", body]));
}

#[test]
fn items_where_they_are() {
    let query = bytes(QUERIED);
    let mut items = Message::read(&query).unwrap().items();
    assert_eq!(items.len(), 3);
    assert_eq!(items.next(), Some(Item { identifier: 0x0102, content: &query[34..42] }));
    assert_eq!(items.len(), 2);
    assert_eq!(items.next(), Some(Item { identifier: 0x0104, content: &[2] }));
    assert_eq!(items.next(), Some(Item { identifier: 0x0105, content: &[2] }));
    assert_eq!((items.len(), items.next()), (0, None));
}

// ---- what is written, to the last value that is in range, and what is not

#[test]
fn headings_of_any_value() {
    let least = Heading { message_type: MessageType::REQUEST, caller: 0, number: 0, service: 0, options: 0 };
    let most = Heading { caller: u64::MAX, number: u64::MAX, service: 65_535, options: 65_535, ..HEADING_OF_A_QUERY };
    assert_eq!(length_of(least, &Parts::default()), 26);
    assert_eq!(length_of(most, &Parts::default()), 30);
    assert_not_written(Heading { service: 65_536, ..least }, &Parts::default());
    assert_not_written(Heading { options: 65_536, ..least }, &Parts::default());
}

#[test]
fn types_that_are_not_named() {
    for message_type in [0x02, 0x7f, 0x82, 0xff, 0x0100, 0x0181, 0x8000_0000, u32::MAX] {
        assert_not_written(Heading { message_type: MessageType(message_type), ..HEADING }, &of_a_query());
    }
}

#[test]
fn identifiers_rise() {
    let with = |identifiers: &[u32]| Parts { identifiers: identifiers.to_vec(), ..parts(&[(0, b"one"), (0, b"two")]) };
    assert_eq!(length_of(HEADING, &with(&[0, 65_535])), 40);
    assert_eq!(length_of(HEADING, &with(&[2, 3])), 40);
    for identifiers in [[3, 2], [2, 2], [0, 0], [65_535, 65_535], [0, 65_536], [65_536, 65_537]] {
        assert_not_written(HEADING, &with(&identifiers));
    }
}

#[test]
fn contents_of_255_bytes() {
    assert_eq!(length_of(HEADING, &parts(&[(9, &[7; 255])])), 285);
    assert_not_written(HEADING, &parts(&[(9, &[7; 256])]));
}

fn many(count: u32, content: &[u8]) -> Parts {
    let items: Vec<_> = (0..count).map(|identifier| (identifier, content)).collect();
    parts(&items)
}

#[test]
fn items_of_a_whole_message() {
    assert_eq!(length_of(HEADING, &many(255, &[])), 1046);
    assert_not_written(HEADING, &many(256, &[]));
}

// 253 items of 255 bytes make a body of 65,532; one more takes 4 at least.
#[test]
fn body_of_65535_bytes() {
    let great = many(253, &[7; 255]);
    let mut too_great = great.clone();
    too_great.identifiers.push(253);
    too_great.lengths.push(0);
    assert_eq!(length_of(HEADING, &great), 21 + 65_532);
    assert_not_written(HEADING, &too_great);

    // an item more and a byte less
    too_great.lengths[0] = 254;
    too_great.contents.pop();
    assert_eq!(length_of(HEADING, &too_great), 65_556);
    assert_eq!(length_of(HEADING_OF_A_QUERY, &too_great), 65_560);
}

#[test]
fn slices_that_do_not_fit_together() {
    let right = of_a_query();
    for identifiers in [vec![], vec![0x0102, 0x0104], vec![0x0102, 0x0104, 0x0105, 0x0106]] {
        assert_not_written(HEADING, &Parts { identifiers, ..right.clone() });
    }
    assert_not_written(HEADING, &Parts { lengths: vec![8, 2], ..right.clone() });
    assert_not_written(HEADING, &Parts { lengths: vec![8, 1, 1, 0], ..right.clone() });
    assert_not_written(HEADING, &Parts { lengths: vec![8, 1, 2], ..right.clone() });
    assert_not_written(HEADING, &Parts { lengths: vec![8, 1, 0], ..right.clone() });
    assert_not_written(HEADING, &Parts { lengths: vec![8, 1, u32::MAX], ..right.clone() });
    assert_not_written(HEADING, &Parts { contents: vec![], ..right });
    assert_not_written(HEADING, &Parts { contents: vec![7], ..Parts::default() });
}

#[test]
fn too_short_an_output() {
    for (heading, items, message) in [(HEADING, Parts::default(), LOGGED_IN), (HEADING_OF_A_QUERY, of_a_query(), QUERIED)] {
        for room in 0..bytes(message).len() {
            assert_eq!(written(heading, &items, room), (Err(BadArgument), vec![UNTOUCHED; room]));
        }
    }
}

// ---- what is read

#[test]
fn a_wrong_mac() {
    let right = bytes(QUERIED);
    for bit in 8 * 21..8 * 25 {
        let mut wrong = right.clone();
        wrong[bit / 8] ^= 1 << (bit % 8);
        assert_eq!(Message::read(&wrong), Err(Refusal::BadMac), "bit {bit}");
    }
}

#[test]
fn any_one_bit_wrong() {
    let right = bytes(QUERIED);
    for bit in 0..8 * right.len() {
        let mut wrong = right.clone();
        wrong[bit / 8] ^= 1 << (bit % 8);
        let read = Message::read(&wrong);
        assert!(matches!(read, Err(Refusal::BadMessage | Refusal::BadMac)), "bit {bit}: {read:?}");
    }
}

// Each of these has a MAC that differs, too, where it has one.
#[test]
fn no_message() {
    for wrong in [
        "",
        "15",
        "15 02 01 0000000000000000 3132333435363738 0005 0001 0001 00", // type
        "15 01 02 0000000000000000 3132333435363738 0005 0001 0001 00", // version
        "19 01 01 0000000000000000 3132333435363738 0005 0001 0001 00", // length of the header
        "15 01 01 0000000000000000 3132333435363738 0004 0001 0001 00", // length of the body
        "15 01 01 0000000000000000 3132333435363738 0005 0001 0001 01", // number of items
        "15 01 01 0000000000000000 3132333435363738 0005 0001 0001 00 00", // a byte behind it
        "19 81 01 0000000000000000 3132333435363738 0009 00000000 0001 0001 01 80 0002 00", // attribute
        "19 81 01 0000000000000000 3132333435363738 0009 00000000 0001 0001 01 00 0002 01", // length of the content
    ] {
        assert_eq!(Message::read(&bytes(wrong)), Err(Refusal::BadMessage), "{wrong}");
    }
}

#[test]
fn any_length() {
    let right = bytes(QUERIED);
    let zeros = vec![0; 65_600];
    for length in (0..right.len()).chain([right.len() + 1, 65_560, 65_561, zeros.len()]) {
        let message: Vec<_> = right.iter().chain(&zeros).copied().take(length).collect();
        assert_eq!(Message::read(&message), Err(Refusal::BadMessage), "{length} bytes");
    }
}

// Services, options and items are not judged, and the last content may be empty.
#[test]
fn items_out_of_order_are_read_and_not_written() {
    let bodies = [
        ("0013 9999 ffff 03 00 0003 01 aa 00 0002 01 bb 00 ffff 00", [3, 2, 65_535]),
        ("0013 0000 0007 03 00 0002 01 aa 00 0002 01 bb 00 0009 00", [2, 2, 9]),
    ];
    for (body, identifiers) in bodies {
        let out_of_order = message(&["15 01 01 0000000000000000 3132333435363738", body]);
        let read = Message::read(&out_of_order).expect("a message");
        let items = parts_of(&read);
        assert_eq!(items.identifiers, identifiers);
        assert_eq!((&items.lengths[..], &items.contents[..]), (&[1, 1, 0][..], &[0xaa, 0xbb][..]));
        assert_not_written(read.heading(), &items);
    }
}

#[test]
fn replies_are_not_served() {
    for reply in [LOGGED_IN, QUERIED] {
        let mut table = [0; ROW_BYTES];
        assert_eq!(Desk::new(&mut table).serve(&bytes(reply), Seconds(1060)), Err(Refusal::BadMessage));
        assert_eq!(table, [0; ROW_BYTES]);
    }
}
