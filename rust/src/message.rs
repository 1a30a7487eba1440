//! Messages of GM/T 0021-2012, Annex D, read and written. Serving one is [`Desk::serve`](crate::Desk::serve).
use crate::ffi::{self, ItemFields, MessageFields};
use crate::refusal::DONE;
use crate::{Answer, BadArgument, Refusal};
use std::ops::Range;

/// The type of a message. Four are named, and no other number is read or written.
#[derive(Clone, Copy, Debug, PartialEq, Eq, PartialOrd, Ord, Hash)]
pub struct MessageType(pub u32);

impl MessageType {
    /// A request.
    pub const REQUEST: MessageType = MessageType(0x00);
    /// A reply.
    pub const REPLY: MessageType = MessageType(0x01);
    /// A request with a MAC.
    pub const REQUEST_WITH_MAC: MessageType = MessageType(0x80);
    /// A reply with a MAC.
    pub const REPLY_WITH_MAC: MessageType = MessageType(0x81);
}

/// What a message says beside its items. Any service and options are read and written; they are judged on serving only.
///
/// Numbers are as wide as the library takes them, so that one too large for its field is refused and not cut off.
#[derive(Clone, Copy, Debug, PartialEq, Eq, Hash)]
pub struct Heading {
    /// Request or reply, with a MAC or without.
    pub message_type: MessageType,
    /// Who calls, of any value.
    pub caller: u64,
    /// The call number, of any value; a reply has that of its request.
    pub number: u64,
    /// At most 65,535.
    pub service: u32,
    /// At most 65,535; of a reply its result.
    pub options: u32,
}

impl Heading {
    /// Writes a message with this heading at the front of `out` and gives its length; all behind it stays as it was.
    /// [`Message::read`] gives back what was written.
    ///
    /// The items are lent as three slices: their identifiers, the lengths of their contents, and the contents one behind the other.
    /// There are at most 255 items. Each identifier is at most 65,535 and above the one before it, each length is at most 255, and the
    /// body has at most 65,535 bytes: 5, 4 for each item, and the contents. The message has 21 more, or 25 with a MAC.
    ///
    /// It is refused, and `out` stays as it was, for a type that is not named, identifiers that do not rise, a number too large for its
    /// field, slices that do not fit together, and an output shorter than the message.
    ///
    /// ```
    /// # use dykeladder::{BadArgument, Heading, MessageType};
    /// let heading = Heading { message_type: MessageType::REQUEST, caller: 0, number: 1, service: 0x0102, options: 0 };
    /// let mut out = [0xff; 50];
    /// assert_eq!(heading.write(&[0x0002], &[8], &7_u64.to_be_bytes(), &mut out), Ok(38));
    /// assert_eq!(out[26..39], [0x00, 0x00, 0x02, 8, 0, 0, 0, 0, 0, 0, 0, 7, 0xff]);
    /// assert_eq!(heading.write(&[0x0003, 0x0002], &[0, 0], &[], &mut out), Err(BadArgument));
    /// ```
    pub fn write(&self, identifiers: &[u32], lengths: &[u32], contents: &[u8], out: &mut [u8]) -> Result<usize, BadArgument> {
        let mut written = 0;
        let code = ffi::message_write(self, identifiers, lengths, contents, out, &mut written);
        BadArgument::unless_done(code).map(|()| written as usize)
    }

    // The library's numbers are in these types' ranges.
    fn of([message_type, caller, number, service, options, _]: MessageFields) -> Heading {
        let message_type = MessageType(message_type as u32);
        Heading { message_type, caller, number, service: service as u32, options: options as u32 }
    }
}

/// An item of a message.
#[derive(Clone, Copy, Debug, PartialEq, Eq, Hash)]
pub struct Item<'a> {
    /// What the content is, at most 65,535.
    pub identifier: u32,
    /// Up to 255 bytes, where they are in the message.
    pub content: &'a [u8],
}

/// A message that was read, request or reply, over the bytes as they came.
#[derive(Clone, Copy, Debug, PartialEq, Eq, Hash)]
pub struct Message<'a> {
    bytes: &'a [u8],
    heading: Heading,
    items: usize,
}

impl<'a> Message<'a> {
    /// Reads a message and serves nothing. Services, options and items are not judged: any number is read, items in any order and
    /// repeated. The C header has the message's form.
    ///
    /// It is refused as [`BadMessage`](Refusal::BadMessage) for a type or version not named, lengths that do not add up or an
    /// attribute other than 00, and next as [`BadMac`](Refusal::BadMac) for a MAC that differs. The MAC has no key: it shows damage
    /// and not who sent the message.
    ///
    /// ```
    /// # use dykeladder::{Heading, Item, Message, MessageType, Refusal};
    /// // The answer 0001 to a login, with no items.
    /// let reply = b"\x15\x01\x01\0\0\0\0\0\0\0\x0012345678\x00\x05\x00\x01\x00\x01\x00";
    /// let message = Message::read(reply)?;
    /// assert_eq!(message.heading().message_type, MessageType::REPLY);
    /// assert_eq!(message.heading().options, 0x0001);
    /// assert_eq!(message.items().len(), 0);
    /// assert_eq!(Message::read(&reply[1..]), Err(Refusal::BadMessage));
    /// # Ok::<(), Refusal>(())
    /// ```
    pub fn read(bytes: &'a [u8]) -> Answer<Message<'a>> {
        let mut fields = MessageFields::default();
        let code = ffi::message_read(bytes, &mut fields);
        let [.., items] = fields;
        Refusal::unless(code, DONE).map(|()| Message { bytes, heading: Heading::of(fields), items: items as usize })
    }

    /// What the message says beside its items.
    pub fn heading(&self) -> Heading {
        self.heading
    }

    /// The items, in the order in which they stand. Each is asked of the library by its index, which reads the whole message anew, its
    /// MAC too: a caller who needs them again keeps them.
    pub fn items(&self) -> Items<'a> {
        Items { bytes: self.bytes, indices: 0..self.items }
    }
}

/// The items of a message, in the order in which they stand ([`Message::items`]).
#[derive(Clone, Debug)]
pub struct Items<'a> {
    bytes: &'a [u8],
    indices: Range<usize>,
}

impl<'a> Items<'a> {
    fn at(&self, index: usize) -> Item<'a> {
        let mut fields = ItemFields::default();
        let code = ffi::message_item(self.bytes, index, &mut fields);
        Refusal::unless(code, DONE).expect("the message was read, and has an item of this index");
        let [identifier, start, length] = fields;
        Item { identifier: identifier as u32, content: &self.bytes[start as usize..][..length as usize] }
    }
}

impl<'a> Iterator for Items<'a> {
    type Item = Item<'a>;

    fn next(&mut self) -> Option<Item<'a>> {
        self.indices.next().map(|index| self.at(index))
    }

    fn size_hint(&self) -> (usize, Option<usize>) {
        self.indices.size_hint()
    }
}

impl ExactSizeIterator for Items<'_> {}
