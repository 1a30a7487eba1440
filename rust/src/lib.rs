//! A release-signing token desk, and what it is made of: the hash SM3 (GB/T 32905-2016), the cipher SM4 (GB/T 32907-2016) and
//! the one-time password of GM/T 0021-2012.
//!
//! The work is done by a proved library; this crate gives it Rust's types. It tests no argument itself: what is out of range the
//! library answers with [`Refusal::BadArgument`], and nothing is written. It allocates nothing, keeps nothing between calls, and
//! has no other unsafe code than the calls of the library.
//!
//! A captain signs a release with the token in his hand:
//!
//! ```
//! use dykeladder::{password, Algorithm, Desk, Factor, Kind, Particulars, Refusal, Seconds, Serial, Step, ROW_BYTES};
//!
//! let token = Particulars {
//!     serial: Serial(4711),
//!     kind: Kind::Time { period: 30 },
//!     algorithm: Algorithm::Sm3,
//!     digits: 6,
//!     limit: 5,
//!     key: b"the captain's own secret",
//!     wait: 300,
//!     expiry: Seconds(2_000_000_000),
//! };
//! // What the token's display shows at a step.
//! let shown = |step: Step| password(token.algorithm, token.key, Factor::Time(step), None, token.digits).unwrap();
//!
//! // The desk's table is yours: four rows, none of them taken yet.
//! let mut table = [0; 4 * ROW_BYTES];
//! let mut desk = Desk::new(&mut table);
//! let now = Seconds(1_700_000_000);
//! let step = now.step(30);
//!
//! desk.load(&token)?;
//! desk.activate(token.serial, now, shown(step), shown(Step(step.0 + 1)))?;
//!
//! let later = Seconds(now.0 + 600);
//! let code = shown(later.step(30));
//! let accepted = desk.login(token.serial, later, code)?;
//! assert_eq!(accepted.step, later.step(30));
//!
//! // No code is accepted twice. To press Sign twice is no error.
//! assert_eq!(desk.login(token.serial, later, code), Err(Refusal::Used));
//! assert_eq!(desk.query(token.serial, later)?.errors, 0);
//! # Ok::<(), Refusal>(())
//! ```
//!
//! A request may also come as a message of GM/T 0021-2012, Annex D: [`Desk::serve`] makes the call that it asks for. The answer goes
//! back as a message, too: [`Message::read`] tells what the request says, and [`Heading::write`] writes the reply.
//!
//! ```
//! # use dykeladder::{Algorithm, Call, Desk, Heading, Item, Kind, Message, MessageType, Particulars, Refusal, Seconds, Serial, Served};
//! # let token = Particulars {
//! #     serial: Serial(7),
//! #     kind: Kind::Event,
//! #     algorithm: Algorithm::Sm4,
//! #     digits: 8,
//! #     limit: 5,
//! #     key: b"sixteen letters.",
//! #     wait: 60,
//! #     expiry: Seconds(1 << 40),
//! # };
//! # let mut table = [0; dykeladder::ROW_BYTES];
//! # let mut desk = Desk::new(&mut table);
//! # desk.load(&token)?;
//! // A query of the token 7.
//! let request = b"\x15\x00\x01\0\0\0\0\0\0\0\x0012345678\x00\x11\x01\x0b\x00\x00\x01\x00\x00\x02\x08\0\0\0\0\0\0\0\x07";
//! let asked = Message::read(request)?.heading();
//! let status = match desk.serve(request, Seconds(1060))? {
//!     Served::Queried(status) => status,
//!     other => panic!("no query: {other:?}"),
//! };
//!
//! // The same caller, call number and service; the last use, the errors and the state, as the standard's Table D.6 numbers them.
//! let heading = Heading { message_type: MessageType::REPLY, options: Call::Query.success().into(), ..asked };
//! let contents = [&status.last_use.0.to_be_bytes()[..], &[status.errors, status.state.number()]].concat();
//! let mut out = [0; 100];
//! let length = heading.write(&[0x0102, 0x0104, 0x0105], &[8, 1, 1], &contents, &mut out)?;
//!
//! // What the other side makes of it.
//! let reply = Message::read(&out[..length])?;
//! assert_eq!(reply.heading(), heading);
//! assert_eq!(reply.items().last(), Some(Item { identifier: 0x0105, content: &[1] })); // not activated
//! # Ok::<(), Refusal>(())
//! ```
#![deny(missing_docs, unsafe_code)]

mod answer;
mod check;
mod cipher;
mod desk;
#[allow(unsafe_code)]
mod ffi;
mod hash;
mod message;
mod password;
mod refusal;
mod units;

pub use answer::{Accepted, Answer, Call, Served, State, Status};
pub use check::{Checked, Track, Window};
pub use cipher::{sm4, Sm4Keys};
pub use desk::{Desk, Kind, Particulars, SyncWindow, MOST_ROWS, ROW_BYTES};
pub use hash::sm3;
pub use message::{Heading, Item, Items, Message, MessageType};
pub use password::{password, Algorithm, Factor, Password};
pub use refusal::{BadArgument, Refusal};
pub use units::{Offset, Seconds, Serial, Step};
