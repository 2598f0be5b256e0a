//! Messages by their fields. The kernel's writer and reader turn them into frames and back; here they only get names and types.

use crate::{kernel, Refusal};
#[cfg(feature = "alloc")]
use alloc::vec::Vec;
use core::fmt;

/// The bytes of the largest frame of a message.
pub const FRAME_LIMIT: usize = 278;

/// The most values that a message has, those of 0401: a number is one value, a string two.
pub const VALUES_LIMIT: usize = 7;

/// The most bytes that the strings of a message have together, those of a text.
const STRINGS_LIMIT: usize = 256;

// ---- the table of kinds

/// From the table below: the cases of `Message`, their kinds, their values in field order, and the way back.
macro_rules! messages {
    (
        $(#[$about:meta])*
        pub enum Message<'a> {
            $($(#[$doc:meta])* $kind:literal $case:ident { $($field:ident: $type:ty),* })*
        }
    ) => {
        $(#[$about])*
        #[allow(missing_docs)] // of the fields, which the enum's own words are about
        pub enum Message<'a> {
            $($(#[$doc])* #[doc = concat!("(", stringify!($kind), ")")] $case { $($field: $type),* },)*
        }

        impl<'a> Message<'a> {
            /// The number of its kind.
            pub fn kind(&self) -> u16 {
                match self {
                    $(Message::$case { .. } => $kind,)*
                }
            }

            fn put(&self, call: &mut WriteCall) {
                match *self {
                    $(Message::$case { $($field),* } => { $($field.put(call);)* })*
                }
            }

            /// None for a kind that an archive newer than this crate has.
            fn take(kind: u16, call: &mut ReadCall<'a>) -> Option<Message<'a>> {
                match kind {
                    $($kind => Some(Message::$case { $($field: Field::take(call)),* }),)*
                    _ => None,
                }
            }
        }
    };
}

messages! {
    /// A message: a case for each kind with its fields, named by CoSMed's action. `user` and `password` are U and P of `docs/FORMAT.md`, `colleague` is
    /// V, `post` N and `new_password` P2; staff and post numbers are not 0. Strings are any bytes: a name at most 24, an info 56, a title 40, a text 256, a
    /// note 24. Fields are not tested here: what no frame can carry is refused by the kernel when it is written.
    ///
    /// ```
    /// use staff_board::{Board, Message, WriteRefusal, ANSWER_LIMIT};
    ///
    /// # fn main() -> Result<(), Box<dyn std::error::Error>> {
    /// let start = Message::StartSys { user: 7, password: 1 };
    /// let frame = start.to_vec()?;
    /// assert_eq!(frame, [14, 0, 0x01, 0x01, 7, 0, 0, 0, 1, 0, 0, 0, 0, 0, 0, 0]);
    /// Board::empty().step(&frame, &mut [0; ANSWER_LIMIT])?;
    /// assert_eq!(Message::read(&frame)?, start);
    ///
    /// let nobody = Message::StartSys { user: 0, password: 1 };
    /// assert_eq!(nobody.to_vec(), Err(WriteRefusal::NotCarried));
    /// # Ok(())
    /// # }
    /// ```
    #[derive(Clone, Copy, Debug, PartialEq, Eq, Hash)]
    #[non_exhaustive]
    pub enum Message<'a> {
        /// Start: `user` becomes first user and admin.
        0x0101 StartSys { user: u32, password: u64 }
        /// Asks to register.
        0x0201 CNUReq { user: u32, note: &'a [u8] }
        /// The admin registers a colleague who has asked.
        0x0202 CUser { user: u32, password: u64, colleague: u32, new_password: u64 }
        /// A new post, for friends, its text empty.
        0x0203 CPost { user: u32, password: u64, post: u32, title: &'a [u8] }
        /// A friend request to a colleague.
        0x0204 CFriendReq { user: u32, password: u64, colleague: u32, note: &'a [u8] }
        /// Accepts a colleague's request.
        0x0205 CFriend { user: u32, password: u64, colleague: u32 }
        /// Ends the friendship, on both sides.
        0x0301 DFriend { user: u32, password: u64, colleague: u32 }
        /// A user's own password, name and info.
        0x0401 UUser { user: u32, password: u64, new_password: u64, name: &'a [u8], info: &'a [u8] }
        /// The title of a post, by its owner.
        0x0402 UTitlePost { user: u32, password: u64, post: u32, title: &'a [u8] }
        /// The text of a post, by its owner.
        0x0403 UTextPost { user: u32, password: u64, post: u32, text: &'a [u8] }
        /// The picture of a post, by its owner.
        0x0404 UImgPost { user: u32, password: u64, post: u32, picture: u32 }
        /// Who may read a post, by its owner. `visibility` is 0 for friends, 1 for public; no frame carries another.
        0x0405 UVisPost { user: u32, password: u64, post: u32, visibility: u8 }
        /// Reads name and info of a colleague.
        0x0501 RUser { user: u32, password: u64, colleague: u32 }
        /// The admin reads the note of a colleague who has asked to register.
        0x0502 RNUReq { user: u32, password: u64, colleague: u32 }
        /// Reads whether `user` is the admin.
        0x0503 RAmIAdmin { user: u32, password: u64 }
        /// Reads the title of a post.
        0x0504 RTitlePost { user: u32, password: u64, post: u32 }
        /// Reads the text of a post.
        0x0505 RTextPost { user: u32, password: u64, post: u32 }
        /// Reads the picture of a post.
        0x0506 RImgPost { user: u32, password: u64, post: u32 }
        /// Reads the visibility of a post.
        0x0507 RVisPost { user: u32, password: u64, post: u32 }
        /// Reads the owner's number of a post.
        0x0508 ROwnerPost { user: u32, password: u64, post: u32 }
        /// Reads the note of a colleague's request to `user`.
        0x0509 RFriendReqToMe { user: u32, password: u64, colleague: u32 }
        /// Reads the note of `user`'s request to a colleague.
        0x050a RFriendReqFromMe { user: u32, password: u64, colleague: u32 }
        /// Lists for the admin who has asked to register.
        0x0601 LPendingUReqs { user: u32, password: u64 }
        /// Lists the users.
        0x0602 LAllUsers { user: u32, password: u64 }
        /// Lists the posts, each with its owner.
        0x0603 LAllPosts { user: u32, password: u64 }
        /// Lists who has requested `user`.
        0x0604 LFriendReqs { user: u32, password: u64 }
        /// Lists the friends of `user`.
        0x0605 LFriends { user: u32, password: u64 }
        /// Lists the friends of a colleague, who is `user` or a friend of `user`.
        0x0606 LFriendsOf { user: u32, password: u64, colleague: u32 }
    }
}

impl<'a> Message<'a> {
    /// Writes the frame to the start of `frame` and gives its length; bytes after it keep their contents. A refusal writes nothing.
    pub fn write(&self, frame: &mut [u8]) -> Result<usize, WriteRefusal> {
        let mut call = WriteCall {
            values: [0; VALUES_LIMIT],
            count: 0,
            lent: [0; STRINGS_LIMIT],
            end: 0,
        };
        self.put(&mut call);
        let lent = &call.lent[..call.end.min(STRINGS_LIMIT)];
        let done = kernel::write(self.kind().into(), &call.values[..call.count], lent, frame);
        match WriteRefusal::of_number(done.number) {
            None => Ok(done.written),
            Some(refusal) => Err(refusal),
        }
    }

    /// The frame; a buffer is never short here.
    #[cfg(feature = "alloc")]
    pub fn to_vec(&self) -> Result<Vec<u8>, WriteRefusal> {
        let mut frame = [0; FRAME_LIMIT];
        let length = self.write(&mut frame)?;
        Ok(frame[..length].to_vec())
    }

    /// The message that a frame is, its strings where they stand in it, or the refusal that a step would give: [`Refusal::Frame`], [`Refusal::Kind`] or
    /// [`Refusal::Body`].
    pub fn read(frame: &'a [u8]) -> Result<Message<'a>, Refusal> {
        let mut values = [0; VALUES_LIMIT];
        let done = kernel::read(frame, &mut values);
        if let Some(refusal) = Refusal::of_number(done.number) {
            return Err(refusal);
        }
        let kind = u16::from_le_bytes([frame[2], frame[3]]);
        let mut call = ReadCall {
            values: values.into_iter(),
            body: &frame[4..],
        };
        Message::take(kind, &mut call).ok_or(Refusal::Kind)
    }
}

// ---- fields as values

/// What a message has for [`write()`]: its values, and its strings one after the other.
struct WriteCall {
    values: [u64; VALUES_LIMIT],
    count: usize,
    lent: [u8; STRINGS_LIMIT],
    /// Where the strings end. If that is past the lent bytes then one of them is over its limit, and the kernel, which is told their true places,
    /// refuses the message.
    end: usize,
}

impl WriteCall {
    fn put_value(&mut self, value: u64) {
        self.values[self.count] = value;
        self.count += 1;
    }
}

/// What [`read()`] gave: the values that are not taken yet, and the body in which the strings lie.
struct ReadCall<'a> {
    values: core::array::IntoIter<u64, VALUES_LIMIT>,
    body: &'a [u8],
}

impl ReadCall<'_> {
    fn take_value(&mut self) -> u64 {
        self.values.next().expect("as many values as the fields have")
    }
}

/// What a field can be: a number, which is one value, or a string, which is two.
trait Field<'a> {
    fn put(self, call: &mut WriteCall);
    fn take(call: &mut ReadCall<'a>) -> Self;
}

macro_rules! number_fields {
    ($($type:ty),*) => {
        $(impl Field<'_> for $type {
            fn put(self, call: &mut WriteCall) {
                call.put_value(self.into());
            }

            fn take(call: &mut ReadCall) -> $type {
                call.take_value().try_into().expect("a value that fits its field")
            }
        })*
    };
}

number_fields!(u8, u32, u64);

impl<'a> Field<'a> for &'a [u8] {
    fn put(self, call: &mut WriteCall) {
        call.put_value(call.end as u64);
        call.put_value(self.len() as u64);
        let room = call.lent.iter_mut().skip(call.end);
        room.zip(self).for_each(|(place, byte)| *place = *byte);
        call.end += self.len();
    }

    fn take(call: &mut ReadCall<'a>) -> &'a [u8] {
        let (start, length) = (call.take_value() as usize, call.take_value() as usize);
        &call.body[start..start + length]
    }
}

// ---- the calls with bare values

/// What [`write()`] or [`read()`] returned.
#[derive(Clone, Copy, Debug, PartialEq, Eq)]
#[must_use]
pub struct Outcome {
    /// 0 for done, or the number of the refusal.
    pub number: u16,
    /// Bytes of the frame, or values, written from the start on; 0 for a refusal.
    pub written: usize,
}

/// The frame of a message that is given by its kind and its values, in field order: a number is one value, a string two, its start in the lent bytes and
/// its length. It stands first in `frame`, and bytes after it keep their contents.
///
/// Refused, with nothing written: 5 for a message that no frame can carry (unknown kind, another count of values, a value that its field cannot hold, a
/// string over its limit or not within the lent bytes); else 13 for a buffer shorter than the frame.
///
/// [`Message::write`] does this for messages by their fields.
pub fn write(kind: u32, values: &[u64], lent: &[u8], frame: &mut [u8]) -> Outcome {
    kernel::write(kind, values, lent, frame)
}

/// The way back: the values of a message in field order. A number is one value, a string two, its offset in the body (the message without its first four
/// bytes) and its length. They stand first in `values`, and values after them stay. The kind is in the message's bytes 2 and 3.
///
/// Refused, with nothing written: 3, 4 and 5 as in a step; else 13 for a slice of fewer values than the message has.
///
/// [`Message::read`] does this for messages by their fields.
pub fn read(message: &[u8], values: &mut [u64]) -> Outcome {
    kernel::read(message, values)
}

/// Why a message was not written.
#[derive(Clone, Copy, Debug, PartialEq, Eq, Hash)]
#[non_exhaustive]
pub enum WriteRefusal {
    /// 5: no frame can carry the message: a staff or post number is 0, a string is over its limit, or visibility is above 1.
    NotCarried,
    /// 13: the buffer is shorter than the frame.
    BufferShort,
    /// A number that the writer of this crate's time does not give: the archive is newer than the crate.
    Unknown(u16),
}

impl WriteRefusal {
    /// The refusal with a number; none for 0, which says that the message was written.
    pub fn of_number(number: u16) -> Option<WriteRefusal> {
        match number {
            0 => None,
            5 => Some(WriteRefusal::NotCarried),
            13 => Some(WriteRefusal::BufferShort),
            _ => Some(WriteRefusal::Unknown(number)),
        }
    }

    /// The number that the kernel returned.
    pub fn number(self) -> u16 {
        match self {
            WriteRefusal::NotCarried => 5,
            WriteRefusal::BufferShort => 13,
            WriteRefusal::Unknown(number) => number,
        }
    }
}

impl fmt::Display for WriteRefusal {
    fn fmt(&self, f: &mut fmt::Formatter<'_>) -> fmt::Result {
        f.write_str(match self {
            WriteRefusal::NotCarried => "A number of the message is not allowed, or a string is too long.",
            WriteRefusal::BufferShort => "The buffer is shorter than the frame.",
            WriteRefusal::Unknown(_) => "The message was not written for a reason that is not known here.",
        })
    }
}

impl core::error::Error for WriteRefusal {}

#[cfg(test)]
mod tests {
    use super::WriteRefusal;

    #[test]
    fn zero_alone_is_no_refusal() {
        assert_eq!(WriteRefusal::of_number(0), None);
        for number in 1..=u16::MAX {
            let refusal = WriteRefusal::of_number(number).expect("a refusal");
            assert_eq!(refusal.number(), number);
            assert_eq!(
                matches!(refusal, WriteRefusal::Unknown(_)),
                ![5, 13].contains(&number),
                "{number}"
            );
        }
    }
}
