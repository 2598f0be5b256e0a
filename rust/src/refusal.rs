//! Why a message was refused: the numbers of the kernel, and words for people.

use core::fmt;

/// Why a message was refused. `docs/FORMAT.md`, "Refusals", says when each number applies.
#[derive(Clone, Copy, Debug, PartialEq, Eq, Hash)]
#[non_exhaustive]
pub enum Refusal {
    /// 1: the board does not have 50,448 bytes, or is not sound. Nothing was written.
    Board,
    /// 2: the answer buffer has fewer than 518 bytes. Nothing was written.
    Buffer,
    /// 3: the message is no frame.
    Frame,
    /// 4: the kind is unknown.
    Kind,
    /// 5: the body is not the fields of its kind.
    Body,
    /// 6: the board has users (0101), or has none (0201).
    Start,
    /// 7: the sender is not a user, or the password is wrong.
    Login,
    /// 8: the sender is not the admin.
    Admin,
    /// 9: the other member, the post, the request or the friendship is not there.
    Missing,
    /// 10: the sender is not the owner, or is not entitled to read.
    Right,
    /// 11: what the message would make is there already.
    Already,
    /// 12: the table is full.
    Full,
    /// A number that is none of a step's: of an archive newer than this crate, or of another call, as 13 of [`read`](crate::read()).
    Unknown(u16),
}

/// The refusals with a name, by rising number from 1 on.
const NAMED: [Refusal; 12] = [
    Refusal::Board,
    Refusal::Buffer,
    Refusal::Frame,
    Refusal::Kind,
    Refusal::Body,
    Refusal::Start,
    Refusal::Login,
    Refusal::Admin,
    Refusal::Missing,
    Refusal::Right,
    Refusal::Already,
    Refusal::Full,
];

impl Refusal {
    /// The refusal with a number; none for 0, which says that the message was accepted.
    pub fn of_number(number: u16) -> Option<Refusal> {
        let place = usize::from(number).checked_sub(1)?;
        Some(NAMED.get(place).copied().unwrap_or(Refusal::Unknown(number)))
    }

    /// The number that the kernel returned.
    pub fn number(self) -> u16 {
        match self {
            Refusal::Unknown(number) => number,
            Refusal::Board => 1,
            Refusal::Buffer => 2,
            Refusal::Frame => 3,
            Refusal::Kind => 4,
            Refusal::Body => 5,
            Refusal::Start => 6,
            Refusal::Login => 7,
            Refusal::Admin => 8,
            Refusal::Missing => 9,
            Refusal::Right => 10,
            Refusal::Already => 11,
            Refusal::Full => 12,
        }
    }

    /// A sentence for the sender of a message of this kind, which says what the number comes to for it. Where the kind adds nothing it is the one
    /// that [`Display`](fmt::Display) has.
    pub fn explain(self, kind: u16) -> &'static str {
        match (self, kind) {
            (Refusal::Start, 0x0101) => "The board has been started already.",
            (Refusal::Start, 0x0201) => "The board has not been started yet.",
            (Refusal::Missing, 0x0202 | 0x0502) => "This colleague is not waiting to be registered.",
            (Refusal::Missing, 0x0204 | 0x0501 | 0x0606) => "This colleague is not registered.",
            (Refusal::Missing, 0x0205 | 0x0509) => "You have no request from this colleague.",
            (Refusal::Missing, 0x050a) => "You have no request to this colleague.",
            (Refusal::Missing, 0x0301) => "You are not a friend of this colleague.",
            (Refusal::Missing, 0x0402..=0x0405 | 0x0504..=0x0508) => "There is no such post.",
            (Refusal::Right, 0x0402..=0x0405) => "You are not the owner of this post.",
            (Refusal::Right, 0x0504..=0x0507) => "You are not a friend of the owner, and the post is not public.",
            (Refusal::Right, 0x0606) => "You are not a friend of this colleague.",
            (Refusal::Already, 0x0201) => "You are registered, or have already asked.",
            (Refusal::Already, 0x0203) => "There is already a post with this number.",
            (Refusal::Already, 0x0204) => "You are friends, have already asked, or have named yourself.",
            (Refusal::Full, 0x0201) => "Sixteen are waiting to be registered, and no more can ask.",
            (Refusal::Full, 0x0202) => "The board has thirty-two users, and no room for more.",
            (Refusal::Full, 0x0203) => "The board has sixty-four posts, and no room for more.",
            _ => self.sentence(),
        }
    }

    fn sentence(self) -> &'static str {
        match self {
            Refusal::Board => "The board is damaged.",
            Refusal::Buffer => "The answer buffer is too short.",
            Refusal::Frame => "The message is cut, or its length is wrong.",
            Refusal::Kind => "There is no such kind of message.",
            Refusal::Body => "A field of the message is missing, too long or not allowed.",
            Refusal::Start => "The board has been started already, or not yet.",
            Refusal::Login => "You are not registered, or the password is wrong.",
            Refusal::Admin => "You are not the admin.",
            Refusal::Missing => "What the message names is not there.",
            Refusal::Right => "You are not entitled to this.",
            Refusal::Already => "What the message would make is there already.",
            Refusal::Full => "There is no room for more.",
            Refusal::Unknown(_) => "The message was refused for a reason that is not known here.",
        }
    }
}

/// A sentence for people; [`Refusal::explain`] has a closer one where the kind is known.
impl fmt::Display for Refusal {
    fn fmt(&self, f: &mut fmt::Formatter<'_>) -> fmt::Result {
        f.write_str(self.sentence())
    }
}

impl core::error::Error for Refusal {}

#[cfg(test)]
mod tests {
    use super::{Refusal, NAMED};

    #[test]
    fn zero_alone_is_no_refusal() {
        assert_eq!(Refusal::of_number(0), None);
        for number in 1..=u16::MAX {
            let refusal = Refusal::of_number(number).expect("a refusal");
            assert_eq!(refusal.number(), number);
            assert_eq!(matches!(refusal, Refusal::Unknown(_)), number > 12, "{number}");
        }
    }

    #[test]
    fn sentences_differ() {
        for (i, refusal) in NAMED.into_iter().enumerate() {
            assert!(NAMED[..i].iter().all(|other| other.sentence() != refusal.sentence()));
        }
    }
}
