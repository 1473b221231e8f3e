//! Replies, reasons of drops, and faults in words.

use crate::point::Reply;

pub const UNREADABLE: u8 = 30;

/// None for reply 0.
pub fn of_reply(reply: Reply) -> Option<&'static str> {
    Some(match reply {
        Reply::Done => return None,
        Reply::OutOfRange => "an argument is out of range or a lent area too short",
        Reply::NotConfigured => "the link, set or destination isn't configured",
        Reply::Malformed => "the message is malformed",
        Reply::ForeignNetwork => "the network indicator isn't ours",
        Reply::WrongState => "the event doesn't fit the state of the link or timer",
        Reply::WrongNumber => "the number isn't the next, or not in range",
        Reply::UserStoreFull => "192 user messages are held",
        Reply::ManagementStoreFull => "no management place is free",
        Reply::Unreachable => "the destination isn't configured or inaccessible",
        Reply::NumbersUsedUp => "no arrival number is left",
        Reply::FitsNothing => "the management message names nothing or fits no state",
    })
}

pub fn of_reason(reason: u8) -> &'static str {
    match reason {
        1 => "no route",
        2 => "sent, and what the far end took isn't known",
        _ => unreachable!("no drop has reason {reason}"),
    }
}

/// Of a configuration, 20 to 25; of a record's line, 30.
pub fn of_fault(fault: u8) -> &'static str {
    match fault {
        20 => "wrong word, field count or no line feed",
        21 => "not a plain decimal, or out of range",
        22 => "a repeat, or our own code",
        23 => "names something not given above",
        24 => "a table is full, or the text too long",
        25 => "the first line isn't the node's, or there is no text",
        UNREADABLE => "the line can't be read",
        _ => unreachable!("no text has fault {fault}"),
    }
}
