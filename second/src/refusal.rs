//! Document 01, "Refusals in order": the nine refusals and their numbers.

#[derive(Clone, Copy, PartialEq, Eq, Debug)]
pub enum Refusal {
    /// The shape isn't accepted.
    Shape = 1,
    /// A lent buffer hasn't its exact length, or a record to be laid is longer than k × l.
    Length = 2,
    /// A node number isn't 1 to n, or a fraction is asked of the failed node itself, or a lost bit is above n.
    Node = 3,
    /// More than r are lost.
    TooManyLost = 4,
    /// The survivors belong to no whole stripe.
    NotWhole = 5,
    /// Pack: fewer than 8 bytes, or byte 3 not 0, or more columns than n, or input shorter than its entries.
    PackHeader = 6,
    /// Pack: an entry's node isn't 1 to n, or isn't above the one before, or its padding isn't 0.
    PackEntry = 7,
    /// Pack: an offset, the total or the input's length is wrong.
    PackTotal = 8,
    /// Field division by 0.
    Division = 9,
}

impl Refusal {
    pub fn number(self) -> u8 {
        self as u8
    }
}
