use crate::raw;

/// What both speakers of a session agreed on by their OPENs. By default nothing.
#[derive(Clone, Copy, Debug, Default, PartialEq, Eq, Hash)]
pub struct Context {
    /// Both have the same AS number.
    pub internal: bool,
    /// Both offer AS numbers of four octets (RFC 6793).
    pub as4: bool,
    /// Both offer IPv4 unicast (RFC 4760, section 8).
    pub ip4: bool,
    /// Both offer IPv6 unicast.
    pub ip6: bool,
}

impl Context {
    /// From C's form.
    pub(crate) fn of(told: &raw::Context) -> Context {
        Context {
            internal: told.internal != 0,
            as4: told.as4 != 0,
            ip4: told.ip4 != 0,
            ip6: told.ip6 != 0,
        }
    }

    /// In C's form.
    pub(crate) fn said(&self) -> raw::Context {
        raw::Context {
            internal: self.internal.into(),
            as4: self.as4.into(),
            ip4: self.ip4.into(),
            ip6: self.ip6.into(),
        }
    }
}
