//! Numbers of BGP-4 (the registries of IANA), and their names.
//!
//! ```
//! use ristulva::numbers::{attribute_name, attribute_type, cease_error, error_code, subcode_name};
//!
//! assert_eq!(attribute_name(attribute_type::AS_PATH), "AS_PATH");
//! let name = subcode_name(error_code::CEASE, cease_error::ADMINISTRATIVE_SHUTDOWN);
//! assert_eq!(name, "Administrative Shutdown");
//! ```

use crate::raw;

/// The constants of a registry, in a module.
macro_rules! registries {
    ($($(#[$doc:meta])* $module:ident { $($name:ident = $number:literal,)* })*) => {
        $(
            $(#[$doc])*
            pub mod $module {
                $(#[doc = concat!("`", stringify!($number), "`")] pub const $name: u8 = $number;)*
            }
        )*
    };
}

registries! {
    /// Types of path attributes.
    attribute_type {
        ORIGIN = 1,
        AS_PATH = 2,
        NEXT_HOP = 3,
        MULTI_EXIT_DISC = 4,
        LOCAL_PREF = 5,
        ATOMIC_AGGREGATE = 6,
        AGGREGATOR = 7,
        COMMUNITIES = 8,
        ORIGINATOR_ID = 9,
        CLUSTER_LIST = 10,
        MP_REACH_NLRI = 14,
        MP_UNREACH_NLRI = 15,
        EXTENDED_COMMUNITIES = 16,
        AS4_PATH = 17,
        AS4_AGGREGATOR = 18,
        PMSI_TUNNEL = 22,
        TUNNEL_ENCAPSULATION = 23,
        IP6_EXTENDED_COMMUNITIES = 25,
        AIGP = 26,
        BGP_LS = 29,
        LARGE_COMMUNITY = 32,
        BGPSEC_PATH = 33,
        ONLY_TO_CUSTOMER = 35,
        D_PATH = 36,
        PREFIX_SID = 40,
        ATTR_SET = 128,
    }
    /// Codes of capabilities.
    capability_code {
        MULTIPROTOCOL = 1,
        ROUTE_REFRESH = 2,
        OUTBOUND_ROUTE_FILTERING = 3,
        EXTENDED_NEXT_HOP = 5,
        EXTENDED_MESSAGE = 6,
        BGPSEC = 7,
        MULTIPLE_LABELS = 8,
        ROLE = 9,
        GRACEFUL_RESTART = 64,
        AS4 = 65,
        DYNAMIC_CAPABILITY = 67,
        MULTISESSION = 68,
        ADD_PATH = 69,
        ENHANCED_ROUTE_REFRESH = 70,
        LONG_LIVED_GRACEFUL_RESTART = 71,
        ROUTING_POLICY_DISTRIBUTION = 72,
        FQDN = 73,
        SOFTWARE_VERSION = 75,
        PATHS_LIMIT = 76,
        PRESTANDARD_ROUTE_REFRESH = 128,
    }
    /// Codes of NOTIFICATIONs.
    error_code {
        HEADER = 1,
        OPEN = 2,
        UPDATE = 3,
        HOLD_TIMER = 4,
        STATE_MACHINE = 5,
        CEASE = 6,
        ROUTE_REFRESH = 7,
        SEND_HOLD_TIMER = 8,
    }
    /// Subcodes of Message Header Error.
    header_error {
        NOT_SYNCHRONIZED = 1,
        BAD_LENGTH = 2,
        BAD_TYPE = 3,
    }
    /// Subcodes of OPEN Message Error.
    open_error {
        UNSUPPORTED_VERSION = 1,
        BAD_PEER_AS = 2,
        BAD_IDENTIFIER = 3,
        UNSUPPORTED_PARAMETER = 4,
        UNACCEPTABLE_HOLD_TIME = 6,
        UNSUPPORTED_CAPABILITY = 7,
        ROLE_MISMATCH = 11,
    }
    /// Subcodes of UPDATE Message Error.
    update_error {
        MALFORMED_ATTRIBUTE_LIST = 1,
        UNRECOGNIZED_WELL_KNOWN = 2,
        MISSING_WELL_KNOWN = 3,
        ATTRIBUTE_FLAGS = 4,
        ATTRIBUTE_LENGTH = 5,
        INVALID_ORIGIN = 6,
        INVALID_NEXT_HOP = 8,
        OPTIONAL_ATTRIBUTE = 9,
        INVALID_NETWORK_FIELD = 10,
        MALFORMED_AS_PATH = 11,
    }
    /// Subcodes of Finite State Machine Error.
    state_error {
        IN_OPEN_SENT = 1,
        IN_OPEN_CONFIRM = 2,
        IN_ESTABLISHED = 3,
    }
    /// Subcodes of Cease.
    cease_error {
        MAXIMUM_PREFIXES = 1,
        ADMINISTRATIVE_SHUTDOWN = 2,
        PEER_DE_CONFIGURED = 3,
        ADMINISTRATIVE_RESET = 4,
        CONNECTION_REJECTED = 5,
        OTHER_CONFIGURATION_CHANGE = 6,
        CONNECTION_COLLISION = 7,
        OUT_OF_RESOURCES = 8,
        HARD_RESET = 9,
        BFD_DOWN = 10,
    }
    /// Subcodes of ROUTE-REFRESH Message Error.
    refresh_error {
        INVALID_LENGTH = 1,
    }
}

/// The name of a type of path attribute: empty where it has none here.
pub fn attribute_name(kind: u8) -> String {
    raw::name(3, kind, 0)
}

/// The name of a capability's code.
pub fn capability_name(code: u8) -> String {
    raw::name(4, code, 0)
}

/// The name of a NOTIFICATION's code.
pub fn error_name(code: u8) -> String {
    raw::name(5, code, 0)
}

/// The name of a subcode of a code.
pub fn subcode_name(code: u8, subcode: u8) -> String {
    raw::name(6, code, subcode)
}
