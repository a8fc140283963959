package ristulva

// #include "list.h"
import "C"

import "unsafe"

// Types of path attributes.
const (
	AttributeOrigin                 = C.RISTULVA_ATTRIBUTE_ORIGIN
	AttributeASPath                 = C.RISTULVA_ATTRIBUTE_AS_PATH
	AttributeNextHop                = C.RISTULVA_ATTRIBUTE_NEXT_HOP
	AttributeMultiExitDisc          = C.RISTULVA_ATTRIBUTE_MULTI_EXIT_DISC
	AttributeLocalPref              = C.RISTULVA_ATTRIBUTE_LOCAL_PREF
	AttributeAtomicAggregate        = C.RISTULVA_ATTRIBUTE_ATOMIC_AGGREGATE
	AttributeAggregator             = C.RISTULVA_ATTRIBUTE_AGGREGATOR
	AttributeCommunities            = C.RISTULVA_ATTRIBUTE_COMMUNITIES
	AttributeOriginatorId           = C.RISTULVA_ATTRIBUTE_ORIGINATOR_ID
	AttributeClusterList            = C.RISTULVA_ATTRIBUTE_CLUSTER_LIST
	AttributeMPReachNLRI            = C.RISTULVA_ATTRIBUTE_MP_REACH_NLRI
	AttributeMPUnreachNLRI          = C.RISTULVA_ATTRIBUTE_MP_UNREACH_NLRI
	AttributeExtendedCommunities    = C.RISTULVA_ATTRIBUTE_EXTENDED_COMMUNITIES
	AttributeAS4Path                = C.RISTULVA_ATTRIBUTE_AS4_PATH
	AttributeAS4Aggregator          = C.RISTULVA_ATTRIBUTE_AS4_AGGREGATOR
	AttributePMSITunnel             = C.RISTULVA_ATTRIBUTE_PMSI_TUNNEL
	AttributeTunnelEncapsulation    = C.RISTULVA_ATTRIBUTE_TUNNEL_ENCAPSULATION
	AttributeIP6ExtendedCommunities = C.RISTULVA_ATTRIBUTE_IP6_EXTENDED_COMMUNITIES
	AttributeAIGP                   = C.RISTULVA_ATTRIBUTE_AIGP
	AttributeBGPLS                  = C.RISTULVA_ATTRIBUTE_BGP_LS
	AttributeLargeCommunity         = C.RISTULVA_ATTRIBUTE_LARGE_COMMUNITY
	AttributeBGPsecPath             = C.RISTULVA_ATTRIBUTE_BGPSEC_PATH
	AttributeOnlyToCustomer         = C.RISTULVA_ATTRIBUTE_ONLY_TO_CUSTOMER
	AttributeDPath                  = C.RISTULVA_ATTRIBUTE_D_PATH
	AttributePrefixSID              = C.RISTULVA_ATTRIBUTE_PREFIX_SID
	AttributeAttrSet                = C.RISTULVA_ATTRIBUTE_ATTR_SET
)

// Codes of capabilities.
const (
	CapabilityMultiprotocol             = C.RISTULVA_CAPABILITY_MULTIPROTOCOL
	CapabilityRouteRefresh              = C.RISTULVA_CAPABILITY_ROUTE_REFRESH
	CapabilityOutboundRouteFiltering    = C.RISTULVA_CAPABILITY_OUTBOUND_ROUTE_FILTERING
	CapabilityExtendedNextHop           = C.RISTULVA_CAPABILITY_EXTENDED_NEXT_HOP
	CapabilityExtendedMessage           = C.RISTULVA_CAPABILITY_EXTENDED_MESSAGE
	CapabilityBGPsec                    = C.RISTULVA_CAPABILITY_BGPSEC
	CapabilityMultipleLabels            = C.RISTULVA_CAPABILITY_MULTIPLE_LABELS
	CapabilityRole                      = C.RISTULVA_CAPABILITY_ROLE
	CapabilityGracefulRestart           = C.RISTULVA_CAPABILITY_GRACEFUL_RESTART
	CapabilityAS4                       = C.RISTULVA_CAPABILITY_AS4
	CapabilityDynamicCapability         = C.RISTULVA_CAPABILITY_DYNAMIC_CAPABILITY
	CapabilityMultisession              = C.RISTULVA_CAPABILITY_MULTISESSION
	CapabilityAddPath                   = C.RISTULVA_CAPABILITY_ADD_PATH
	CapabilityEnhancedRouteRefresh      = C.RISTULVA_CAPABILITY_ENHANCED_ROUTE_REFRESH
	CapabilityLongLivedGracefulRestart  = C.RISTULVA_CAPABILITY_LONG_LIVED_GRACEFUL_RESTART
	CapabilityRoutingPolicyDistribution = C.RISTULVA_CAPABILITY_ROUTING_POLICY_DISTRIBUTION
	CapabilityFQDN                      = C.RISTULVA_CAPABILITY_FQDN
	CapabilitySoftwareVersion           = C.RISTULVA_CAPABILITY_SOFTWARE_VERSION
	CapabilityPathsLimit                = C.RISTULVA_CAPABILITY_PATHS_LIMIT
	CapabilityPrestandardRouteRefresh   = C.RISTULVA_CAPABILITY_PRESTANDARD_ROUTE_REFRESH
)

// Codes of NOTIFICATIONs.
const (
	CodeHeader        = C.RISTULVA_ERROR_HEADER
	CodeOpen          = C.RISTULVA_ERROR_OPEN
	CodeUpdate        = C.RISTULVA_ERROR_UPDATE
	CodeHoldTimer     = C.RISTULVA_ERROR_HOLD_TIMER
	CodeStateMachine  = C.RISTULVA_ERROR_STATE_MACHINE
	CodeCease         = C.RISTULVA_ERROR_CEASE
	CodeRouteRefresh  = C.RISTULVA_ERROR_ROUTE_REFRESH
	CodeSendHoldTimer = C.RISTULVA_ERROR_SEND_HOLD_TIMER
)

// Subcodes of Message Header Error.
const (
	SubcodeHeaderNotSynchronized = C.RISTULVA_ERROR_HEADER_NOT_SYNCHRONIZED
	SubcodeHeaderBadLength       = C.RISTULVA_ERROR_HEADER_BAD_LENGTH
	SubcodeHeaderBadType         = C.RISTULVA_ERROR_HEADER_BAD_TYPE
)

// Subcodes of OPEN Message Error.
const (
	SubcodeOpenUnsupportedVersion    = C.RISTULVA_ERROR_OPEN_UNSUPPORTED_VERSION
	SubcodeOpenBadPeerAS             = C.RISTULVA_ERROR_OPEN_BAD_PEER_AS
	SubcodeOpenBadIdentifier         = C.RISTULVA_ERROR_OPEN_BAD_IDENTIFIER
	SubcodeOpenUnsupportedParameter  = C.RISTULVA_ERROR_OPEN_UNSUPPORTED_PARAMETER
	SubcodeOpenUnacceptableHoldTime  = C.RISTULVA_ERROR_OPEN_UNACCEPTABLE_HOLD_TIME
	SubcodeOpenUnsupportedCapability = C.RISTULVA_ERROR_OPEN_UNSUPPORTED_CAPABILITY
	SubcodeOpenRoleMismatch          = C.RISTULVA_ERROR_OPEN_ROLE_MISMATCH
)

// Subcodes of UPDATE Message Error.
const (
	SubcodeUpdateMalformedAttributeList = C.RISTULVA_ERROR_UPDATE_MALFORMED_ATTRIBUTE_LIST
	SubcodeUpdateUnrecognizedWellKnown  = C.RISTULVA_ERROR_UPDATE_UNRECOGNIZED_WELL_KNOWN
	SubcodeUpdateMissingWellKnown       = C.RISTULVA_ERROR_UPDATE_MISSING_WELL_KNOWN
	SubcodeUpdateAttributeFlags         = C.RISTULVA_ERROR_UPDATE_ATTRIBUTE_FLAGS
	SubcodeUpdateAttributeLength        = C.RISTULVA_ERROR_UPDATE_ATTRIBUTE_LENGTH
	SubcodeUpdateInvalidOrigin          = C.RISTULVA_ERROR_UPDATE_INVALID_ORIGIN
	SubcodeUpdateInvalidNextHop         = C.RISTULVA_ERROR_UPDATE_INVALID_NEXT_HOP
	SubcodeUpdateOptionalAttribute      = C.RISTULVA_ERROR_UPDATE_OPTIONAL_ATTRIBUTE
	SubcodeUpdateInvalidNetworkField    = C.RISTULVA_ERROR_UPDATE_INVALID_NETWORK_FIELD
	SubcodeUpdateMalformedASPath        = C.RISTULVA_ERROR_UPDATE_MALFORMED_AS_PATH
)

// Subcodes of Finite State Machine Error.
const (
	SubcodeStateInOpenSent    = C.RISTULVA_ERROR_STATE_IN_OPEN_SENT
	SubcodeStateInOpenConfirm = C.RISTULVA_ERROR_STATE_IN_OPEN_CONFIRM
	SubcodeStateInEstablished = C.RISTULVA_ERROR_STATE_IN_ESTABLISHED
)

// Subcodes of Cease.
const (
	SubcodeCeaseMaximumPrefixes          = C.RISTULVA_ERROR_CEASE_MAXIMUM_PREFIXES
	SubcodeCeaseAdministrativeShutdown   = C.RISTULVA_ERROR_CEASE_ADMINISTRATIVE_SHUTDOWN
	SubcodeCeasePeerDeConfigured         = C.RISTULVA_ERROR_CEASE_PEER_DE_CONFIGURED
	SubcodeCeaseAdministrativeReset      = C.RISTULVA_ERROR_CEASE_ADMINISTRATIVE_RESET
	SubcodeCeaseConnectionRejected       = C.RISTULVA_ERROR_CEASE_CONNECTION_REJECTED
	SubcodeCeaseOtherConfigurationChange = C.RISTULVA_ERROR_CEASE_OTHER_CONFIGURATION_CHANGE
	SubcodeCeaseConnectionCollision      = C.RISTULVA_ERROR_CEASE_CONNECTION_COLLISION
	SubcodeCeaseOutOfResources           = C.RISTULVA_ERROR_CEASE_OUT_OF_RESOURCES
	SubcodeCeaseHardReset                = C.RISTULVA_ERROR_CEASE_HARD_RESET
	SubcodeCeaseBFDDown                  = C.RISTULVA_ERROR_CEASE_BFD_DOWN
)

// Subcodes of ROUTE-REFRESH Message Error.
const (
	SubcodeRefreshInvalidLength = C.RISTULVA_ERROR_REFRESH_INVALID_LENGTH
)

func name(kind C.uint8_t, number, subcode uint8) string {
	var text [C.RISTULVA_NAME]byte
	var written C.size_t
	C.ristulva_name(kind, C.uint8_t(number), C.uint8_t(subcode), (*C.char)(unsafe.Pointer(&text[0])), C.RISTULVA_NAME, &written)
	return string(text[:written])
}

// AttributeName is the name of a type of path attribute in IANA's registry; empty where it has none here.
func AttributeName(kind uint8) string { return name(C.RISTULVA_NAME_ATTRIBUTE, kind, 0) }

// CapabilityName is the name of a capability's code.
func CapabilityName(code uint8) string { return name(C.RISTULVA_NAME_CAPABILITY, code, 0) }

// CodeName is the name of a NOTIFICATION's code.
func CodeName(code uint8) string { return name(C.RISTULVA_NAME_ERROR, code, 0) }

// SubcodeName is the name of a subcode of a code.
func SubcodeName(code, subcode uint8) string { return name(C.RISTULVA_NAME_SUBCODE, code, subcode) }
