"use strict";
// What a message says: the lines of `bgp show`, and what each of its fields says, as in `bgp explain`. Nothing is parsed here: each octet is in a
// field that the module reports. NAMES precedes this, taken from the crates; F has the kinds of fields.

const F = Object.fromEntries(Object.entries(C).filter(([name]) => name.startsWith("FIELD_") && name !== "FIELD_NAME").map(([name, value]) => [name.slice(6), value]));
const KINDS = ["HEADER", "OPEN", "UPDATE", "NOTIFICATION", "KEEPALIVE"];
const OF_IPV4 = new Set([F.WITHDRAWN_PREFIX, F.UNREACH_PREFIX4, F.REACH_PREFIX4, F.NLRI_PREFIX]), OF_IPV6 = new Set([F.UNREACH_PREFIX6, F.REACH_PREFIX6]);
const ADDRESSES = new Set([F.IDENTIFIER, F.ADDRESS, F.NEXT_HOP, F.LINK_LOCAL]);
// What isn't a number, or says nothing.
const NO_NUMBERS = new Set([...OF_IPV4, ...OF_IPV6, ...ADDRESSES, F.MARKER, F.CAPABILITY_VALUE, F.RESERVED, F.ATTRIBUTE_FLAGS, F.COMMUNITY, F.LARGE_COMMUNITY,
    F.ATTRIBUTE_VALUE, F.ERROR_SUBCODE, F.DATA, F.UNREAD]);
const NAMED = { [F.MESSAGE_TYPE]: NAMES.message, [F.PARAMETER_TYPE]: NAMES.parameter, [F.CAPABILITY_CODE]: NAMES.capability, [F.SAFI]: NAMES.safi, [F.AFI]: NAMES.afi,
    [F.ATTRIBUTE_TYPE]: NAMES.attribute, [F.ORIGIN]: NAMES.origin, [F.SEGMENT_TYPE]: NAMES.segment, [F.ERROR_CODE]: NAMES.error };

const numberOf = (octets) => octets.reduce((sum, it) => sum * 256 + it, 0);
// An address: of IPv6 in all its digits as in `bgp show`, or in the form of RFC 5952.
const longAddressOf = (octets) => (octets.length === 4 ? octets.join(".") : digitsOf(octets).match(/.{4}/g).join(":"));
function addressOf(octets) {
    if (octets.length === 4) return octets.join(".");
    const groups = piecesOf(octets, 2).map(numberOf), zeros = (at) => (groups[at] === 0 ? 1 + zeros(at + 1) : 0);
    const runs = groups.map((_, at) => zeros(at)), longest = Math.max(...runs), at = runs.indexOf(longest), text = (list) => list.map((it) => it.toString(16)).join(":");
    return longest < 2 ? text(groups) : `${text(groups.slice(0, at))}::${text(groups.slice(at + longest))}`;
}
// Whole pieces of this length.
const piecesOf = (octets, size) => Array.from({ length: Math.floor(octets.length / size) }, (_, index) => octets.subarray(size * index, size * index + size));
const dataOf = (octets) => digitsOf(octets) || "-";
const numbersOf = (octets) => Array.from({ length: octets.length / 4 }, (_, index) => numberOf(octets.subarray(4 * index, 4 * index + 4)));
const communityOf = (octets) => `${numberOf(octets.subarray(0, 2))}:${numberOf(octets.subarray(2))}`;
const subcodeName = (code, subcode) => (NAMES.subcode[code] ?? {})[subcode] ?? "";

// A prefix, with the bits after its length left out.
function prefixOf(octets, width, shown) {
    const bits = octets[0], address = new Uint8Array(width);
    address.set(octets.subarray(1));
    if (bits % 8) address[octets.length - 2] &= 256 - (1 << (8 - (bits % 8)));
    return `${shown(address)}/${bits}`;
}

// The text of RFC 9003 in the data of a NOTIFICATION: nothing where it isn't counted right or isn't UTF-8.
function shutdownOf(code, subcode, data) {
    if (code !== 6 || (subcode !== 2 && subcode !== 4) || data[0] !== data.length - 1) return "";
    try {
        return new TextDecoder("utf-8", { fatal: true, ignoreBOM: true }).decode(data.subarray(1));
    } catch {
        return "";
    }
}

// As a string in quotation marks, its control characters by their numbers.
const quoted = (text) => `"${Array.from(text, (it) => (it === '"' || it === "\\" ? `\\${it}` : /\p{Cc}/u.test(it) ? `\\u00${digitsOf([it.codePointAt(0)])}` : it)).join("")}"`;

function flagsOf(flags) {
    const words = [flags & 128 ? "optional" : "well-known", flags & 64 ? "transitive" : "non-transitive"];
    return [...words, ...(flags & 32 ? ["partial"] : []), ...(flags & 16 ? ["extended"] : [])].join(" ");
}

const COMMUNITIES = { 4294901760: "GRACEFUL_SHUTDOWN", 4294901761: "ACCEPT_OWN", 4294901766: "LLGR_STALE", 4294901767: "NO_LLGR", 4294902426: "BLACKHOLE",
    4294967041: "NO_EXPORT", 4294967042: "NO_ADVERTISE", 4294967043: "NO_EXPORT_SUBCONFED", 4294967044: "NOPEER" };
const ROLES = ["Provider", "RS", "RS-Client", "Customer", "Peer"];

const MODES = { 1: "receive", 2: "send", 3: "send and receive" };

const familyOf = (octets, safi) => `${NAMES.afi[numberOf(octets.subarray(0, 2))] || numberOf(octets.subarray(0, 2))} ${NAMES.safi[safi] || safi}`;

// Texts in sequence, with commas between them; the octets after the last whole piece say nothing, and a comma precedes them.
const rowOf = (octets, size, told) => piecesOf(octets, size).map(told).join(",") + (octets.length > size && octets.length % size ? "," : "");

// A name of FQDN, where it is UTF-8.
function hostOf(octets) {
    try {
        const text = new TextDecoder("utf-8", { fatal: true, ignoreBOM: true }).decode(octets);
        return text && ` ${quoted(text)}`;
    } catch {
        return "";
    }
}

function namesOf(octets) {
    if (!octets.length) return "";
    const rest = octets.subarray(1 + octets[0]);
    return hostOf(octets.subarray(1, 1 + octets[0])) + (rest.length ? hostOf(rest.subarray(1, 1 + rest[0])) : "");
}

const keptOf = (flags) => (flags > 127 ? " forwarding state kept" : "");

// What a capability of a code says on which no verdict depends: RFC 8950, 9234, 4724, 7911, 9494, and FQDN.
function capabilityOf(code, octets) {
    if (code === 5) return rowOf(octets, 6, (it) => ` ${familyOf(it, it[3])} by ${NAMES.afi[numberOf(it.subarray(4))] || numberOf(it.subarray(4))}`);
    if (code === 9 && octets.length === 1) return ` ${octets[0]} ${ROLES[octets[0]] ?? ""}`.trimEnd();
    if (code === 64 && octets.length >= 2)
        return ` ${numberOf(octets.subarray(0, 2)) % 4096} seconds` + piecesOf(octets.subarray(2), 4).map((it) => `, ${familyOf(it, it[2])}${keptOf(it[3])}`).join("");
    if (code === 69) return rowOf(octets, 4, (it) => ` ${familyOf(it, it[2])} ${MODES[it[3]] ?? it[3]}`);
    if (code === 71) return rowOf(octets, 7, (it) => ` ${familyOf(it, it[2])} ${numberOf(it.subarray(4))} seconds`);
    return code === 73 ? namesOf(octets) : "";
}

const subtypeOf = (subtype) => ({ 2: "route target", 3: "route origin" }[subtype] ?? `subtype ${subtype}`);

// An extended community (RFC 4360, 5668, 9012).
function extendedOf(octets) {
    const [type, subtype] = octets, split = type % 64 === 0 ? 4 : 6, owner = octets.subarray(2, split);
    if (type % 64 < 3) return ` ${subtypeOf(subtype)} ${type % 64 === 1 ? addressOf(owner) : numberOf(owner)}:${numberOf(octets.subarray(split))}`;
    return type === 3 && subtype === 11 ? ` color ${numberOf(octets.subarray(4))}` : ` type ${type} subtype ${subtype}`;
}

// One of an IPv6 address (RFC 5701).
function extended6Of(octets) {
    const [type, subtype] = octets;
    if (type % 64 === 0) return ` ${subtypeOf(subtype)} [${addressOf(octets.subarray(2, 18))}]:${numberOf(octets.subarray(18))}`;
    return ` type ${type} subtype ${subtype}`;
}

// What an attribute of a type says that isn't recognised.
function unrecognisedOf(type, octets) {
    if (type === 9 && (octets.length === 4 || octets.length === 16)) return addressOf(octets);
    if (type === 10) return piecesOf(octets, 4).map(addressOf).join(" ");
    if (type === 16) return rowOf(octets, 8, extendedOf);
    if (type === 25) return rowOf(octets, 20, extended6Of);
    if (type === 35 && octets.length === 4) return `AS ${numberOf(octets)}`;
    if (type === 26 && octets.length === 11 && numberOf(octets.subarray(0, 3)) === 65547)
        return `metric ${octets.subarray(3).reduce((sum, it) => sum * 256n + BigInt(it), 0n)}`;
    return "";
}

const detailOf = (kind, type, octets) => (kind === F.CAPABILITY_VALUE ? capabilityOf(type, octets) : unrecognisedOf(type, octets)).trimStart();

// What a field says, after its name; addresses are shown so.
function valueOf(message, { kind, at, len, type }, shown = addressOf) {
    const octets = message.subarray(at, at + len), code = message[19], subcode = message[20];
    if (OF_IPV4.has(kind)) return prefixOf(octets, 4, shown);
    if (OF_IPV6.has(kind)) return prefixOf(octets, 16, shown);
    if (ADDRESSES.has(kind)) return shown(octets);
    if (kind === F.ATTRIBUTE_FLAGS) return flagsOf(octets[0]);
    if (kind === F.COMMUNITY) return `${communityOf(octets)} ${COMMUNITIES[numberOf(octets)] ?? ""}`.trimEnd();
    if (kind === F.CAPABILITY_VALUE || kind === F.ATTRIBUTE_VALUE) return detailOf(kind, type, octets);
    if (kind === F.LARGE_COMMUNITY) return numbersOf(octets).join(":");
    if (kind === F.ERROR_SUBCODE) return `${subcode} ${subcodeName(code, subcode)}`.trimEnd();
    if (kind === F.DATA) return shutdownOf(code, subcode, octets) && quoted(shutdownOf(code, subcode, octets));
    return NO_NUMBERS.has(kind) ? "" : `${numberOf(octets)} ${(NAMED[kind] ?? {})[numberOf(octets)] ?? ""}`.trimEnd();
}

// ---- lines, each with the octets that it is read from

class Lines {
    constructor(message, fields) {
        Object.assign(this, { message, fields, list: [] });
    }

    add(text, first, last = first) {
        this.list.push({ text, at: first.at, len: last.at + last.len - first.at });
    }

    octets({ at, len }) {
        return this.message.subarray(at, at + len);
    }

    value(field) {
        return valueOf(this.message, field, longAddressOf);
    }

    // A line for each field of a kind.
    each(word, kind) {
        for (const it of this.fields) if (it.kind === kind) this.add(`${word} ${this.value(it)}`, it);
    }

    // The fields by the attribute or the capability that they belong to.
    groups() {
        const groups = new Map();
        for (const it of this.fields) if (it.group) groups.set(it.group, [...(groups.get(it.group) ?? []), it]);
        return [...groups.values()];
    }
}

function openLines(lines) {
    for (const [word, kind] of [["as", F.MY_AS], ["hold", F.HOLD_TIME], ["id", F.IDENTIFIER]]) lines.each(word, kind);
    for (const group of lines.groups()) {
        const of = (kind) => group.find((it) => it.kind === kind), code = of(F.CAPABILITY_CODE);
        if (!code) continue;
        const last = group[group.length - 1], number = (kind) => numberOf(lines.octets(of(kind)));
        if (of(F.AFI)) lines.add(`cap multi ${number(F.AFI)} ${number(F.SAFI)}`, code, last);
        else if (of(F.AS_NUMBER)) lines.add(`cap as4 ${number(F.AS_NUMBER)}`, code, last);
        else lines.add(`cap ${code.type} ${of(F.CAPABILITY_VALUE) ? dataOf(lines.octets(of(F.CAPABILITY_VALUE))) : "-"}`, code, last);
    }
}

// The routes of an UPDATE that is treated as a withdrawal: those of IPv4 first.
function routeLines(lines) {
    for (const kind of [F.WITHDRAWN_PREFIX, F.UNREACH_PREFIX4, F.REACH_PREFIX4, F.NLRI_PREFIX, F.UNREACH_PREFIX6, F.REACH_PREFIX6]) lines.each("route", kind);
}

// The segments of a path: those of confederations aren't shown.
function pathOf(lines, group) {
    const words = [];
    let isShown = false;
    for (const it of group) {
        const number = numberOf(lines.octets(it));
        if (it.kind === F.SEGMENT_TYPE) isShown = number <= 2;
        if (isShown && it.kind === F.SEGMENT_TYPE) words.push(number === 1 ? "set" : "seq");
        if (isShown && it.kind === F.AS_NUMBER) words.push(number);
    }
    return words.join(" ") || "-";
}

// What an attribute says: its values without its head, or a path.
function attributeOf(lines, group) {
    const { type } = group[0], values = group.slice(3);
    if (type === 1) return NAMES.origin[lines.octets(values[0])[0]];
    if (type === 2 || type === 17) return pathOf(lines, group);
    if (type === 8) return [...new Set(values.map((it) => communityOf(lines.octets(it))))].join(" ");
    return [...new Set(values.map((it) => lines.value(it)))].join(" ");
}

const WORDS = { 1: "origin", 2: "as_path", 3: "next_hop", 4: "med", 5: "local_pref", 6: "atomic", 7: "aggregator", 8: "communities", 32: "large", 17: "as4_path", 18: "as4_aggregator" };
const ORDER = [1, 2, 3, 4, 5, 6, 7, 8, 32, 17, 18];

function otherLine(lines, group) {
    const [flags, type] = group.map((it) => lines.octets(it)[0]), value = group.find((it) => it.kind === F.ATTRIBUTE_VALUE);
    const letters = `${flags & 64 ? "t" : ""}${flags & 32 ? "p" : ""}` || "-";
    return `attr ${type} ${letters} ${value ? dataOf(lines.octets(value)) : "-"}`;
}

// The lines of the attributes that carry routes.
function mpLines(lines, kept) {
    for (const [type, word, kinds] of [[14, "mp_reach", [F.REACH_PREFIX4, F.REACH_PREFIX6]], [15, "mp_unreach", [F.UNREACH_PREFIX4, F.UNREACH_PREFIX6]]]) {
        const group = kept.find((it) => it[0].type === type);
        if (!group) continue;
        const of = (kind) => group.find((it) => it.kind === kind), hop = of(F.NEXT_HOP), link = of(F.LINK_LOCAL);
        const family = numberOf(lines.octets(of(F.AFI))) === 1 ? "ip4" : "ip6";
        const next = (hop ? ` next ${lines.value(hop)}` : "") + (link ? ` link ${lines.value(link)}` : "");
        lines.add(`${word} ${family}${next}`, group[0], group[group.length - 1]);
        for (const kind of kinds) lines.each(type === 14 ? "mp_nlri" : "mp_withdrawn", kind);
    }
}

function updateLines(lines, notes) {
    const noted = new Set(notes.map((it) => it.at)), kept = lines.groups().filter((it) => !noted.has(it[0].group));
    const add = (text, group) => lines.add(text, group[0], group[group.length - 1]);
    lines.each("withdrawn", F.WITHDRAWN_PREFIX);
    mpLines(lines, kept);
    for (const type of ORDER)
        for (const group of kept.filter((it) => it[0].type === type)) add(`${WORDS[type]} ${attributeOf(lines, group)}`.trimEnd(), group);
    const others = kept.filter((it) => !(it[0].type in WORDS) && it[0].type !== 14 && it[0].type !== 15).sort((a, b) => a[0].type - b[0].type);
    for (const group of others) add(otherLine(lines, group), group);
    lines.each("nlri", F.NLRI_PREFIX);
}

// ---- messages

const nameOf = (code, subcode) => [NAMES.error[code] ?? "", subcodeName(code, subcode)].filter(Boolean).join(": ");

// The section by which a message is judged as a whole.
function sectionOf({ verdict, kind }, faultSection) {
    if (verdict === C.RESET) return faultSection;
    if (verdict === C.WITHDRAW) return "RFC 7606, section 2";
    return `RFC 4271, section ${[, "4.2", "4.3", "4.5", "4.4"][kind]}`;
}

// The first message of octets, which are at an offset of their stream; nothing where there is less than one.
function messageOf(library, context, stream, place) {
    library.hold(stream.subarray(place));
    const verdict = library.judge(context);
    if (!verdict) return undefined;
    const octets = stream.subarray(place, place + (verdict.len || 19));
    const fields = library.fields(), fault = library.fault(), notes = library.notes(), lines = new Lines(octets, fields);
    const word = verdict.verdict === C.RESET ? " reset" : verdict.kind === 2 ? (verdict.verdict === C.WITHDRAW ? " withdraw" : " take") : "";
    const told = (data) => ` ${verdict.code}/${verdict.subcode} ${data}`, isShort = verdict.verdict === C.RESET && verdict.data.length > 64;
    const said = verdict.verdict === C.RESET || verdict.kind === 3 ? told(dataOf(verdict.data)) : "";
    const short = isShort ? told(`${dataOf(verdict.data.subarray(0, 64))}... of ${verdict.data.length} octets`) : said;
    if (verdict.verdict === C.OPEN) openLines(lines);
    if (verdict.verdict === C.UPDATE) updateLines(lines, notes);
    if (verdict.verdict === C.WITHDRAW) routeLines(lines);
    const begin = `${place} ${verdict.len} ${KINDS[verdict.kind]}${word}`, head = `${begin}${said}`, heading = `${begin}${short}`;
    const section = sectionOf(verdict, library.faultSection());
    const message = { place, octets, verdict, head, heading, fields, fault, lines: lines.list, notes: notes.map((it) => toldNote(it)), section };
    return { ...message, told: placed(message) };
}

// What was expected where a message is at fault.
const CLASSES = ["well-known transitive", "optional transitive", "optional non-transitive"];
const FLAGS_WANTED = { 1: 0, 2: 0, 3: 0, 4: 2, 5: 0, 6: 0, 7: 1, 8: 1, 14: 2, 15: 2, 17: 1, 18: 1, 32: 1 };
const LENGTH_WANTED = { 1: "1", 3: "4", 4: "4", 5: "4", 6: "0", 7: "6, or 8 with AS numbers of four octets", 8: "a multiple of 4, above 0",
    17: "a multiple of 2, at least 6", 18: "8", 32: "a multiple of 12, above 0" };
const WHY_WANTED = { Value: "0 to 2", SegmentCount: "at least 1", SegmentEnd: "a type, a length, and as many AS numbers", Repeated: "one of each type",
    External: "none from an external peer", FourOctet: "none where both sides have AS numbers of four octets", Family: "a family that both sides agreed on",
    Unneeded: "none without NLRI", Emptied: "a segment that isn't of a confederation", Cut: "an end inside the attributes", Missing: "one with these routes",
    AsZero: "an AS number above 0" };
const CODE_WANTED = { 1: ["", "sixteen octets ff", "19 to 4096, and what the type needs", "1 to 4, or 5 where the receiver offers ROUTE-REFRESH"],
    2: ["a length that fits", "4", "", "an identifier above 0", "2", "", "0, or at least 3"] };
const SECTION_WANTED = { "RFC 7606, section 3, item g": "one of each type", "RFC 7606, section 7.11": "4 for IPv4, 16 or 32 for IPv6",
    "RFC 7606, section 5.3": "a family, a next hop, and prefixes of at most 32 bits, or 128 of IPv6", "RFC 7606, section 5.2": "routes that can be withdrawn" };
const SUBCODE_WANTED = { 1: "an end inside the message", 2: "a known type, or the Optional bit", 10: "a length of at most 32, and its octets" };

function noteWanted({ kind }, why) {
    if (why === "Flags") return CLASSES[FLAGS_WANTED[kind]] ?? "";
    if (why === "Length") return LENGTH_WANTED[kind] ?? "";
    if (why === "SegmentType") return kind === 17 ? "1 to 4" : "1 or 2";
    return WHY_WANTED[why];
}

function resetWanted({ code, subcode }, section) {
    if (code !== 3) return (CODE_WANTED[code] ?? [])[subcode] ?? "";
    if (section === "own rule") return subcode === 1 ? "an end inside the attributes" : "optional non-transitive";
    return SECTION_WANTED[section] ?? SUBCODE_WANTED[subcode] ?? "";
}

// A note as `bgp show` prints it, and the reason as `bgp explain` does.
function toldNote(note) {
    const why = WHYS[note.why], reason = `${NAMES.attribute[note.kind] ?? `type ${note.kind}`} ${why}: expected ${noteWanted(note, why)} (${note.section})`;
    return { ...note, line: `note ${note.at && note.at - 19} ${note.kind} ${why}`, reason, text: WHY_TEXTS[note.why] };
}

// Whether a field of its attribute is what a note is about.
function isBlamed(octets, note, field) {
    const number = numberOf(octets.subarray(field.at, field.at + field.len));
    switch (WHYS[note.why]) {
        case "Flags": return field.kind === F.ATTRIBUTE_FLAGS;
        case "Length": case "Cut": return field.kind === F.ATTRIBUTE_LENGTH;
        case "Value": return ![F.ATTRIBUTE_FLAGS, F.ATTRIBUTE_TYPE, F.ATTRIBUTE_LENGTH].includes(field.kind);
        case "SegmentType": return field.kind === F.SEGMENT_TYPE && (number === 0 || number > (note.kind === 17 ? 4 : 2));
        case "SegmentCount": return field.kind === F.SEGMENT_COUNT && number === 0;
        case "SegmentEnd": return field.kind === F.UNREAD;
        case "Family": return field.kind === F.AFI;
        case "AsZero": return field.kind === F.AS_NUMBER && number === 0;
        default: return field.kind === F.ATTRIBUTE_TYPE;
    }
}

// Whether it is printed above a field: above what it is about, else above the last field of its attribute, or above the first one after it.
function isTold(octets, note, field) {
    if (!note.at) return false;
    if (field.group !== note.at) return note.at < field.at;
    const length = octets[note.at] & 16 ? 4 + octets[note.at + 2] * 256 + octets[note.at + 3] : 3 + octets[note.at + 2];
    return isBlamed(octets, note, field) || note.at + length <= field.at + field.len;
}

// Which fields are marked, what is printed above which, and the notes that have no field.
function placed({ octets, verdict, fields, fault, notes, section }) {
    const marked = new Set(), above = new Map(), left = [...notes];
    if (verdict.verdict === C.RESET) {
        const name = subcodeName(verdict.code, verdict.subcode), what = `${verdict.code}/${verdict.subcode}${name && ` ${name}`}`;
        const told = { at: fault.at, reason: `${what}: expected ${resetWanted(verdict, section)} (${section})` };
        for (const it of fields) {
            if (it.at < fault.at + fault.len && fault.at < it.at + it.len) marked.add(it);
            if (fault.len && it.at <= fault.at && fault.at < it.at + it.len) above.set(it, told);
        }
        return { marked, above, left: [] };
    }
    let last = 0;
    for (const it of fields) {
        const [note] = left;
        if (it.group && (it.group === last || it.group === note?.at)) marked.add(it);
        if (!note || !isTold(octets, note, it)) continue;
        above.set(it, { at: it.at, reason: note.reason });
        last = note.at;
        left.shift();
    }
    return { marked, above, left };
}

// Whether a field is marked, and why, where that is printed above it.
function markOf(message, field) {
    return { isMarked: message.told.marked.has(field), reason: message.told.above.get(field)?.reason ?? "" };
}

// The lines of `bgp explain` of a message: those of `bgp show`, and its fields.
function explained(library, message) {
    const shown = [message.heading, ...message.lines.map((it) => `  ${it.text}`), ...message.notes.map((it) => `  ${it.line}`)];
    const fields = message.fields.flatMap((it) => {
        const { isMarked } = markOf(message, it), value = valueOf(message.octets, it), why = message.told.above.get(it);
        const digits = digitsOf(message.octets.subarray(it.at, it.at + it.len));
        const line = `  ${isMarked ? ">" : " "} ${it.at} ${digits} ${library.fieldName(it.kind)}${value && ` ${value}`}`;
        return why ? [`  ! ${why.at} ${why.reason}`, line] : [line];
    });
    return [...shown, ...fields, ...message.told.left.map((it) => `  ! ${it.reason}`)];
}
