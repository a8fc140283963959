"use strict";
// Octets out of what was pasted: digits as they come, or a dump with offsets, as hexdump -C, xxd, tcpdump -x and Wireshark write it.

// An offset before digits, `00000010` or `0x0010:`.
const OFFSET = /^\s*(0x)?([0-9a-f]{4,16})(:|\s|$)(.*)$/i;

// The octets of a line after its offset: 16 at most, up to a gap or to what isn't a pair of digits, since the same as text may follow.
function octetsOfLine(rest) {
    const octets = [];
    for (const [, gap, word] of rest.matchAll(/(\s*)(\S+)/g)) {
        if (octets.length >= 16 || (octets.length && gap.length > 2) || !/^([0-9a-f]{2}){1,2}$/i.test(word)) break;
        for (const pair of word.match(/../g)) octets.push(parseInt(pair, 16));
    }
    return octets.slice(0, 16);
}

// The packets of a dump, each from an offset of 0 on; nothing where the text is no dump. `told` gets what was done to the text.
function packetsOf(lines, told) {
    const packets = [], isTcpdump = lines.some((it) => /^\s*0x[0-9a-f]{4}:/i.test(it));
    let folded = 0, last = [];
    for (const [index, line] of lines.entries()) {
        const found = line.match(OFFSET), isOffset = found && (found[1] || !isTcpdump);
        if (line.trim() === "*" && last.length) folded = index + 1;
        if (!line.trim() || line.trim() === "*") continue;
        // Between packets tcpdump has lines of its own.
        if (!isOffset && isTcpdump) continue;
        if (!isOffset) return undefined;
        const at = parseInt(found[2], 16), octets = octetsOfLine(found[4]);
        if (at === 0) packets.push([]);
        const packet = packets[packets.length - 1];
        if (!packet || (found[4].trim() && !octets.length)) return undefined;
        if (folded && at > packet.length) {
            told.push(`line ${folded}: * stands for ${at - packet.length} octets like those of the line before it, which are put in`);
            while (packet.length < at) packet.push(packet[packet.length - last.length]);
        }
        if (at !== packet.length) return undefined;
        packet.push(...octets);
        [folded, last] = [0, octets];
    }
    return packets.some((it) => it.length) ? packets.filter((it) => it.length) : undefined;
}

// What TCP carries in a packet, with both ends, where it is one of IPv4 or IPv6, in an Ethernet frame or by itself.
function segmentOf(packet) {
    const two = (at) => packet[at] * 256 + packet[at + 1];
    const start = two(12) === 0x0800 || two(12) === 0x86dd ? 14 : 0;
    const kind = packet[start] >> 4;
    let tcp, end, address;
    if (kind === 4 && packet[start + 9] === 6) [tcp, end, address] = [start + (packet[start] & 15) * 4, start + two(start + 2), packet.slice(start + 12, start + 20)];
    else if (kind === 6 && packet[start + 6] === 6) [tcp, end, address] = [start + 40, start + 40 + two(start + 4), packet.slice(start + 8, start + 40)];
    else return undefined;
    const data = tcp + (packet[tcp + 12] >> 4) * 4;
    if (!(data <= packet.length) || !(data >= tcp + 20)) return undefined;
    return { from: [...address.slice(0, address.length / 2), two(tcp)].join(), octets: packet.slice(data, Math.min(end, packet.length)) };
}

// The octets of packets: what TCP carries one way, where they have headers. A message begins with 255.
function octetsOfPackets(packets, told) {
    const segments = packets.map((it) => (it[0] === 255 ? undefined : segmentOf(it)));
    const first = segments.find((it) => it && it.octets.length);
    if (!first) return packets.flat();
    const same = segments.filter((it) => it && it.from === first.from), others = segments.length - same.length;
    told.push(`the headers of ${same.length} packet${same.length > 1 ? "s" : ""} are passed over`);
    if (others) told.push(`${others} packet${others > 1 ? "s" : ""} of other senders too`);
    return same.flatMap((it) => it.octets);
}

// The octets of a text, with what was done to it, or at which line and column it has something else than digits.
function octetsOf(text) {
    const told = [], packets = packetsOf(text.split(/\r?\n/), told);
    if (packets) return { octets: Uint8Array.from(octetsOfPackets(packets, told)), told };
    const plain = text.replace(/0x|\\x|["',;:]/gi, (it) => " ".repeat(it.length)), bad = plain.search(/[^0-9a-f\s]/i);
    if (bad >= 0) {
        const before = text.slice(0, bad).split("\n");
        return { fault: `line ${before.length}, column ${before[before.length - 1].length + 1}: “${String.fromCodePoint(text.codePointAt(bad))}” is no hexadecimal digit` };
    }
    const digits = plain.replace(/\s+/g, "");
    if (digits.length % 2) return { fault: "the last digit has no second one" };
    const octets = (digits.match(/../g) ?? []).map((it) => parseInt(it, 16));
    return { octets: Uint8Array.from(octetsOfPackets([octets], told)), told };
}

const digitsOf = (octets) => Array.from(octets, (it) => it.toString(16).padStart(2, "0")).join("");
