"use strict";
// The card of a message: its verdict, what it says, its octets, and its fields. What octets say is inserted only as text.

const VERDICTS = {
    [C.OPEN]: ["take", "accepted"], [C.UPDATE]: ["take", "accepted"], [C.KEEPALIVE]: ["take", "accepted"], [C.NOTIFICATION]: ["came", "the peer ended the session"],
    [C.WITHDRAW]: ["withdraw", "treated as a withdrawal"], [C.RESET]: ["reset", "ends the session"],
};

// The hue of a kind of field, by what it is.
const HUES = {};
for (const [hue, words] of Object.entries({
    head: "MARKER MESSAGE_LENGTH MESSAGE_TYPE RESERVED", size: "PARAMETERS_LENGTH PARAMETER_LENGTH CAPABILITY_LENGTH WITHDRAWN_LENGTH ATTRIBUTES_LENGTH ATTRIBUTE_LENGTH SEGMENT_COUNT NEXT_HOP_LENGTH",
    kind: "PARAMETER_TYPE CAPABILITY_CODE ATTRIBUTE_TYPE SEGMENT_TYPE AFI SAFI ERROR_CODE ERROR_SUBCODE", flags: "ATTRIBUTE_FLAGS", as: "MY_AS AS_NUMBER",
    address: "IDENTIFIER ADDRESS NEXT_HOP LINK_LOCAL", number: "VERSION HOLD_TIME ORIGIN MED LOCAL_PREF COMMUNITY LARGE_COMMUNITY",
    route: "WITHDRAWN_PREFIX UNREACH_PREFIX4 UNREACH_PREFIX6 REACH_PREFIX4 REACH_PREFIX6 NLRI_PREFIX", value: "CAPABILITY_VALUE ATTRIBUTE_VALUE DATA", unread: "UNREAD",
})) for (const word of words.split(" ")) HUES[F[word]] = hue;

// An element with properties, and its content: elements, or text.
function make(tag, properties, ...children) {
    const { data, ...own } = properties ?? {}, it = Object.assign(document.createElement(tag), own);
    Object.assign(it.dataset, data);
    it.append(...children);
    return it;
}

// A section of an RFC as a link to its text.
function sectionLink(text) {
    const [, rfc, part] = text.match(/^RFC (\d+), section ([\d.]+)/) ?? [];
    if (!rfc) return document.createTextNode(text);
    return make("a", { href: `https://www.rfc-editor.org/rfc/rfc${rfc}#section-${part}`, rel: "noreferrer noopener", textContent: text });
}

const span = ({ at, len }) => ({ at, len });

// What the message says, a line each, and below why something is discarded, or for what the session ends.
function linesOf(message) {
    const { verdict } = message, list = make("ul", { className: "lines" });
    for (const line of message.lines) {
        const [word, ...rest] = line.text.split(" ");
        list.append(make("li", { data: span(line) }, make("b", {}, word), rest.length ? ` ${rest.join(" ")}` : ""));
    }
    if (verdict.kind === 3 || verdict.verdict === C.RESET) {
        const name = nameOf(verdict.code, verdict.subcode), data = verdict.data_len ? `, data ${digitsOf(verdict.data)}` : "";
        const who = verdict.verdict === C.RESET ? "To be answered by" : "The peer sent";
        list.append(make("li", { className: "why", data: span(message.fault) }, `${who} NOTIFICATION ${verdict.code}/${verdict.subcode}${name && ` ${name}`}${data}`));
    }
    for (const note of message.notes) {
        const name = NAMES.attribute[note.kind] ?? `attribute ${note.kind}`, { section } = note;
        const line = make("li", { className: "why", data: span(note.span) }, `${name}: ${note.text}. `);
        if (section) line.append(make("small", {}, sectionLink(section)));
        list.append(line);
    }
    return list;
}

// The octets, sixteen a row in two halves, each coloured by its field.
function octetsIn(message, describe) {
    const box = make("div", { className: "octets", tabIndex: 0 });
    box.setAttribute("role", "group");
    box.setAttribute("aria-label", `The ${message.octets.length} octets. Arrow keys go from field to field.`);
    box.setAttribute("aria-describedby", describe);
    const cells = [];
    message.fields.forEach((field, index) => {
        const { isMarked } = markOf(message, field);
        for (let at = field.at; at < field.at + field.len; at++) {
            const fault = message.fault.len ? at >= message.fault.at && at < message.fault.at + message.fault.len : isMarked;
            const ends = `${at === field.at ? " first" : ""}${at === field.at + field.len - 1 ? " last" : ""}`;
            const cell = make("span", { className: `${HUES[field.kind]}${ends}${fault ? " marked" : ""}`, data: { at, len: 1, field: index } }, digitsOf([message.octets[at]]));
            cell.setAttribute("aria-hidden", "true");
            cells.push(cell);
        }
    });
    for (let at = 0; at < cells.length; at += 8) {
        const offset = make("span", { className: "offset" }, String(message.place + at));
        offset.setAttribute("aria-hidden", "true");
        box.append(make("div", { className: "half" }, offset, ...cells.slice(at, at + 8)));
    }
    return box;
}

// The fields as `bgp explain` prints them, a row each.
function fieldsTable(library, message) {
    const rows = message.fields.map((field, index) => {
        const { isMarked, reason } = markOf(message, field), value = valueOf(message.octets, field);
        const digits = digitsOf(message.octets.subarray(field.at, field.at + field.len));
        const cells = [isMarked ? ">" : "", String(field.at), digits, library.fieldName(field.kind), value].map((it) => make("td", {}, it));
        if (isMarked) cells[0].setAttribute("aria-label", "at fault");
        const last = make("td", {});
        if (reason) last.append(...reasonParts(reason));
        return make("tr", { className: isMarked ? "marked" : "", data: { ...span(field), field: index } }, ...cells, last);
    });
    for (const note of message.told.left)
        rows.push(make("tr", { className: "marked" }, ...["!", "", "", "", ""].map((it) => make("td", {}, it)), make("td", {}, ...reasonParts(note.reason))));
    const heads = ["Fault", "Offset", "Octets", "Field", "Says", "Why"].map((it) => make("th", { scope: "col" }, it));
    return make("table", {}, make("thead", {}, make("tr", {}, ...heads)), make("tbody", {}, ...rows));
}

function reasonParts(reason) {
    const at = reason.search(/\(RFC /);
    return at < 0 ? [reason] : [reason.slice(0, at + 1), sectionLink(reason.slice(at + 1, -1)), ")"];
}

// What the field that is pointed at is.
function described(library, message, field) {
    const { isMarked, reason } = markOf(message, field), value = valueOf(message.octets, field);
    const where = `${field.len} octet${field.len > 1 ? "s" : ""} at ${field.at}`;
    const group = field.group && groupName(message, field);
    return [make("b", {}, library.fieldName(field.kind)), `${value && ` ${value}`}`, make("br"), `${where}${group ? `, in ${group}` : ""}${isMarked ? `, at fault${reason && `: ${reason}`}` : ""}`];
}

function groupName(message, field) {
    if (message.verdict.kind === 2) return NAMES.attribute[field.type] ?? `attribute ${field.type}`;
    const first = message.fields.find((it) => it.at === field.group);
    if (first.kind === F.PARAMETER_TYPE) return `parameter ${field.type}`;
    return `capability ${field.type}${NAMES.capability[field.type] ? ` ${NAMES.capability[field.type]}` : ""}`;
}

// Highlights all that has octets of a span, in the lines, the octets and the fields.
function highlight(card, at, len) {
    for (const it of card.querySelectorAll("[data-at]")) {
        const from = Number(it.dataset.at), count = Number(it.dataset.len);
        it.classList.toggle("on", count > 0 && from < at + len && at < from + count);
    }
}

// What is pointed at or moved to by keys is shown.
function listen(library, message, card, octets, said) {
    let now = -1;
    const showField = (index) => {
        now = index;
        const field = message.fields[index];
        highlight(card, field.at, field.len);
        said.replaceChildren(...described(library, message, field));
    };
    const show = ({ target }) => {
        const it = target.closest("[data-at]");
        if (!it || !Number(it.dataset.len)) return;
        if (it.dataset.field) return showField(Number(it.dataset.field));
        highlight(card, Number(it.dataset.at), Number(it.dataset.len));
    };
    card.addEventListener("pointerover", show);
    card.addEventListener("click", show);
    card.addEventListener("pointerleave", () => highlight(card, 0, 0));
    octets.addEventListener("focus", () => now < 0 && showField(0));
    octets.addEventListener("keydown", (event) => {
        const last = message.fields.length - 1;
        const next = { ArrowRight: now + 1, ArrowDown: now + 1, ArrowLeft: now - 1, ArrowUp: now - 1, Home: 0, End: last }[event.key];
        if (next === undefined) return;
        event.preventDefault();
        showField(Math.max(0, Math.min(last, next)));
    });
}

function cardOf(library, message, index) {
    const { verdict } = message, [word, words] = VERDICTS[verdict.verdict], id = `message-${index}`;
    const last = message.place + message.octets.length - 1, name = verdict.kind ? KINDS[verdict.kind] : "Header";
    const head = make("h2", { id }, make("b", {}, name), " ", make("span", { className: "verdict" }, words));
    const where = make("p", { className: "where" }, `message ${index + 1}, octets ${message.place} to ${last}, by `, sectionLink(message.section));
    const said = make("div", { className: "said", id: `said-${index}` });
    said.setAttribute("aria-live", "polite");
    const octets = octetsIn(message, said.id);
    const more = make("details", {}, make("summary", {}, `All ${message.fields.length} fields`));
    more.addEventListener("toggle", () => more.open && more.children.length < 2 && more.append(fieldsTable(library, message)));
    const card = make("article", { className: `card ${word}` }, make("header", {}, head, where),
        make("div", { className: "body" }, linesOf(message), make("div", {}, octets, said)), more);
    card.setAttribute("aria-labelledby", id);
    listen(library, message, card, octets, said);
    return card;
}
