"use strict";
// What both speakers agreed on: by switches, from two OPENs, or from the fragment of the page's address, which holds the octets too.

const $ = (id) => document.getElementById(id);
const AGREED = ["as4", "ip4", "ip6", "internal"];

const switches = () => Object.fromEntries(AGREED.map((name) => [name, document.querySelector(`#context input[name=${name}]`)]));

function contextNow() {
    return Object.fromEntries(Object.entries(switches()).map(([name, it]) => [name, Number(it.checked)]));
}

function setContext(agreed) {
    for (const [name, it] of Object.entries(switches())) it.checked = agreed.includes(name);
}

// The OPEN that a text has: what it says, or why there is none.
function openOf(library, text) {
    const { octets, fault } = octetsOf(text);
    if (fault) return { fault };
    const said = library.open(octets);
    return said ? { said } : { fault: octets.length ? "no OPEN that is accepted stands there" : "" };
}

// What two OPENs agree on: what both offer, and whether their AS numbers are equal.
function agreedBy(one, other) {
    const both = ["as4", "ip4", "ip6"].filter((name) => one[name] && other[name]);
    return one.as_number === other.as_number ? [...both, "internal"] : both;
}

// Sets the switches by the OPENs that were pasted, where both are there, and answers what to say of them.
function takeOpens(library) {
    const opens = [0, 1].map((index) => openOf(library, $(`open-${index}`).value));
    const faults = opens.map(({ fault }, index) => fault && `${["the first", "the second"][index]}: ${fault}`).filter(Boolean);
    if (faults.length) return faults.join("; ");
    if (!opens.every((it) => it.said)) return "";
    const [one, other] = opens.map((it) => it.said), agreed = agreedBy(one, other);
    setContext(agreed);
    return `AS ${one.as_number} and AS ${other.as_number} agree on: ${agreed.filter((it) => it !== "internal").join(", ") || "nothing of these"}`;
}

// ---- the fragment: `#as4,ip4,ip6=DIGITS`

function fragmentOf(octets) {
    return `#${AGREED.filter((name) => contextNow()[name]).join(",")}=${digitsOf(octets)}`;
}

// The words and the digits of a fragment; nothing where it has another form.
function readFragment(fragment) {
    const found = fragment.match(/^#([a-z0-9,]*)=([0-9a-f]*)$/i);
    return found && { agreed: found[1].split(","), digits: found[2] };
}
