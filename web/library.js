"use strict";
// The calls of ristulva.h that the page makes, over the memory of the proved module. Its addresses have 64 bits: pointers and lengths are BigInts.
// STRUCTS, C and WASM precede this: the structures and the constants of the header, and the module.

const SIZES = { uint8_t: 1, uint16_t: 2, uint32_t: 4, size_t: 8 };

// Where the members of each structure lie, as C lays them out.
const LAYOUTS = {};
for (const [name, members] of Object.entries(STRUCTS)) {
    let end = 0, most = 1;
    const placed = members.map(([type, member, count]) => {
        const inner = LAYOUTS[type], size = inner ? inner.size : SIZES[type], align = inner ? inner.align : size;
        const at = Math.ceil(end / align) * align;
        end = at + size * (count || 1);
        most = Math.max(most, align);
        return { type, member, count, at };
    });
    LAYOUTS[name] = { members: placed, align: most, size: Math.ceil(end / most) * most };
}

class Library {
    constructor(module) {
        this.calls = new WebAssembly.Instance(module, {}).exports;
        const { buffer } = this.calls.memory;
        this.view = new DataView(buffer);
        this.memory = new Uint8Array(buffer);
        // The rest of the memory that the module begins with is the caller's. It doesn't grow.
        let free = Math.ceil(Number(this.calls.__heap_base.value) / 16) * 16;
        const take = (size) => { const at = free; free += Math.ceil(size / 16) * 16; return at; };
        this.places = { context: take(16), word: take(16), out: take(256), note: take(16), text: take(64), data: take(C.DATA), octets: take(C.MESSAGE) };
        this.places.list = take(Math.max(C.FIELDS * LAYOUTS.ristulva_field.size, C.NOTES * LAYOUTS.ristulva_note_found.size));
        if (free > buffer.byteLength) throw new Error("the module has too little memory");
    }

    read(type, at) {
        if (type in SIZES) return SIZES[type] === 8 ? Number(this.view.getBigUint64(at, true)) : this.view[`getUint${8 * SIZES[type]}`](at, true);
        const said = {};
        for (const it of LAYOUTS[type].members)
            said[it.member] = it.count ? this.memory.slice(at + it.at, at + it.at + it.count) : this.read(it.type, at + it.at);
        return said;
    }

    write(type, at, value) {
        if (type in SIZES) return this.view[`setUint${8 * SIZES[type]}`](at, value, true);
        for (const it of LAYOUTS[type].members) this.write(it.type, at + it.at, value[it.member]);
    }

    at(name) {
        return BigInt(this.places[name]);
    }

    call(name, ...words) {
        return this.calls[`ristulva_${name}`](...words);
    }

    // Calls are made on these octets, the first of a stream: 4096 at most are read.
    hold(octets) {
        const some = octets.subarray(0, C.MESSAGE);
        this.memory.set(some, this.places.octets);
        this.held = [this.at("octets"), BigInt(some.length)];
    }

    // The outcome of the first message in a context, with the data of its NOTIFICATION; nothing where there is less than one.
    judge(context) {
        this.write("ristulva_context", this.places.context, context);
        if (this.call("judge", this.at("context"), ...this.held, this.at("data"), BigInt(C.DATA), this.at("out")) === C.INCOMPLETE) return undefined;
        const verdict = this.read("ristulva_verdict", this.places.out);
        return { ...verdict, data: this.memory.slice(this.places.data, this.places.data + verdict.data_len) };
    }

    // A list of structures, of which a call answers the number written.
    list(name, type, room) {
        this.call(name, this.at("context"), ...this.held, this.at("list"), BigInt(room), this.at("word"));
        const count = this.read("size_t", this.places.word), { size } = LAYOUTS[type];
        return Array.from({ length: count }, (_, index) => this.read(type, this.places.list + index * size));
    }

    fields() {
        return this.list("fields", "ristulva_field", C.FIELDS);
    }

    // Each note with the octets that it is about.
    notes() {
        return this.list("notes", "ristulva_note_found", C.NOTES).map((note) => {
            this.write("ristulva_note_found", this.places.note, note);
            this.call("note_span", ...this.held, this.at("note"), this.at("out"));
            const span = this.read("ristulva_span", this.places.out);
            return { ...note, span, section: this.text("note_section", this.at("note")) };
        });
    }

    // The octets for which the message is answered by a NOTIFICATION: none where it isn't.
    fault() {
        this.call("fault", this.at("context"), ...this.held, this.at("out"));
        return this.read("ristulva_span", this.places.out);
    }

    // The section of an RFC by which it is: an empty text where it isn't.
    faultSection() {
        return this.text("fault_section", this.at("context"), ...this.held);
    }

    // The text that a call writes.
    text(name, ...words) {
        this.call(name, ...words, this.at("text"), 64n, this.at("word"));
        return String.fromCharCode(...this.memory.subarray(this.places.text, this.places.text + this.read("size_t", this.places.word)));
    }

    // What the OPEN says that octets begin with; nothing where there is no accepted OPEN.
    open(octets) {
        this.hold(octets);
        return this.call("open", ...this.held, this.at("out")) === C.OK ? this.read("ristulva_open_fields", this.places.out) : undefined;
    }

    fieldName(kind) {
        return this.text("field_name", kind);
    }

    version() {
        const version = this.call("version");
        return `${Math.floor(version / 1e6)}.${Math.floor(version / 1000) % 1000}.${version % 1000}`;
    }
}
