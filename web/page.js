"use strict";
// The page: what is pasted, dropped or chosen becomes octets, and each message of these a card.

// The number of messages that are shown at once.
const SHOWN = 50;
// The greatest length of a fragment.
const LINKED = 16384;

// Whether memories with 64-bit addresses are supported.
const isAble = () => typeof WebAssembly === "object" && WebAssembly.validate(Uint8Array.of(0, 97, 115, 109, 1, 0, 0, 0, 5, 3, 1, 4, 1));

class Page {
    constructor(library) {
        Object.assign(this, { library, octets: new Uint8Array(), remarks: [] });
        $("examples").append(...Object.keys(EXAMPLES).map((name) => make("option", { value: name }, name.replaceAll("-", " "))));
        $("text").addEventListener("input", () => this.read());
        $("examples").addEventListener("change", () => this.showExample($("examples").value));
        $("file").addEventListener("change", () => this.choose());
        $("clear").addEventListener("click", () => this.clear());
        for (const it of Object.values(switches())) it.addEventListener("change", () => this.draw());
        for (const index of [0, 1]) $(`open-${index}`).addEventListener("input", () => this.readOpens());
        $("input").addEventListener("submit", (event) => event.preventDefault());
        addEventListener("dragover", (event) => (event.preventDefault(), document.body.classList.add("drop")));
        addEventListener("dragleave", () => document.body.classList.remove("drop"));
        addEventListener("drop", (event) => this.drop(event));
        addEventListener("hashchange", () => this.readLink());
        $("foot").textContent = `Ristulva ${library.version()}. Each verdict, each field and each fault’s place comes from code that is proved; this page only shows them.`;
    }

    tell(text, isFault) {
        $("told").textContent = text;
        $("told").className = isFault ? "bad" : "";
    }

    read() {
        const { octets, told, fault } = octetsOf($("text").value);
        this.octets = octets ?? new Uint8Array();
        this.remarks = told ?? [];
        this.draw();
        if (fault) this.tell(fault, true);
    }

    readOpens() {
        $("agreed").textContent = takeOpens(this.library);
        this.draw();
    }

    // A file of text is read as text: the octets of a session begin with a Marker.
    async readFile(file) {
        const octets = new Uint8Array(await file.arrayBuffer());
        $("examples").value = "";
        if (octets.length && octets[0] < 128) {
            $("text").value = new TextDecoder().decode(octets);
            return this.read();
        }
        $("text").value = "";
        this.octets = octets;
        this.remarks = [`${octets.length} octets of ${file.name}`];
        return this.draw();
    }

    // The same file can be chosen again, once it has changed.
    choose() {
        const [file] = $("file").files;
        if (file) this.readFile(file).then(() => ($("file").value = ""));
    }

    drop(event) {
        event.preventDefault();
        document.body.classList.remove("drop");
        const [file] = event.dataTransfer.files, text = file ? "" : event.dataTransfer.getData("text");
        if (file) this.readFile(file);
        if (text) {
            $("text").value = text;
            this.read();
        }
    }

    showExample(name) {
        if (!(name in EXAMPLES)) return;
        const [text, agreed] = EXAMPLES[name];
        $("text").value = text.trim();
        setContext(agreed);
        this.read();
    }

    clear() {
        $("text").value = $("examples").value = "";
        this.read();
        $("text").focus();
    }

    readLink() {
        const found = readFragment(location.hash);
        if (!found) return;
        setContext(found.agreed);
        $("text").value = found.digits.replace(/(.{64})(?=.)/g, "$1\n");
        $("examples").value = "";
        this.read();
    }

    // The messages up to one that ends the session, and how the octets end.
    messages() {
        const found = [], context = contextNow();
        let place = 0;
        while (found.length < SHOWN) {
            const message = messageOf(this.library, context, this.octets, place);
            if (!message) return [found, place === this.octets.length ? "" : `${this.octets.length - place} octets of an incomplete message stand at the end`];
            found.push(message);
            place += message.octets.length;
            if (message.verdict.verdict === C.RESET) return [found, place < this.octets.length ? `what follows isn’t read: ${this.octets.length - place} octets` : ""];
        }
        return [found, place < this.octets.length ? `only the first ${SHOWN} messages are shown` : ""];
    }

    draw() {
        const [found, end] = this.messages(), counts = new Map();
        this.found = found;
        $("messages").replaceChildren(...found.map((it, index) => cardOf(this.library, it, index)));
        for (const { verdict } of found) {
            const [, words] = VERDICTS[verdict.verdict];
            counts.set(words, (counts.get(words) ?? 0) + 1);
        }
        const summed = [...counts].map(([words, count]) => `${count} ${words}`).join(", ");
        this.tell(this.octets.length ? [`${found.length} message${found.length === 1 ? "" : "s"}${summed && `: ${summed}`}`, ...this.remarks, end].filter(Boolean).join("; ") : "");
        const isLinked = this.octets.length > 0 && this.octets.length <= LINKED;
        $("link").hidden = !isLinked;
        $("link").href = isLinked ? fragmentOf(this.octets) : "#";
    }

    // The lines of `bgp explain` of what is shown.
    explained() {
        return this.found.flatMap((it) => explained(this.library, it));
    }
}

function begin() {
    if (!isAble()) {
        $("unable").hidden = false;
        return undefined;
    }
    const octets = Uint8Array.from(atob(WASM), (it) => it.charCodeAt(0));
    const page = new Page(new Library(new WebAssembly.Module(octets)));
    page.draw();
    page.readLink();
    document.documentElement.dataset.ready = "yes";
    return page;
}

globalThis.page = begin();
