// ---- the module: each fact on the page is its text or its JSON

let exports, compiled;

async function load() {
    const packed = Uint8Array.from(atob($('module').textContent.trim()), letter => letter.charCodeAt(0));
    const stream = new Blob([packed]).stream().pipeThrough(new DecompressionStream('gzip'));
    const bytes = await new Response(stream).arrayBuffer();
    if (!WebAssembly.validate(bytes)) throw new Error('no memory64');
    compiled = await WebAssembly.compile(bytes);
    exports = (await WebAssembly.instantiate(compiled, {})).exports;
}

// A block of the module's memory. Its address is a BigInt.
function take(size) {
    const block = exports.mtrr_take(BigInt(size));
    if (block === 0n) throw new Error('The module has no more memory.');
    return block;
}

// What a tool writes for words and inputs, and its status. A text that finds no room (64) is asked for again with as much as it needs.
function call(tool, words, ...inputs) {
    const blocks = [];
    const put = bytes => {
        const block = take(bytes.length);
        blocks.push(block);
        new Uint8Array(exports.memory.buffer).set(bytes, Number(block));
        return [block, BigInt(bytes.length)];
    };
    try {
        const given = [encoder.encode(words.map(word => word + '\0').join('')), ...inputs].flatMap(put);
        const written = put(new Uint8Array(8))[0];
        for (let size = 1 << 16; ;) {
            const room = put(new Uint8Array(size));
            const status = exports[tool](...given, ...room, written);
            const length = Number(new DataView(exports.memory.buffer).getBigUint64(Number(written), true));
            if (status !== 64) return { status, text: decoder.decode(new Uint8Array(exports.memory.buffer, Number(room[0]), length)) };
            size = length;
        }
    } finally {
        blocks.forEach(block => exports.mtrr_give(block));
    }
}

const run = (words, input) => call('mtrr_run', words, input);
const importLog = (words, input) => call('mtrr_import', words, input);
const draw = (input, words) => call('mtrr_map', words, input);

// An answer of mtrr-explain: its JSON, or the text that says why there is none.
function explain(words, first, second) {
    const told = call('mtrr_explain', words, first, second || nothing);
    return told.status > 1 ? { trouble: told.text.trim().replace(/^input: /, '') } : JSON.parse(told.text);
}

// The canonical text of a dump, and of its processor 0 alone.
const shown = dump => run(['show'], dump).text;

function firstSection(dump) {
    const text = shown(dump), start = text.indexOf('\ncpu 0\n');
    if (start < 0) return dump;
    const end = text.indexOf('\ncpu 1\n');
    return encoder.encode(text.slice(start + 7, end < 0 ? undefined : end + 1));
}
