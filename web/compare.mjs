// Runs the module beside the programs, and tells where a text or a status differs. `call(tool, words, ..inputs)` answers a status
// and bytes, and `formatOf(bytes)` the format of a log, wherever the module runs.
//     node compare.mjs          in Node. Its status is 77 if the engine has no 64-bit memory and tables
import { mkdtempSync, readFileSync, rmSync, writeFileSync } from 'node:fs';
import { tmpdir } from 'node:os';
import { FORMATS, OTHERS, QUESTIONS, cases, dumps, explainProgram, logs, program, randomDump, scriptInNode, top } from './programs.mjs';

const SUPPLIED = ['maxphyaddr=36', '0fe=d08', '277=7040600070406', '268=505050505050505', '2ff=c00'];
const PICTURES = [[], ['--help'], ['--version'], ['-h'], ['more='], ['files'], ['title=<b>&\u00e9'], ['files', 'title=x'], ['title='], ['title=\ufffe']];
const ADDRESSES = ['0', 'a0000', 'c0000000', 'fee00000', 'ffffffffffffffff'];
const MOST = 1 << 24;
const long = Buffer.alloc(MOST, '# a comment of thirty-two bytes\n');

// Inputs that are no text, too long, or meant to harm.
export const hostile = {
    empty: Buffer.alloc(0),
    zeros: Buffer.alloc(5000),
    'not UTF-8': Buffer.from([0x30, 0x66, 0x65, 0x20, 0xff, 0xfe, 0x0a]),
    'one line': Buffer.alloc(70000, 'a'),
    markup: Buffer.from("<script>alert(1)</script>\n<img src=x onerror='alert(1)'>\n"),
    'most bytes': Buffer.concat([long.subarray(0, MOST - 32), Buffer.from('# of it\n0fe 508\n2ff 806\n# th end\n').subarray(0, 32)]),
    'too long': Buffer.concat([long, Buffer.from('\n')]),
};

export async function compare({ call, formatOf }, randoms) {
    const counts = {};
    let failures = 0;

    function fail(text) {
        failures++;
        if (failures <= 20) console.error(text);
    }

    function same(kind, what, told, wanted) {
        counts[kind] = (counts[kind] || 0) + 1;
        if (told.status !== wanted.status || !Buffer.from(told.text).equals(wanted.text)) fail(`${kind}: ${what}: status ${told.status}, not ${wanted.status}, or another text`);
    }

    const beside = async (kind, tool, words, bytes) => same(kind, `${tool} ${words.join(' ')}`, await call(tool, words, bytes), program(tool, words, bytes));

    async function explain(words, files) {
        const inputs = files.map(file => file.bytes), paths = files.map(file => file.path);
        const told = await call('mtrr_explain', [...words, ...paths], inputs[0], inputs[1] || Buffer.alloc(0));
        const wanted = explainProgram(words, paths);
        if (told.status === 2 && wanted.status === 2) wanted.text = Buffer.from(told.text); // the program's goes to standard error
        same('explanations', [...words, ...paths].join(' '), told, wanted);
    }

    for (const { bytes } of dumps) {
        for (const words of [...QUESTIONS, ...OTHERS]) await beside('dumps', 'mtrr_run', words, bytes);
        for (const words of PICTURES) await beside('pictures', 'mtrr_map', words, bytes);
    }
    for (const { bytes, name } of logs) {
        for (const format of FORMATS) for (let k = 0; k <= SUPPLIED.length; k++) await beside('logs', 'mtrr_import', [format, ...SUPPLIED.slice(0, k)], bytes);
        counts.formats = (counts.formats || 0) + 1;
        const found = await formatOf(bytes);
        if (!name.includes(`.${found}.`)) fail(`${name}: read as ${found}`);
    }
    await beside('logs', 'mtrr_import', ['--help'], Buffer.alloc(0));

    for (const { bytes } of cases) for (const words of [[], ['picture'], ['json']]) await beside('procedures', 'mtrr_judge', words, bytes);
    process.chdir(top);
    for (const dump of dumps) {
        await explain(['faults'], [dump]);
        for (const address of ADDRESSES) await explain(['page', address], [dump]);
        for (const words of [['fit'], ['fit', '--spare', '4'], ['diff', '--cpus', '0', '1']]) await explain(words, [dump]);
        for (const other of dumps) await explain(['diff'], [dump, other]);
    }
    const room = mkdtempSync(`${tmpdir()}/mtrr-web-`);
    try {
        for (let k = 0; k < randoms; k++) {
            const bytes = randomDump(k), path = `${room}/random.dump`;
            await beside('random dumps', 'mtrr_run', QUESTIONS[k % QUESTIONS.length], bytes);
            await beside('random pictures', 'mtrr_map', [], bytes);
            writeFileSync(path, bytes);
            await explain(['faults'], [{ path, bytes }]);
        }
    } finally {
        rmSync(room, { recursive: true });
    }
    for (const bytes of Object.values(hostile)) {
        await beside('hostile inputs', 'mtrr_run', ['check'], bytes);
        await beside('hostile inputs', 'mtrr_import', ['linux'], bytes);
        await beside('hostile inputs', 'mtrr_map', [], bytes);
    }
    console.log(`${Object.entries(counts).map(([kind, count]) => `${count} ${kind}`).join(', ')}: ${failures} failures`);
    return failures;
}

if (process.argv[1] === import.meta.filename || process.argv[1]?.endsWith('/compare.mjs')) {
    const wasm = `${top}web/out/mtrr.wasm`;
    if (!WebAssembly.validate(readFileSync(wasm))) {
        console.log(`Node ${process.version} has no 64-bit memory and tables: the module was not run in it`);
        process.exit(77);
    } else {
        const { call, formatOf } = await scriptInNode(wasm);
        process.exit(await compare({ call, formatOf }, 2000) ? 1 : 0);
    }
}
