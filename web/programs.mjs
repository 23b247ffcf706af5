// What the tests share: the programs of the repository, the page's script in Node, examples and random dumps.
import { spawnSync } from 'node:child_process';
import { readFileSync, readdirSync } from 'node:fs';
import { fileURLToPath } from 'node:url';
import vm from 'node:vm';

export const top = fileURLToPath(new URL('..', import.meta.url));
export const address = `file://${top}web/mtrr.html`;
export const PROGRAMS = { mtrr_run: 'mtrr', mtrr_import: 'mtrr_import', mtrr_map: 'mtrr_map', mtrr_judge: 'mtrr_judge' };
export const FORMATS = ['rdmsr', 'x86info', 'inteltool', 'coreboot', 'edk2', 'linux', 'xen', 'chipsec', 'windbg', 'plain'];

// What a program writes for words and bytes, and its status. `mtrr-explain` reads its inputs from files, and `mtrr-import` writes reasons to standard error.
export function program(tool, words, input) {
    const done = spawnSync(`${top}crates/${PROGRAMS[tool]}/out/${PROGRAMS[tool]}`, words, { input, maxBuffer: 1 << 28 });
    if (done.error && done.error.code !== 'EPIPE') throw done.error; // a program need not read its input
    return { status: done.status, text: tool === 'mtrr_import' && done.status !== 0 ? done.stderr : done.stdout };
}

export function explainProgram(words, files) {
    const done = spawnSync(`${top}crates/mtrr_explain/out/mtrr_explain`, [words[0], '--json', ...words.slice(1), ...files], { maxBuffer: 1 << 28 });
    if (done.error) throw done.error;
    return { status: done.status, text: done.stdout };
}

const folder = (path, ending) => readdirSync(top + path).filter(name => name.endsWith(ending)).sort()
    .map(name => ({ name, path: `${path}/${name}`, bytes: readFileSync(`${top}${path}/${name}`) }));

export const dumps = folder('examples', '.dump');
export const logs = folder('examples/logs', '.log');
export const cases = folder('examples/procedures', '.case');

// The page's script over a module that Node runs: its functions, by their names.
export async function scriptInNode(wasm) {
    const { instance } = await WebAssembly.instantiate(readFileSync(wasm), {});
    const context = vm.createContext({ TextEncoder, TextDecoder, Uint8Array, DataView, BigInt, wasmExports: instance.exports });
    const script = readFileSync(`${top}web/out/page.js`, 'utf8').replace(/\nstart\(\);\n$/, '\nexports = wasmExports;\n({ call, formatOf })\n');
    return vm.runInContext(script, context);
}

// The words for what `mtrr` answers about a dump.
export const QUESTIONS = [['check'], ['show'], ['types'], ['page', '0', '0'], ['page', 'fee00000', '7'], ['tidy'], ['tidy', 'spare=0', 'chunk=10000000000000'],
    ['gran', '1000000'], ['gran', '40000000', 'spare=0', 'chunk=1000']];

export const OTHERS = [[], ['check', 'more'], ['page', 'x', '0'], ['--help'], ['--version'], ['make', '7'], ['gran', '123'], ['tidy', 'spare=33'], ['caf\u00e9'], ['']];

// Numbers by a seed, the same on each machine.
function draws(seed) {
    let x = BigInt(seed);
    return below => {
        x = (x * 6364136223846793005n + 1442695040888963407n) & (2n ** 64n - 1n);
        return Number((x >> 33n) % BigInt(below));
    };
}

// A dump by a seed: most are lawful, and some have a register at fault, a section for each of two processors, or a broken line.
export function randomDump(seed) {
    const draw = draws(seed * 2654435761 + 1);
    const width = 36 + draw(17), pairs = draw(11), types = [0, 1, 4, 5, 6];
    const type = () => draw(40) ? types[draw(5)] : draw(256);
    const hex = value => value.toString(16);
    const file = () => {
        const lines = [];
        for (let k = 0; k < pairs; k++) {
            if (draw(4) === 0) continue;
            const log = BigInt(12 + draw(width - 12));
            const base = (BigInt(draw(2 ** 20)) << log) & (2n ** BigInt(width) - 1n) & ~0xfffn;
            const mask = (2n ** BigInt(width) - 1n) & ~(2n ** log - 1n) & ~(draw(60) ? 0n : 1n << 20n);
            lines.push(`${hex(0x200 + 2 * k)} ${hex(base | BigInt(type()))}`, `${hex(0x201 + 2 * k)} ${hex(mask | (draw(8) ? 0x800n : 0n))}`);
        }
        for (const number of ['250', '258', '259', '268', '26f']) if (draw(3) === 0) lines.push(`${number} ${Array.from({ length: 8 }, () => '0' + type() % 8).join('')}`);
        if (draw(3) === 0) lines.push('277 7010600070106');
        lines.push(`2ff ${hex((draw(12) ? 0xc00 : 0x400) + type())}`);
        return lines;
    };
    const head = [`maxphyaddr ${width}`];
    const body = draw(5) ? ['0fe ' + hex(0x500 + pairs), ...file()] : ['version 2', 'cpu 0', '0fe ' + hex(0x500 + pairs), ...file(), 'cpu 1', ...file()];
    const lines = body[0] === 'version 2' ? ['version 2', ...head, ...body.slice(1)] : [...head, ...body];
    if (draw(20) === 0) lines.splice(draw(lines.length + 1), 0, ['nonsense', '200 zz', '999 1', '# \u2264 <b>'][draw(4)]);
    return Buffer.from(lines.join('\n') + '\n');
}
