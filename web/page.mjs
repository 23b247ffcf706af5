// Opens the page in a browser, tries the tasks of users, and tells where it says another thing than the programs.
//     node page.mjs chromium    all dumps and logs, inputs that are meant to harm, and the times
//     node page.mjs firefox     the tasks and all dumps
import { compare, hostile } from './compare.mjs';
import { dumps, logs, program } from './programs.mjs';
import { enter as enterText } from './states.mjs';
import { tryTasks } from './tasks.mjs';

const page = await (await import(`./${process.argv[2]}.mjs`)).openBrowser();
const { evaluate } = page;
let failures = 0, checks = 0;

function same(what, told, wanted) {
    checks++;
    if (told === wanted) return;
    failures++;
    console.error(`${page.name}: ${what}: ${JSON.stringify(told)?.slice(0, 300)}, not ${JSON.stringify(wanted)?.slice(0, 300)}`);
}

// Whether each dump's sentence is red, and the rows of its picture: joined, those of one type are the runs of `mtrr types`.
async function besidePrograms() {
    for (const { name, bytes } of dumps) {
        await enterText(page, bytes.toString());
        const check = program('mtrr_run', ['check'], bytes), found = check.status !== 0 || /^differ/m.test(check.text);
        same(`${name}: a finding is red`, await page.look(() => document.getElementById('verdict').className === 'bad'), found);
        const types = program('mtrr_run', ['types'], bytes);
        if (types.status === 0) same(`${name}: rows`, joined(await page.look(() => [...document.querySelectorAll('.rows tbody tr')].map(line => [...line.cells].map(cell => cell.textContent)))), types.text.toString());
    }
}

function joined(rows) {
    const runs = [];
    for (const [addresses, , type] of rows) {
        const [first, last] = addresses.split('-');
        if (runs.at(-1)?.type === type) runs.at(-1).last = last;
        else runs.push({ first, last, type });
    }
    return runs.map(({ first, last, type }) => `${first.padStart(13, '0')}-${last.padStart(13, '0')} ${type}\n`).join('');
}

const bytesOf = bytes => `Uint8Array.from(atob('${Buffer.from(bytes).toString('base64')}'), letter => letter.charCodeAt(0))`;
const enter = (bytes, place = 0) => evaluate(`setBytes(sides[${place}], ${bytesOf(bytes)}, '')`);

// The module in the page, as compare.mjs calls it.
const inPage = {
    async call(tool, words, ...inputs) {
        const [status, text] = await evaluate(`(({ status, text }) => [status, text])(call('${tool}', ${JSON.stringify(words)}, ${inputs.map(bytesOf).join(', ')}))`);
        return { status, text };
    },
    formatOf: bytes => evaluate(`formatOf(${bytesOf(bytes)})`),
};

async function formats() {
    for (const { name, bytes } of logs) {
        await enter(bytes);
        same(`${name}: format`, await evaluate('sides[0].log?.format'), name.split('.').at(-2));
    }
}

const middle = numbers => numbers.sort((a, b) => a - b)[numbers.length >> 1].toFixed(1);

// From the largest dump and a long boot log to the whole page, and a check of 16 MiB beside the program's.
async function times() {
    const largest = dumps.toSorted((a, b) => b.bytes.length - a.bytes.length)[0];
    const boot = Buffer.concat([Buffer.alloc(1 << 21, '[    0.000000] a line of the kernel that tells nothing of MTRRs\n'), logs.find(log => log.name === 'server.linux.log').bytes]);
    const whole = async bytes => {
        const times = [];
        for (let k = 0; k < 9; k++) {
            await enter(bytes);
            times.push(Number(await evaluate('document.documentElement.dataset.milliseconds')));
        }
        return middle(times);
    };
    const [dump, log] = [await whole(largest.bytes), await whole(boot)];
    const long = hostile['most bytes'], task = `(() => { const begun = performance.now(); run(['check'], long); return performance.now() - begun; })()`;
    await evaluate(`var long = ${bytesOf(long)}; 0`);
    const module = [], native = [];
    for (let k = 0; k < 5; k++) {
        module.push(await evaluate(task));
        const begun = performance.now();
        program('mtrr_run', ['check'], long);
        native.push(performance.now() - begun);
    }
    console.log(`from the text to the whole page: ${largest.name} ${dump} ms, a boot log of 2 MiB ${log} ms; a check of 16 MiB: ${middle(module)} ms in the page, ${middle(native)} ms by the program`);
}

// Markup and scripts in inputs are text, and nothing of them is lost.
async function harm() {
    const markup = "<script>window.harmed=1</script><img src=x onerror='window.harmed=1'><svg onload='window.harmed=1'>&amp;\u202e\u0000";
    await enter(Buffer.from(`# ${markup}\n0fe 508\n2ff 806\n`));
    same('markup in a comment', await evaluate('sides[0].text.value'), `# ${markup}\n0fe 508\n2ff 806\n`);
    await enter(Buffer.from(`0fe 508\n${markup}\n`));
    same('markup in a line', await evaluate("document.querySelector('.finding pre').textContent"), markup);
    await evaluate('showSecond(true)');
    await enter(Buffer.from(dumps[0].bytes), 1);
    await enter(Buffer.alloc(100000, markup));
    await enter(Buffer.from([0x23, 0xff, 0xfe, 0x0a, ...Buffer.from('0fe 508\n2ff 806\n')]));
    same('not UTF-8', await evaluate('sides[0].dump !== null'), true);
    await evaluate('closeSecond()');
    for (const length of [1 << 24, (1 << 24) + 1]) {
        const told = await evaluate(`(bytes => { setBytes(sides[0], bytes, 'long.dump'); return run(['check'], bytes).status; })(new Uint8Array(${length}).fill(35).map((letter, k) => k % 64 ? letter : 10))`);
        same(`${length} bytes`, told, program('mtrr_run', ['check'], Buffer.alloc(length, `\n${'#'.repeat(63)}`)).status);
        same(`${length} bytes: colour`, await evaluate("document.getElementById('verdict').className"), 'bad');
    }
    same('no script ran', await evaluate('typeof window.harmed'), 'undefined');
    same('scripts on the page', await evaluate("document.querySelectorAll('script').length"), 4);
    same('pictures and frames', await evaluate("document.querySelectorAll('img, iframe, object, embed').length"), 0);
}

try {
    failures += await tryTasks(page);
    await besidePrograms();
    if (evaluate) {
        failures += await compare(inPage, 2000);
        await formats();
        await harm();
        await times();
    }
    same('requests', page.requests.filter(url => !/^(file:|about:|data:|blob:)/.test(url)).join(), '');
    same('errors', page.errors.join(), '');
    console.log(`${checks} checks of the page beside the programs in ${page.name}: ${failures} failures`);
} catch (error) {
    console.error(error);
    failures++;
} finally {
    await page.close();
}
process.exit(failures ? 1 : 0);
