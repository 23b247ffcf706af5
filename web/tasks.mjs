// What users do on the page, step by step in a browser, by keys, mouse and texts alone. Each task has what must stand on the page then.
import { enter, more, open, states, until, wait } from './states.mjs';

const text = selector => document.querySelector(selector)?.textContent.replaceAll(/\s+/g, ' ').trim() ?? null;
const focused = () => document.activeElement.id || document.activeElement.textContent;
const level = () => document.getElementById('verdict').className;
const place = selector => { const box = document.querySelector(selector); box.scrollIntoView({ block: 'center' }); const at = box.getBoundingClientRect(); return [at.x + at.width / 2, at.y + at.height / 2]; };

// Where a row of the picture is, by its number.
function rowPlace(number) {
    const svg = document.querySelector('.picture').shadowRoot.querySelector('svg');
    const from = svg.querySelectorAll('text.from')[number];
    from.scrollIntoView({ block: 'center' });
    const at = from.getBoundingClientRect();
    return [at.x + at.width / 2, at.y + at.height / 2];
}

// Which of the page's boxes that may not meet do so, or are cut.
function crowded() {
    const boxes = [...document.querySelectorAll('.fields label > *')].map(box => box.getBoundingClientRect());
    const meet = boxes.some((a, k) => boxes.slice(k + 1).some(b => a.left < b.right - 1 && b.left < a.right - 1 && a.top < b.bottom - 1 && b.top < a.bottom - 1));
    return { meet, wide: document.documentElement.scrollWidth - document.documentElement.clientWidth };
}

export const tasks = {
    'a clean dump': async (page, same) => {
        await enter(page, states.clean[0]);
        same('colour', await page.look(level), 'good');
        same('sentence', await page.look(text, '#told'), 'No fault is found: each register is lawful, and each page has a type.');
        same('title', await page.look(() => document.title.startsWith('No fault: ')), true);
    },
    'the register at fault': async (page, same) => {
        await enter(page, states.fault[0]);
        same('colour', await page.look(level), 'bad');
        same('sentence', await page.look(text, '#told'), '5 registers have faults. The first is 201 IA32_MTRR_PHYSMASK0: reserved bits are set.');
        same('first finding open', await page.look(() => document.querySelector('.finding').open), true);
        same('digits marked', await page.look(text, '.finding mark'), '0000007');
        same('address', await page.look(() => document.getElementById('address').value), '0');
    },
    'an overlap without a type': async (page, same) => {
        await enter(page, states.overlap[0]);
        same('colour', await page.look(level), 'bad');
        same('address', await page.look(() => document.getElementById('address').value), 'c0000000');
        same('panel', await page.look(() => document.querySelector('.panel').textContent.startsWith('undefined')), true);
    },
    'unlike processors are a finding': async (page, same) => {
        await enter(page, states.unlike[0]);
        same('colour', await page.look(level), 'bad');
        same('sentence', await page.look(text, '#told'), 'Processors 5 and 6 differ from processor 0: MTRRs off instead of on, 4 GB of another type.');
        same('the second choice', await page.look(() => { const box = [...document.querySelectorAll('#findings > details')].find(box => box.textContent.startsWith('Any two')); box.open = true; return true; }), true);
        await until(page, 'the choice of processors', () => document.querySelectorAll('#findings select').length === 2);
        same('the first that differs', await page.look(() => document.querySelectorAll('#findings select')[1].value), '5');
        await enter(page, more.alike);
        same('alike', await page.look(level) !== 'bad', true);
    },
    'MTRRs off are never green': async (page, same) => {
        await enter(page, states.off[0]);
        same('colour', await page.look(level), 'warn');
        same('sentence', (await page.look(text, '#told')).includes('MTRRs are off'), true);
    },
    'a log with assumed values': async (page, same) => {
        await enter(page, states.assumed[0]);
        same('colour', await page.look(level), 'good');
        same('badge', await page.look(text, '.assumed summary'), '2 values assumed');
        same('what is assumed', await page.look(() => document.querySelectorAll('.assumed li').length), 2);
        await page.click(...await page.look(place, '.tick input'));
        await until(page, 'missing values', () => document.querySelectorAll('.fields input').length > 0);
        same('colour without', await page.look(level), 'warn');
        same('crowded', JSON.stringify(await page.look(crowded)), '{"meet":false,"wide":0}');
        await page.click(...await page.look(place, '.tick input'));
    },
    "the log's own warnings first": async (page, same) => {
        await enter(page, states.warned[0]);
        same('colour', await page.look(level), 'warn');
        same('warning', await page.look(text, '#warnings li'), "Line 20: the kernel found that the processors' MTRRs differ.");
    },
    'a value is supplied, and goes with its log': async (page, same) => {
        await enter(page, states.missing[0]);
        same('sentence', await page.look(text, '#told'), 'This log of x86info lacks 268. With this there is an answer.');
        await page.click(...await page.look(place, '.fields input'));
        await page.write('zz');
        await until(page, 'a bad value is named', () => document.querySelector('.fields input').getAttribute('aria-invalid') === 'true');
        same('bad value', await page.look(text, '.status p.bad'), '268: zz is no hexadecimal number that the register can have.');
        await page.look(() => { const field = document.querySelector('.fields input'); field.value = ''; field.dispatchEvent(new Event('input')); });
        await until(page, 'nothing is supplied', () => document.querySelector('.status p.bad') === null);
        await page.click(...await page.look(place, '.fields input'));
        await page.write('0505050505050505');
        await until(page, 'an answer', () => document.getElementById('verdict').className === 'good');
        await enter(page, states.overlap[0]);
        await enter(page, states.missing[0]);
        same('gone', await page.look(() => document.querySelector('.fields input').value), '');
    },
    'an address is trimmed, and a bad one says so': async (page, same) => {
        await enter(page, states.overlap[0]);
        const write = address => page.look(address => { const field = document.getElementById('address'); field.value = address; field.dispatchEvent(new Event('input')); }, address);
        for (const [address, type] of [[' 0xC0000000 ', 'undefined'], ['1000h', 'WB'], ['1_0000_0000', 'UC']]) {
            await write(address);
            same(address, await page.look(text, '.panel .type'), type);
        }
        for (const address of ['none', '', '12345678901234567']) {
            await write(address);
            same(`${address}: panel`, await page.look(text, '.panel'), '');
            same(`${address}: said`, await page.look(() => !document.getElementById('address-trouble').hidden && document.getElementById('address').getAttribute('aria-invalid')), 'true');
        }
        await write('fffffffffffff');
        same('beyond', await page.look(text, '.panel'), 'The address is beyond 36 bits.');
    },
    'a point is followed, and a click pins it': async (page, same) => {
        await enter(page, states.overlap[0]);
        await page.hover(...await page.look(rowPlace, 3));
        await until(page, 'the panel follows', () => document.querySelector('.panel .type').textContent === 'UC');
        await page.click(...await page.look(rowPlace, 1));
        await until(page, 'the panel is pinned', () => document.querySelector('.panel .type').textContent === 'undefined');
        await page.hover(...await page.look(rowPlace, 3));
        await wait(100);
        same('pinned', await page.look(text, '.panel .type'), 'undefined');
    },
    'the picture by keys': async (page, same) => {
        await enter(page, states.overlap[0]);
        await page.look(() => document.querySelector('.picture').focus());
        for (const [key, type] of [['Home', 'WB'], ['ArrowDown', 'undefined'], ['End', 'UC'], ['ArrowUp', 'WB']]) {
            await page.press(key);
            same(key, await page.look(text, '.panel .type'), type);
            same(`${key}: said`, await page.look(() => document.querySelector('.picture').getAttribute('aria-valuetext').split(', ')[1]), type);
        }
    },
    'everything by Tab': async (page, same) => {
        await enter(page, states.overlap[0]);
        await page.look(() => document.getElementById('markdown').focus());
        const met = [];
        for (let k = 0; k < 24 && !met.includes('picture'); k++) { await page.press('Tab'); met.push(await page.look(() => document.activeElement.id || document.activeElement.className || document.activeElement.textContent)); }
        for (const stop of ['share', 'save', 'text-0', 'add', 'over', 'address', 'picture']) same(`Tab reaches ${stop}`, met.includes(stop), true);
        await page.look(() => [...document.querySelectorAll('#findings summary')].at(-1).focus());
        await page.press('Enter');
        await until(page, 'the registers unfold', () => document.querySelector('#findings > details:last-child pre') !== null);
        same('names', await page.look(() => [...document.querySelectorAll('button, input:not([type=file]), select, textarea, [role=slider]')].filter(box => !(box.labels?.length || box.getAttribute('aria-label') || box.textContent.trim())).map(box => box.outerHTML).join()), '');
    },
    'two inputs: compare, swap, close': async (page, same) => {
        await enter(page, ...states.two);
        same('sentence', await page.look(text, '#told'), 'The two differ in 4 registers: 9 MB have another type.');
        same('address', await page.look(() => document.getElementById('address').value), 'df600000');
        same('both in the panel', await page.look(() => [...document.querySelectorAll('.panel > div > p:first-of-type .type')].map(box => box.textContent).join()), 'WB,UC');
        const press = name => page.look(name => [...document.querySelectorAll('.side button')].find(button => button.textContent === name).click(), name);
        await press('Swap');
        same('swapped', await page.look(() => document.getElementById('text-0').value), states.two[1]);
        await press('Close');
        same('closed', await page.look(text, '#told'), 'No fault is found: each register is lawful, and each page has a type.');
        same('focus', await page.look(focused), 'add');
    },
    'two widths have no picture side by side': async (page, same) => {
        await enter(page, ...states.widths);
        same('why', await page.look(text, '.map > .note'), 'There is no picture side by side, since addresses have 36 bits before and 39 after.');
        same('both alone', await page.look(() => document.querySelectorAll('.picture').length), 2);
        same('colour', await page.look(level), 'bad');
    },
    'what is not read': async (page, same) => {
        await enter(page, states.garbage[0]);
        same('sentence', await page.look(text, '#told'), 'This is neither a dump nor a log of a format that is known.');
        same('badges', await page.look(text, '#badges'), 'not read');
        await enter(page, more.processors);
        same('128 processors', await page.look(text, '.finding summary'), '✕Line 82, column 1: bad section: a section is out of order, or is of a processor above 15: a dump has at most 16.');
        await enter(page, more.typo);
        same('a typo', await page.look(text, '#told'), "This dump can't be read.");
        same('its line', await page.look(text, '.finding pre'), '2zz 800');
    },
    'a link, and none that is stale': async (page, same) => {
        await enter(page, states.overlap[0]);
        await page.click(...await page.look(place, '#share'));
        await until(page, 'a link', () => document.getElementById('link').value.includes('#z='));
        same('from a disk', await page.look(() => document.getElementById('from-disk').hidden), false);
        const link = await page.look(() => location.hash);
        await enter(page, states.off[0]);
        same('stale', await page.look(() => document.getElementById('linked').hidden && location.hash === ''), true);
        await open(page, link);
        await until(page, 'the link is read', () => document.getElementById('text-0').value !== '');
        same('opened', await page.look(() => document.getElementById('text-0').value), states.overlap[0]);
        await open(page, '#z=broken');
        same('broken', await page.look(text, '#said'), 'The link is cut or damaged.');
        await open(page);
    },
    'Markdown for a report': async (page, same) => {
        await enter(page, states.overlap[0] + '# ``` <b>\n');
        await page.look(() => { window.copied = ''; document.execCommand = () => { window.copied = document.querySelector('textarea.aside').value; return true; }; Object.defineProperty(navigator, 'clipboard', { value: { writeText: async () => { throw new Error('no'); } } }); });
        await page.click(...await page.look(place, '#markdown'));
        await until(page, 'a copy', () => document.getElementById('said').textContent !== '');
        if (page.evaluate) {
            const told = await page.evaluate('markdown()');
            for (const part of ['## No type is defined for 256 MB from c0000000 on', '| pages | size | pairs |', '````\n# WB up to 4 GB', ', module ']) same(`has ${part}`, told.includes(part), true);
        }
    },
    'a procedure is judged, and gone through': async (page, same) => {
        await page.click(...await page.look(place, '#procedure-tab'));
        await until(page, 'a verdict', () => document.getElementById('judged').className === 'good' && document.querySelectorAll('#stands section').length === 2);
        same('the manual', (await page.look(text, '#judged h2')).startsWith('Nothing is wrong in 1109 states.'), true);
        await page.look(() => [...document.querySelectorAll('#cases button')].find(one => one.textContent === 'without the second barrier').click());
        await until(page, 'another verdict', () => document.getElementById('judged').className === 'bad');
        same('sentence', await page.look(text, '#judged h2'), 'Wrong after 18 turns: page 0000000100000 has two types, of processors 0 and 1.');
        same('rows', await page.look(() => document.querySelector('#run').shadowRoot.querySelectorAll('text.turn').length), 18);
        same('last row', (await page.look(text, '#row-told')).startsWith('18. Processor 0: release'), true);
        await page.look(() => { for (let k = 0; k < 12; k++) document.getElementById('back').click(); });
        same('a row before', (await page.look(text, '#row-told')).startsWith('6. Processor 0: set-cd'), true);
        same('what changed', await page.look(() => [...document.querySelectorAll('#stands section')[0].querySelectorAll('mark')].map(mark => mark.textContent).join()), 'no-fill,CD 1');
        await page.look(() => [...document.querySelectorAll('button.turn')].find(one => one.textContent === 'processor 1 goes on').click());
        await until(page, 'the run goes on', () => document.getElementById('row-told').textContent.startsWith('7. Processor 1: wait 0 2'));
        same('a run that is right so far', await page.look(text, '#judged h2'), 'Nothing is wrong in this run.');
        await page.look(() => document.getElementById('registers-tab').click());
        same('back to the registers', await page.look(() => document.getElementById('procedure').hidden && !document.getElementById('main').hidden), true);
    },
    'narrow screens lose nothing': async (page, same) => {
        await page.view({ width: 360 });
        await open(page);
        for (const state of ['clean', 'fault', 'two', 'missing']) {
            await enter(page, ...states[state]);
            same(state, JSON.stringify(await page.look(crowded)), '{"meet":false,"wide":0}');
        }
        await enter(page, ...states.two);
        same('rows as a table', await page.look(() => document.querySelector('.rows').open && [...document.querySelectorAll('.rows th')].map(head => head.textContent).join()), 'addresses,size,before,after');
        await page.view({ width: 1440 });
        await open(page);
    },
};

// Runs all tasks in a page, and answers how many checks failed.
export async function tryTasks(page, chosen = []) {
    let failures = 0, checks = 0;
    await page.view({ width: 1440 });
    await open(page);
    for (const [name, task] of Object.entries(tasks)) {
        if (chosen.length > 0 && !chosen.some(word => name.includes(word))) continue;
        const same = (what, told, wanted) => {
            checks++;
            if (told === wanted) return;
            failures++;
            console.error(`${page.name}: ${name}: ${what}: ${JSON.stringify(told)?.slice(0, 300)}, not ${JSON.stringify(wanted)?.slice(0, 300)}`);
        };
        await task(page, same).catch(error => same(error.message, 'failed', 'done'));
        same('a value that is no text', await page.look(() => /\[object|NaN|\bnull\b/.exec(document.body.innerText)?.[0] ?? ''), '');
    }
    console.log(`${Object.keys(tasks).length} tasks in ${page.name}, ${checks} checks: ${failures} failures`);
    return failures;
}

// By hand: node tasks.mjs chromium|firefox [WORD..]
if (process.argv[1]?.endsWith('/tasks.mjs')) {
    const [browser, ...chosen] = process.argv.slice(2);
    const page = await (await import(`./${browser}.mjs`)).openBrowser();
    const failures = await tryTasks(page, chosen).catch(error => { console.error(error); return 1; });
    for (const error of page.errors) console.error(`error: ${error}`);
    await page.close();
    process.exit(failures || page.errors.length ? 1 : 0);
}
