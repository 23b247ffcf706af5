// Inputs that the page is tried with, and what tries share: opening it and entering a text.
import { readFileSync } from 'node:fs';
import { top } from './programs.mjs';

const file = path => readFileSync(top + path, 'utf8');
const many = (count, def) => `version 2\n${Array.from({ length: count }, (_, cpu) => `cpu ${cpu}\n0fe 508\n200 6\n201 f00000800\n2ff ${def(cpu)}\n`).join('')}`;
const kernel = file('examples/logs/ordinary-pc.linux.log');
const WARNING = '[    0.010000] mtrr: your CPUs had inconsistent variable MTRR settings\n';

// By its name: the first input, and if there is one the second.
export const states = {
    clean: [file('examples/server.dump')],
    fault: [file('crates/mtrr_explain/data/broken.dump')],
    overlap: [file('examples/clash.dump')],
    unlike: [many(8, cpu => cpu === 5 || cpu === 6 ? '0' : '800')],
    off: ['maxphyaddr 36\n0fe 508\n200 6\n201 f00000800\n2ff 6\n'],
    missing: [file('examples/logs/ordinary-pc.x86info.log')],
    assumed: [kernel],
    warned: [kernel + WARNING],
    two: [file('examples/ordinary-pc.dump'), file('examples/stolen-memory.dump')],
    widths: [file('examples/clash.dump'), 'maxphyaddr 39\n0fe 508\n200 6\n201 7f00000800\n2ff 806\n'],
    garbage: ['Hello, world\nthis is no log\n'],
    empty: [],
};
export const more = { processors: many(128, () => '800'), typo: '0fe 508\n200 6\n201 f00000800\n2zz 800\n', alike: many(8, () => '800') };

export const wait = milliseconds => new Promise(give => setTimeout(give, milliseconds));

// Waits until a function of the document answers yes.
export async function until(page, what, asked, ...words) {
    for (let k = 0; k < 200; k++) {
        if (await page.look(asked, ...words).catch(() => false)) return;
        await wait(25);
    }
    throw new Error(`${page.name}: it never came to this: ${what}`);
}

export async function open(page, fragment = '') {
    await page.navigate(fragment);
    await until(page, 'the page starts', () => 'ready' in document.documentElement.dataset || document.getElementById('said')?.hidden === false);
}

// Enters texts as a paste does, and waits for the answer.
export async function enter(page, ...texts) {
    await page.look(() => document.querySelectorAll('.side').length > 1 && !document.querySelectorAll('.side')[1].hidden && [...document.querySelectorAll('.side')[1].querySelectorAll('button')].find(button => button.textContent === 'Close').click());
    for (const [place, text] of texts.entries()) {
        if (place === 1) await page.look(() => document.getElementById('add').click());
        await page.look((place, text) => {
            delete document.documentElement.dataset.milliseconds;
            const box = document.getElementById(`text-${place}`);
            box.value = text;
            box.dispatchEvent(new Event('input'));
        }, place, text);
        await until(page, 'an answer', () => 'milliseconds' in document.documentElement.dataset);
    }
}
