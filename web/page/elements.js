// ---- elements, texts and sizes

const $ = id => document.getElementById(id);
const encoder = new TextEncoder(), decoder = new TextDecoder('utf-8', { ignoreBOM: true });
const nothing = new Uint8Array(0);
const lines = text => text.split('\n').filter(line => line !== '');
const there = child => child !== null && child !== undefined && child !== false;

// An element with attributes, listeners (`onclick`) and children.
function make(tag, attributes, ...children) {
    const element = document.createElement(tag);
    for (const [name, value] of Object.entries(attributes || {})) {
        if (name.startsWith('on')) element.addEventListener(name.slice(2), value);
        else if (there(value)) element.setAttribute(name, value === true ? '' : value);
    }
    element.append(...children.flat(Infinity).filter(there));
    return element;
}

const button = (text, onclick, attributes) => make('button', { type: 'button', onclick, ...attributes }, text);
const paragraph = (...children) => make('p', {}, ...children);
const note = (...children) => make('p', { class: 'note' }, ...children);
const list = items => make('ul', {}, items.map(item => make('li', {}, item)));
const folded = (title, ...children) => make('details', {}, make('summary', {}, title), ...children);

// A table. If it is `stacked`, narrow screens have its cells below each other, each with its head.
function table(caption, heads, rows, stacked) {
    if (stacked) for (const line of rows) [...line.cells].forEach((cell, k) => { cell.dataset.head = heads[k]; });
    const roles = (role, element) => { element.setAttribute('role', role); return element; };
    const head = make('tr', {}, heads.map(head => roles('columnheader', make('th', { scope: 'col' }, head))));
    for (const line of rows) [...line.cells].forEach(cell => roles('cell', cell));
    return make('div', { class: 'wide', tabindex: 0, role: 'group', 'aria-label': caption }, make('table', { role: 'table', class: stacked && 'stacked' },
        make('caption', {}, caption), make('thead', { role: 'rowgroup' }, roles('row', head)), make('tbody', { role: 'rowgroup' }, rows.map(line => roles('row', line)))));
}

const row = (...cells) => make('tr', {}, cells.map(cell => cell instanceof HTMLTableCellElement ? cell : make('td', {}, cell)));
const cell = (kind, ...children) => make('td', { class: kind }, ...children);
const code = text => cell('code', text);

// The name of a memory type beside its colour and pattern.
const typeName = type => make('span', { class: `type ${type}` }, type);

const plural = (count, one, many = `${one}s`) => `${count.toLocaleString('en')} ${count === 1 ? one : many}`;
const joined = words => words.length < 2 ? words.join('') : `${words.slice(0, -1).join(', ')} and ${words.at(-1)}`;
// (a number in hexadecimal begins no sentence with a capital)
const sentence = text => (/^[0-9a-f]*\d/.test(text) ? text : text.charAt(0).toUpperCase() + text.slice(1)) + (/[.!?]$/.test(text) ? '' : '.');

// An address without zeros in front.
const short = address => address.replace(/^0+(?=.)/, '');
const range = ({ first, last }) => `${short(first)}-${short(last)}`;

// A size in the largest unit of which there is at least one, rounded to a tenth if it isn't whole.
function sizeOf(pages) {
    const units = ['KB', 'MB', 'GB', 'TB', 'PB'];
    let size = pages * 4, unit = 0;
    while (size >= 1024 && unit < units.length - 1) { size /= 1024; unit++; }
    return `${Number.isInteger(size) ? '' : '≈ '}${Number(size.toFixed(1)).toLocaleString('en')} ${units[unit]}`;
}

// Numbers as a text: `1-3 and 6`.
function numbers(list, base = 10) {
    const runs = [];
    for (const number of list) {
        const run = runs.at(-1);
        if (run && run[1] === number - 1) run[1] = number;
        else runs.push([number, number]);
    }
    const text = number => number.toString(base);
    return joined(runs.flatMap(([from, to]) => to - from < 2 ? [...new Set([from, to])].map(text) : [`${text(from)}-${text(to)}`]));
}

const processors = list => `processor${list.length === 1 ? '' : 's'} ${numbers(list)}`;

// Items by an equal text of theirs: [{ text, items }], in the order of their first.
function alike(items, textOf) {
    const groups = new Map();
    for (const item of items) {
        const text = textOf(item);
        groups.set(text, [...(groups.get(text) || []), item]);
    }
    return [...groups].map(([text, items]) => ({ text, items }));
}

// Says something to who looks and to who listens, until it says another thing.
function say(text, kind = '') {
    $('said').textContent = text;
    $('said').className = kind;
    $('said').hidden = text === '';
}
