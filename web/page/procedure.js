// ---- a procedure: its verdict, the picture of a run, and any run step by step

const judge = (words, text) => call('mtrr_judge', words, encoder.encode(text));
const procedure = { text: '', told: null, at: 0, worker: null };

// A case without its last line, which says what is asked for, and with that line.
const body = text => text.replace(/\s*\n(?:run|all)\b[^\n]*\s*$/, '\n');
const asked = text => /\n((?:run|all)\b[^\n#]*)[^\n]*\s*$/.exec(text)?.[1].trim() ?? 'all 100000';
const asking = (text, ask) => `${body(text)}${ask}\n`;

// A line of one word that is there or isn't, behind the dump.
const has = (text, word) => new RegExp(`^${word}\\s*(?:#.*)?$`, 'm').test(text);
const without = (text, word) => text.replace(new RegExp(`^${word}\\s*(?:#.*)?\n`, 'm'), '');
const withWord = (text, word) => has(text, word) ? text : text.replace(/^end[^\n]*\n/m, end => `${end}${word}\n`);

// What the judge says of a case, as JSON, or why it says nothing.
function judged({ status, text }) {
    return status > 1 ? { trouble: text.trim() || 'There is no memory for this search.' } : JSON.parse(text);
}

// The worker that searches, so that the page stays awake. It looks at more and more states, and tells how far it is.
function searching() {
    onmessage = async ({ data: { module, packed, most } }) => {
        const { exports } = await WebAssembly.instantiate(module, {}), encoder = new TextEncoder();
        const put = bytes => {
            const block = exports.mtrr_take(BigInt(bytes.length));
            new Uint8Array(exports.memory.buffer).set(bytes, Number(block));
            return [block, BigInt(bytes.length)];
        };
        const ask = text => {
            const given = [...put(encoder.encode('json\0')), ...put(encoder.encode(text))], written = put(new Uint8Array(8))[0];
            for (let size = 1 << 20; ;) {
                const room = put(new Uint8Array(size)), status = exports.mtrr_judge(...given, ...room, written);
                const length = Number(new DataView(exports.memory.buffer).getBigUint64(Number(written), true));
                if (status !== 64) return { status, text: new TextDecoder().decode(new Uint8Array(exports.memory.buffer, Number(room[0]), length)) };
                size = length;
            }
        };
        for (let states = Math.min(most, 4096); ; states = Math.min(most, states * 4)) {
            const told = ask(packed.replace('@', states));
            if (states === most || told.status > 1 || !JSON.parse(told.text).caption.startsWith('Stopped')) return postMessage({ told });
            postMessage({ states });
        }
    };
}

// ---- what is shown

const heldText = held => `${held.what === 'entry' ? `TLB entry ${held.address}` : `${held.what} ${held.address}`}, ${held.kind}`;

// A processor at a row: what is new since the row before is marked, and what is wrong too.
function layProcessor(now, before, k) {
    const changed = (text, is) => is ? make('mark', {}, text) : text;
    const flags = [['CD', 'cd'], ['PGE', 'pge'], ['E', 'e']].map(([name, flag]) => changed(`${name} ${now[flag] ? 1 : 0}`, before && before[flag] !== now[flag]));
    const names = [...new Set([...Object.keys(now.registers), ...Object.keys(before?.registers ?? {})])].sort();
    const registers = names.map(name => changed(`${name} ${now.registers[name] ?? 0}`, before && before.registers[name] !== now.registers[name]));
    const old = (before?.held ?? now.held).map(heldText);
    const held = now.held.map(one => make('li', { class: one.wrong && 'bad' }, changed(heldText(one), !old.includes(heldText(one))), one.wrong && make('strong', {}, ' wrong')));
    const gone = old.filter(text => !now.held.map(heldText).includes(text)).map(text => make('li', {}, make('del', {}, text)));
    return make('section', { class: 'processor' }, make('h4', {}, `Processor ${k}: `, changed(now.phase, before && before.phase !== now.phase)),
        make('p', { class: 'code' }, flags.flatMap(flag => [flag, ' '])), make('p', { class: 'code' }, registers.flatMap(one => [one, ' '])), make('ul', { class: 'code' }, held, gone));
}

const turnsTo = at => procedure.told.rows.slice(1, at + 1).map(row => row.turn).filter(there);

// The turns that may come behind a row, each a button that takes it.
function layNext(at) {
    const turns = turnsTo(at), told = judged(judge(['json'], asking(procedure.text, `run ${turns.join(' ')}`.trim())));
    const name = turn => /^\d/.test(turn) ? `processor ${turn} goes on` : turn.replace(/^translate:(\d+):(.*)/, 'processor $1 translates $2').replace(/^fetch:(\d+):(.*)/, 'processor $1 fetches $2');
    const { next = [] } = told;
    return make('p', { class: 'row' }, next.length > 0 ? 'What if ' : 'No processor can go on.', next.map(turn => button(name(turn), () => showRun([...turns, turn]), { class: 'turn' })));
}

function showRow(at) {
    const { rows } = procedure.told, row = rows[at];
    procedure.at = at;
    $('row').value = at;
    $('row').setAttribute('aria-valuetext', `${at} of ${rows.length - 1}: ${row.cpu === undefined ? '' : `processor ${row.cpu} `}${row.label}`);
    $('row-told').replaceChildren(make('strong', {}, at === 0 ? 'Start' : `${at}. Processor ${row.cpu}: ${row.label}`), ...row.notes.map(one => make('span', { class: one.kind === 'wrong' ? 'bad' : 'warn' }, ` ${one.text}`)));
    $('stands').replaceChildren(...row.processors.map((now, k) => layProcessor(now, rows[at - 1]?.processors[k], k)));
    $('next').replaceChildren(layNext(at));
    markRow(at);
}

// A frame around the row in the picture that is shown below.
function markRow(at) {
    const svg = $('run').shadowRoot?.querySelector('svg');
    const number = [...svg?.querySelectorAll('text.turn') ?? []].find(text => text.textContent === String(at));
    svg?.querySelector('.here')?.remove();
    if (!number) return;
    const here = document.createElementNS(svg.namespaceURI, 'rect');
    for (const [name, value] of Object.entries({ class: 'here', x: 2, y: Number(number.getAttribute('y')) - 14, width: svg.viewBox.baseVal.width - 4, height: 20 })) here.setAttribute(name, value);
    svg.append(here);
}

function layRun(text) {
    const parsed = new DOMParser().parseFromString(judge(['picture'], text).text, 'image/svg+xml').documentElement;
    const box = make('div', { class: 'picture', id: 'run', tabindex: 0, role: 'group', 'aria-label': 'The picture of the run' });
    if (parsed.localName === 'svg') {
        box.attachShadow({ mode: 'open' }).append(make('style', {}, 'svg{display:block}svg .here{fill:none;stroke:#1a6bd6;stroke-width:2}'), document.adoptNode(parsed));
        box.addEventListener('click', event => {
            const place = box.shadowRoot.querySelector('svg').getBoundingClientRect();
            const y = event.clientY - place.top, texts = [...box.shadowRoot.querySelectorAll('text.turn')];
            const found = texts.find(one => Math.abs(Number(one.getAttribute('y')) - 4 - y) <= 10);
            if (found) showRow(Number(found.textContent));
        });
    }
    return box;
}

// Shows a verdict: the sentence, the picture, and the last row.
function showVerdict(told, text) {
    procedure.told = told;
    const bad = told.trouble !== undefined || told.wrong;
    $('judged').className = bad ? 'bad' : 'good';
    $('judged').hidden = false;
    const survival = told.text && lines(told.text).find(line => /^(nothing )?survives/.test(line));
    $('judged').replaceChildren(make('span', { class: 'mark', 'aria-hidden': 'true' }, bad ? '✕' : '✓'),
        make('div', { class: 'grow' }, make('h2', {}, sentence(told.trouble ?? told.caption)), survival && note(`When all lists have ended: ${survival}.`)));
    $('walk').hidden = told.trouble !== undefined;
    $('drawn').replaceChildren();
    if (told.trouble !== undefined) return;
    $('drawn').append(layRun(text));
    $('transcript').textContent = told.text;
    $('row').max = told.rows.length - 1;
    showRow(told.rows.length - 1);
}

// A run of these turns.
function showRun(turns) {
    const text = asking(procedure.text, `run ${turns.join(' ')}`);
    showVerdict(judged(judge(['json'], text)), text);
}

function stopSearch() {
    procedure.worker?.terminate();
    procedure.worker = null;
    $('stop').hidden = true;
    $('progress').textContent = '';
}

async function checkProcedure() {
    stopSearch();
    procedure.text = $('case').value;
    const ask = asked(procedure.text), most = /^all (\d+)$/.exec(ask)?.[1];
    if (!most) return showVerdict(judged(judge(['json'], asking(procedure.text, ask))), asking(procedure.text, ask));
    const address = URL.createObjectURL(new Blob([`(${searching})()`], { type: 'text/javascript' }));
    procedure.worker = new Worker(address);
    URL.revokeObjectURL(address);
    $('stop').hidden = false;
    $('progress').textContent = 'Looking at all interleavings ..';
    procedure.worker.onmessage = ({ data: { states, told } }) => {
        if (!told) { $('progress').textContent = `Nothing wrong in the first ${states.toLocaleString('en')} states; going on ..`; return; }
        stopSearch();
        showFound(judged(told));
    };
    procedure.worker.postMessage({ module: compiled, packed: asking(procedure.text, 'all @'), most: Number(most) });
}

// A run that a search found is drawn as a run of its turns.
function showFound(told) {
    const turns = told.rows?.slice(1).map(row => row.turn).filter(there);
    showVerdict(told, asking(procedure.text, `run ${turns?.join(' ')}`));
}

// ---- the tab

function tickWord(word) {
    const box = make('input', { type: 'checkbox', id: word, onchange: event => { $('case').value = (event.target.checked ? withWord : without)($('case').value, word); checkProcedure(); } });
    return make('label', { class: 'tick' }, box, ` ${word}`);
}

function showTicks() {
    for (const word of ['speculate', 'strict']) $(word).checked = has($('case').value, word);
}

function setCase(text) {
    $('case').value = text;
    showTicks();
    checkProcedure();
}

function layProcedure() {
    for (const [title, text] of Object.entries(JSON.parse($('case-texts').textContent))) $('cases').append(button(title, () => setCase(text)));
    $('ticks').append(tickWord('speculate'), tickWord('strict'));
    $('case').addEventListener('input', showTicks);
    $('check').addEventListener('click', checkProcedure);
    $('stop').addEventListener('click', stopSearch);
    $('row').addEventListener('input', () => showRow(Number($('row').value)));
    $('back').addEventListener('click', () => showRow(Math.max(0, procedure.at - 1)));
    $('forth').addEventListener('click', () => showRow(Math.min(procedure.told.rows.length - 1, procedure.at + 1)));
    for (const tab of ['registers', 'procedure']) $(`${tab}-tab`).addEventListener('click', () => showTab(tab));
}

function showTab(tab) {
    for (const name of ['registers', 'procedure']) {
        $(`${name}-tab`).setAttribute('aria-selected', name === tab);
        $(name === 'registers' ? 'main' : name).hidden = name !== tab;
    }
    if (tab === 'procedure' && $('case').value === '') $('cases').querySelector('button').click();
}
