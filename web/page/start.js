// ---- the whole page

const LEVELS = { good: ['✓', 'No fault'], warn: ['!', 'Look at this'], bad: ['✕', 'Fault'], note: ['i', 'Note'] };
const RANK = ['note', 'good', 'warn', 'bad'];

function finding({ level, title, told, body, leads, head = '' }, open) {
    const sign = make('span', { class: `mark ${level}`, 'aria-hidden': 'true' }, LEVELS[level][0]);
    return make('details', { class: 'finding', open: open && body !== undefined }, make('summary', {}, sign, head + (open && leads && title ? title : told)), make('div', { class: 'body' }, body ? body().filter(there) : null));
}

// The badges below the sentence: what was read, and on which terms.
function badgesOf(side, several) {
    if (side.bytes.length === 0) return [];
    const badge = text => make('span', { class: 'badge' }, text);
    const head = `${several ? `${WHEN[side.place]}: ` : ''}${side.name ? `${side.name}, ` : ''}`;
    const format = side.log?.format ?? (side.format === 'auto' || side.format === 'dump' ? null : side.format);
    return [badge(head + (format ? `a log of ${format}${side.log.count ? `, ${side.log.count} of ${side.log.of} lines read` : ''}` : side.dump ? 'a dump' : 'not read')),
        side.report?.width && badge(`${side.report.width}-bit addresses${side.report.width_assumed ? ', assumed since the dump has no maxphyaddr' : ''}`),
        side.report?.cpus && badge(plural(side.report.cpus.length, 'processor')),
        side.assumed.length > 0 && make('details', { class: 'badge assumed' }, make('summary', {}, `${plural(side.assumed.length, 'value')} assumed`), list(side.assumed.map(text => make('span', { class: 'code' }, text))))];
}

// How many pages have each type, by the module's table of types.
function totalsOf(dump) {
    const told = run(['types'], dump), sums = new Map();
    if (told.status !== 0) return null;
    for (const [, first, last, type] of lines(told.text).map(line => /^(\w+)-(\w+) (.*)$/.exec(line))) sums.set(type, (sums.get(type) || 0) + Number((BigInt('0x' + last) - BigInt('0x' + first) + 1n) / 4096n));
    return make('p', { class: 'totals' }, [...sums].map(([type, pages]) => [make('span', {}, typeName(type), ` ${sizeOf(pages)}`), ' ']));
}

// The rest about an input, folded.
function restOf(side, title) {
    const { dump, report } = side;
    const count = report.cpus?.length ?? 0;
    return [count > 1 && lazily(`Any two processors${title}`, () => layProcessors(dump, count, side.unlike)),
        lazily(`Fewer pairs${title}, and the registers for it`, () => layTidy(dump)), lazily(`The registers${title}, to be copied`, () => layRegisters(shown(dump)))];
}

// A part that is made when it is first opened.
function lazily(title, body) {
    const box = folded(title);
    box.addEventListener('toggle', () => { if (box.open && box.childElementCount === 1) box.append(make('div', { class: 'body' }, body())); });
    return box;
}

function layAnswer() {
    const used = sides.filter(side => side.bytes.length > 0), several = used.length > 1;
    const verdicts = used.map(side => Object.assign(side, verdictOf(side)));
    const both = several && used.every(side => side.dump);
    const heads = used.map(side => side.name || WHEN[side.place].toLowerCase());
    const comparison = both ? comparisonOf(...used, heads) : null;
    const findings = [...comparison ? [comparison] : [], ...verdicts.flatMap((side, k) => side.findings.map(one => several ? { ...one, head: `${WHEN[k]}: ` } : one))];
    const level = RANK[Math.max(...[...verdicts, ...findings].map(one => RANK.indexOf(one.level)))];
    const lead = comparison || verdicts.find(side => side.level === level);
    findings.sort((a, b) => (b.told === lead.told) - (a.told === lead.told));
    const notes = findings.filter(one => one.level === 'note').length, rest = findings.length - notes - findings.filter(one => one.leads).slice(0, 1).length;
    const hidden = [rest > 0 && plural(rest, 'more finding'), notes > 0 && plural(notes, 'note')].filter(Boolean);
    layVerdict(level, several && !comparison ? `${WHEN[lead.place]}: ${lead.told}` : lead.told, hidden, used);
    used.forEach(side => { side.unlike = side.findings.find(one => one.unlike)?.unlike; });
    $('findings').replaceChildren(...[...findings.map((one, k) => finding(one, k === 0)), ...used.filter(side => side.dump).flatMap(side => restOf(side, several ? ` ${WHEN[side.place].toLowerCase()}` : ''))].filter(there));
    layPictures(used.filter(side => side.dump), heads, comparison, findings);
}

function layPictures(drawn, heads, comparison, findings) {
    const begin = findings.find(one => one.address !== undefined)?.address;
    const parts = drawn.map((side, k) => ({ dump: side.dump, head: heads[k] }));
    const { svg, why } = comparison ? sideBySide(...drawn, comparison.report) : drawn.length === 0 ? {} : { svg: pictureOf(drawn[0].dump), why: 'There is no picture while a register has a fault by itself.' };
    const alone = comparison && !svg ? drawn.map(side => [make('h3', {}, heads[side.place]), pictureOf(side.dump)]).filter(([, svg]) => svg) : [];
    $('look').replaceChildren(...parts.length > 0 ? [layMap(parts, svg, why, begin)] : [], ...alone.map(([head, svg]) => make('section', { class: 'card' }, head, pictureBox(svg, { role: 'img', 'aria-label': `The map of ${head.textContent}` }))));
    $('save').hidden = !document.querySelector('.picture');
}

// One sentence on what is found, what the log itself warns of, and on which terms.
function layVerdict(level, told, hidden, used) {
    const warnings = used.flatMap(side => side.warnings.map(text => used.length > 1 ? `${WHEN[side.place]}: ${text}` : text));
    $('verdict').className = level;
    $('verdict').hidden = false;
    $('mark').textContent = LEVELS[level][0];
    $('level').textContent = `${LEVELS[level][1]}: `;
    $('told').textContent = told;
    $('more').textContent = hidden.length > 0 ? `${joined(hidden)} below.` : '';
    $('warnings').replaceChildren(...warnings.length > 0 ? [make('p', {}, 'Warnings:'), list(warnings.map(text => sentence(text)))] : []);
    $('badges').replaceChildren(...used.flatMap(side => badgesOf(side, used.length > 1)).filter(there));
    const totals = used.length === 1 && used[0].dump && totalsOf(used[0].dump);
    if (totals) $('badges').append(totals);
    document.title = `${LEVELS[level][1]}: ${told.length > 70 ? told.slice(0, 69) + '…' : told} · mtrr`;
}

let timer;

function updateSoon() {
    clearTimeout(timer);
    timer = setTimeout(update, 150);
}

function update() {
    clearTimeout(timer);
    const begun = performance.now();
    dropLink();
    say('');
    try {
        sides.forEach(read);
        sides.forEach(laySide);
        const empty = sides.every(side => side.bytes.length === 0);
        document.body.classList.toggle('empty', empty);
        if (empty) {
            $('verdict').hidden = true;
            $('findings').replaceChildren();
            $('look').replaceChildren();
            document.title = 'mtrr: x86 memory types';
        } else layAnswer();
    } catch (error) {
        $('findings').replaceChildren();
        $('look').replaceChildren();
        say(`The answer failed: ${error.message}`, 'bad');
    }
    document.documentElement.dataset.milliseconds = (performance.now() - begun).toFixed(1);
}

function startOver() {
    if (!sides[1].box.hidden) closeSecond();
    setBytes(sides[0], nothing, '');
    sides[0].text.focus();
}

function layExamples() {
    for (const [title, text] of Object.entries(JSON.parse($('example-texts').textContent)))
        $('examples').append(button(title, () => setBytes(sides[0], encoder.encode(text), '')));
}

// What is found and what is assumed is printed, folded or not.
function unfoldForPrint() {
    let closed = [];
    const rows = count => sides.forEach(side => { side.text.rows = Math.max(8, Math.min(count(side), 300)); });
    addEventListener('beforeprint', () => { rows(side => side.text.value.split('\n').length); closed = [...document.querySelectorAll('.finding:not([open]), .badge:not([open])')]; closed.forEach(box => { box.open = true; }); });
    addEventListener('afterprint', () => { rows(() => 8); closed.forEach(box => { box.open = false; }); });
}

async function start() {
    try {
        await load();
    } catch (error) {
        return say(error.message === 'no memory64' || error instanceof WebAssembly.CompileError || error instanceof ReferenceError
            ? 'This browser can’t run WebAssembly with 64-bit memory, which this page needs. Chrome, Chromium and Edge from 133 on and Firefox from 134 on can.'
            : `The page can’t start: ${error.message}`, 'bad');
    }
    $('sides').append(...sides.map(makeSide));
    layExamples();
    layProcedure();
    $('version').textContent = run(['--version'], nothing).text.trim();
    $('add').addEventListener('click', () => { showSecond(true); sides[1].text.focus(); });
    $('share').addEventListener('click', share);
    $('save').addEventListener('click', savePicture);
    $('markdown').addEventListener('click', () => copy(markdown(), 'The report is'));
    addEventListener('hashchange', openLink);
    addEventListener('dragover', event => event.preventDefault());
    addEventListener('drop', event => { event.preventDefault(); drop(sides[0], event.dataTransfer); });
    $('over').addEventListener('click', startOver);
    unfoldForPrint();
    $('main').hidden = false;
    await openLink();
    document.documentElement.dataset.ready = '';
}

start();
