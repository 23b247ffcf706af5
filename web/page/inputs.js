// ---- the two inputs: each is a dump, or a log of which the importer makes one

const FORMATS = ['rdmsr', 'x86info', 'inteltool', 'coreboot', 'edk2', 'linux', 'xen', 'chipsec', 'windbg', 'plain'];
const SHOWN_BYTES = 1 << 18;
const PLACE = 'Paste a register dump or a log, or drop a file\n\n0fe 508\n200 6\n201 f00000800\n2ff 800';
const sides = [0, 1].map(place => ({ place, bytes: nothing, format: 'auto', assume: true, supplied: {}, invalid: [], name: '' }));
const named = side => side.name || (side.place === 0 ? 'input' : 'second input');
const WHEN = ['Before', 'After'];

// What is wrong with a text, by the reasons of the programs.
const REASONS = {
    'bad line': 'this is no line of a register and a value, or it is too long',
    'bad number': 'this is no number of the kind that belongs here',
    'bad width': 'an address has 32 to 52 bits',
    'bad version': 'the version is 1 or 2',
    'bad section': 'a section is out of order, or is of a processor above 15: a dump has at most 16',
    'bad processor': 'the processor is not known, or its number is above 15: a log may show at most 16',
    'no cap': 'the register 0fe has to be given first, since it says how many pairs there are',
    'too many pairs': '0fe says that there are more than 32 pairs',
    'unknown register': 'a dump has no such register',
    'repeated': 'the same register was given before',
    'differs': 'all processors have one width and one value of 0fe',
    'mixed numbers': 'some lines name a processor and others do not',
    'UTF-16': 'the text is in UTF-16; save it as UTF-8',
};

// A fault that `show` or the importer tells, with the line that it names.
function faultOfText(text, side) {
    const [, kind, at, column, rest] = /^(bad text|contradiction) (\d+):(\d+) (.*)$/m.exec(text) || [];
    if (!kind) return [sentence(text.trim() || 'it has no text')];
    const line = side.bytes.length > SHOWN_BYTES ? '' : (decoder.decode(side.bytes).split('\n')[at - 1] || '').slice(0, 200);
    const told = kind === 'bad text' ? `${rest}${REASONS[rest] ? `: ${REASONS[rest]}` : ''}` : `a contradiction in ${rest.replace(': line', ': line')}`;
    return [`Line ${at}, column ${column}: ${told}.`, line && make('pre', { class: 'line' }, line)];
}

// Whether a line of a dump stands in front of the fault that `show` tells.
const beginsAsDump = side => decoder.decode(side.bytes.subarray(0, 1 << 16)).split('\n').slice(0, Number(/^bad text (\d+)/.exec(side.fault)?.[1] ?? 1) - 1).some(line => line.replace(/#.*/, '').trim() !== '');

const warningsIn = text => lines(text).filter(line => /^(warning: |passed over )/.test(line)).map(line => line.replace('warning: ', ''));

// What the importer says of a log that lacks something: its format, how many of its lines are read, and its warnings. No log has the
// table of this number. So each log lacks it, also one that would come to a dump, which would be all that is told.
function survey(words, bytes) {
    const told = importLog(words, bytes);
    if (told.status !== 1 && !words.includes('table=65535')) return { ...survey([words[0], 'table=65535'], bytes), told };
    const [, count, of, found] = /^(\d+) of (\d+) lines? (?:is|are) of (\S+)/m.exec(told.text) || [];
    return { count, of, format: found === 'any' ? null : found ?? null, warnings: warningsIn(told.text), told };
}

// The format that the importer finds in a log, or null.
const formatOf = bytes => survey(['auto'], bytes).format;

const given = (side, names = Object.keys(side.supplied)) => names.filter(name => side.supplied[name] && !side.invalid.includes(name)).map(name => `${name}=${side.supplied[name]}`);

// Finds the dump that an input shows: itself, or what the importer makes of it.
function read(side) {
    Object.assign(side, { dump: null, report: null, log: null, begun: false, fault: null, missing: [], assumed: [], warnings: [], invalid: [] });
    if (side.bytes.length === 0) return;
    if (side.format === 'auto' || side.format === 'dump') {
        const told = run(['show'], side.bytes);
        if (told.status === 0) return void (side.dump = side.bytes);
        side.fault = told.status === 7 ? 'the input has more than 16,777,216 bytes' : told.text;
        side.begun = beginsAsDump(side);
        if (side.format === 'dump' || told.status !== 3) return;
    }
    readLog(side);
}

function readLog(side) {
    side.invalid = Object.keys(side.supplied).filter(name => side.supplied[name] && importLog(['auto', `${name}=${side.supplied[name]}`], nothing).status === 2);
    const words = [side.format, ...given(side)], found = survey(words, side.bytes);
    // (a dump with a fault reads as a plain list too, without the line at fault)
    if (found.format ? found.format === 'plain' && side.begun : found.told.status === 1 || side.begun) return;
    const told = side.assume && found.told.status === 1 ? importLog([...words, 'assume=all'], side.bytes) : found.told;
    side.log = found;
    side.warnings = [...new Set([...warningsIn(found.told.text), ...found.warnings])];
    side.missing = lines(told.text).filter(line => line.startsWith('missing ')).map(line => line.slice(8).split(':')[0]);
    side.fault = told.status > 1 ? told.text || "the input can't be read" : null;
    if (told.status !== 0) return;
    side.dump = encoder.encode(told.text);
    side.assumed = lines(told.text).filter(line => line.startsWith('# assumed ')).map(line => line.slice(10));
}

// ---- their boxes

function setBytes(side, bytes, name, rest) {
    Object.assign(side, { bytes, name, supplied: {}, format: 'auto', assume: true }, rest);
    side.select.value = side.format;
    side.tick.checked = side.assume;
    const short = bytes.length <= SHOWN_BYTES;
    side.text.value = short ? decoder.decode(bytes) : '';
    side.text.placeholder = short ? PLACE : `${name}: ${bytes.length.toLocaleString('en')} bytes, not shown`;
    update();
}

// A change of more than a letter is another text, and the values that were supplied for the old one go with it.
function typed(side) {
    const bytes = encoder.encode(side.text.value);
    if (Math.abs(bytes.length - side.bytes.length) > 1) side.supplied = {};
    side.bytes = bytes;
    side.name = '';
    updateSoon();
}

async function openFiles(side, files) {
    for (const [k, file] of [...files].slice(0, 2).entries()) {
        const target = k === 0 ? side : sides[1];
        if (target.place === 1) showSecond(true);
        setBytes(target, new Uint8Array(await file.arrayBuffer()), file.name);
    }
}

function drop(side, data) {
    if (data.files.length > 0) openFiles(side, data.files);
    else setBytes(side, encoder.encode(data.getData('text/plain')), '');
}

function makeSide(side) {
    const id = `text-${side.place}`, title = side.place === 0 ? 'Dump or log' : 'A second dump or log, after the first';
    const file = make('input', { type: 'file', multiple: side.place === 0, hidden: true, onchange: () => openFiles(side, file.files) });
    side.select = make('select', { onchange: () => { side.format = side.select.value; update(); } },
        make('option', { value: 'auto' }, 'what it looks like'), make('option', { value: 'dump' }, 'a dump'),
        FORMATS.map(format => make('option', { value: format }, `a log of ${format}`)));
    side.text = make('textarea', { id, rows: 8, spellcheck: 'false', autocapitalize: 'off', autocomplete: 'off', placeholder: PLACE, oninput: () => typed(side) });
    side.tick = make('input', { type: 'checkbox', checked: true, onchange: () => { side.assume = side.tick.checked; update(); } });
    side.ticked = make('label', { class: 'tick', hidden: true }, side.tick, ' Assume what is likely');
    side.status = make('div', { class: 'status', 'aria-live': 'polite' });
    side.fields = make('div', { class: 'fields' });
    side.box = make('section', { class: 'side card', 'aria-label': title, hidden: side.place === 1,
        ondragover: event => { event.preventDefault(); side.box.classList.add('over'); },
        ondragleave: () => side.box.classList.remove('over'),
        ondrop: event => { event.preventDefault(); event.stopPropagation(); side.box.classList.remove('over'); drop(side, event.dataTransfer); } },
        make('div', { class: 'row' }, make('label', { for: id, class: 'head' }, title), make('span', { class: 'push' }),
            side.place === 1 && [button('Swap', swap, { title: 'Swap the two inputs' }), button('Close', closeSecond, { title: 'Close the second input' })],
            button('Open a file', () => file.click()), file),
        side.text,
        make('div', { class: 'row' }, make('label', {}, 'Read it as ', side.select), side.ticked),
        side.status, side.fields);
    return side.box;
}

function showSecond(visible) {
    sides[1].box.hidden = !visible;
    $('add').hidden = visible;
}

function closeSecond() {
    showSecond(false);
    setBytes(sides[1], nothing, '');
    $('add').focus();
}

function swap() {
    const [first, second] = sides.map(({ bytes, name, format, assume, supplied }) => ({ bytes, name, format, assume, supplied }));
    setBytes(sides[0], second.bytes, second.name, second);
    setBytes(sides[1], first.bytes, first.name, first);
}

// The fields for what is missing stay while there is something in them.
function layFields(side) {
    const names = side.log ? [...new Set([...Object.keys(side.supplied).filter(name => side.supplied[name] !== ''), ...side.missing])] : [];
    if (names.join() !== side.names) {
        side.names = names.join();
        const before = document.activeElement?.dataset.supplies;
        side.fields.replaceChildren(...names.map(name => make('label', {}, make('span', {}, nameOfField(name)), make('input', { class: 'code', 'data-supplies': name, value: side.supplied[name] || '',
            'aria-label': nameOfField(name), spellcheck: 'false', placeholder: name === 'maxphyaddr' ? 'bits, as 36' : 'hexadecimal',
            oninput: event => { side.supplied[name] = event.target.value.trim(); updateSoon(); } }))));
        if (before) side.fields.querySelector(`[data-supplies="${before}"]`)?.focus();
    }
    for (const field of side.fields.querySelectorAll('input')) field.setAttribute('aria-invalid', side.invalid.includes(field.dataset.supplies));
}

const nameOfField = name => name === 'maxphyaddr' ? 'Bits of an address' : name;

function laySide(side) {
    layFields(side);
    side.ticked.hidden = !side.log;
    const parts = [];
    if (side.missing.length > 0) parts.push(paragraph(`Supply that machine's values: ${side.missing.includes('maxphyaddr') ? 'the bits of a physical address, as in /proc/cpuinfo, and ' : ''}registers in hexadecimal, as rdmsr prints them.`));
    for (const name of side.invalid) parts.push(make('p', { class: 'bad' }, `${nameOfField(name)}: ${side.supplied[name]} is ${name === 'maxphyaddr' ? 'no number from 32 to 52' : 'no hexadecimal number that the register can have'}.`));
    if (parts.length || side.status.childElementCount) side.status.replaceChildren(...parts);
}
