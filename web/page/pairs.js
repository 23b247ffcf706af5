// ---- fewer pairs, and registers to copy

const tidy = { spare: 0, words: '' };

// Registers in the forms in which one sets them.
const HAZARD = 'On a running system, writing these can hang it or corrupt memory: caches and all processors have to take part.';
const REGISTER = /^([0-9a-f]{3}) ([0-9a-f]{16})$/;
const settable = text => lines(text).map(line => REGISTER.exec(line)).filter(found => found && found[1] !== '0fe');
const FORMS = {
    'a dump': text => text,
    'wrmsr lines': text => `# ${HAZARD}\n${settable(text).map(([, number, value]) => `wrmsr -a 0x${number} 0x${value}\n`).join('')}`,
    'C': text => `/* ${HAZARD} */\nstatic const struct { unsigned msr; unsigned long long value; } registers[] = {\n${settable(text).map(([, number, value]) => `    { 0x${number}, 0x${value} },\n`).join('')}};\n`,
};

async function copy(text, what) {
    try {
        await navigator.clipboard.writeText(text);
        say(`${what} copied.`);
    } catch {
        const box = make('textarea', { class: 'aside' });
        box.value = text;
        document.body.append(box);
        box.select();
        const done = document.execCommand('copy');
        box.remove();
        say(done ? `${what} copied.` : 'The browser does not let the page copy: select the text and copy it.', done ? '' : 'bad');
    }
}

// A text of registers in a form that can be chosen and copied.
function layRegisters(text) {
    const box = make('pre', { tabindex: 0, 'aria-label': 'Registers' }, text);
    const form = make('select', { onchange: () => { box.textContent = FORMS[form.value](text); } }, Object.keys(FORMS).map(name => make('option', { value: name }, name)));
    return [make('div', { class: 'row' }, make('label', {}, 'As ', form), button('Copy', () => copy(box.textContent, 'The registers are'))), box];
}

function layTidy(dump) {
    const answer = make('div', {}), result = make('div', {});
    const spare = make('input', { type: 'number', min: 0, max: 32, value: tidy.spare, oninput: () => { tidy.spare = spare.value; tidy.words = ''; show(); } });

    function registers(command) {
        tidy.words = command;
        const told = run(command.split(' ').slice(1), dump);
        result.replaceChildren(make('h3', {}, make('code', {}, command)), ...layRegisters(told.text),
            ...told.status === 0 ? [make('h3', {}, 'What changes'), ...layDiff(explain(['diff', 'as it is', 'tidied'], firstSection(dump), encoder.encode(told.text)), ['as it is', 'tidied'])] : []);
    }

    const use = command => command === null ? 'too many' : button('Registers', () => registers(command));
    const free = line => line.free === null ? '' : String(line.free);

    function show() {
        const fit = explain(['fit', '--spare', String(spare.value || 0), 'input'], dump);
        result.replaceChildren();
        if (fit.trouble) return answer.replaceChildren(paragraph(sentence(fit.trouble)));
        answer.replaceChildren(paragraph(`The file has ${plural(fit.has.pairs, 'pair')}, of which ${fit.has.valid} are valid. Its types need ${fit.needs} of them at least.`),
            table('Pairs needed for the same types, by the chunk: the most bytes of the larger of two ranges that overlap', ['chunk from', 'needed', 'free', ''],
                fit.chunks.map(chunk => row(chunk.size, String(chunk.needs), free(chunk), use(chunk.command)))),
            fit.granules.length > 0 ? table('Pairs needed for types rounded to granules', ['granule', 'needed', 'free', 'loses WB', ''],
                fit.granules.map(granule => row(granule.size, String(granule.needs), free(granule), granule.lost === null ? '' : sizeOf(granule.lost), use(granule.command)))) : '');
        const commands = [...fit.chunks, ...fit.granules].map(line => line.command).filter(there);
        const again = commands.includes(tidy.words) ? tidy.words : fit.chunks.filter(chunk => there(chunk.command)).at(-1)?.command ?? commands[0];
        if (again) registers(again);
    }
    show();
    return [make('div', { class: 'row' }, make('label', {}, 'Pairs that are to stay free ', spare)), answer, result];
}
