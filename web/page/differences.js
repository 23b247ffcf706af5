// ---- differences, between two inputs or two processors

const fieldsText = value => value ? [value.value, ...value.fields.map(field => `${field.name} ${/^0{4,}/.test(field.value) ? short(field.value) : field.value}`)].join(', ') : 'no such register';
const pagesOf = types => (types || []).reduce((sum, run) => sum + run.pages, 0);

function layDiff(report, heads) {
    if (report.trouble) return [paragraph(sentence(report.trouble))];
    const parts = [];
    if (report.old.width !== report.new.width) parts.push(paragraph(`Widths of addresses: ${report.old.width} and ${report.new.width} bits.`));
    if (report.old.processors !== report.new.processors) parts.push(paragraph(`Processors: ${report.old.processors} and ${report.new.processors}.`));
    for (const cpu of report.cpus) {
        if (report.cpus.length > 1 && cpu.registers.length > 0) parts.push(make('h3', {}, `Processor ${cpu.old_cpu}`));
        for (const [fault, head] of [[cpu.old_fault, heads[0]], [cpu.new_fault, heads[1]]])
            if (fault) parts.push(paragraph(`${sentence(head).slice(0, -1)} is not accepted: ${registerText(fault.register)} ${fault.register.value}: ${fault.problem}.`));
        if (cpu.types === null) parts.push(note('The types of pages are not compared, since a register has a fault by itself.'));
        else if (cpu.types.length > 0) parts.push(table('Pages whose types differ', ['addresses', 'size', ...heads],
            cpu.types.map(run => row(code(range(run)), sizeOf(run.pages), run.old ? typeName(run.old) : 'no such page', run.new ? typeName(run.new) : 'no such page'))));
        else if (cpu.registers.length > 0) parts.push(paragraph('Each page has the same type.'));
        if (cpu.registers.length > 0) parts.push(table('Registers that differ', ['register', ...heads],
            cpu.registers.map(register => row(registerText(register), cell('old', fieldsText(register.old)), cell('new', fieldsText(register.new)))), true));
    }
    return parts;
}

// What two inputs differ in: { level, told, body, report }.
function comparisonOf(first, second, heads) {
    const report = explain(['diff', 'before', 'after'], first.dump, second.dump);
    if (report.trouble) return { level: 'bad', told: sentence(report.trouble), report };
    const registers = report.cpus.reduce((sum, cpu) => sum + cpu.registers.length, 0), compared = report.cpus.every(cpu => cpu.types !== null);
    const pages = report.cpus.reduce((sum, cpu) => sum + pagesOf(cpu.types), 0);
    const told = !report.differ ? 'The two are the same.'
        : `The two differ in ${[report.old.width !== report.new.width && 'their widths', report.old.processors !== report.new.processors && 'how many processors they have', registers > 0 && plural(registers, 'register')].filter(Boolean).join(' and ')}: `
            + (!compared ? 'their types are not compared, since a register has a fault by itself.' : pages > 0 ? `${sizeOf(pages)} have another type.` : 'each page has the same type.');
    const [change] = report.cpus.flatMap(cpu => cpu.types || []);
    return { level: report.differ ? 'warn' : 'good', title: 'Differences', leads: true, told, report, address: change && BigInt('0x' + change.first), body: () => layDiff(report, heads) };
}

// Two dumps as the sections of one, which can be drawn side by side, or why there is no such picture.
function sideBySide(first, second, report) {
    const texts = [first, second].map(side => decoder.decode(firstSection(encoder.encode(shown(side.dump)))));
    const svg = pictureOf(encoder.encode(`version 2\ncpu 0\n${texts[0]}\ncpu 1\n${texts[1]}`), 'files');
    if (svg) return { svg };
    const caps = texts.map(text => /^0fe (\S+)$/m.exec(text)?.[1]);
    return { why: report.trouble ? '' : report.old.width !== report.new.width ? `There is no picture side by side, since addresses have ${report.old.width} bits before and ${report.new.width} after.`
        : caps[0] !== caps[1] ? `There is no picture side by side, since 0fe is ${caps[0]} before and ${caps[1]} after.`
            : 'There is no picture while a register has a fault by itself.' };
}

// Any two processors of a dump, from the first that differs on.
function layProcessors(dump, count, unlike = 1) {
    if (count < 2) return null;
    const answer = make('div', {});
    const choice = chosen => make('select', { onchange: show }, Array.from({ length: count }, (_, k) => make('option', { value: k, selected: k === chosen }, `processor ${k}`)));
    const picks = [choice(0), choice(unlike)];
    function show() {
        const [old, now] = picks.map(pick => pick.value), report = explain(['diff', '--cpus', old, now, 'input'], dump);
        answer.replaceChildren(...report.differ === false ? [paragraph('The two are the same.')] : layDiff(report, [`processor ${old}`, `processor ${now}`]));
    }
    show();
    return [make('div', { class: 'row' }, make('label', {}, 'Compare ', picks[0]), make('label', {}, 'with ', picks[1])), answer];
}
