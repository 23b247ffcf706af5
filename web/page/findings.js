// ---- findings, the most urgent first: { level, title, told, body }. `told` is a sentence, and `body` makes what stands below it

const registerText = register => `${register.number} ${register.name}`;

const valueWithBits = (value, bits) => {
    const [from, to] = bits.split(':').map(bit => Math.floor((63 - bit) / 4));
    return cell('code', value.slice(0, from), make('mark', {}, value.slice(from, to + 1)), value.slice(to + 1));
};

function pairList(pairs) {
    const place = pair => pair.first === null ? 'no range, since the mask has a gap' : range(pair);
    return list(pairs.map(pair => [`pair ${pair.pair}, `, typeName(pair.type), `, ${place(pair)}: `,
        [pair.base, pair.mask].map((register, k) => [k > 0 && ', ', make('span', { class: 'code', title: register.name }, `${register.number} ${register.value}`)])]));
}

// Processors with equal answers, once.
const byProcessors = (cpus, answer) => alike(cpus, cpu => JSON.stringify(answer(cpu))).map(({ items }) => ({ numbers: items.map(cpu => cpu.cpu), ...items[0] }));
const ofCpus = (report, cpu) => report.cpus.length > 1 ? ` of ${processors(cpu.numbers)}` : '';

function faultFindings(report, dump) {
    return byProcessors(report.cpus, cpu => cpu.faults).filter(cpu => cpu.faults.length > 0).map(cpu => {
        const registers = new Set(cpu.faults.map(fault => fault.register.number)).size, [first] = cpu.faults;
        const which = `${registerText(first.register)}${ofCpus(report, cpu)}`;
        return { level: 'bad', title: 'Registers at fault', address: pageOf(first.register, dump),
            told: registers === 1 ? `${which} has a fault: ${first.problem}.` : `${plural(registers, 'register has a fault', 'registers have faults')}. The first is ${which}: ${first.problem}.`,
            body: () => [table('Registers at fault. The digits at fault are marked.', ['register', 'value', 'bits', 'hold', 'fault', 'lawful'],
                cpu.faults.map(fault => row(registerText(fault.register), valueWithBits(fault.register.value, fault.bits), code(fault.bits), code(fault.found), cell('text', fault.problem), cell('text', fault.lawful))), true),
            !cpu.looked && note('What such a register does to pages is not defined, so there is no picture. Overlaps without a type are looked for once these are mended.')] };
    });
}

// The first page of a register's pair.
function pageOf({ number, value }, dump) {
    if (!/^2[0-3]/.test(number)) return undefined;
    const base = parseInt(number, 16) % 2 === 0 ? value : new RegExp(`^${(parseInt(number, 16) - 1).toString(16)} (\\w+)$`, 'm').exec(shown(dump))?.[1];
    return base && BigInt('0x' + base) & 0xffffffffff000n;
}

function overlapFindings(report) {
    return byProcessors(report.cpus, cpu => cpu.undefined).filter(cpu => cpu.undefined.length > 0).map(cpu => {
        const pages = cpu.undefined.reduce((sum, run) => sum + run.pages, 0), [first] = cpu.undefined;
        return { level: 'bad', title: 'Pages with no defined type', address: BigInt('0x' + first.first),
            told: `No type is defined for ${sizeOf(pages)} from ${short(first.first)} on${ofCpus(report, cpu)}: pairs ${joined(first.pairs.map(pair => `${pair.pair} (${pair.type})`))} meet there.`,
            body: () => [table('Pages with no defined type, and the pairs that meet there', ['pages', 'size', 'pairs'],
                cpu.undefined.map(run => row(code(range(run)), sizeOf(run.pages), pairList(run.pairs))), true)] };
    });
}

// What of E and FE of 2ff is switched, in words.
function switched(cpu) {
    const register = cpu.registers.find(register => register.number === '2ff');
    const bit = (value, name) => value?.fields.find(field => field.name === name)?.value;
    return Object.entries({ E: 'MTRRs', FE: 'fixed ranges' }).filter(([name]) => register && bit(register.old, name) !== bit(register.new, name))
        .map(([name, what]) => `${what} ${bit(register.new, name) === '1' ? 'on instead of off' : 'off instead of on'}`)[0];
}

// How a processor differs from processor 0, in a few words.
function differenceText(cpu) {
    const pages = pagesOf(cpu.types), count = cpu.registers.length;
    return [switched(cpu) ?? (count > 4 ? plural(count, 'register') : joined(cpu.registers.map(register => register.number))),
        cpu.types !== null && (pages ? `${sizeOf(pages)} of another type` : 'the same types of pages')].filter(there).join(', ');
}

// Processors by how they differ from processor 0: by the module's groups, or else by comparing each.
function groupsOf(report, dump) {
    const diff = cpu => explain(['diff', '--cpus', '0', String(cpu), 'input'], dump);
    const groups = report.groups ? report.groups.filter(group => group.differs).map(group => ({ numbers: group.cpus, report: diff(group.cpus[0]) }))
        : alike(report.cpus.slice(1).map(({ cpu }) => ({ cpu, report: diff(cpu) })).filter(({ report }) => report.differ), ({ report }) => JSON.stringify([report.cpus[0].registers, report.cpus[0].types]))
            .map(({ items }) => ({ numbers: items.map(item => item.cpu), report: items[0].report }));
    return groups.map(group => ({ ...group, text: differenceText(group.report.cpus[0]) }));
}

function processorFinding(report, dump) {
    const groups = report.cpus.length > 1 ? groupsOf(report, dump) : [];
    if (groups.length === 0) return [];
    const [first] = groups, unlike = groups.flatMap(group => group.numbers).sort((a, b) => a - b);
    return [{ level: 'bad', title: 'Unlike processors', address: first.report.cpus[0].types?.[0] && BigInt('0x' + first.report.cpus[0].types[0].first), unlike: unlike[0],
        told: sentence(`${processors(unlike)} differ${unlike.length === 1 ? 's' : ''} from processor 0${groups.length === 1 ? `: ${first.text}` : ` in ${groups.length} ways`}`),
        body: () => groups.flatMap(group => [groups.length > 1 && make('h3', {}, sentence(`${processors(group.numbers)}: ${group.text}`)), ...layDiff(group.report, ['processor 0', processors(group.numbers)])]) }];
}

// Notes that say what was done to read the dump. The others are worth a look.
const QUIET = ['not-given', 'pat-not-given'];

// What is no fault: the module's notes, or else that the MTRRs are off.
function noteFindings(report, dump) {
    if (!report.groups) {
        const page = explain(['page', '0', 'input'], dump), off = page.trouble ? [] : page.cpus.filter(cpu => cpu.rule === 'off');
        return off.length === 0 || off.length < page.cpus.length ? [] : [{ level: 'warn', title: 'MTRRs off', told: 'The MTRRs are off: each page is UC, and the ranges have no effect.',
            body: () => [paragraph(sentence(off[0].because)), list(off[0].registers.map(register => make('span', { class: 'code' }, `${registerText(register)} ${register.value}`)))] }];
    }
    const all = report.groups.flatMap((group, k) => group.notes.filter(({ note }) => k === 0 || note !== 'off').map(({ note, registers, text }) =>
        ({ note, cpus: group.cpus, text: registers.length > 0 ? `${numbers(registers.map(number => parseInt(number, 16)), 16)}: ${text}` : text })));
    return alike(all, ({ note, text }) => note + text).map(({ items }) => ({ level: QUIET.includes(items[0].note) ? 'note' : 'warn',
        told: sentence(items[0].text + (report.groups.length > 1 ? ` (${processors(items.flatMap(item => item.cpus).sort((a, b) => a - b))})` : '')) })).sort((a, b) => (a.level === 'note') - (b.level === 'note'));
}

// What is found in the dump of an input.
function findingsOf(side) {
    const { dump } = side;
    const report = side.report = explain(['faults', 'input'], dump);
    if (report.trouble) return [{ level: 'bad', told: sentence(report.trouble) }];
    return [...faultFindings(report, dump), ...overlapFindings(report), ...processorFinding(report, dump), ...noteFindings(report, dump)];
}

// What is first to be known of an input: { level, told, findings }.
function verdictOf(side) {
    if (side.fault) {
        const [why, line] = faultOfText(side.fault, side);
        const told = side.log ? "This log can't be read as it is." : side.begun || side.format === 'dump' ? "This dump can't be read." : 'This is neither a dump nor a log of a format that is known.';
        return { level: 'bad', told, findings: [{ level: 'bad', told: why, body: () => [line], leads: true }] };
    }
    if (side.missing.length > 0) {
        const names = side.missing.map(name => name === 'maxphyaddr' ? 'the bits of an address' : name);
        return { level: 'warn', told: `This log of ${side.log.format} lacks ${names.length > 4 ? plural(names.length, 'value') : joined(names)}. With ${names.length > 1 ? 'these' : 'this'} there is an answer.`, findings: [] };
    }
    const findings = findingsOf(side), first = findings.find(one => one.level !== 'note');
    const assumed = side.assumed.length > 0 ? `, with ${plural(side.assumed.length, 'value')} assumed` : '';
    if (!first && side.warnings.length > 0) return { level: 'warn', told: `The registers are lawful${assumed}, but the log warns: ${side.warnings[0].replace(/^line \d+: /, '')}.`, findings };
    if (!first) return { level: 'good', told: `No fault is found${assumed}: each register is lawful, and each page has a type.`, findings };
    first.leads = true;
    return { level: first.level, told: first.told, findings };
}
