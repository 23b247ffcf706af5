// ---- the map: a picture to point at, and what gives the page of an address its type

const view = { address: 0n, pinned: false, pat: false };

function pictureOf(dump, ...words) {
    const told = draw(dump, words);
    const parsed = new DOMParser().parseFromString(told.text, 'image/svg+xml').documentElement;
    return parsed.localName === 'svg' ? document.adoptNode(parsed) : null;
}

// The rows of a picture as it prints them: addresses, size and types, and between which of its rules they stand.
function rowsOf(svg) {
    const rules = [...svg.querySelectorAll('path.rule')].map(rule => Number(rule.getAttribute('d').split(/[ h]/)[1])).sort((a, b) => a - b);
    const names = [...svg.querySelectorAll('rect + text.type')];
    return [...svg.querySelectorAll('text.from')].map(from => {
        const to = from.nextElementSibling, y = from.getAttribute('y');
        return { first: BigInt('0x' + from.textContent), last: BigInt('0x' + to.textContent.slice(2)), size: to.nextElementSibling.textContent,
            types: names.filter(name => name.getAttribute('y') === y).map(name => name.textContent), top: rules.findLast(rule => rule < y), bottom: rules.find(rule => rule > y) };
    });
}

// A picture in a tree of its own, since its style speaks of all texts.
function pictureBox(svg, attributes) {
    const box = make('div', { class: 'picture', ...attributes });
    const style = make('style', {}, `svg{display:block;width:100%;height:auto;min-width:455px;filter:var(--paper)}svg rect.hot{stroke:#b00020;stroke-width:3}
        svg .here{fill:#1a6bd6;fill-opacity:.1;stroke:#1a6bd6;stroke-width:2;pointer-events:none}`);
    box.attachShadow({ mode: 'open' }).append(style, svg);
    return box;
}

// `parts` has a dump, or two to be held side by side, each with its head. `why` says why there is no picture.
function layMap(parts, svg, why, begin) {
    const rows = svg ? rowsOf(svg) : [];
    const panel = make('div', { class: 'panel', 'aria-live': 'polite' });
    const trouble = make('p', { class: 'bad', id: 'address-trouble', role: 'alert', hidden: true });
    const field = make('input', { class: 'code', id: 'address', size: 14, spellcheck: 'false', autocomplete: 'off', 'aria-describedby': 'address-trouble', oninput: byHand });
    const pin = button('Unpin', () => { view.pinned = false; show(view.address); }, { hidden: true });
    const picture = svg && pictureBox(svg, { tabindex: 0, role: 'slider', 'aria-label': 'Address in the picture. Arrow keys go from row to row', 'aria-orientation': 'vertical', 'aria-valuemin': 0, 'aria-valuemax': rows.length - 1,
        onpointermove: event => !view.pinned && point(event), onclick: event => { const old = view.address; point(event); view.pinned = !(view.pinned && old === view.address); show(view.address); }, onkeydown: step });
    const marker = svg && document.createElementNS(svg.namespaceURI, 'rect');
    if (svg) { marker.setAttribute('class', 'here'); svg.append(marker); }
    const table = layRows(parts, rows, address => { view.pinned = true; show(address); });
    const at = () => rows.findIndex(row => view.address >= row.first && view.address <= row.last);

    function point(event) {
        const place = svg.getBoundingClientRect(), ground = svg.viewBox.baseVal;
        const y = ground.y + (event.clientY - place.top) * ground.height / place.height;
        const row = rows.find(row => y >= row.top && y < row.bottom);
        if (!row) return;
        const share = BigInt(Math.floor((y - row.top) / (row.bottom - row.top) * 4096)) * (row.last - row.first + 1n) / 4096n;
        show(row.first + share - share % 4096n);
    }

    function step(event) {
        const to = { ArrowDown: at() + 1, ArrowUp: at() - 1, Home: 0, End: rows.length - 1, Enter: at(), Escape: at() }[event.key];
        if (to === undefined) return;
        event.preventDefault();
        view.pinned = event.key !== 'Escape';
        if (rows[to]) show(event.key === 'Enter' || event.key === 'Escape' ? view.address : rows[to].first);
    }

    function byHand() {
        const [, digits] = /^(?:0x)?([0-9a-f]{1,16})h?$/i.exec(field.value.trim().replaceAll(/[\s_'`,]/g, '')) || [];
        view.pinned = digits !== undefined;
        if (digits) return show(BigInt('0x' + digits), true);
        panel.replaceChildren();
        trouble.textContent = field.value.trim() === '' ? 'Write an address in hexadecimal.' : `${field.value.trim()} is no address: write hexadecimal digits, with or without 0x.`;
        trouble.hidden = false;
        field.setAttribute('aria-invalid', 'true');
    }

    // Shows what gives the page of an address its type.
    function show(address, byHand) {
        view.address = address;
        const text = address.toString(16);
        if (!byHand) field.value = text;
        trouble.hidden = true;
        field.removeAttribute('aria-invalid');
        pin.hidden = !view.pinned;
        const reports = parts.map(part => explain(['page', text, 'input'], part.dump));
        panel.replaceChildren(...reports.map((report, k) => make('div', {}, parts.length > 1 && make('h4', {}, parts[k].head), report.trouble ? paragraph(sentence(report.trouble)) : layPage(report))));
        if (!svg) return;
        const row = rows[at()], width = svg.viewBox.baseVal.width;
        for (const [name, value] of Object.entries(row ? { x: 6, y: row.top + 1, width: width - 12, height: row.bottom - row.top - 2 } : { width: 0 })) marker.setAttribute(name, value);
        const hot = reports.flatMap(report => report.trouble ? [] : report.cpus[0].pairs.map(pair => pair.base.number));
        for (const bar of svg.querySelectorAll('rect + text.bar')) bar.previousElementSibling.classList.toggle('hot', hot.includes(bar.textContent));
        table?.querySelectorAll('tbody tr').forEach((line, k) => line.classList.toggle('here', k === at()));
        picture.setAttribute('aria-valuenow', Math.max(at(), 0));
        picture.setAttribute('aria-valuetext', `${text}, ${reports.map(report => report.trouble || report.cpus[0].type).join(', then ')}`);
    }

    view.pinned = false;
    show(begin ?? 0n);
    return make('section', { class: 'card map', 'aria-labelledby': 'map-head' }, make('div', { class: 'row' }, make('h2', { id: 'map-head' }, 'Map'), make('span', { class: 'push' }), make('label', { for: 'address' }, 'Address '), field, pin),
        trouble, panel, picture || (why && note(why)), table);
}

// The rows of a picture as a table.
function layRows(parts, rows, choose) {
    if (rows.length === 0) return null;
    const heads = parts.length > 1 ? parts.map(part => part.head) : rows[0].types.map((_, k) => rows[0].types.length > 1 ? `type ${k + 1}` : 'type');
    return make('details', { class: 'rows', open: matchMedia('(max-width: 46rem)').matches }, make('summary', {}, `The ${rows.length} rows of the picture as a table`),
        table('Ranges of addresses and their types', ['addresses', 'size', ...heads], rows.map(line => row(
            make('td', {}, button(`${line.first.toString(16)}-${line.last.toString(16)}`, () => choose(line.first), { class: 'code' })), line.size, ...line.types.map(typeName)))));
}

function layPage(report) {
    return byProcessors(report.cpus, ({ cpu, ...rest }) => rest).flatMap(cpu => [
        make('p', {}, report.cpus.length > 1 ? `${sentence(processors(cpu.numbers)).slice(0, -1)}: ` : null, typeName(cpu.type), ` since ${cpu.because}.`),
        cpu.at_fault && note("A register has a fault by itself, and what it does to pages isn't defined."),
        cpu.registers.length > 0 && list(cpu.registers.map(register => make('span', { class: 'code' }, `${registerText(register)} ${register.value}${cpu.bits === null ? '' : `, bits ${cpu.bits}`}`))),
        cpu.pairs.length > 0 && pairList(cpu.pairs),
        cpu.effective.length > 0 && make('details', { open: view.pat, ontoggle: event => { view.pat = event.target.open; } }, make('summary', {}, 'The type in effect, by entry of the PAT'),
            table('Types in effect', ['entry', 'PAT', 'in effect'], cpu.effective.map((entry, k) => row(String(k), entry.pat, typeName(entry.effective))))),
    ].filter(there));
}
