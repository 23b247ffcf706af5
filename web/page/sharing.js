// ---- what goes to other people: a link, Markdown and a picture

const through = async (bytes, stream) => new Uint8Array(await new Response(new Blob([bytes]).stream().pipeThrough(stream)).arrayBuffer());

async function makeLink() {
    const state = sides.map(side => ({ text: decoder.decode(side.bytes), format: side.format, assume: side.assume, supplied: side.supplied, name: side.name }));
    const packed = await through(encoder.encode(JSON.stringify(state)), new CompressionStream('deflate-raw'));
    const letters = Array.from(packed, byte => String.fromCharCode(byte)).join('');
    return '#z=' + btoa(letters).replaceAll('+', '-').replaceAll('/', '_').replaceAll('=', '');
}

async function share() {
    const link = await makeLink();
    if (link.length > 60000) return say('The input is too long for a link. Copy it as Markdown instead.', 'bad');
    history.replaceState(null, '', link);
    $('link').value = location.href;
    $('linked').hidden = false;
    $('from-disk').hidden = location.protocol !== 'file:';
    $('link').select();
    await copy(location.href, 'The link is');
}

// A link is of the inputs as they were: a change takes it away.
function dropLink() {
    if ($('linked').hidden && !location.hash.startsWith('#z=')) return;
    $('linked').hidden = true;
    if (location.hash) history.replaceState(null, '', location.pathname + location.search);
}

async function openLink() {
    const found = /^#z=([A-Za-z0-9_-]+)$/.exec(location.hash);
    if (!found) return;
    try {
        const letters = atob(found[1].replaceAll('-', '+').replaceAll('_', '/'));
        const state = JSON.parse(decoder.decode(await through(Uint8Array.from(letters, letter => letter.charCodeAt(0)), new DecompressionStream('deflate-raw'))));
        sides.forEach((side, k) => {
            const { text = '', format = 'auto', assume = true, supplied = {}, name = '' } = state[k] || {};
            setBytes(side, encoder.encode(String(text)), String(name), { format: format === 'dump' || FORMATS.includes(format) ? format : 'auto', assume: assume === true,
                supplied: Object.fromEntries(Object.entries(supplied).map(([name, value]) => [name, String(value)])) });
        });
        showSecond(sides[1].bytes.length > 0);
        history.replaceState(null, '', '#' + found[0].slice(1));
    } catch {
        say('The link is cut or damaged.', 'bad');
    }
}

// The text in an element, as Markdown on one line.
const plain = node => [...node.childNodes].map(inline).join('').replaceAll(/\s+/g, ' ').trim();

const inline = node => node.nodeType === Node.TEXT_NODE ? node.textContent.replaceAll(/[\\`*_<>|#[\]]/g, '\\$&')
    : node.matches('button, select, input, [aria-hidden]') ? '' : node.matches('code, .code') ? fence(node.textContent, '`', '') : node.matches('mark, strong') ? `**${plain(node)}**` : node.matches('li, summary') ? `${plain(node)}; ` : plain(node);

// What the page says, as Markdown.
function markdownOf(node) {
    const line = cells => `| ${[...cells].map(plain).join(' | ')} |\n`;
    switch (node.nodeName) {
    case 'P': return `${plain(node)}\n\n`;
    case 'H2': case 'H3': case 'H4': return `**${plain(node)}**\n\n`;
    case 'LI': return `- ${plain(node)}\n`;
    case 'UL': return `${[...node.children].map(markdownOf).join('')}\n`;
    case 'PRE': return `${fence(node.textContent, '```', '\n')}\n\n`;
    case 'TABLE': return `${plain(node.caption)}\n\n${line(node.tHead.rows[0].cells)}|${' --- |'.repeat(node.tHead.rows[0].cells.length)}\n${[...node.tBodies[0].rows].map(row => line(row.cells)).join('')}\n`;
    case 'SUMMARY': return `### ${plain(node)}\n\n`;
    default: return [...node.children].map(markdownOf).join('');
    }
}

// A text between more backticks than it has in a row.
function fence(text, least, gap) {
    const ticks = '`'.repeat(Math.max(least.length, ...[...text.matchAll(/`+/g)].map(run => run[0].length + 1)));
    return `${ticks}${gap}${text.replace(/\n$/, '')}${gap}${ticks}`;
}

const markdown = () => [`## ${plain($('told'))}\n\n`, markdownOf($('warnings')), ...[...document.querySelectorAll('#badges > *')].map(badge => `- ${plain(badge)}\n`), '\n', ...[...document.querySelectorAll('.finding')].map(markdownOf),
    ...sides.filter(side => side.bytes.length > 0).map(side => `<details><summary>The ${named(side)}</summary>\n\n${side.bytes.length > SHOWN_BYTES ? `${side.bytes.length} bytes` : fence(decoder.decode(side.bytes), '```', '\n')}\n\n</details>\n\n`),
    `${$('version').textContent}, module ${$('checksum').textContent}\n`].join('');

function savePicture() {
    const svg = document.querySelector('.picture').shadowRoot.querySelector('svg').cloneNode(true);
    svg.querySelector('.here')?.remove();
    const address = URL.createObjectURL(new Blob([new XMLSerializer().serializeToString(svg)], { type: 'image/svg+xml' }));
    make('a', { href: address, download: `${named(sides[0]).replace(/\.\w+$/, '')}.svg` }).click();
    setTimeout(() => URL.revokeObjectURL(address), 10000);
}
