// The page in headless Firefox, driven by its Marionette protocol: `openBrowser()` answers what tasks.mjs needs.
import { spawn } from 'node:child_process';
import { mkdtempSync, rmSync, writeFileSync } from 'node:fs';
import { connect } from 'node:net';
import { tmpdir } from 'node:os';
import { address } from './programs.mjs';

const PORT = 2828;
const KEYS = { Tab: '\uE004', Enter: '\uE007', Escape: '\uE00C', ' ': ' ', End: '\uE010', Home: '\uE011', ArrowUp: '\uE013', ArrowDown: '\uE015' };
const wait = milliseconds => new Promise(give => setTimeout(give, milliseconds));

async function reach() {
    for (let k = 0; k < 300; k++) {
        const socket = connect(PORT, '127.0.0.1');
        if (await new Promise(give => socket.once('connect', () => give(true)).once('error', () => give(false)))) return socket;
        await wait(200);
    }
    throw new Error('Firefox did not start');
}

export async function openBrowser() {
    const profile = mkdtempSync(`${tmpdir()}/mtrr-firefox-`);
    const browser = spawn('firefox-esr', ['--headless', '--marionette', '--profile', profile, '--no-remote'], { stdio: 'ignore' });
    const socket = await reach();
    const waiting = new Map();
    let count = 0, rest = Buffer.alloc(0);

    // A message is its length, a colon and JSON.
    socket.on('data', data => {
        rest = Buffer.concat([rest, data]);
        for (;;) {
            const colon = rest.indexOf(':'), end = colon + 1 + Number(rest.subarray(0, colon));
            if (colon < 0 || rest.length < end) return;
            const message = JSON.parse(rest.subarray(colon + 1, end));
            rest = rest.subarray(end);
            if (Array.isArray(message)) waiting.get(message[1])?.(message);
        }
    });

    function send(command, params = {}) {
        const text = JSON.stringify([0, ++count, command, params]);
        socket.write(`${Buffer.byteLength(text)}:${text}`);
        return new Promise((give, fail) => waiting.set(count, ([, , error, result]) => error ? fail(new Error(`${command}: ${error.message}`)) : give(result && 'value' in result ? result.value : result)));
    }

    const look = (asked, ...words) => send('WebDriver:ExecuteScript', { script: `return (${asked})(...arguments)`, args: words });
    const act = (type, actions) => send('WebDriver:PerformActions', { actions: [{ type, id: type, actions }] });
    const keys = texts => act('key', texts.flatMap(value => [{ type: 'keyDown', value }, { type: 'keyUp', value }]));
    const move = (x, y) => ({ type: 'pointerMove', x: Math.round(x), y: Math.round(y), duration: 0 });

    await send('WebDriver:NewSession', { capabilities: {} });
    return {
        name: 'Firefox', look, requests: [], errors: [],
        navigate: async fragment => {
            await send('WebDriver:Navigate', { url: 'about:blank' });
            await send('WebDriver:Navigate', { url: address + fragment });
        },
        press: key => keys([KEYS[key]]),
        write: text => keys([...text]),
        hover: (x, y) => act('pointer', [move(x, y)]),
        click: (x, y) => act('pointer', [move(x, y), { type: 'pointerDown', button: 0 }, { type: 'pointerUp', button: 0 }]),
        view: ({ width, height = 900 }) => send('WebDriver:SetWindowRect', { width, height }),
        picture: async file => writeFileSync(file, Buffer.from(await send('WebDriver:TakeScreenshot', { full: false }), 'base64')),
        close: async () => {
            socket.destroy();
            browser.kill();
            await new Promise(give => browser.once('exit', give));
            rmSync(profile, { recursive: true, force: true });
        },
    };
}
