// The page in headless Chromium, driven by its own protocol: `openBrowser()` answers what tasks.mjs and pictures.mjs need.
import { spawn } from 'node:child_process';
import { mkdtempSync, rmSync, writeFileSync } from 'node:fs';
import { tmpdir } from 'node:os';
import { address } from './programs.mjs';

const KEYS = { Tab: 9, Enter: 13, Escape: 27, ' ': 32, End: 35, Home: 36, ArrowUp: 38, ArrowDown: 40 };

export async function openBrowser() {
    const profile = mkdtempSync(`${tmpdir()}/mtrr-browser-`);
    const browser = spawn('chromium', ['--headless', '--no-sandbox', '--disable-gpu', '--hide-scrollbars', '--remote-debugging-pipe', `--user-data-dir=${profile}`, '--no-first-run'],
        { stdio: ['ignore', 'ignore', 'ignore', 'pipe', 'pipe'] });
    const [to, from] = [browser.stdio[3], browser.stdio[4]];
    const waiting = new Map(), requests = [], errors = [];
    let rest = '', count = 0;

    from.on('data', data => {
        const messages = (rest + data).split('\0');
        rest = messages.pop();
        for (const message of messages.map(text => JSON.parse(text))) {
            if (message.method === 'Network.requestWillBeSent') requests.push(message.params.request.url);
            if (message.method === 'Runtime.exceptionThrown') errors.push(message.params.exceptionDetails.exception?.description || message.params.exceptionDetails.text);
            if (message.method === 'Log.entryAdded') errors.push(message.params.entry.text);
            waiting.get(message.id)?.(message);
            waiting.delete(message.id);
        }
    });

    function send(method, params = {}, sessionId) {
        const id = ++count;
        to.write(JSON.stringify({ id, method, params, sessionId }) + '\0');
        return new Promise((give, fail) => waiting.set(id, message => message.error ? fail(new Error(`${method}: ${message.error.message}`)) : give(message.result)));
    }

    const { targetId } = await send('Target.createTarget', { url: 'about:blank' });
    const { sessionId } = await send('Target.attachToTarget', { targetId, flatten: true });
    const page = (method, params) => send(method, params, sessionId);
    for (const domain of ['Page', 'Runtime', 'Network', 'Log']) await page(`${domain}.enable`);

    async function evaluate(expression) {
        const { result, exceptionDetails } = await page('Runtime.evaluate', { expression, awaitPromise: true, returnByValue: true });
        if (exceptionDetails) throw new Error(exceptionDetails.exception?.description || exceptionDetails.text);
        return result.value;
    }

    const mouse = (type, x, y, button = 'none') => page('Input.dispatchMouseEvent', { type, x, y, button, clickCount: button === 'none' ? 0 : 1 });

    return {
        name: 'Chromium', evaluate, requests, errors,
        navigate: async fragment => {
            await page('Page.navigate', { url: 'about:blank' });
            await page('Page.navigate', { url: address + fragment });
        },
        // What a function of the page's document answers.
        look: (asked, ...words) => evaluate(`(${asked})(...${JSON.stringify(words)})`),
        press: async key => {
            for (const type of ['keyDown', 'keyUp']) await page('Input.dispatchKeyEvent', { type, key, code: key === ' ' ? 'Space' : key, windowsVirtualKeyCode: KEYS[key], text: type === 'keyDown' ? { Enter: '\r', ' ': ' ' }[key] : undefined });
        },
        write: text => page('Input.insertText', { text }),
        hover: (x, y) => mouse('mouseMoved', x, y),
        click: async (x, y) => {
            await mouse('mouseMoved', x, y);
            await mouse('mousePressed', x, y, 'left');
            await mouse('mouseReleased', x, y, 'left');
        },
        view: async ({ width, height = 900, dark = false, print = false }) => {
            await page('Emulation.setEmulatedMedia', { media: print ? 'print' : '', features: [{ name: 'prefers-color-scheme', value: dark ? 'dark' : 'light' }] });
            await page('Emulation.setDeviceMetricsOverride', { width, height, deviceScaleFactor: 1, mobile: false });
        },
        picture: async file => writeFileSync(file, Buffer.from((await page('Page.captureScreenshot', { format: 'png' })).data, 'base64')),
        close: async () => {
            browser.kill();
            await new Promise(give => browser.once('exit', give));
            rmSync(profile, { recursive: true, force: true });
        },
    };
}
