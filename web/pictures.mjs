// Pictures of the page into a folder, to be looked at: each state of states.mjs, wide, narrow, dark and printed.
//     node pictures.mjs FOLDER [STATE or VIEW..]
import { openBrowser } from './chromium.mjs';
import { enter, open, states } from './states.mjs';

const VIEWS = { wide: { width: 1440 }, narrow: { width: 360, height: 740 }, dark: { width: 1440, dark: true }, print: { width: 794, print: true }, vast: { width: 2560, height: 1300 } };
const [folder, ...chosen] = process.argv.slice(2);
const page = await openBrowser();
let cut = 0;
try {
    for (const [name, view] of Object.entries(VIEWS)) {
        await page.view(view);
        await open(page);
        for (const [state, texts] of Object.entries(states)) {
            if (chosen.length > 0 && !chosen.includes(state) && !chosen.includes(name)) continue;
            await page.view(view);
            await enter(page, ...texts.length > 0 ? texts : ['']);
            if (view.print) await page.look(() => dispatchEvent(new Event('beforeprint')));
            const height = await page.look(() => Math.max(document.documentElement.scrollHeight, innerHeight));
            const over = await page.look(() => document.documentElement.scrollWidth - document.documentElement.clientWidth);
            await page.view({ ...view, height });
            await page.picture(`${folder}/${state}-${name}.png`);
            console.log(`${state}-${name}.png: ${view.width} x ${height}${over > 0 ? `, ${over} pixels too wide` : ''}`);
            cut += over > 0;
        }
    }
} finally {
    await page.close();
}
process.exit(cut ? 1 : 0);
