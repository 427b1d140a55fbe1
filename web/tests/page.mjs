// Tries the page in a headless browser: it types, turns the switches, and reads what the frame then shows.
// The last line is `N passed, M failed`.
//
//     node web/tests/page.mjs FOLDER BROWSER [SCREENSHOT]
//
// FOLDER is what bin/wasm has made, BROWSER a program of Chromium's kind. SCREENSHOT-light.png and SCREENSHOT-dark.png get
// pictures of the page. The status is 3 if the browser doesn't start.
import { spawn } from "node:child_process";
import { mkdtempSync, readFileSync, rmSync, writeFileSync } from "node:fs";
import { createServer } from "node:http";
import { tmpdir } from "node:os";
import { extname, join } from "node:path";

const [folder, browser, screenshot] = process.argv.slice(2);
const TYPES = { ".html": "text/html", ".mjs": "text/javascript", ".css": "text/css", ".wasm": "application/wasm" };
const server = createServer((request, response) => {
    const name = new URL(request.url, "http://localhost").pathname.slice(1) || "index.html";
    try {
        const body = readFileSync(join(folder, name));
        response.writeHead(200, { "content-type": TYPES[extname(name)] ?? "application/octet-stream" }).end(body);
    } catch {
        response.writeHead(404).end();
    }
});
await new Promise(done => server.listen(0, "127.0.0.1", done));

// The browser takes commands as JSON on its third file, and answers on its fourth, with NUL after each.
const profile = mkdtempSync(join(tmpdir(), "page-"));
const words = ["--headless", "--no-sandbox", "--disable-gpu", "--disable-dev-shm-usage", "--remote-debugging-pipe", `--user-data-dir=${profile}`, "about:blank"];
const running = spawn(browser, words, { stdio: ["ignore", "ignore", "ignore", "pipe", "pipe"] });
const waiting = new Map();
let number = 0, unread = "";
running.stdio[4].setEncoding("utf8").on("data", text => {
    const parts = (unread + text).split("\0");
    unread = parts.pop();
    for (const { id, result, error } of parts.map(it => JSON.parse(it))) {
        if (error) waiting.get(id)?.reject(new Error(error.message));
        else waiting.get(id)?.resolve(result);
    }
});
function send(method, params = {}, sessionId = undefined) {
    number++;
    running.stdio[3].write(`${JSON.stringify({ id: number, method, params, sessionId })}\0`);
    return new Promise((resolve, reject) => waiting.set(number, { resolve, reject }));
}
function giveUp(why, status) {
    console.error(`failed: ${why}`);
    running.kill("SIGKILL");
    rmSync(profile, { recursive: true, force: true, maxRetries: 5 });
    process.exit(status);
}
running.on("error", fault => giveUp(fault.message, 3));
running.stdio[3].on("error", () => {});
let isAtWork = false;
running.on("exit", () => giveUp("the browser ended", isAtWork ? 1 : 3));
const start = setTimeout(() => giveUp("the browser doesn't start", 3), 120_000);
await send("Browser.getVersion");
clearTimeout(start);
isAtWork = true;
setTimeout(() => giveUp("the browser hangs", 1), 300_000).unref();

let passed = 0, failed = 0;
try {
    const { targetId } = await send("Target.createTarget", { url: `http://127.0.0.1:${server.address().port}/` });
    const { sessionId } = await send("Target.attachToTarget", { targetId, flatten: true });
    const tell = (method, params) => send(method, params, sessionId);
    const evaluate = async expression => (await tell("Runtime.evaluate", { expression, returnByValue: true, awaitPromise: true })).result.value;
    await tell("Emulation.setDeviceMetricsOverride", { width: 1200, height: 800, deviceScaleFactor: 1, mobile: false });

    // Whether an expression comes true within 20 seconds.
    async function check(what, expression) {
        for (let i = 0; i < 200; i++) {
            if (await evaluate(expression).catch(() => false)) {
                passed++;
                return;
            }
            await new Promise(done => setTimeout(done, 100));
        }
        failed++;
        console.error(`failed: ${what}; the frame has ${await evaluate("document.getElementById('page')?.srcdoc.slice(-300)")}, status ${await evaluate("document.getElementById('status')?.textContent")}`);
    }
    const shows = html => `document.getElementById("page").srcdoc.includes(${JSON.stringify(html)})`;
    const type = text => evaluate(`{ const it = document.getElementById("text"); it.value = ${JSON.stringify(text)}; it.dispatchEvent(new Event("input")); }`);
    const click = id => evaluate(`document.getElementById("${id}").click()`);
    const choose = scheme => evaluate(`{ const it = document.getElementById("scheme"); it.value = "${scheme}"; it.dispatchEvent(new Event("input")); }`);
    const picture = async name => {
        await new Promise(done => setTimeout(done, 500));
        const { data } = await tell("Page.captureScreenshot", { format: "png" });
        if (screenshot) writeFileSync(`${screenshot}-${name}.png`, Buffer.from(data, "base64"));
        return data.length;
    };

    await check("the page as it begins", shows("<h1>Hello, <em>world</em></h1>"));
    await choose("light");
    const light = await picture("light");
    await choose("dark");
    await check("dark", `getComputedStyle(document.body).backgroundColor === "rgb(31, 36, 42)" && ${shows("@media all")}`);
    const dark = await picture("dark");
    if (!(light > 10_000 && dark > 10_000)) failed++;
    await type("~~a~~ <script>b</script> [c](javascript:d)");
    await check("safe, as GitHub does", shows('<p><del>a</del> &lt;script&gt;b&lt;/script&gt; <a href="">c</a></p>'));
    await click("gfm");
    await check("CommonMark", shows("<p>~~a~~ &lt;script"));
    await click("safe");
    await check("not safe", shows('<script>b</script> <a href="javascript:d">c</a></p>'));
    await check("a warning", 'document.getElementById("warning").textContent.startsWith("Not safe")');
    await click("source");
    await check("HTML as text", shows("&lt;p>~~a~~ &lt;script>b"));
    await click("source");
    // A script of the text must not run, in the frame or outside.
    await type('<img src="data:," onerror="parent.document.title = 1"><script>parent.document.title = 2</script>');
    await check("HTML as it is", shows("<script>parent"));
    await new Promise(done => setTimeout(done, 500));
    await check("no script runs", 'document.title === "Markdown"');
    await type("[".repeat(3_000_000));
    await check("a large text", 'document.getElementById("status").textContent.startsWith("3000000 characters to 3000007 of HTML")');
    await type("a");
    await check("a small text after it", shows("<p>a</p>"));
} catch (fault) {
    failed++;
    console.error(`failed: ${fault.message}`);
} finally {
    running.removeAllListeners("exit");
    const ended = new Promise(done => running.on("exit", done));
    send("Browser.close").catch(() => {});
    await Promise.race([ended, new Promise(done => setTimeout(done, 5000))]);
    running.kill("SIGKILL");
    server.close();
    rmSync(profile, { recursive: true, force: true, maxRetries: 5 });
}
console.log(`${passed} passed, ${failed} failed`);
process.exit(failed ? 1 : 0);
