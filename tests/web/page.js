// Acts like a visitor, as the body of a function that a browser evaluates in the page: makes and
// checks hashes, tries some that the page refuses, stops one, and tries to send something. It
// reports what the page shows. test_page.py defines ROWS, CURRENT, SCRYPT and SERVER before this
// code, appends a call of visit(), and has the expected report.

const PASSWORD = 'K\u00e4se \u{1f40e}';
const WRONG_PASSWORD = 'K\u00e4se';
const ROUNDS = { sha512crypt: 1234, sha256crypt: 1234, scrypt: 6, md5crypt: null };

// ---- What a visitor sees and does

const element = (id) => document.getElementById(id);
const status = (form) => element(form).querySelector('p[role=status]').textContent;
const button = (name) => document.querySelector(`[data-${name}]`);
const isShown = (part) => part.offsetParent !== null;

async function until(test) {
    while (!test()) await new Promise((next) => { setTimeout(next, 20); });
}

function set(values) {
    for (const [id, value] of Object.entries(values)) {
        element(id).value = value;
        element(id).dispatchEvent(new Event('input', { bubbles: true }));
    }
}

function start(form, values) {
    set(values);
    element(form).querySelector('p[role=status]').textContent = '';
    element(form).requestSubmit();
}

// Submits a form, and returns the page's message once the job has ended.
async function ended(form, values) {
    start(form, values);
    await until(() => status(form) !== '' && !status(form).startsWith('Hashing'));
    return status(form);
}

// ---- Making and checking

// Returns damaged copies of a hash: without its digest, without its end, with more after it, and
// with other characters.
function damaged(stored) {
    const [setting, digest] = stored.split(/\$(?=[^$]*$)/); // at the last dollar sign
    return [setting, stored.slice(0, -9), `${stored}$x`, `${setting}$${digest.slice(1)}z`];
}

// Makes a hash with a method, and checks it with the right password and a wrong one. Then checks
// damaged copies of it.
async function makeAndCheck(method) {
    set({ password: PASSWORD, repeat: PASSWORD, method });
    const isHashLeft = isShown(element('made'));
    if (ROUNDS[method]) set({ rounds: ROUNDS[method] });
    const message = await ended('make', {});
    const stored = element('snippet').textContent;
    const right = await ended('check', { stored: ` ${stored} `, guess: PASSWORD }); // as pasted
    set({ guess: '' });
    const isAnswerLeft = status('check') !== '';
    const wrong = await ended('check', { guess: WRONG_PASSWORD });
    const dead = [];
    for (const hash of damaged(stored)) dead.push(await ended('check', { stored: hash }));
    return { row: [stored, right, wrong, message], dead, left: isHashLeft || isAnswerLeft };
}

async function visitMethods() {
    const visits = [];
    for (const method of Object.keys(ROUNDS)) visits.push(await makeAndCheck(method));
    const fixed = [
        element('rounds').disabled,
        element('rounds').value,
        element('estimate').textContent,
    ];
    set({ method: 'sha512crypt' });
    return {
        hashes: visits.map(({ row }) => row),
        dead: visits.flatMap(({ dead }) => dead),
        left: visits.some(({ left }) => left),
        fixed,
        free: [element('rounds').disabled, element('rounds').value],
    };
}

// Returns the page's messages about scrypt's rounds, and about a hash with the default cost.
async function visitScrypt() {
    set({ method: 'scrypt' });
    await until(() => element('estimate').textContent.includes('MiB'));
    const estimates = [[element('rounds').value, element('estimate').textContent]];
    set({ rounds: 11 });
    estimates.push(['11', element('estimate').textContent]);
    const given = { password: PASSWORD, repeat: PASSWORD };
    const refused = [];
    for (const rounds of [5, 12, 656000]) refused.push(await ended('make', { ...given, rounds }));
    const right = await ended('check', { stored: SCRYPT, guess: 'password' });
    const wrong = await ended('check', { guess: 'passwort' });
    return { estimates, refused, checked: [right, wrong] };
}

// ---- Where a hash goes

// Returns the page's messages when the visitor copies a text with an invalid name.
function refusedNames() {
    return ['', 'a b', '1ann'].map((name) => {
        set({ name });
        button('copy=snippet').click();
        return button('copy=snippet').nextElementSibling.textContent;
    });
}

function copied() {
    let text;
    document.addEventListener('copy', () => { text = getSelection().toString(); }, { once: true });
    button('copy=snippet').click();
    return text ?? getSelection().toString(); // browsers may refuse to copy without a real click
}

// Returns for each place the text in the box, the copied text, and the messages about names.
function visitPlaces() {
    const places = {};
    for (const { id, index } of element('place').options) {
        element('place').selectedIndex = index;
        const refused = refusedNames();
        const hasName = element('snippet').textContent.includes('NAME');
        const isNamed = isShown(element('name')) && hasName;
        set({ name: 'ann' });
        const text = copied();
        places[id] = [element('snippet').textContent, text, isNamed && refused];
    }
    return places;
}

// Returns the page's answers to lines that contain the hash.
async function visitLines(places, stored) {
    const [, ...ofPlaces] = Object.values(places).map(([line]) => line); // not the hash alone
    const lines = [
        `ann:${stored}:19000:0:99999:7:::`,
        ...ofPlaces,
        `userPassword: {CRYPT}${stored}`,
    ];
    const answers = [];
    for (const line of lines) {
        const answer = await ended('check', { stored: line, guess: PASSWORD });
        const isAlone = element('stored').value === stored;
        answers.push([answer, isAlone, element('stored-note').textContent]);
    }
    return answers;
}

// ---- Refusals, stopping, and mistyped passwords

async function visitRefusals() {
    const isClosed = !element('more').open;
    const refused = [];
    for (const [stored, guess] of ROWS) {
        refused.push(await ended('check', { stored: stored || ' ', guess })); // never empty
    }
    return { refused, hidden: isClosed && element('more').open };
}

async function visitRounds() {
    const answers = [];
    const tooFew = 999;
    const tooMany = 1_000_000_000;
    const wrapped = 2 ** 32 + 5000; // 5000 in its lowest 32 bits
    for (const rounds of [tooFew, tooMany, wrapped]) {
        const given = { password: PASSWORD, repeat: PASSWORD, method: 'sha512crypt', rounds };
        answers.push(await ended('make', given));
    }
    set({ rounds: 1234 });
    return answers;
}

async function visitMistyped() {
    const without = await ended('make', { repeat: '' });
    const another = await ended('make', { repeat: WRONG_PASSWORD });
    return [without, another, isShown(element('made'))];
}

async function visitStop() {
    const given = { password: PASSWORD, repeat: PASSWORD, method: 'sha512crypt' };
    start('make', { ...given, rounds: 999999999 });
    const stop = element('make').querySelector('[data-stop]');
    await until(() => !stop.hidden);
    stop.click();
    return status('make');
}

// ---- Generated passwords

// Counts each character in generated passwords if all random bytes come equally often.
function frequencies() {
    let byte = 0;
    crypto.getRandomValues = (bytes) => {
        for (const at of bytes.keys()) bytes[at] = byte++;
        return bytes;
    };
    const counts = {};
    const passwords = 31; // of 20 characters: ten of each of the 62 characters
    for (let number = 0; number < passwords; number++) {
        button('generate').click();
        for (const character of element('password').value) {
            counts[character] = (counts[character] ?? 0) + 1;
        }
    }
    delete crypto.getRandomValues;
    return counts;
}

async function visitGenerated() {
    const password = element('password').value;
    const revealed = [
        button('show=password').textContent,
        element('password').type,
        element('repeat').disabled,
        isShown(button('copy=password')),
    ];
    await ended('make', { rounds: 1000 });
    const stored = element('snippet').textContent;
    const generated = [password, ...revealed, await ended('check', { stored, guess: password })];
    button('show=password').click();
    const concealed = [
        button('show=password').textContent,
        element('password').type,
        element('repeat').disabled,
    ];
    return { generated, concealed };
}

// ---- The page itself

const [WIDTH_OF_PHONE, WIDTH_OF_DESKTOP] = [390, 1280]; // in pixels of CSS

// Returns how far the page reaches beyond this width, the height of the lowest control, and the
// height of the page.
function sizes(width) {
    document.documentElement.style.width = `${width}px`;
    const parts = [...document.querySelectorAll('body *')];
    const beyond = Math.max(...parts.map((part) => part.getBoundingClientRect().right)) - width;
    const controls = [...document.querySelectorAll('button, summary, input, select')];
    const heights = controls.filter(isShown).map((part) => part.getBoundingClientRect().height);
    const { height } = document.body.getBoundingClientRect();
    return { beyond, least: Math.min(...heights), height };
}

async function hasIcon() {
    const icon = new Image();
    icon.src = document.querySelector('[rel=icon]').href;
    return icon.decode().then(() => icon.naturalWidth > 0, String);
}

async function tryToSend() {
    new Image().src = `${SERVER}/image`;
    const source = `fetch('${SERVER}/fetched', { mode: 'no-cors' })`
        + ".then(() => 'sent', () => 'refused')";
    const worker = new Worker(URL.createObjectURL(new Blob([`${source}.then(postMessage)`])));
    const sentByPage = await fetch(`${SERVER}/fetched`, { mode: 'no-cors' })
        .then(() => 'sent', () => 'refused');
    const sentByWorker = await new Promise((next) => {
        worker.onmessage = ({ data }) => next(data);
    });
    return [sentByPage, sentByWorker];
}

// Returns the page's estimate of a hash's time, before one and after it.
async function visitSlowPage() {
    const before = element('estimate').textContent;
    await ended('make', { password: 'x', repeat: 'x' });
    return [before, element('estimate').textContent];
}

async function visitForms() {
    const estimate = element('estimate').textContent;
    const links = document.links.length;
    const recommended = [element('rounds').value, element('budget').value];
    const scrypt = await visitScrypt();
    const ofMethods = await visitMethods();
    await ended('make', {});
    const stored = element('snippet').textContent;
    const phone = sizes(WIDTH_OF_PHONE);
    const wide = sizes(WIDTH_OF_DESKTOP).beyond;
    const places = visitPlaces();
    const lines = await visitLines(places, stored);
    const current = await ended('check', { stored: CURRENT, guess: 'password' });
    const ofRefusals = await visitRefusals();
    const rounds = await visitRounds();
    const mistyped = await visitMistyped();
    const stopped = await visitStop();
    const counts = frequencies();
    const ofGenerated = await visitGenerated();
    const icon = await hasIcon();
    const sent = await tryToSend();
    return {
        ...ofMethods, ...ofRefusals, ...ofGenerated, estimate, links, recommended, stored, phone,
        wide, places, lines, current, rounds, mistyped, stopped, icon, sent, scrypt,
        frequencies: counts,
    };
}

async function visit() {
    const isUnable = () => isShown(element('unsupported'));
    await until(() => isUnable() || element('estimate').textContent.trim());
    if (isUnable()) {
        return {
            unable: element('unsupported').textContent,
            forms: [...document.forms].filter(isShown).length,
            links: document.links.length,
        };
    }
    return document.title === 'slow' ? visitSlowPage() : visitForms();
}
