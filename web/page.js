// The script of mkpasswd.html: what its forms do, and what the page says. A worker hashes. Its
// script, worker.js, is in the page as text.

// What the page says for an error if mkpasswd's own message doesn't say what to do.
const SENTENCES = {
    MKPASSWD_ERROR_PASSWORD_TOO_LONG: 'The password has more than 1024 bytes. Use a shorter one.',
    MKPASSWD_ERROR_PASSWORD_ZERO_BYTE:
        'The password has a zero byte, which no login accepts. Type it again.',
    MKPASSWD_ERROR_SETTING_TOO_LONG:
        'This is longer than any hash. Copy the hash alone, or its whole line.',
    MKPASSWD_ERROR_BAD_CHARACTER: 'This has a character that is in no hash. Copy the hash again.',
    MKPASSWD_ERROR_BAD_ROUNDS: 'No valid number follows rounds= in this hash. Copy it again.',
    MKPASSWD_ERROR_BAD_COST: 'This hash of scrypt has no valid cost. Copy it again.',
    MKPASSWD_ERROR_SCRYPT_RANGE: 'This hash of scrypt has no valid cost. Copy it again.',
    MKPASSWD_ERROR_ABOVE_CEILING:
        'This hash of scrypt takes too much memory for any login. Set a new password.',
    MKPASSWD_ERROR_BAD_SALT: 'This hash of scrypt has no valid salt. Copy it again.',
    MKPASSWD_ERROR_OUT_OF_MEMORY: 'The browser has too little memory for this hash of scrypt. '
        + 'Close other pages and try again, or use another browser.',
    MKPASSWD_ERROR_LOCKED: 'This account is locked, so no password matches. '
        + 'To check the hash behind ! or *, remove that character.',
    MKPASSWD_ERROR_NO_HASH: 'This account has no hash. Set a password, or lock it.',
};
const NAME_RULE = 'A name begins with a letter (A to Z) or _, '
    + 'and has only letters, digits and _.@- (at most 64).';
const WEAK = 'md5crypt is weak. Use it only where nothing else works.';
const OUTDATED = 'matches, but the hash is outdated (few rounds, or not sha512crypt): '
    + 'replace it with a new one';
const NO_BREAK_SPACE = '\u00a0';

const METHODS = ['sha512crypt', 'sha256crypt', 'scrypt', 'md5crypt'];
const DIGEST_LENGTHS = { 1: 22, 5: 43, 6: 86, 7: 43 }; // in characters, by the prefix of the method
const SENTENCE_OF_ROUNDS = 'Give 1000 to 999999999 rounds.';
const SENTENCE_OF_SCRYPT_ROUNDS = 'Give 6 to 11 rounds: one more doubles time and memory.';
const GENERATED_CHARACTERS = 'ABCDEFGHIJKLMNOPQRSTUVWXYZabcdefghijklmnopqrstuvwxyz0123456789';
const GENERATED_LENGTH = 20;

// ---- State

const rates = {}; // for each method: the cost of a hash, and the time measured for it
// The rounds for the kinds of methods that aren't chosen. Those of the chosen kind are in the
// field.
const keptRounds = { md5crypt: '1000' };
let chosenKind = 'SHA-crypt';
let newHash;
let running; // the form's job that a worker does: form, stored, worker, timer, method and cost

// ---- Elements

function element(id) {
    return document.getElementById(id);
}

function valueOf(id) {
    return element(id).value;
}

// Puts a text into an element. The kind is a class, which gives it a colour.
function showText(place, text, kind = '') {
    place.textContent = text;
    place.className = kind;
}

// Shows the status of a form's job.
function showStatus(form, text, kind) {
    const place = form.querySelector('p[role=status]');
    showText(place, text, kind);
    if (text) place.scrollIntoView({ block: 'nearest' });
}

// ---- Times

function describeSeconds(seconds) {
    if (seconds < 120) return `${Math.round(seconds)} seconds`;
    if (seconds < 7200) return `${Math.round(seconds / 60)} minutes`;
    return `${Math.round(seconds / 3600)} hours`;
}

// Describes how long something took.
function describeMeasuredTime(milliseconds) {
    if (milliseconds < 100) return `less than 0.1${NO_BREAK_SPACE}s`;
    const seconds = milliseconds / 1000;
    // From 9.95 on, toFixed(1) would give 10.0.
    return seconds < 9.95 ? `${seconds.toFixed(1)}${NO_BREAK_SPACE}s` : describeSeconds(seconds);
}

// Describes about how long something will take.
function describeExpectedTime(milliseconds) {
    const seconds = milliseconds / 1000;
    if (seconds < 0.15) return 'a moment';
    if (seconds < 0.37) return 'about a quarter of a second';
    if (seconds < 0.75) return 'about half a second';
    if (seconds < 1.5) return 'about a second';
    return `about ${describeSeconds(seconds)}`;
}

// Returns how many milliseconds a hash of this cost takes here, or undefined if none was measured.
function expectedTime({ method, cost }) {
    const rate = rates[method];
    return rate && (cost * rate.time) / rate.cost;
}

// ---- The estimate below the rounds

// Returns the kind of a method, by its rounds: both methods of SHA-crypt take the same ones.
function kindOfMethod(method) {
    return method === 'scrypt' || method === 'md5crypt' ? method : 'SHA-crypt';
}

// Puts the rounds of the chosen method into their field.
function showRoundsOfMethod() {
    const rounds = element('rounds');
    const kind = kindOfMethod(valueOf('method'));
    if (kind === chosenKind) return;
    keptRounds[chosenKind] = rounds.value;
    chosenKind = kind;
    rounds.value = keptRounds[kind];
    rounds.disabled = kind === 'md5crypt';
}

function sentenceOfRounds() {
    return chosenKind === 'scrypt' ? SENTENCE_OF_SCRYPT_ROUNDS : SENTENCE_OF_ROUNDS;
}

function warningOfRounds() {
    const rounds = element('rounds');
    const isScrypt = chosenKind === 'scrypt';
    const isScryptsOwn = rounds.value >= 6 && rounds.value <= 11;
    if (!rounds.validity.valid || (isScrypt && !isScryptsOwn)) return sentenceOfRounds();
    return chosenKind === 'md5crypt' ? WEAK : '';
}

// Returns the milliseconds that a new hash will take, judging by the measured one. The measured one
// had 5000 rounds; for scrypt it had 6, and each further round doubles the time. For md5crypt there
// is no estimate, but a warning.
function timeOfRounds(rounds) {
    const { time } = rates[valueOf('method')];
    return chosenKind === 'scrypt' ? time * 2 ** (rounds - 6) : (time * rounds) / 5000;
}

// Describes the memory that a scrypt hash with these rounds takes: 64 MiB for 7.
function memoryOfRounds(rounds) {
    return `${2 ** (rounds - 1)}${NO_BREAK_SPACE}MiB of memory`;
}

function estimateOfRounds() {
    if (!rates[valueOf('method')]) return NO_BREAK_SPACE;
    const rounds = Number(valueOf('rounds'));
    const time = timeOfRounds(rounds);
    if (!(time > 0)) return NO_BREAK_SPACE;
    const memory = chosenKind === 'scrypt' ? ` and ${memoryOfRounds(rounds)}` : '';
    return `Takes ${describeExpectedTime(time)}${memory}.`;
}

// Shows how long the new hash will take, and scrypt's memory, or a warning about its rounds or
// method.
function showEstimate() {
    showRoundsOfMethod();
    const warning = warningOfRounds();
    const text = warning || estimateOfRounds();
    const place = element('estimate');
    if (place.textContent === text) return; // a screen reader reads each change aloud
    showText(place, text, warning ? 'refused' : '');
}

// ---- Jobs in workers

const workerScript = new Blob([element('worker').textContent], { type: 'text/javascript' });
const workerAddress = URL.createObjectURL(workerScript);

// Starts a job in a worker of its own, and calls `onMessage` with each message that it posts. The
// worker ends after the last one, and its memory is freed.
function startWorker(job, args, onMessage) {
    const worker = new Worker(workerAddress);
    worker.onmessage = ({ data }) => {
        if (data.isLast) worker.terminate();
        onMessage(data);
    };
    worker.onerror = ({ message }) => {
        onMessage({ isLast: true, error: { message: message ?? 'it does not say why' } });
    };
    worker.postMessage({ job, ...args });
    return worker;
}

function progressElements(form) {
    return form.querySelectorAll('progress, [data-stop]');
}

// Shows how far the running hash should have got, judging by its cost.
function showProgress() {
    const { form } = running;
    const bar = form.querySelector('progress');
    const start = performance.now();
    const whole = expectedTime(running);
    for (const part of progressElements(form)) part.hidden = false;
    showStatus(form, whole ? `Hashing takes ${describeExpectedTime(whole)}.` : 'Hashing.');
    running.timer = setInterval(() => {
        // The bar isn't full before the hash is there, even if that takes longer than expected.
        bar.value = whole ? Math.min(0.99, (performance.now() - start) / whole) : 0;
    }, 50);
}

// Ends the running job and its worker, which frees its memory.
function endJob(text, kind) {
    const { form, worker, timer } = running;
    worker.terminate();
    clearInterval(timer);
    const isStopFocused = 'stop' in document.activeElement.dataset;
    if (isStopFocused) form.querySelector('.main').focus();
    for (const part of progressElements(form)) part.hidden = true;
    showStatus(form, text, kind);
    running = undefined;
}

// ---- The new hash

// Shows the new hash in the form that the chosen place needs, or nothing if there is no hash.
function showNewHash() {
    const place = valueOf('place');
    const name = element('name');
    element('made').hidden = !newHash;
    element('named').hidden = !place.includes('{name}');
    const withName = place.replace('{name}', name.validity.valid ? name.value : 'NAME');
    element('snippet').textContent = withName.replace('{hash}', () => newHash ?? '');
    element('made').querySelector('[role=status]').textContent = '';
}

function forgetNewHash() {
    newHash = undefined;
    showNewHash();
}

// ---- The hash that is checked

// Returns the hash in a stored field or in a line that contains it, and the line's name if it
// begins with one. In a line of /etc/shadow or of an htpasswd file the hash is between the first
// two colons. In a line for an installer a blank, a quote or = comes before it; in LDAP and Dovecot
// a }, as in {CRYPT}.
function parseLine(line) {
    const behindSign = line.match(/^[^$]*[\s"'=}](\$\w+\$[^\s"':]*)/);
    if (behindSign) return { hash: behindSign[1] };
    const [first, second] = line.split(':');
    if (second === undefined) return { hash: first.trim() };
    return { hash: second.trim(), name: first };
}

// If a whole line was pasted into the field, leaves only the hash there.
function extractHash() {
    const line = valueOf('stored');
    const { hash, name } = parseLine(line);
    if (!hash || hash === line.trim()) return;
    element('stored').value = hash;
    element('stored-note').textContent = name ? `From the line of ${name}.` : 'From the line.';
}

// Returns what is wrong with a hash that no password matches.
function describeFlaw(stored) {
    const [, prefix, ...parts] = stored.split('$');
    const hasRounds = prefix !== '1' && parts[0].startsWith('rounds=');
    // The digest comes after the salt, or in scrypt's hashes after the cost with the salt.
    const digest = parts.slice(hasRounds ? 2 : 1).join('$');
    const whole = DIGEST_LENGTHS[prefix];
    if (digest.length < whole) return `cut: ${digest.length} of ${whole} characters`;
    if (digest.length === whole) return 'damaged';
    return `too long: ${digest.length} characters in place of ${whole}`;
}

// ---- What the page says about a job

function sentenceOfNoHash(stored) {
    const beginning = stored.length > 20 ? `${stored.slice(0, 20)}…` : stored;
    return `“${beginning}” is not a hash of crypt(5). Paste one, or its whole line.`;
}

function sentenceOfScheme(scheme) {
    return `This is ${scheme ?? 'another scheme'}, which can’t be checked here. `
        + 'Log in on the system that stored it.';
}

function sentenceOfCost() {
    const time = expectedTime(running);
    const duration = time ? describeExpectedTime(time) : 'long';
    return `Checking this hash can take ${duration}, so it was refused. `
        + `If you trust it, raise the budget to ${running.cost}.`;
}

// Returns why a password was neither hashed nor checked, and what to do next.
function sentenceOfError({ name, message }, scheme) {
    if (scheme || name === 'MKPASSWD_ERROR_UNKNOWN_SCHEME') return sentenceOfScheme(scheme);
    if (name === 'MKPASSWD_ERROR_NO_SCHEME') return sentenceOfNoHash(running.stored);
    if (name === 'MKPASSWD_ERROR_OVER_BUDGET') return sentenceOfCost();
    if (name === 'MKPASSWD_ERROR_ROUNDS') return sentenceOfRounds();
    return SENTENCES[name] ?? `${message[0].toUpperCase()}${message.slice(1)}.`;
}

function sentenceOfCheck({ isDead, isMatch, isOutdated, time }) {
    if (isDead) {
        return `This hash is ${describeFlaw(running.stored)}. `
            + 'No password matches it: copy it again, or set a new password.';
    }
    const took = `Checked in ${describeMeasuredTime(time)}.`;
    if (!isMatch) return `The password does not match. ${took}`;
    return isOutdated ? `The password ${OUTDATED}. ${took}` : `The password matches. ${took}`;
}

// Corrects later estimates by the time that the last hash took.
function correctRate({ error, time }) {
    const whole = expectedTime(running);
    // A hash of at most 100 ms is too short for a browser's clock.
    if (error || !whole || time <= 100) return;
    rates[running.method].time *= time / whole;
    showEstimate();
}

// Shows the result of a job: a hash, whether a password matches, or why not. A hash of another
// scheme can come without an error.
function showResult(result) {
    const { hash, isMatch, error, scheme, time } = result;
    if (error?.name === 'MKPASSWD_ERROR_OVER_BUDGET') element('more').open = true;
    correctRate(result);
    if (error || scheme) {
        endJob(sentenceOfError(error ?? {}, scheme), 'refused');
    } else if (hash) {
        endJob(`Made in ${describeMeasuredTime(time)}.`, 'good');
        newHash = hash;
        showNewHash();
        element('made').scrollIntoView({ block: 'nearest' });
    } else {
        endJob(sentenceOfCheck(result), isMatch ? 'good' : 'refused');
    }
}

// ---- Forms

// Reads the fields of a form, as the arguments of its job.
const readForm = {
    make: () => ({
        password: valueOf('password'),
        method: valueOf('method'),
        rounds: Number(valueOf('rounds')),
    }),
    check() {
        extractHash();
        const { hash } = parseLine(valueOf('stored'));
        return { password: valueOf('guess'), stored: hash, budget: Number(valueOf('budget')) };
    },
};

// Returns whether the password was typed twice or is visible. If not, the form says what to do.
function isRepeated(form) {
    const repeat = element('repeat');
    if (repeat.disabled || repeat.value === valueOf('password')) return true;
    repeat.focus();
    const sentence = repeat.value
        ? 'The two passwords differ. Type them again, or show the first.'
        : 'Type the password again, or show it.';
    showStatus(form, sentence, 'refused');
    return false;
}

// Starts a form's job.
function startJob(form) {
    if (form.id === 'make') {
        forgetNewHash();
        if (!isRepeated(form)) return;
    }
    const args = readForm[form.id]();
    running = { form, stored: args.stored };
    running.worker = startWorker(form.id, args, ({ isLast, ...message }) => {
        if (isLast) {
            showResult(message);
        } else {
            Object.assign(running, message);
            showProgress();
        }
    });
}

function submit(event, form) {
    event.preventDefault();
    if (!running) {
        startJob(form);
    } else if (running.form !== form) {
        showStatus(form, 'The other form is hashing: wait, or stop it.', 'refused');
    }
}

const storedNote = element('stored-note').textContent;

// Clears what the page said, since it no longer applies to what is in the fields.
function handleInput({ target, inputType = 'insertFromScript' }, form) {
    showEstimate();
    if (target.id === 'password') element('generated').hidden = true;
    if (target.id === 'stored') {
        element('stored-note').textContent = storedNote;
        if (inputType.startsWith('insertFrom')) extractHash();
    }
    if (running?.form === form) {
        endJob('Stopped.');
    } else {
        showStatus(form, '');
    }
    if (form.id === 'make') forgetNewHash();
}

// An invalid field can be hidden below "More".
function showInvalid({ target }) {
    if (element('more').contains(target)) element('more').open = true;
}

// ---- Buttons

// Shows or hides a password. A visible one needn't be typed twice.
function showPassword(id, isShown) {
    element(id).type = isShown ? 'text' : 'password';
    document.querySelector(`[data-show=${id}]`).firstChild.data = isShown ? 'Hide' : 'Show';
    if (id !== 'password') return;
    element('repeat').disabled = isShown;
    element('repeat').placeholder = isShown ? 'Not needed while it is shown' : '';
}

// Returns a random character. Skips bytes from the greatest multiple of the number of characters
// on, so that all characters are equally likely.
function randomCharacter() {
    const count = GENERATED_CHARACTERS.length;
    const end = 256 - (256 % count);
    for (;;) {
        const [byte] = crypto.getRandomValues(new Uint8Array(1));
        if (byte < end) return GENERATED_CHARACTERS[byte % count];
    }
}

function generatePassword(id) {
    const field = element(id);
    field.value = Array.from({ length: GENERATED_LENGTH }, randomCharacter).join('');
    showPassword(id, true);
    field.dispatchEvent(new Event('input', { bubbles: true }));
    element('generated').hidden = false;
    showText(element('generated').querySelector('[role=status]'), '20 random characters.');
}

// Returns whether the text to copy lacks a valid name. If so, the page says so.
function lacksName(id, place) {
    const name = element('name');
    if (id !== 'snippet' || element('named').hidden || name.validity.valid) return false;
    name.focus();
    showText(place, name.value ? NAME_RULE : 'First type the user’s name.', 'refused');
    return true;
}

// Copies the text of an element. If the browser refuses that, the text stays selected.
function copy(button, id) {
    const place = button.nextElementSibling;
    if (lacksName(id, place)) return;
    if (id === 'snippet') {
        getSelection().selectAllChildren(element(id));
    } else {
        element(id).select();
    }
    if (!document.execCommand('copy')) {
        showText(place, 'It is selected: press Ctrl+C.');
        return;
    }
    getSelection().removeAllRanges();
    button.focus();
    showText(place, 'Copied.', 'good');
}

// What a button does, by its data- attribute. The value of the attribute is the id of an element.
const clicks = {
    stop: () => endJob('Stopped.'),
    show: (button, id) => showPassword(id, element(id).type === 'password'),
    generate: (button, id) => generatePassword(id),
    copy,
};

function click({ target }) {
    const button = target.closest('button');
    for (const [name, id] of Object.entries(button?.dataset ?? {})) clicks[name](button, id);
}

// ---- Start

// Shows the forms, or why the module doesn't run here.
function showForms(reason) {
    for (const form of document.forms) form.parentNode.hidden = Boolean(reason);
    const unsupported = element('unsupported');
    unsupported.hidden = !reason;
    unsupported.querySelector('span').textContent = `a worker with WebAssembly (${reason})`;
}

// Measures methods, one after another.
function measure([method, ...others]) {
    startWorker('measure', { method }, ({ cost, time }) => {
        if (cost) rates[method] = { cost, time };
        showEstimate();
        if (others.length > 0) measure(others);
    });
}

// Shows the forms with the rounds and the budget that the module recommends, and then measures.
function start() {
    startWorker('recommend', {}, ({ error, rounds, bytes, scryptRounds }) => {
        showForms(error?.message);
        if (error) return;
        element('rounds').defaultValue = rounds;
        keptRounds.scrypt = scryptRounds;
        element('budget').defaultValue = bytes;
        measure(METHODS);
    });
}

for (const form of document.forms) {
    form.addEventListener('submit', (event) => submit(event, form));
    form.addEventListener('input', (event) => handleInput(event, form));
    form.addEventListener('invalid', showInvalid, true);
}
document.addEventListener('click', click);
element('made').addEventListener('input', showNewHash);

// The documents are beside the page only where it is installed.
if (!location.pathname.includes('/doc/mkpasswd/')) {
    for (const link of document.querySelectorAll('[href^="html/"]')) {
        link.replaceWith(link.textContent);
    }
}
element('unsupported').hidden = true;
try {
    start();
} catch ({ message }) {
    showForms(message);
}
