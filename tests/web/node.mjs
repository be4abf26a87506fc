// Runs mkpasswd.mjs and the page's worker in node, and reports their results: for checks that they
// must refuse, for each line of standard input (a password and its hash in hexadecimal), for other
// passwords, for the cost of a scrypt hash, and for audits. test_node.py has the expected results.
import { readFileSync } from 'node:fs';
import vm from 'node:vm';

const [file, page, rows, costly, audits] = process.argv.slice(2);
const { Policy, cost, crypt, hash, setting, verify } = await import(file);
const NO_LIMIT = 2 ** 42;
const ROUNDS = { sha512crypt: 1234, sha256crypt: 1234, scrypt: 6, md5crypt: 1234 };

function outcomeOf(call) {
    try {
        return call();
    } catch ({ reason, message }) {
        return reason ?? message;
    }
}

// ---- Refusals, audits and defaults

const refusedCalls = {
    loneSurrogate: () => hash('\ud83d'),
    bcrypt: () => setting('bcrypt', 12),
    fewRounds: () => setting('sha512crypt', 12),
    mostRounds: () => crypt('x', '$6$rounds=999999999$s'),
};
const refusedChecks = JSON.parse(rows)
    .map(([stored, password]) => () => verify(password, stored));

function audited([stored, method, rounds, budget]) {
    return outcomeOf(() => String(new Policy({ method, rounds, budget }).describe(stored)));
}

// Results with the defaults, and with the module's recommended rounds.
const PREFIX_LENGTH = '$6$rounds=656000$'.length;
const longest = 'x'.repeat(168);
const longer = 'x'.repeat(169);
const standard = hash(longest);
const defaults = {
    hash: standard.slice(0, PREFIX_LENGTH),
    setting: setting('sha512crypt', 0).slice(0, PREFIX_LENGTH),
    longestVerified: verify(longest, standard),
    longerHashed: outcomeOf(() => hash(longer)),
    longerVerified: outcomeOf(() => verify(longer, standard)),
};
const hashes = {};
for (const [method, rounds] of Object.entries(ROUNDS)) {
    hashes[method] = new Policy({ method, rounds }).hash('password');
}

// ---- Checks by the page's worker and by the module

const [, script] = readFileSync(page, 'utf8').split('<script id="worker" type="text/plain">');
let posted;
globalThis.postMessage = (data) => { posted.push(data); };
vm.runInThisContext(script.split('</script>')[0]);

// Returns what the page's worker posts for a check.
function postedFor(password, stored) {
    posted = [];
    onmessage({ data: { job: 'check', password, stored, budget: Infinity } });
    return posted;
}

const anyCost = new Policy({ budget: NO_LIMIT });

// Returns whether a password matches, by the page's worker and by the module.
function matches(password, stored) {
    return {
        page: postedFor(password, stored).at(-1).isMatch,
        module: anyCost.verify(password, stored),
    };
}

function checked(line) {
    const fromDigits = (digits) => Uint8Array.from(Buffer.from(digits, 'hex'));
    const [password, stored] = line.split(' ').map(fromDigits);
    const wrong = Uint8Array.of(1, ...password.slice(1));
    return {
        right: matches(password, stored),
        wrong: matches(wrong, stored),
        hash: crypt(password, stored, NO_LIMIT),
    };
}

const lines = readFileSync(0, 'utf8').trimEnd().split('\n').map(checked);

// ---- The end of the stack

// Calls verify with more and more of the stack left, beginning with none, so that the stack also
// overflows inside the module. The calls before make sure that verify is compiled.
const texts = ['password', hashes.md5crypt];
const [word, md5crypt] = texts.map((text) => Uint8Array.from(Buffer.from(text)));
const CALLS_UNTIL_COMPILED = 3000;
for (let count = 0; count < CALLS_UNTIL_COMPILED; count++) verify(word, md5crypt);
const MOST_CALLS = 1500; // the last ones have enough of the stack
let calls = 0;
function callDeeper() {
    try {
        callDeeper();
    } catch (error) {
        outcomeOf(() => verify(word, md5crypt));
        calls += 1;
        if (calls < MOST_CALLS) throw error;
    }
}
callDeeper();

console.log(JSON.stringify({
    refused: Object.fromEntries(
        Object.entries(refusedCalls).map(([name, call]) => [name, outcomeOf(call)]),
    ),
    refusedChecks: refusedChecks.map(outcomeOf),
    defaults,
    hashes,
    after: outcomeOf(() => verify('password', hashes.md5crypt)),
    audited: JSON.parse(audits).map(audited),
    costs: {
        page: postedFor('password', hashes.md5crypt)[0].cost,
        module: cost(costly, 8),
    },
    checked: lines,
}));
