// Reports what mkpasswd.mjs does with scrypt. The arguments are the module and the name of a part;
// standard input has the part's rows as JSON. test_scrypt.py has the expected reports.
import { readFileSync } from 'node:fs';
import { syncBuiltinESMExports } from 'node:module';
import os from 'node:os';
import threads from 'node:worker_threads';

const NO_LIMIT = 2 ** 42;
const [file, part] = process.argv.slice(2);
const given = JSON.parse(readFileSync(0, 'utf8'));

// ---- Watched workers

const WATCHER = readFileSync(new URL('watched_worker.js', import.meta.url), 'utf8');

// Counts the hashing calls that run at once, and the workers that have started and ended.
// isCrowded means that there is memory for only one call, and isTrapping that the first login of
// each worker traps in the module. watched_worker.js counts in the array of each worker.
const watched = {
    running: 0,
    most: 0,
    started: 0,
    ended: 0,
    isCrowded: false,
    isTrapping: false,
    ofWorkers: [],
};

// Returns an array of zeros that is shared with a worker.
function newCounts() {
    const counts = 3; // instances, pages and unwiped memories
    return new Int32Array(new SharedArrayBuffer(counts * Int32Array.BYTES_PER_ELEMENT));
}

threads.Worker = class extends threads.Worker {
    constructor(source, options) {
        const counts = newCounts();
        const workerData = { counts, isTrapping: watched.isTrapping };
        super(WATCHER + source, { ...options, workerData });
        watched.started += 1;
        watched.ofWorkers.push(counts);
    }

    postMessage(message) {
        if (message.name) {
            watched.running += 1;
            watched.most = Math.max(watched.most, watched.running);
            this.isRefused = watched.isCrowded && watched.running > 1;
        }
        super.postMessage(message);
    }

    on(event, listener) {
        if (event !== 'message') return super.on(event, listener);
        const failure = { reason: 'MKPASSWD_ERROR_OUT_OF_MEMORY', message: 'out of memory' };
        return super.on(event, (answer) => {
            watched.running -= 1;
            listener(this.isRefused ? { failure } : answer);
        });
    }

    terminate() {
        watched.ended += 1;
        return super.terminate();
    }
};
syncBuiltinESMExports();

// Returns the counts of all workers so far.
function countsOfWorkers() {
    const counts = watched.ofWorkers.map(([instances, pages, unwiped]) => (
        { instances, pages, unwiped }
    ));
    return { started: watched.started, ended: watched.ended, workers: counts };
}

// ---- Watched instances in this thread

// Has the memory of each instance of the module, beginning with the one that the module makes when
// it is loaded.
const memories = [];
const { Instance } = WebAssembly;
WebAssembly.Instance = function (compiled) {
    const instance = new Instance(compiled);
    memories.push(instance.exports.memory);
    return instance;
};

const { Policy, crypt, describe } = await import(file);
// These have few rounds, since a login that matches a hash of scrypt also makes a new hash.
const { login, loginAsync } = new Policy({ rounds: 1000 });

async function outcomeOf(call) {
    try {
        return await call();
    } catch ({ name, reason, message }) {
        return `${name}: ${reason ?? message}`;
    }
}

// ---- The parts

const isMatch = (result) => result === true || result.matches === true;

// Reports the hash of a password, the results of these calls for the password and its hash, and
// those of other calls for a wrong password.
async function checked([password, stored, calls, callsOfWrong]) {
    const policy = new Policy({ method: 'scrypt', rounds: 6, budget: NO_LIMIT });
    const report = { hash: crypt(password, stored, NO_LIMIT), right: {}, wrong: {} };
    for (const call of calls) {
        report.right[call] = isMatch(await policy[call](password, stored));
    }
    for (const call of callsOfWrong) {
        report.wrong[call] = isMatch(await policy[call](`${password}.`, stored));
    }
    return report;
}

// Reports the results of calls if memory can't grow, for a scrypt hash, a small one, and others.
async function withoutMemory([password, ...stored]) {
    const policy = new Policy({ method: 'scrypt' });
    const own = [
        outcomeOf(() => policy.hash(password)),
        outcomeOf(() => policy.hashAsync(password)),
        outcomeOf(() => policy.login(password, null)),
        outcomeOf(() => policy.loginAsync(password, null)),
    ];
    const others = stored.map(async (field) => [
        await outcomeOf(() => policy.verify(password, field)),
        await outcomeOf(() => login(password, field)),
        await outcomeOf(() => loginAsync(password, field)),
    ]);
    return {
        own: await Promise.all(own),
        others: await Promise.all(others),
        state: describe(stored[0]).state,
    };
}

// Reports the results of simultaneous logins, how many of them ran at once, and how many workers
// there can be.
async function atOnce(rows) {
    const results = await Promise.all(rows.map(([password, field]) => loginAsync(password, field)));
    return {
        matches: results.map((result) => result !== false),
        most: watched.most,
        mostWorkers: Math.max(1, os.availableParallelism() - 1),
        ...countsOfWorkers(),
    };
}

// Reports what atOnce() does, with this many bytes of free memory.
async function inFreeMemory([free, ...rows]) {
    process.availableMemory = () => free;
    return atOnce(rows);
}

// Reports what atOnce() does if a call finds no memory while another one runs.
async function crowded(rows) {
    watched.isCrowded = true;
    return atOnce(rows);
}

// Reports the results of logins with a policy that admits every cost. They all wait for memory, so
// that one runs at a time.
async function inTurn(rows) {
    process.availableMemory = () => 0;
    const policy = new Policy({ method: 'scrypt', rounds: 6, budget: NO_LIMIT });
    const calls = rows.map((row) => outcomeOf(() => policy.loginAsync(...row)));
    return { outcomes: await Promise.all(calls), ...countsOfWorkers() };
}

// Reports what inTurn() does if the first login of a worker traps in the module.
async function trapping(rows) {
    watched.isTrapping = true;
    return inTurn(rows);
}

// Reports how many workers are started for successive logins.
async function oneAfterAnother(rows) {
    for (const [password, field] of rows) await loginAsync(password, field);
    return { started: watched.started };
}

// Reports how many instances logins in this thread make, and whether the memory of the first one
// has grown.
function inThisThread(rows) {
    const [{ buffer }] = memories;
    const results = rows.map(([password, field]) => login(password, field));
    return {
        matches: results.map((result) => result !== false),
        instances: memories.length,
        hasGrown: memories[0].buffer !== buffer,
    };
}

const parts = {
    checked,
    withoutMemory,
    atOnce,
    inFreeMemory,
    crowded,
    inTurn,
    trapping,
    oneAfterAnother,
    inThisThread,
};
console.log(JSON.stringify(await parts[part](given)));
