// Reports what a LoginQueue does. test_npm.py provides a password with its hashes and the fields of
// failures, and has the expected report. Hashing takes the time that it takes, but the queue reads
// and waits by a clock that this script sets, so the report is the same on any machine.
import { readFileSync } from 'node:fs';
import { setTimeout as sleep } from 'node:timers/promises';
import { LoginQueue, Policy } from 'mkpasswd';

const { password, stored, costly, failures } = JSON.parse(readFileSync(0, 'utf8'));
const policy = new Policy({ rounds: 5000 });

async function outcomeOf(call) {
    try {
        return await call();
    } catch (error) {
        return `${error.name}: ${error.message}`;
    }
}

async function until(test) {
    while (!test()) await sleep(1);
}

// ---- The clock

const clock = { now: 0, timers: [] }; // in milliseconds
performance.now = () => clock.now;
globalThis.setTimeout = (call, milliseconds) => {
    clock.timers.push({ moment: clock.now + milliseconds, call });
};

// Sets the clock, and fires the timers up to a moment. Then waits until what they call has run.
async function advance(now, moment = now) {
    clock.now = now;
    const due = clock.timers.filter((timer) => timer.moment <= moment);
    clock.timers = clock.timers.filter((timer) => timer.moment > moment);
    for (const { call } of due) call();
    await sleep(1);
}

// Calls failing logins at once. Returns, once all are hashed, the moments of their answers so far,
// to which later answers are added.
async function failing(queue, logins, meanwhile = () => {}) {
    const moments = [];
    for (const [typed, field] of logins) {
        queue.login(typed, field).then(() => { moments.push(clock.now); });
    }
    meanwhile();
    await until(() => clock.timers.length + moments.length === logins.length);
    return moments;
}

function different(moments) {
    return [...new Set(moments)];
}

// ---- The parts of the report

// Reports how many failures are answered too soon, though timers fire a little early, and when the
// others are.
async function timesOfFailures() {
    const queue = new LoginQueue({ policy, failureTime: 1000 });
    const moments = await failing(queue, failures);
    await advance(999.5, 1000);
    const early = moments.length;
    await advance(1000.5);
    return { early, count: moments.length, moments: different(moments) };
}

// Reports when failures are answered whose hashing takes two and a half times their failureTime.
async function timesOfLateFailures() {
    const failureTime = 100;
    const nextMultiple = 3 * failureTime;
    clock.now = 0;
    const logins = Array(15).fill(['wrong', stored]);
    const queue = new LoginQueue({ policy, failureTime });
    const moments = await failing(queue, logins, () => { clock.now = 2.5 * failureTime; });
    await advance(nextMultiple - 1);
    const early = moments.length;
    await advance(nextMultiple);
    return { early, count: moments.length, moments: different(moments) };
}

// Reports the result of a login while many more failures wait than there are workers.
async function besideFailures() {
    const queue = new LoginQueue({ policy, failureTime: 1000 });
    await failing(queue, Array(100).fill(['wrong', stored]));
    const result = await queue.login(password, costly);
    const waiting = clock.timers.length;
    clock.timers = [];
    return { result, waiting };
}

// Reports which calls a queue for two calls refuses while both places are taken, and the result of
// a login once one call is answered and the other, a failure, only waits for its time.
async function full() {
    const { login, hash } = new LoginQueue({ policy, failureTime: 100_000, size: 2 });
    const first = [login('wrong', stored), login(password, stored)];
    const refused = [
        await outcomeOf(() => login(password, stored)),
        await outcomeOf(() => hash('password')),
    ];
    await first[1];
    const later = await hash('password');
    return { refused, later: await login('password', later) };
}

const OPTIONS = {
    'a number': 5,
    'null': null,
    'a list': [],
    'a map': new Map(),
    'another key': { failuretime: 5 },
    'a string as time': { failureTime: '5' },
    'a time below 0': { failureTime: -1 },
    'a size of 0': { size: 0 },
    'an infinite size': { size: Infinity },
    'another object as policy': { policy: {} },
};

// Reports, by title, what a queue with these options gives.
async function refusedOptions() {
    const outcomes = {};
    for (const [title, options] of Object.entries(OPTIONS)) {
        outcomes[title] = await outcomeOf(() => new LoginQueue(options));
    }
    return outcomes;
}

console.log(JSON.stringify({
    failures: await timesOfFailures(),
    late: await timesOfLateFailures(),
    beside: await besideFailures(),
    full: await full(),
    options: await refusedOptions(),
}));
