// Kills a worker during calls. Reports the results of these calls, of later calls and of refused
// ones, and how many workers were started. Then the process must end by itself.
import os from 'node:os';
import { syncBuiltinESMExports } from 'node:module';
import threads from 'node:worker_threads';

const workers = [];
threads.Worker = class extends threads.Worker {
    constructor(...given) {
        super(...given);
        workers.push(this);
    }
};
syncBuiltinESMExports();
const { Policy, TooCostly, hashAsync, loginAsync } = await import('mkpasswd');

// A worker is killed while it has calls to answer. If it has answered the first one by then, it
// loses the next.
const cores = os.availableParallelism();
const policy = new Policy({ rounds: 50000 });
const stored = await policy.hashAsync('password');
const calls = Array.from({ length: 3 * cores }, () => policy.loginAsync('password', stored));
setImmediate(() => workers[0].terminate());
const ends = await Promise.allSettled(calls);
const later = await Promise.all([
    policy.loginAsync('password', stored),
    policy.loginAsync('passwort', stored),
]);
const refused = await Promise.allSettled([
    hashAsync('x'.repeat(169)), // one byte too long
    hashAsync(5),
    loginAsync('x', 5),
    loginAsync('x'),
]);

function nameOf({ reason }) {
    return reason instanceof TooCostly ? reason.reason : reason?.name;
}

console.log(JSON.stringify({
    failed: ends.filter(({ status }) => status === 'rejected')
        .map(({ reason }) => reason instanceof Error),
    matched: ends.filter(({ value }) => value?.matches).length,
    later,
    refused: refused.map(nameOf),
    cores,
    workers: workers.length,
}));
