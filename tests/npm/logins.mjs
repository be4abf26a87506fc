// Reads rows as JSON, [password, field]. Reports for each row what a policy's login, verify,
// needsRehash, describe and passwordProblem return, and whether loginAsync returns the same as
// login. Also reports how many digests login computed, by the module's reports, its new hash, and
// whether the module's memory is as before the first call. tests/web/test_npm.py has what is
// expected.
import { readFileSync } from 'node:fs';

const OFFSET_OF_DIGESTS = 40; // in the report of mkpasswd.h
const WITHOUT_REPORT = ['web_scheme_name', 'web_message', 'web_need', 'web_login_need'];
const memories = []; // of the permanent instance, and then of those with memory for scrypt
let digests = 0n;
const { Instance } = WebAssembly;
WebAssembly.Instance = function (compiled) {
    const { exports } = new Instance(compiled);
    const initial = Buffer.from(exports.memory.buffer.slice());
    memories.push({ memory: exports.memory, initial });

    function counting(call) {
        return (...words) => {
            const result = call(...words);
            const addressOfReport = Number(words.at(-1));
            const report = new DataView(exports.memory.buffer, addressOfReport);
            digests += report.getBigUint64(OFFSET_OF_DIGESTS, true);
            return result;
        };
    }
    const calls = Object.entries(exports)
        .filter(([name]) => name.startsWith('web_') && !WITHOUT_REPORT.includes(name))
        .map(([name, call]) => [name, counting(call)]);
    return { exports: { ...exports, ...Object.fromEntries(calls) } };
};
const { Policy } = await import('mkpasswd');

// Returns whether a memory is as it was in the beginning, and has only zeros where it has grown.
function isWiped({ memory, initial }) {
    const bytes = Buffer.from(memory.buffer);
    const grown = bytes.subarray(initial.length);
    const isInitial = bytes.subarray(0, initial.length).equals(initial);
    return isInitial && grown.equals(Buffer.alloc(grown.length));
}

// The methods are called without their policy, as functions.
const { login, loginAsync, verify, needsRehash, describe, passwordProblem } = new Policy({
    rounds: 5000,
});

function outcomeOf(call) {
    try {
        return call();
    } catch ({ name, message, reason }) {
        return reason ?? `${name}: ${message}`;
    }
}

function isAlike(verdict, result) {
    const isRenewedAlike = !verdict.new === !result.new;
    return JSON.stringify(verdict) === JSON.stringify(result) && isRenewedAlike;
}

async function reported([password, field]) {
    digests = 0n;
    memories.splice(1);
    const result = outcomeOf(() => login(password, field));
    const report = {
        result,
        digests: Number(digests),
        renewed: result.new,
        wiped: memories.every(isWiped),
        verified: outcomeOf(() => verify(password, field)),
        outdated: outcomeOf(() => needsRehash(field)),
        state: outcomeOf(() => describe(field).state),
        problem: outcomeOf(() => passwordProblem(password)),
    };
    try {
        return { ...report, alike: isAlike(await loginAsync(password, field), result) };
    } catch ({ name, message }) {
        return { ...report, alike: result === `${name}: ${message}` };
    }
}

const rows = JSON.parse(readFileSync(0, 'utf8'));
console.log(JSON.stringify(await Promise.all(rows.map(reported))));
