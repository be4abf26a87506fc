// Reads policies as JSON, [method, rounds, budget, isHashed], and reports for each the rounds, the
// limit in bytes and the longest password, by mkpasswd.mjs. If isHashed is true, it also hashes a
// password of that length and one that is a byte longer. test_limits.py has the expected report.
import { readFileSync } from 'node:fs';

const LONGEST_KEPT = 65536; // bytes, more than any argument of a call has
const { Policy } = await import(process.argv[2]);
const policies = JSON.parse(readFileSync(0, 'utf8'));

// After each call the module's memory of about a mebibyte gets its first content again, which takes
// nine tenths of the time if nothing is hashed. logins.mjs reports whether memory is wiped.
if (!policies.some(([, , , isHashed]) => isHashed)) {
    const { set } = Uint8Array.prototype;
    Uint8Array.prototype.set = function (source, ...offset) {
        if (source.length <= LONGEST_KEPT) set.call(this, source, ...offset);
    };
}

// Returns whether a policy hashes a password of this length, or the error.
function hashes(policy, length) {
    try { return policy.hash('x'.repeat(length)).startsWith('$'); } catch ({ name, message }) {
        return `${name}: ${message}`;
    }
}

function reported([method, rounds, budget, isHashed]) {
    const policy = new Policy({ method, rounds, budget });
    const { bytes, passwordLength } = policy.limit;
    const report = { rounds: policy.rounds, bytes, passwordLength };
    if (!isHashed) return report;
    const lengths = [passwordLength, passwordLength + 1];
    return { ...report, hashed: lengths.map((length) => hashes(policy, length)) };
}
console.log(JSON.stringify(policies.map(reported)));
