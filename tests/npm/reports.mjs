// Lets each call inside the module return the same number, and report an error and zeros. Prints
// what the package's calls then return. The arguments are that number, and the number of the error,
// which only a newer module may have.
const [returned, error] = process.argv.slice(2).map(Number);
const REPORT_SIZE = 80;
const WITHOUT_REPORT = ['web_scheme_name', 'web_message', 'web_need', 'web_login_need'];
let isLying = false;

function lieInto(memory, address) {
    new Uint8Array(memory, address, REPORT_SIZE).fill(0);
    new DataView(memory).setUint32(address, error, true);
    return returned;
}

const { Instance } = WebAssembly;
WebAssembly.Instance = function (compiled) {
    const { exports } = new Instance(compiled);
    const memory = exports.memory.buffer;

    function lying(call) {
        return (...words) => {
            const addressOfReport = Number(words.at(-1));
            return isLying ? lieInto(memory, addressOfReport) : call(...words);
        };
    }
    const calls = Object.entries(exports)
        .filter(([name]) => name.startsWith('web_') && !WITHOUT_REPORT.includes(name))
        .map(([name, call]) => [name, lying(call)]);
    return { exports: { ...exports, ...Object.fromEntries(calls) } };
};
const { Policy, cost, crypt, setting } = await import('mkpasswd');

const policy = new Policy({ rounds: 1000 });
const stored = policy.hash('password');
isLying = true;

// Returns a call's result, or its error.
function outcomeOf(call) {
    try {
        return call();
    } catch ({ name, message }) {
        return `${name}: ${message}`;
    }
}

console.log(JSON.stringify({
    login: outcomeOf(() => policy.login('password', stored)),
    loginOfUnknownName: outcomeOf(() => policy.login('password', null)),
    verify: outcomeOf(() => policy.verify('password', stored)),
    needsRehash: outcomeOf(() => policy.needsRehash(stored)),
    describe: outcomeOf(() => policy.describe(stored).state),
    hash: outcomeOf(() => policy.hash('password')),
    crypt: outcomeOf(() => crypt('password', stored)),
    setting: outcomeOf(() => setting()),
    cost: outcomeOf(() => cost(stored, 8)),
    policy: outcomeOf(() => new Policy()),
}));
