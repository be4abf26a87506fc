// A worker of the page, with the module. The page starts one for each job, and ends it with all its
// memory. A worker posts the cost before it hashes, and the result of the job at the end.
/*@CALLS@*/
let calls;

// Posts the method and the cost before a password is hashed, so that the page can show how long
// that takes. If there is no cost, the call that hashes says why.
function postCost(method, setting, password) {
    let cost;
    try {
        cost = calls.cost(setting, toBytes(password).length);
    } catch {
        return;
    }
    postMessage({ method, cost });
}

// Returns the setting of the hash to measure: with 5000 rounds, 1000 for md5crypt, and for scrypt
// the fewest, which take little memory.
function measuredSetting(method) {
    return calls.setting(method, method === 'scrypt' ? 6 : 5000);
}

// Returns the milliseconds that one hash takes. It hashes for at least `milliseconds`, since one
// hash is too fast for a browser's clock.
function measureHash(setting, milliseconds) {
    const start = performance.now();
    let count = 0;
    let time = 0;
    while (time < milliseconds) {
        calls.hash('aaaaaaaa', setting, Infinity);
        count += 1;
        time = performance.now() - start;
    }
    return time / count;
}

const jobs = {
    // Returns what the module recommends: the rounds of new hashes, the limit on the cost of a
    // check, and scrypt's rounds.
    recommend() {
        const scryptRounds = calls.limit('scrypt', 0).rounds;
        return { ...calls.limit('sha512crypt', 0), scryptRounds };
    },

    // Measures the cost and the time of a hash with a method.
    measure({ method }) {
        const setting = measuredSetting(method);
        measureHash(setting, 250); // the first hashes are slower, while the browser compiles
        return { cost: calls.cost(setting, 8), time: measureHash(setting, 100) };
    },

    // Makes a new hash.
    make({ password, method, rounds }) {
        const setting = calls.setting(method, rounds);
        postCost(method, setting, password);
        return { hash: calls.hash(password, setting, Infinity) };
    },

    // Checks a password against a stored hash. If no password can match that hash, it hashes
    // nothing, whatever the hash would cost.
    check({ password, stored, budget }) {
        const { error, isOutdated, scheme } = calls.audit(stored, 'sha512crypt', 0, Infinity);
        const isOfMethod = scheme in METHODS;
        if (!isOfMethod) return { error, scheme };
        postCost(scheme, stored, password);
        const isDead = error?.name === 'MKPASSWD_ERROR_DEAD';
        const isMatch = !isDead && calls.verify(password, stored, budget);
        return { isDead, isOutdated, isMatch };
    },
};

function runJob(job, args) {
    try {
        calls ??= new Calls(compileModule('@MODULE@'));
        return jobs[job](args);
    } catch ({ reason, message }) {
        return { error: { name: reason, message } };
    }
}

onmessage = ({ data: { job, ...args } }) => {
    const start = performance.now();
    const result = runJob(job, args);
    postMessage({ isLast: true, time: performance.now() - start, ...result });
};
