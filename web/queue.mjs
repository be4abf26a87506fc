// LoginQueue, the queue of a service's logins and new hashes. This file is part of mkpasswd.mjs.

export class Busy extends Error {
    get name() {
        return 'Busy';
    }
}

const MAX_MILLISECONDS = 2 ** 31 - 1; // the longest time that setTimeout takes

// Returns an option of a queue, or throws unless it is an integer from `least` to MAX_MILLISECONDS.
function readInteger(least, value, name) {
    if (requireInteger(value, name) >= least && value <= MAX_MILLISECONDS) return value;
    throw new RangeError(`${name} must be ${least} to ${MAX_MILLISECONDS}, not ${value}`);
}

// Waits until performance.now() reaches a moment. A timer may fire a little early.
async function waitUntil(moment) {
    const remaining = () => moment - performance.now();
    while (remaining() > 0) {
        await new Promise((resolve) => { setTimeout(resolve, Math.ceil(remaining())); });
    }
}

// Runs logins and new hashes in workers, and limits how many wait for a worker or run. A failed
// login leaves the queue once its password is hashed, and then only waits for the fixed time.
export class LoginQueue {
    #policy;
    #failureTime;
    #size;
    #count = 0;

    constructor(options = {}) {
        const names = ['policy', 'failureTime', 'size'];
        const chosen = readOptions(options, 'a queue', names);
        const { policy = recommended, failureTime = 5000, size = 1000 } = chosen;
        if (!(policy instanceof Policy)) {
            throw new TypeError(`policy must be a Policy, not ${kindOf(policy)}`);
        }
        this.#policy = policy;
        this.#failureTime = readInteger(0, failureTime, 'failureTime');
        this.#size = readInteger(1, size, 'size');
        for (const name of ['hash', 'login']) {
            Object.defineProperty(this, name, { __proto__: null, value: this[name].bind(this) });
        }
        Object.freeze(this);
    }

    async hash(...args) {
        return this.#runInQueue(() => this.#policy.hashAsync(...args));
    }

    login(...args) {
        return guardVerdict(this.#login(args));
    }

    async #login(args) {
        const start = performance.now();
        const result = await this.#runInQueue(() => this.#policy.loginAsync(...args));
        if (result === false) await waitUntil(this.#endOfFailure(start));
        return result;
    }

    // Returns when to report the failure of a login that began at this moment. If it took longer
    // than the fixed time, that is at the next multiple of it. Otherwise the time would show which
    // kind of hash was checked.
    #endOfFailure(start) {
        if (this.#failureTime === 0) return start;
        const elapsed = performance.now() - start;
        const times = Math.max(1, Math.ceil(elapsed / this.#failureTime));
        return start + times * this.#failureTime;
    }

    async #runInQueue(call) {
        if (this.#count >= this.#size) {
            throw new Busy(`${this.#size} calls are in the queue: try again later`);
        }
        this.#count += 1;
        try {
            return await call();
        } finally {
            this.#count -= 1;
        }
    }
}
