// mkpasswd @VERSION@: hashes of crypt(5) by sha512crypt, sha256crypt, scrypt and md5crypt, for node
// 20 and web pages. The WebAssembly module is proved code, compiled by LLVM and lowered by
// Binaryen; this script is tested. mkpasswd.d.ts, in the npm package, describes each call.
//
//     import { LoginQueue } from './mkpasswd.mjs';
//     const queue = new LoginQueue();
//     const stored = await queue.hash('correct horse');
//     const result = await queue.login(password, stored); // stored: null for an unknown name
//     if (result.matches) letIn();
//
// First come the calls of the module and the workers (calls.js, pool.js), then arguments, errors
// and results, and at the end policies, the queue of logins (queue.mjs) and the exports.
/*@CALLS@*/
/*@POOL@*/
const compiled = compileModule('@MODULE@');
const calls = new Calls(compiled);

// ---- Arguments

function requireInteger(value, name, allowed = 'an integer') {
    if (Number.isInteger(value)) return value;
    const found = typeof value === 'number' ? value : kindOf(value);
    throw new TypeError(`${name} must be ${allowed}, not ${found}`);
}

// Returns the arguments of a call, and throws unless there are as many as its form names.
function requireArguments(form, args) {
    if (args.length === form.split(',').length) return args;
    throw new TypeError(`call ${form}, not with ${args.length} arguments. `
        + 'A policy has method, rounds and budget: new Policy({ method, rounds, budget })');
}

function isPlainObject(value) {
    if (typeof value !== 'object' || value === null || Array.isArray(value)) return false;
    const prototype = Object.getPrototypeOf(value);
    // An object of another realm, such as a test runner's, has another Object.prototype.
    return prototype === null || Object.getPrototypeOf(prototype) === null;
}

// Returns the own properties of an object, and throws if one is not among `names`.
function readOptions(value, owner, names) {
    if (!isPlainObject(value)) {
        throw new TypeError(`${owner} is made from a plain object with ${listNames(names)}, `
            + `not from ${kindOf(value)}`);
    }
    for (const name of Reflect.ownKeys(value)) {
        if (!names.includes(name)) {
            throw new TypeError(`${owner} has ${listNames(names)}, but no ${String(name)}`);
        }
    }
    return { __proto__: null, ...value };
}

function listNames(names) {
    return `${names.slice(0, -1).join(', ')} and ${names.at(-1)}`;
}

// Returns the bytes of a login's password. A lone surrogate is in no stored password, so such a
// password becomes a zero byte, which the module refuses without hashing.
function loginPasswordBytes(password) {
    return hasLoneSurrogate(password) ? new Uint8Array(1) : toBytes(password, 'password');
}

function fieldBytes(field) {
    return toBytes(field ?? '', 'field', 'a string, a Uint8Array or null');
}

// ---- Errors

class Refused extends Error {
    constructor(reason, message) {
        super(message);
        this.reason = reason;
    }

    get name() {
        return 'Refused';
    }
}

class TooCostly extends Refused {
    get name() {
        return 'TooCostly';
    }
}

// Messages for errors where mkpasswd's own message doesn't say what is allowed.
const MESSAGES = {
    __proto__: null,
    MKPASSWD_ERROR_PASSWORD_TOO_LONG: 'password too long: it may have 1024 bytes',
    MKPASSWD_ERROR_UNKNOWN_METHOD: 'method must be sha512crypt, sha256crypt, scrypt or md5crypt',
    MKPASSWD_ERROR_ROUNDS: 'rounds must be 1000 to 999999999, of scrypt 6 to 11, '
        + 'or 0 for the recommended ones',
};

// Returns the error to throw for a call that failed. If the budget is why, `excess` says what costs
// too much.
function errorOfCall({ reason, message }, excess) {
    if (!reason) return new Error(message);
    const isTooCostly = reason === 'MKPASSWD_ERROR_OVER_BUDGET';
    if (isTooCostly) return new TooCostly(reason, `${message}: ${excess}`);
    return new Refused(reason, MESSAGES[reason] ?? message);
}

function excessOfHash(budget) {
    return `the hash can cost more than ${budget}`;
}

function excessOfPassword({ bytes, passwordLength }) {
    if (passwordLength === null) return `every new hash can cost more than ${bytes}`;
    return `a password may have at most ${passwordLength} bytes with these rounds`;
}

// ---- Making calls

// Makes a call in this thread.
function runInThread(name, args, excess) {
    try {
        return calls[name](...args);
    } catch (error) {
        throw error.reason ? errorOfCall(error, excess) : error;
    }
}

let pool;

// Makes a call in a worker. `memory` is how many bytes it needs for scrypt. The first call starts
// the pool.
async function runInWorker(name, args, memory, excess) {
    pool ??= startPool(compiled);
    let workers;
    try {
        workers = await pool;
    } catch (error) {
        pool = undefined;
        throw error;
    }
    const { result, failure } = await workers.ask(name, args, memory);
    if (failure) throw errorOfCall(failure, excess);
    return result;
}

// ---- Results

class Match {
    matches = true;

    // The hash isn't enumerable, so that logs and JSON don't show it.
    constructor(renewed) {
        Object.defineProperty(this, 'new', { __proto__: null, value: renewed });
    }
}

const ABSENT = { __proto__: null, value: undefined };

// Returns what a login returns, false or a promise, and makes sure that it has no `matches`.
// Otherwise, if another script had set that in Object.prototype, everybody would get in.
function guardVerdict(result) {
    if (result !== false) {
        return Object.defineProperties(result, { __proto__: null, matches: ABSENT, new: ABSENT });
    }
    if (result.matches === undefined && result.new === undefined) return false;
    throw new Error('Object.prototype has matches or new, so every login would look like a match: '
        + 'find the script that sets it');
}

function toVerdict(login) {
    return login ? new Match(login.renewed) : guardVerdict(false);
}

// Returns the result of a login that threw: it fails if there was no memory. Other errors are
// thrown again.
function verdictOfError(error) {
    if (error.reason === OUT_OF_MEMORY) return guardVerdict(false);
    throw error;
}

const STATES = {
    __proto__: null,
    MKPASSWD_ERROR_DEAD: 'dead',
    MKPASSWD_ERROR_OVER_BUDGET: 'over budget',
    MKPASSWD_ERROR_LOCKED: 'locked',
    MKPASSWD_ERROR_NO_HASH: 'none',
    MKPASSWD_ERROR_NO_SCHEME: 'no scheme',
    MKPASSWD_ERROR_UNKNOWN_SCHEME: 'unknown',
};

function stateOf({ error, isOutdated }) {
    if (error) return STATES[error.name] ?? 'malformed';
    return isOutdated ? 'outdated' : 'current';
}

class Description {
    #message;

    constructor(audited) {
        const { error, scheme, cost } = audited;
        const state = stateOf(audited);
        const isMalformed = state === 'malformed';
        const isHash = cost > 0 && !isMalformed;
        this.method = isHash ? scheme : null;
        this.cost = isHash ? cost : null;
        this.state = state;
        this.reason = isMalformed ? error.name : null;
        this.#message = isMalformed ? error.message : null;
    }

    toString() {
        const parts = [this.method, this.cost, this.state, this.#message];
        return parts.filter((part) => part !== null).join(':');
    }
}

const PROBLEMS = {
    __proto__: null,
    MKPASSWD_ERROR_PASSWORD_ZERO_BYTE: 'zero byte',
    MKPASSWD_ERROR_PASSWORD_TOO_LONG: 'too long',
};

// ---- Policies

const NO_LIMIT = 'an integer (2 ** 42 for no limit)';

// Each is bound to its policy, so that it can be called without `this`.
const CALLS_OF_A_POLICY = [
    'hash', 'hashAsync', 'login', 'loginAsync', 'verify', 'needsRehash', 'describe',
    'passwordProblem',
];

class Policy {
    #limit;

    constructor(policy = {}) {
        const names = ['method', 'rounds', 'budget'];
        const { method = 'sha512crypt', rounds, budget } = readOptions(policy, 'a policy', names);
        if (typeof method !== 'string') {
            throw new TypeError(`method must be a string, not ${kindOf(method)}`);
        }
        requireInteger(rounds ?? 0, 'rounds');
        if (requireInteger(budget ?? 1, 'budget', NO_LIMIT) < 1) {
            throw new RangeError('budget must be above 0, or null for twice what a new hash costs');
        }
        const standard = runInThread('limit', [method, rounds ?? 0]);
        this.method = method;
        this.rounds = rounds || standard.rounds;
        this.budget = budget ?? null;
        const ownLimit = this.budget ? calls.limit(method, this.rounds, this.budget) : standard;
        const { bytes, passwordLength } = ownLimit;
        this.#limit = Object.freeze({ bytes, passwordLength });
        for (const name of CALLS_OF_A_POLICY) {
            Object.defineProperty(this, name, { __proto__: null, value: this[name].bind(this) });
        }
        Object.freeze(this);
    }

    get limit() {
        return this.#limit;
    }

    hash(...args) {
        return runInThread('newHash', this.#hashArgs(args), excessOfPassword(this.#limit));
    }

    async hashAsync(...args) {
        const hashArgs = this.#hashArgs(args);
        const memory = calls.memoryOfNewHash(...hashArgs);
        return runInWorker('newHash', hashArgs, memory, excessOfPassword(this.#limit));
    }

    #hashArgs(args) {
        const [password] = requireArguments('hash(password)', args);
        return [passwordBytes(password), this.method, this.rounds, this.#limit.bytes];
    }

    login(...args) {
        const loginArgs = this.#loginArgs(args);
        try {
            return toVerdict(runInThread('login', loginArgs));
        } catch (error) {
            return verdictOfError(error);
        }
    }

    loginAsync(...args) {
        return guardVerdict(this.#loginAsync(args));
    }

    async #loginAsync(args) {
        const loginArgs = this.#loginArgs(args);
        const memory = calls.memoryOfLogin(...loginArgs);
        try {
            return toVerdict(await runInWorker('login', loginArgs, memory));
        } catch (error) {
            return verdictOfError(error);
        }
    }

    #loginArgs(args) {
        const [password, field] = requireArguments('login(password, field)', args);
        const { method, rounds, budget } = this;
        const policy = {
            method,
            rounds,
            budget: budget ?? RECOMMENDED_BUDGET,
            limit: this.#limit.bytes,
        };
        return [loginPasswordBytes(password), fieldBytes(field), policy];
    }

    verify(...args) {
        const [password, field] = requireArguments('verify(password, field)', args);
        const { bytes } = this.#limit;
        const verifyArgs = [password, toBytes(field, 'field'), bytes];
        return runInThread('verify', verifyArgs, excessOfHash(bytes));
    }

    needsRehash(...args) {
        const [stored] = requireArguments('needsRehash(stored)', args);
        return runInThread('needsRehash', [toBytes(stored, 'stored'), this.method, this.rounds]);
    }

    describe(...args) {
        const [field] = requireArguments('describe(field)', args);
        const budget = this.budget ?? RECOMMENDED_BUDGET;
        return new Description(calls.audit(fieldBytes(field), this.method, this.rounds, budget));
    }

    passwordProblem(...args) {
        const [password] = requireArguments('passwordProblem(password)', args);
        if (hasLoneSurrogate(password)) return 'lone surrogate';
        const bytes = toBytes(password, 'password');
        const error = calls.passwordError(bytes);
        if (error) return PROBLEMS[error.name] ?? error.message;
        const { passwordLength } = this.#limit;
        const isTooLong = passwordLength === null || bytes.length > passwordLength;
        return isTooLong ? 'too long' : null;
    }
}

const recommended = new Policy();
/*@QUEUE@*/
// ---- What is exported

export { Policy, Refused, TooCostly };
export const {
    hash, hashAsync, login, loginAsync, verify, needsRehash, describe, passwordProblem, limit,
} = recommended;
export const version = '@VERSION@';

export function cost(stored, passwordLength) {
    if (requireInteger(passwordLength, 'passwordLength') < 0) {
        throw new RangeError('passwordLength must be 0 or more');
    }
    return runInThread('cost', [toBytes(stored, 'stored'), passwordLength]);
}

export function setting(method = 'sha512crypt', rounds = 0) {
    return runInThread('setting', [method, requireInteger(rounds, 'rounds')]);
}

export function crypt(password, by, budget = limit.bytes) {
    requireInteger(budget, 'budget', NO_LIMIT);
    return runInThread('hash', [password, toBytes(by), budget], excessOfHash(budget));
}
