// The calls of the WebAssembly module. tools/web puts this file into each script that makes them:
// mkpasswd.mjs, its workers and the page's worker.
//
// This file copies bytes into the module, reads its reports and gives scrypt its memory. It doesn't
// know which rounds a method has, what a policy allows, what scheme a field is of, or how much
// memory a hash needs: it asks the module.

const METHODS = { __proto__: null, md5crypt: 1, sha256crypt: 5, sha512crypt: 6, scrypt: 7 };
// Stands for an unknown method, which the module refuses, and for rounds that aren't a 32-bit
// integer. As rounds, the module refuses it too, except where a method ignores or clamps rounds.
const INVALID_NUMBER = 2 ** 32 - 1;
const RECOMMENDED_BUDGET = 0;

// ERRORS, a Map from the number of each error of mkpasswd.h to its name and message.
/*@ERRORS@*/

// ---- What the module takes

// Returns a copy, since a worker may read the bytes later. A lone surrogate becomes U+FFFD, which
// no setting contains.
function toBytes(text, name = 'setting', allowed = 'a string or a Uint8Array') {
    if (text instanceof Uint8Array) return new Uint8Array(text);
    if (typeof text === 'string') return new TextEncoder().encode(text);
    throw new TypeError(`${name} must be ${allowed}, not ${kindOf(text)}`);
}

function kindOf(value) {
    if (value === null) return 'null';
    if (Array.isArray(value)) return 'an array';
    if (typeof value?.then === 'function') return 'a promise: await it';
    return typeof value === 'object' ? 'another object' : typeof value;
}

// With the flag u, a pair of surrogates is one character, so only a lone one matches.
function hasLoneSurrogate(text) {
    return typeof text === 'string' && /\p{Surrogate}/u.test(text);
}

function passwordBytes(password) {
    if (hasLoneSurrogate(password)) {
        throw new TypeError('password has a lone surrogate (half of a character): it has no bytes');
    }
    return toBytes(password, 'password');
}

function decodeBase64(text) {
    return Uint8Array.from(atob(text), (digit) => digit.charCodeAt(0));
}

// Returns a budget or a length as a 64-bit integer.
function toUint64(number) {
    return BigInt(Math.max(0, Math.min(number, Number.MAX_SAFE_INTEGER)));
}

// Returns rounds as a 32-bit integer. WebAssembly would drop the upper bits of a greater number.
function toUint32(rounds) {
    const isUint32 = rounds === rounds >>> 0;
    return isUint32 ? rounds : INVALID_NUMBER;
}

// Returns the numbers by which the module knows a method and rounds. 0 stands for the recommended
// rounds.
function toNumbers(method, rounds) {
    return [METHODS[method] ?? INVALID_NUMBER, toUint32(rounds)];
}

// ---- What the module reports

// A newer module can report an error that isn't in the list. It is an error all the same.
function errorOf(number) {
    if (number === 0) return null;
    return ERRORS.get(number) ?? { name: `MKPASSWD_ERROR_${number}`, message: `error ${number}` };
}

// Reads a report of mkpasswd.h. Only this function knows the offsets in it.
function readReport(view) {
    return {
        error: errorOf(view.getUint32(0, true)),
        isOutdated: view.getUint32(4, true) === 1,
        length: view.getUint32(8, true),
        scheme: view.getUint32(12, true),
        rounds: view.getUint32(16, true),
        cost: Number(view.getBigUint64(32, true)),
    };
}

function hasError(report, ...names) {
    return report.error !== null && names.includes(report.error.name);
}

// Returns an Error whose `reason` is its name in mkpasswd.h, such as MKPASSWD_ERROR_OVER_BUDGET.
function refusal(error) {
    const { name, message } = error ?? { message: 'the call failed without an error' };
    return Object.assign(new Error(message), { reason: name });
}

// ---- The module

const NO_MODULE = 'WebAssembly is refused: '
    + "allow 'wasm-unsafe-eval' in script-src of the Content-Security-Policy of the page";

// Returns what `make` returns: the compiled module or an instance. The module's bytes are valid, so
// this fails only with a RangeError, if there isn't enough memory, or because the page's Content
// Security Policy forbids it. WebKit applies that policy only to instances.
function runEngine(make) {
    try {
        return make();
    } catch (error) {
        if (error.name === 'RangeError') throw error;
        throw new Error(NO_MODULE, { cause: error });
    }
}

function compileModule(base64) {
    return runEngine(() => new WebAssembly.Module(decodeBase64(base64)));
}

const REPORT_SIZE = 80;
const OUT_SIZE = 145;
const NEED_SIZE = 16;
const MAX_BYTES = 4096; // of a password or field that are passed on; the module accepts fewer
const ALIGNMENT = 16; // of the report and of the bytes that are passed
const WORD_SIZE = 4;
const PAGE_SIZE = 65536; // the memory of an instance grows by pages

// The memory that a call without scrypt needs. For a call with scrypt the module says how much.
const NO_NEED = Object.freeze({ words: 0, bytes: 0 });

// Returns the number of bytes in a need.
function sizeOf({ words, bytes }) {
    return WORD_SIZE * words + bytes;
}

// An instance of the module. The report, `out` and the bytes that are passed are in its free
// memory. After them comes the memory that it lends to calls with scrypt, which never shrinks.
//
// Between calls the whole memory is as it was in the beginning, with zeros where it has grown.
class Instance {
    #compiled;
    #exports;
    #memory;
    #initial;
    #report;
    #out;
    #passed;
    #lent = NO_NEED; // what the next call or the running one gets for scrypt

    constructor(compiled) {
        this.#compiled = compiled;
        this.#instantiate();
        const free = Number(this.#exports.__heap_base.value);
        this.#report = Math.ceil(free / ALIGNMENT) * ALIGNMENT;
        this.#out = this.#report + REPORT_SIZE;
        this.#passed = this.#out + Math.ceil(OUT_SIZE / ALIGNMENT) * ALIGNMENT;
    }

    #instantiate() {
        const { exports } = runEngine(() => new WebAssembly.Instance(this.#compiled));
        const memory = new Uint8Array(exports.memory.buffer);
        this.#initial = memory.slice();
        this.#memory = memory;
        this.#exports = exports;
    }

    // Lends memory for scrypt to the next call. Throws RangeError if there isn't enough. The memory
    // grows before a password is in it, since an engine may copy it when it grows.
    lend(need) {
        if (!this.#exports) this.#instantiate();
        const missing = this.#initial.length + sizeOf(need) - this.#memory.length;
        if (missing > 0) {
            const { memory } = this.#exports;
            memory.grow(Math.ceil(missing / PAGE_SIZE));
            this.#memory = new Uint8Array(memory.buffer);
        }
        this.#lent = need;
    }

    // The address and size of `out`, as a call takes them. They are the same in each instance.
    get out() {
        return [BigInt(this.#out), BigInt(OUT_SIZE)];
    }

    // The memory that is lent for scrypt, as a call takes it: an address and a count of words, then
    // of bytes.
    get lent() {
        const { words, bytes } = this.#lent;
        const isLending = sizeOf(this.#lent) > 0;
        // If nothing is lent, the counts are 0, and any aligned address in the memory does.
        const start = isLending ? this.#initial.length : this.#report;
        const end = start + WORD_SIZE * words;
        return [BigInt(start), BigInt(words), BigInt(end), BigInt(bytes)];
    }

    // Makes a call that writes a report. In the result `isDone` says whether the call did what its
    // name says.
    call(name, ...args) {
        return this.#run(name, [...args, BigInt(this.#report)], (returned) => {
            const report = readReport(this.#viewOfReport(REPORT_SIZE));
            return { isDone: returned === 1, text: this.#readOut(), ...report };
        });
    }

    // Makes a call that only writes a string. Returns null if it writes none.
    callForText(name, ...args) {
        const given = [...args, ...this.out];
        return this.#run(name, given, (returned) => (returned === 1 ? this.#readOut() : null));
    }

    // Makes a call that only reports how much memory another call needs.
    callForNeed(name, ...args) {
        return this.#run(name, [...args, BigInt(this.#report)], () => {
            const view = this.#viewOfReport(NEED_SIZE);
            return {
                words: Number(view.getBigUint64(0, true)),
                bytes: Number(view.getBigUint64(8, true)),
            };
        });
    }

    // Makes a call, and returns what `read` reads in the memory after it. Then wipes the memory. If
    // anything throws, as when the stack overflows in the module, the memory is in an unknown
    // state, and the next call gets a new one.
    #run(name, args, read) {
        if (!this.#exports) this.#instantiate();
        try {
            const words = this.#copyIn(args);
            const result = read(this.#exports[name](...words));
            this.#wipe();
            return result;
        } catch (error) {
            this.#discard();
            throw error;
        }
    }

    #discard() {
        const memory = this.#memory;
        this.#exports = undefined;
        this.#memory = undefined;
        this.#lent = NO_NEED;
        memory.fill(0);
    }

    // Copies the byte arrays among the arguments into the memory. Returns the arguments with the
    // address and length of each array in its place.
    #copyIn(args) {
        let end = this.#passed;
        const words = [];
        for (const value of args) {
            if (value instanceof Uint8Array) {
                const bytes = value.subarray(0, MAX_BYTES);
                this.#memory.set(bytes, end);
                words.push(BigInt(end), BigInt(bytes.length));
                end += bytes.length;
            } else {
                words.push(value);
            }
        }
        return words;
    }

    #viewOfReport(size) {
        return new DataView(this.#memory.buffer, this.#report, size);
    }

    // Returns the string in `out`, which ends with a zero byte. After a call that writes none it is
    // empty.
    #readOut() {
        const end = this.#memory.indexOf(0, this.#out);
        return String.fromCharCode(...this.#memory.subarray(this.#out, end));
    }

    // Wipes all that a call can write: the memory that every instance has, and what was lent.
    #wipe() {
        const start = this.#initial.length;
        this.#memory.set(this.#initial);
        this.#memory.fill(0, start, start + sizeOf(this.#lent));
        this.#lent = NO_NEED;
    }
}

// ---- The calls

const OUT_OF_MEMORY = 'MKPASSWD_ERROR_OUT_OF_MEMORY';

// The errors for which `verify` returns false: a password doesn't match, but the caller made no
// mistake.
const NO_MATCH = [
    'MKPASSWD_ERROR_WRONG_PASSWORD',
    'MKPASSWD_ERROR_DEAD',
    'MKPASSWD_ERROR_LOCKED',
    'MKPASSWD_ERROR_NO_HASH',
];

// The calls of a compiled module. `audit` and `passwordError` return errors. `login` throws only if
// there is no memory. The others throw refusals.
//
// The memory of an instance never shrinks, so each call with scrypt gets an instance of its own,
// which is garbage-collected later. If `keepsMemory` is true, there is only one instance, whose
// memory is as large as any call has needed. That is for workers, which the pool ends.
class Calls {
    #compiled;
    #keepsMemory;
    #module;

    constructor(compiled, { keepsMemory = false } = {}) {
        this.#compiled = compiled;
        this.#keepsMemory = keepsMemory;
        this.#module = new Instance(compiled);
    }

    #callOrThrow(...call) {
        const report = this.#module.call(...call);
        if (!report.isDone) throw refusal(report.error);
        return report;
    }

    // Makes a call that can hash, with the memory that it needs.
    #callWith(need, name, ...args) {
        const instance = this.#instanceFor(need);
        return instance.call(name, ...instance.lent, ...args);
    }

    // Returns an instance that lends the memory that is needed. If there isn't enough, it returns
    // one that lends none, and the call reports that it is out of memory.
    #instanceFor(need) {
        if (sizeOf(need) === 0) return this.#module;
        try {
            const instance = this.#keepsMemory ? this.#module : new Instance(this.#compiled);
            instance.lend(need);
            return instance;
        } catch (error) {
            if (error.name !== 'RangeError') throw error;
            return this.#module;
        }
    }

    // Returns what a policy allows. `bytes` is the most that a login or a new hash may cost.
    // `passwordLength` is the length of the longest password whose new hash costs no more, or null
    // if even the empty password's costs more. `rounds` are those of new hashes, and 0 for
    // md5crypt.
    limit(method, rounds, budget = RECOMMENDED_BUDGET) {
        const args = [...toNumbers(method, rounds), toUint64(budget)];
        const report = this.#module.call('web_limit', ...args);
        const allowsNone = hasError(report, 'MKPASSWD_ERROR_OVER_BUDGET');
        if (!report.isDone && !allowsNone) throw refusal(report.error);
        const passwordLength = allowsNone ? null : report.length;
        return { bytes: report.cost, passwordLength, rounds: report.rounds };
    }

    // Returns a setting with a new salt, which the module makes from three random numbers.
    setting(method, rounds) {
        const bytes = crypto.getRandomValues(new Uint8Array(24));
        const numbers = new BigUint64Array(bytes.buffer);
        const args = [...toNumbers(method, rounds), ...numbers];
        return this.#callOrThrow('web_setting', ...args, ...this.#module.out).text;
    }

    // Hashes a password with a setting or with that of a stored hash.
    hash(password, setting, budget) {
        const args = [passwordBytes(password), toBytes(setting), toUint64(budget)];
        const need = this.#module.callForNeed('web_need', ...args);
        const report = this.#callWith(need, 'web_hash', ...args, ...this.#module.out);
        if (!report.isDone) throw refusal(report.error);
        return report.text;
    }

    newHash(password, method, rounds, budget) {
        return this.hash(password, this.setting(method, rounds), budget);
    }

    verify(password, stored, budget) {
        const args = [passwordBytes(password), toBytes(stored), toUint64(budget)];
        const need = this.#module.callForNeed('web_need', ...args);
        const report = this.#callWith(need, 'web_verify', ...args);
        if (report.isDone) return true;
        if (report.error && !hasError(report, ...NO_MATCH)) throw refusal(report.error);
        return false;
    }

    // Returns the error for which a password can't be hashed, or null. The module checks the
    // password before the field, which is empty, so it doesn't hash.
    passwordError(password) {
        const report = this.#callWith(NO_NEED, 'web_verify', password, new Uint8Array(), 0n);
        return hasError(report, 'MKPASSWD_ERROR_NO_HASH') ? null : report.error;
    }

    // Returns false, or an object for a match. Its `renewed` is a new hash to store if the stored
    // one is outdated and a new one costs at most the limit, and null otherwise.
    login(password, field, policy) {
        const { method, rounds, budget, limit } = policy;
        const args = [password, field, ...toNumbers(method, rounds), toUint64(budget)];
        const need = this.#module.callForNeed('web_login_need', ...args);
        const report = this.#callWith(need, 'web_login', ...args);
        if (hasError(report, OUT_OF_MEMORY)) throw refusal(report.error);
        if (!report.isDone) return false;
        const renewed = report.isOutdated ? this.#renew(password, method, rounds, limit) : null;
        return { renewed };
    }

    // Returns a new hash, or null if it can't be made: then the old one stays in use.
    #renew(password, method, rounds, limit) {
        try {
            return this.newHash(password, method, rounds, limit);
        } catch {
            return null;
        }
    }

    // Returns how many bytes of memory `newHash` needs for these arguments.
    memoryOfNewHash(password, method, rounds, budget) {
        const setting = toBytes(this.setting(method, rounds));
        return sizeOf(this.#module.callForNeed('web_need', password, setting, toUint64(budget)));
    }

    // Returns how many bytes of memory `login` needs for these arguments: for the check or for the
    // new hash after a match, whichever is more.
    memoryOfLogin(password, field, { method, rounds, budget, limit }) {
        const args = [password, field, ...toNumbers(method, rounds), toUint64(budget)];
        const need = this.#module.callForNeed('web_login_need', ...args);
        return Math.max(sizeOf(need), this.memoryOfNewHash(password, method, rounds, limit));
    }

    // Returns whether a new hash would replace the stored one. It is false for a locked or empty
    // field, which has no hash to replace.
    needsRehash(stored, method, rounds) {
        const args = [stored, ...toNumbers(method, rounds)];
        const report = this.#module.call('web_needs_rehash', ...args);
        if (!report.error) return report.isOutdated;
        const audited = this.#module.call('web_audit', ...args, toUint64(RECOMMENDED_BUDGET));
        if (hasError(audited, 'MKPASSWD_ERROR_LOCKED', 'MKPASSWD_ERROR_NO_HASH')) return false;
        throw refusal(report.error);
    }

    // Returns the most that a hash with this setting can cost for a password of `length` bytes.
    cost(setting, length) {
        return this.#callOrThrow('web_cost', toBytes(setting), toUint64(length)).cost;
    }

    // Describes a stored field, without a password. `error` is a name and a message, or null; if it
    // is null, `isOutdated` says whether the hash is. `scheme` is the name of the method or of
    // another scheme of crypt(5), or null. `cost` is the most that a check can cost, or 0 if the
    // field is of no method.
    audit(stored, method, rounds, budget) {
        const args = [toBytes(stored), ...toNumbers(method, rounds), toUint64(budget)];
        const report = this.#module.call('web_audit', ...args);
        if (hasError(report, 'MKPASSWD_ERROR_UNKNOWN_METHOD', 'MKPASSWD_ERROR_ROUNDS')) {
            throw refusal(report.error);
        }
        const { isDone, error, isOutdated, cost } = report;
        const isCurrent = isDone;
        // No module of this version reports that.
        if (!isCurrent && !isOutdated && !error) throw refusal(null);
        const scheme = this.#module.callForText('web_scheme_name', report.scheme);
        return { error, isOutdated, scheme, cost };
    }
}
