// Logs in once with our module for node. Prints 1 if that succeeds and 0 if not, and what the
// module reports of its work: the bytes that it digested, and how often it mixed a row of scrypt's
// table. Without FIELD the name is unknown.
//
//     log_in.mjs MODULE METHOD ROUNDS PASSWORD [FIELD]
const METHODS = { 1: 'md5crypt', 5: 'sha256crypt', 6: 'sha512crypt', 7: 'scrypt' };
const [path, method, rounds, password, field] = process.argv.slice(2);
const OFFSET_OF_BYTES = 48; // in the report of mkpasswd.h
const OFFSET_OF_MIXINGS = 56;

// Each instance of the module adds what its logins report.
let digested = 0n;
let mixings = 0n;
const { Instance } = WebAssembly;
WebAssembly.Instance = function (compiled) {
    const { exports } = new Instance(compiled);

    function countWork(call) {
        return (...words) => {
            const result = call(...words);
            const report = new DataView(exports.memory.buffer, Number(words.at(-1)));
            digested += report.getBigUint64(OFFSET_OF_BYTES, true);
            mixings += report.getBigUint64(OFFSET_OF_MIXINGS, true);
            return result;
        };
    }
    return { exports: { ...exports, web_login: countWork(exports.web_login) } };
};

const { Policy } = await import(path);
const policy = new Policy({ method: METHODS[method], rounds: Number(rounds) });
const result = policy.login(password, field ?? null);
console.log([Number(Boolean(result.matches)), digested, mixings].join(' '));
