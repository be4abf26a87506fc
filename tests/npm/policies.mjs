// Reports, by title, which policy or error each of VALUES gives, and what is wrong with PASSWORDS.
import { Policy, limit, passwordProblem } from 'mkpasswd';

class Config {
    rounds = 5000;
}

const VALUES = {
    'nothing': undefined,
    'an empty object': {},
    'an object without a prototype': Object.assign(Object.create(null), { rounds: 5000 }),
    'null as rounds': { rounds: null },
    'scrypt': { method: 'scrypt' },
    'the most rounds of scrypt': { method: 'scrypt', rounds: 11 },
    'a number': 5,
    'null': null,
    'a string': 'md5crypt',
    'a list': [],
    'a map': new Map([['rounds', 5000]]),
    'a function': () => {},
    'an object of a class': new Config(),
    'a promise': Promise.resolve({ rounds: 5000 }),
    'another key': { cost: 5 },
    'a key in another case': { Rounds: 5000 },
    'a symbol as key': { [Symbol('rounds')]: 5000 },
    'a string as rounds': { rounds: '5000' },
    'half a round': { rounds: 5000.5 },
    'true as rounds': { rounds: true },
    'a bigint as rounds': { rounds: 5000n },
    'too few rounds': { rounds: 5 },
    'too many rounds of scrypt': { method: 'scrypt', rounds: 12 },
    'a number as method': { method: 6 },
    'null as method': { method: null },
    'another method': { method: 'bcrypt' },
    'a method of all objects': { method: 'constructor' },
    'a string as budget': { budget: '150000000' },
    'a budget of 0': { budget: 0 },
    'an infinite budget': { budget: Infinity },
};

function outcomeOf(value) {
    try {
        return { ...new Policy(value) };
    } catch ({ name, message }) {
        return `${name}: ${message}`;
    }
}

const PASSWORDS = {
    'the empty password': '',
    '168 bytes': 'x'.repeat(168),
    '169 bytes': 'x'.repeat(169),
    '2000 bytes': 'x'.repeat(2000),
    'a zero byte': 'x\0',
    'half of an emoji': '\ud83d',
    'a horse': '🐎',
};

// Returns an object with the same titles, and what a function returns for each value.
function mapped(values, call) {
    const pairs = Object.entries(values).map(([title, value]) => [title, call(value)]);
    return Object.fromEntries(pairs);
}

console.log(JSON.stringify({
    policies: mapped(VALUES, outcomeOf),
    limit,
    problems: mapped(PASSWORDS, passwordProblem),
    ofNoPolicy: new Policy({ rounds: 1000, budget: 5 }).passwordProblem(''),
}));
