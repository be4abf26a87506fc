// Sets properties on Object.prototype, as a flaw in another library can do, and reports what the
// calls return then.
import { LoginQueue, Policy } from 'mkpasswd';

const policy = new Policy({ rounds: 1000 });
const queue = new LoginQueue({ policy, failureTime: 0 });
const stored = policy.hash('right');
const old = '$1$xxxxxxxx$UYCIxa628.9qXjpQCjM4a.';

// Returns a call's result while all objects have these properties, or the message of its error.
async function polluted(properties, call) {
    Object.assign(Object.prototype, properties);
    try {
        return await call();
    } catch ({ message }) {
        return message;
    } finally {
        for (const name of Object.keys(properties)) delete Object.prototype[name];
    }
}

const answers = { wrong: [], forgotten: [], right: [] };
for (const name of ['matches', 'new']) {
    const set = { [name]: 'set' };
    const wrong = [
        () => policy.login('wrong', stored)[name],
        () => policy.login('wrong', undefined)[name],
        async () => (await policy.loginAsync('wrong', stored))[name],
        async () => (await queue.login('wrong', stored))[name],
    ];
    for (const call of wrong) answers.wrong.push(await polluted(set, call));

    for (const promise of [policy.loginAsync('wrong', stored), queue.login('wrong', stored)]) {
        answers.forgotten.push(await polluted(set, () => promise[name]));
        await promise;
    }

    const right = [
        () => policy.login('right', stored)[name],
        async () => (await policy.loginAsync('right', stored))[name],
        async () => (await queue.login('right', stored))[name],
    ];
    for (const call of right) answers.right.push(await polluted(set, call));
}
const set = { method: 'md5crypt', rounds: 1000, budget: 1, size: 1, failureTime: 'x' };
const policies = () => [{ ...new Policy() }, { ...new Policy({}) }, { ...new LoginQueue() }];
answers.policies = await polluted(set, policies);
answers.logged = await polluted(
    { enumerable: true },
    () => JSON.stringify(policy.login('password', old)),
);
answers.renewed = await polluted({ get: () => 'x' }, () => policy.login('password', old).new);
console.log(JSON.stringify(answers));
