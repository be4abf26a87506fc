// Misuses the package. tsc must refuse each line after a comment @ts-expect-error, and complains if
// it accepts one.
import {
    LoginQueue, Policy, cost, crypt, describe, hash, hashAsync, login, loginAsync, needsRehash,
    passwordProblem, setting, verify,
} from 'mkpasswd';
declare function letIn(): void;
declare const field: string;
declare const queue: LoginQueue;
const result = login('x', field);

// @ts-expect-error
if (queue.login('x', field)) letIn();
// @ts-expect-error
if (queue.login('x', field).matches) letIn();
// @ts-expect-error
if (result.matches !== false) letIn();
// @ts-expect-error
queue.login('x');
// @ts-expect-error
queue.hash(5);
// @ts-expect-error
new LoginQueue({ failuretime: 5000 });
// @ts-expect-error
new LoginQueue({ size: '5' });
// @ts-expect-error
new LoginQueue({ policy: { rounds: 5000 } });
// @ts-expect-error
new LoginQueue(5000);
// @ts-expect-error
passwordProblem(null);

// @ts-expect-error
if (loginAsync('x', field)) letIn();
// @ts-expect-error
if (loginAsync('x', field).matches) letIn();
// @ts-expect-error
if (!loginAsync('x', field).matches) letIn();
// @ts-expect-error
if (login) letIn();
// @ts-expect-error
if (login('x', field) === true) letIn();
// @ts-expect-error
login('x');
// @ts-expect-error
login('x', field, 5);
// @ts-expect-error
login(null, field);
// @ts-expect-error
login('x', 5);
// @ts-expect-error
login('x', hashAsync('x'));
// @ts-expect-error
verify('x', null);
// @ts-expect-error
verify('x', field, 5);
// @ts-expect-error
const renewed: string = login('x', field).new;
// @ts-expect-error
login('x', field).matches = true;
// @ts-expect-error
hash(5);
// @ts-expect-error
hash('x', setting());
// @ts-expect-error
hash('x').then(letIn);
// @ts-expect-error
const stored: string = hashAsync('x');
// @ts-expect-error
new Policy({ cost: 5 });
// @ts-expect-error
new Policy({ rounds: '5000' });
// @ts-expect-error
new Policy({ method: 'bcrypt' });
// @ts-expect-error
new Policy('md5crypt');
// @ts-expect-error
new Policy(5);
// @ts-expect-error
new Policy().rounds = 5;
// @ts-expect-error
new Policy().limit.bytes = 5;
// @ts-expect-error
needsRehash(null);
// @ts-expect-error
describe(5);
// @ts-expect-error
cost('x');
// @ts-expect-error
crypt('x');
// @ts-expect-error
setting('yescrypt');
