// Uses every call of the package. tsc must accept it.
import {
    Busy, LoginQueue, Policy, Refused, TooCostly, cost, crypt, describe, hash, hashAsync, limit,
    login, loginAsync, needsRehash, passwordProblem, setting, verify, version,
} from 'mkpasswd';
import type {
    Description, Limit, LoginQueueOptions, Match, Method, PasswordProblem, PolicyOptions, State,
    Text, Verdict,
} from 'mkpasswd';

type Users = Map<string, string>;

const method: Method = 'sha256crypt';
const options: PolicyOptions = { method, rounds: 5000, budget: 2 ** 42 };
const ofScrypt = new Policy({ method: 'scrypt', rounds: 8 });
const policies = [new Policy(), new Policy(options), new Policy({ rounds: null }), ofScrypt];
const queued: LoginQueueOptions = { policy: policies[0], failureTime: 5000, size: 200 };
const queue = new LoginQueue(queued);

export async function enter(name: string, password: Text, users: Users): Promise<string> {
    const field: string | undefined = users.get(name);
    const result: Verdict = await queue.login(password, field);
    if (!result.matches) {
        const problem: PasswordProblem | null = passwordProblem(password);
        return problem ?? describe(field).state;
    }
    const match: Match = result;
    if (match.new) users.set(name, match.new);
    return name;
}

export async function answer(name: string, password: Text, users: Users): Promise<number> {
    const { login: check, hash: make } = new LoginQueue();
    try {
        const result = await check(password, users.get(name));
        if (!result.matches) return 401;
        users.set(name, await make(password));
        return 200;
    } catch (error) {
        if (error instanceof Busy) return 503;
        throw error;
    }
}

export function isOutdated(password: string, field: string | null): boolean {
    const result = login(password, field);
    if (result) {
        const renewed: string | null = result.new;
        return renewed !== null;
    }
    return login(password, new Uint8Array(3)).matches ?? false;
}

export async function hashes(policy = policies[0]): Promise<string[]> {
    const made: string[] = [hash('x'), policy.hash('x'), await policy.hashAsync('x')];
    const settings: string[] = [setting(), setting('md5crypt'), setting(method, policy.rounds)];
    const again: string[] = [crypt('x', made[0]), crypt('x', settings[0], policy.budget ?? 5)];
    return [...made, ...settings, ...again, await hashAsync(new Uint8Array(1)), version];
}

export function facts(policy = policies[0]): unknown[] {
    const found: Description = describe(undefined);
    const state: State = policy.describe(null).state;
    const admitted: Limit = policy.limit;
    const longest: number | null = limit.passwordLength;
    const costs: number[] = [cost('x', 8), found.cost ?? 0, admitted.bytes, longest ?? 0];
    const words: string[] = [state, String(found), found.method ?? '', found.reason ?? ''];
    const answers: boolean[] = [verify('x', 'x'), needsRehash('x'), policy.needsRehash('x')];
    return [...costs, ...words, ...answers, policy.passwordProblem('x')];
}

export async function reasonOfError(policy = policies[0]): Promise<string> {
    try {
        policy.login('x', undefined);
        await policy.loginAsync('x', null);
        await loginAsync('x', 'x');
        return policy.verify('x', 'x') ? 'right' : 'wrong';
    } catch (error) {
        if (error instanceof TooCostly) return error.reason;
        if (error instanceof Refused) return error.message;
        throw error;
    }
}
