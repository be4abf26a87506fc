// Logins and password hashes of crypt(5) by sha512crypt, sha256crypt, scrypt and md5crypt.

/** A password, a setting or a stored hash. A string is encoded as UTF-8. */
export type Text = string | Uint8Array;

export type Method = 'sha512crypt' | 'sha256crypt' | 'scrypt' | 'md5crypt';

/** What a login returns for a password that matches. */
export interface Match {
    readonly matches: true;
    /**
     * A new hash to store in place of the one that was checked, or null. Logs and JSON don't show
     * it.
     */
    readonly new: string | null;
}

/**
 * What a login returns: false, or a match, which is truthy. Test `matches`: a promise has none, so
 * a forgotten `await` lets nobody in. The promise itself is always truthy.
 */
export type Verdict = Match | (false & { readonly matches?: undefined; readonly new?: undefined });

/**
 * Why a password can't be hashed: it has a zero byte, or more bytes than the policy's `limit`
 * allows, or a lone surrogate, such as "\ud800": half of a character, which UTF-8 can't encode.
 */
export type PasswordProblem = 'zero byte' | 'too long' | 'lone surrogate';

export type State =
    | 'current'
    | 'outdated'
    | 'dead'
    | 'over budget'
    | 'locked'
    | 'none'
    | 'no scheme'
    | 'unknown'
    | 'malformed';

/**
 * What a stored field is. As a string it looks like `md5crypt:1927022:outdated`, `malformed:bad
 * rounds` or `locked`. `mkpasswd --audit` prints more: the rounds, and the names of other schemes.
 */
export interface Description {
    /** null if there is no valid setting. */
    readonly method: Method | null;
    /** The most that a hash with this setting can cost for a password of 1,024 bytes, or null. */
    readonly cost: number | null;
    readonly state: State;
    /** If the state is malformed, the error's name in mkpasswd.h; else null. */
    readonly reason: string | null;
    toString(): string;
}

/** What a policy allows. */
export interface Limit {
    /** The most that a login or a new hash may cost, in bytes as `cost` counts them. */
    readonly bytes: number;
    /**
     * The length in bytes of the longest password whose new hash is within that, or null if the
     * budget is too small for any. A form can refuse longer ones when a user chooses a password.
     */
    readonly passwordLength: number | null;
}

/**
 * Thrown if a hash, a password or a policy is refused, or scrypt finds no memory. Nothing was
 * hashed.
 */
export class Refused extends Error {
    /**
     * The error's name in mkpasswd.h, such as MKPASSWD_ERROR_BAD_ROUNDS. If scrypt finds no memory,
     * it is MKPASSWD_ERROR_OUT_OF_MEMORY.
     */
    readonly reason: string;
}

/** Thrown if a hash can cost more than the budget. */
export class TooCostly extends Refused {}

/** Thrown if a queue is full. Nothing was hashed. */
export class Busy extends Error {}

export interface PolicyOptions {
    /** The default is sha512crypt. */
    readonly method?: Method;
    /**
     * 1000 to 999999999; undefined, null and 0 stand for 656000. For scrypt 6 to 11; the default is
     * 7, which takes 64 MiB, and one more doubles time and memory. md5crypt ignores them (0).
     */
    readonly rounds?: number | null;
    /**
     * The most that a hash may cost, as `cost` counts it: the bytes that it digests and that scrypt
     * mixes, which are at least twice the memory that scrypt takes. The default is twice the cost
     * of a new hash of a password of 64 bytes, but at least 150,000,000. For the recommended policy
     * that is 253,921,472, which allows passwords of up to 168 bytes; a budget of 1,300,000,000
     * allows all of them.
     */
    readonly budget?: number | null;
}

/**
 * The method and rounds of a service's new hashes, and what a hash may cost. The functions of the
 * same names below are those of `new Policy()`.
 *
 * Throws Refused for an unknown method or rounds out of its range, RangeError for a budget below 1,
 * and TypeError for another property, another type, or anything but a plain object. Only own
 * properties count.
 *
 * The calls need no `this`: `const { login } = new Policy({ rounds: 800000 })`.
 */
export class Policy {
    readonly method: Method;
    readonly rounds: number;
    readonly budget: number | null;
    readonly limit: Limit;

    constructor(policy?: PolicyOptions);

    /**
     * Hashes a new password, with a new salt. The result is always truthy: to check a password,
     * call `loginAsync`.
     *
     * Throws TooCostly if the hash costs more than the budget, so `login` accepts each hash that
     * this returns. Throws Refused for a password of more than 1,024 bytes or with a zero byte, and
     * if scrypt finds no memory. A lone surrogate is a TypeError.
     */
    hash(password: Text): string;

    /** The same in a worker, so that the caller's thread isn't blocked. */
    hashAsync(password: Text): Promise<string>;

    /**
     * Checks the password of a login. The field is what is stored for the name, and null for a name
     * that doesn't exist. The password comes first: if the arguments are swapped, whoever types a
     * hash of what is stored gets in.
     *
     * It is a match only if the password matches. If `needsRehash` is true for the field, and a new
     * hash is within the budget, `new` is a hash to store in its place.
     *
     * It is false for a wrong password; for a password that no hash can have (`passwordProblem`);
     * for a field that is empty, locked, malformed, of another scheme or above the budget; and for
     * any password while scrypt finds no memory. Only `verify` distinguishes that from a wrong
     * password, since it throws.
     *
     * The check takes as long as the rounds of the stored hash need. One with fewer rounds than
     * this policy's takes less time than a new hash, so while such hashes are stored, the time of a
     * failure can show which names exist. A LoginQueue hides that. A field that can't be checked
     * takes as long as a new hash, and so does null.
     *
     * It blocks the thread for that time: in a server use a LoginQueue.
     *
     * It never throws for strings or bytes, nor for null as a field; anything else is a TypeError.
     * But if another script has set `Object.prototype.matches` or `new`, false would look like a
     * match, so an Error is thrown instead.
     */
    login(password: Text, field: Text | null | undefined): Verdict;

    /**
     * The same in a worker, so that the caller's thread isn't blocked. There is one worker fewer
     * than cores, but at least one. All calls wait for them in one queue, whose length has no
     * limit. If a worker dies, its call's promise is rejected.
     *
     * Calls with scrypt also wait for memory: together they use at most half of what is free (in a
     * browser a quarter of the device's), but one always runs. Other calls go ahead of them
     * meanwhile.
     */
    loginAsync(password: Text, field: Text | null | undefined): Promise<Verdict>;

    /**
     * Returns whether the password matches the stored hash: false for a locked or empty field, and
     * for a hash that was cut. It isn't for logins: its time shows which names exist, and it
     * throws.
     *
     * Throws TooCostly if the hash can cost more than the budget. Throws Refused for another
     * scheme, an invalid setting, a password of more than 1,024 bytes or with a zero byte, and if
     * scrypt finds no memory. A lone surrogate is a TypeError.
     */
    verify(password: Text, field: Text): boolean;

    /**
     * Returns whether a new hash by this policy would replace the stored one, because the stored
     * one is of another method or has fewer rounds (for scrypt a smaller N * r * p). It is false
     * for a locked or empty field. Throws Refused if the setting is invalid or of another scheme.
     */
    needsRehash(stored: Text): boolean;

    /**
     * Describes a stored field, without a password. It hashes nothing, and never throws for a
     * string, bytes or null.
     *
     * The state is the first of these: `locked`, `none` (empty or null), `no scheme` (no hash at
     * all, such as a password that was stored as it is), `unknown` (another scheme: the user needs
     * a new password), `malformed`, `over budget` (without a budget: that of `mkpasswd --audit`),
     * `dead` (cut or changed, so no password matches it), `outdated` (as `needsRehash` says; a
     * login renews it), `current`. The cost is for a password of 1,024 bytes, so a login with a
     * shorter password can match a hash that is over budget.
     */
    describe(field: Text | null | undefined): Description;

    /**
     * Returns why this policy can't hash a password, or null if it can. Only a login says whether
     * the password is right. It hashes nothing, and never throws for a string or bytes.
     */
    passwordProblem(password: Text): PasswordProblem | null;
}

export const hash: Policy['hash'];
export const hashAsync: Policy['hashAsync'];
export const login: Policy['login'];
export const loginAsync: Policy['loginAsync'];
export const verify: Policy['verify'];
export const needsRehash: Policy['needsRehash'];
export const describe: Policy['describe'];
export const passwordProblem: Policy['passwordProblem'];
export const limit: Limit;

export interface LoginQueueOptions {
    /** The default is `new Policy()`. */
    readonly policy?: Policy;
    /** The milliseconds after which a failed login is answered. The default is 5000. */
    readonly failureTime?: number;
    /**
     * How many calls may be waiting for a worker or running. The default is 1000. Any more are
     * rejected with Busy. Failures that wait for their time don't count.
     */
    readonly size?: number;
}

/**
 * Runs the logins and new hashes of a server in workers, in the order of the calls, so that the
 * server's thread isn't blocked.
 *
 * A match is answered at once. A failure is answered at a fixed time after the call, so that the
 * time doesn't show why it failed. While it waits for that, it is no longer in the queue: its
 * worker is free for the next call.
 *
 * If the queue is so long that a failure takes longer, it is answered after twice that time, three
 * times, and so on. So make `failureTime` longer than the costliest login takes, and `size` less
 * than the number of such logins that your workers run in that time: README.md has a formula.
 *
 * The calls need no `this`. Throws RangeError for a number below 0 (for `size` below 1) or above
 * 2147483647, and TypeError for other options.
 */
export class LoginQueue {
    constructor(options?: LoginQueueOptions);

    /** Like the policy's `loginAsync`. Rejected with Busy if the queue is full. */
    login(password: Text, field: Text | null | undefined): Promise<Verdict>;

    /** Like the policy's `hashAsync`. Rejected with Busy if the queue is full. */
    hash(password: Text): Promise<string>;
}

/**
 * Returns the most that a hash with this setting can cost, for any password of `passwordLength`
 * bytes: the bytes that it digests and that scrypt mixes. Throws Refused for a field without a
 * valid setting, and for more than 1,024 bytes.
 */
export function cost(stored: Text, passwordLength: number): number;

/**
 * Returns a setting with a new salt. Throws Refused for an unknown method, and for rounds out of
 * its range; md5crypt ignores them.
 */
export function setting(method?: Method, rounds?: number): string;

/**
 * Hashes a password with a setting, or with the setting of a stored hash, as crypt(3) does. Throws
 * TooCostly if the hash can cost more than the budget, whose default is that of the recommended
 * policy, and Refused as `verify` does.
 */
export function crypt(password: Text, setting: Text, budget?: number): string;

/** The version, such as "3.0.0". */
export const version: string;
