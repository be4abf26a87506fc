/* What a compiler can check in mkpasswd.h without running anything: a policy of zeros has method 0,
 * rounds 0 and a budget of 0, and for clang++ no exported call throws. g++ ignores the attribute
 * nothrow here. */
#include <mkpasswd.h>

extern struct mkpasswd_policy zeros;
struct mkpasswd_policy zeros = {0, 0, 0};

#if defined __clang__ && defined __cplusplus && __cplusplus >= 201103L
/* Arguments of calls that are never made. */
extern const uint8_t *bytes;
extern uint8_t *out;
extern struct mkpasswd_report *report;

static_assert(
    noexcept(mkpasswd_login_bytes(bytes, 1, bytes, 1, 6, 0, 1, report)), "login throws nothing");
static_assert(
    noexcept(mkpasswd_new_bytes(bytes, 1, 6, 0, 1, out, 1, report)), "new throws nothing");
static_assert(
    noexcept(mkpasswd_needs_rehash_bytes(bytes, 1, 6, 0, report)), "needs_rehash throws nothing");
static_assert(noexcept(mkpasswd_audit_bytes(bytes, 1, 6, 0, 0, report)), "audit throws nothing");
static_assert(noexcept(mkpasswd_limit_bytes(6, 0, 0, report)), "limit throws nothing");
static_assert(noexcept(mkpasswd_rounds_bytes(1, 6, 0, 0, report)), "rounds throws nothing");
static_assert(
    noexcept(mkpasswd_verify_bytes(bytes, 1, bytes, 1, 1, report)), "verify throws nothing");
static_assert(
    noexcept(mkpasswd_hash_bytes(bytes, 1, bytes, 1, 1, out, 1, report)), "hash throws nothing");
static_assert(
    noexcept(mkpasswd_setting_bytes(6, 0, bytes, 1, out, 1, report)), "setting throws nothing");
static_assert(noexcept(mkpasswd_bound_bytes(bytes, 1, 1, report)), "bound throws nothing");
static_assert(noexcept(mkpasswd_message_bytes(1, out, 1)), "message throws nothing");
static_assert(noexcept(mkpasswd_scheme_name_bytes(1, out, 1)), "scheme_name throws nothing");
static_assert(noexcept(mkpasswd_version()), "version throws nothing");
#endif
