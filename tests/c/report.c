/* Writes the bytes of four reports, in which a test finds each field at its place: the report of a
 * hash with N = 64 and r = 8, so that each count has a different value; of a limit, which has
 * rounds; of an audit of an outdated hash, which has a scheme, N, r and p; and of a setting that is
 * invalid. */
#include <mkpasswd.h>
#include <stdio.h>

static const char setting[] = "$7$46..../....SodiumChloride";
static const char outdated[] =
    "$7$C6....0....SodiumChloride$...........................................";

static bool print(const struct mkpasswd_report *report)
{
    return fwrite(report, sizeof *report, 1, stdout) == 1;
}

int main(void)
{
    struct mkpasswd_report hash, limit, audit, bound;
    char out[MKPASSWD_TEXT_SIZE];

    if (!mkpasswd_hash(mkpasswd_password("password"), mkpasswd_field(setting), 150000000, out,
            sizeof out, &hash))
        return 1;
    if (!mkpasswd_limit(NULL, &limit) || mkpasswd_audit(mkpasswd_field(outdated), NULL, &audit))
        return 1;
    if (mkpasswd_bound(mkpasswd_field("x"), 8, &bound))
        return 1;
    return !(print(&hash) && print(&limit) && print(&audit) && print(&bound));
}
