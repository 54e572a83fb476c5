/* Code that the program makes while it runs, as a JIT does. What is known of it stands in the file
   /tmp/perf-PID.map, where the program writes one for perf: a line `START SIZE NAME` for each
   piece, the numbers in hexadecimal. The address map has a `frame` for each instruction in one. */
#include "parts.h"

#define LONGEST 4096 /* of a line; what is longer is cut */

static UChar piece[65536];

/* Whether it is a plain file of this user's. */
static Bool is_own(Int fd)
{
    struct vki_stat about;
    return !sr_isError(CALL(__NR_fstat, fd, &about, 0, 0)) && VKI_S_ISREG(about.st_mode) &&
           about.st_uid == sr_Res(CALL(__NR_geteuid, 0, 0, 0, 0));
}

static Bool is_number(const HChar *text, const HChar *to)
{
    const HChar *it;
    for (it = text; it < to && '0' <= *it && *it <= '9'; it++)
        ;
    return it == to && it > text;
}

/* The file and line that a name may end with, as in `LazyCompile:~add /tmp/add.js:3:10`, cut from
   it; or none. */
static const HChar *cut_line(HChar *name)
{
    HChar *file = VG_(strrchr)(name, ' '), *end = name + VG_(strlen)(name), *colon;
    if (!file || !(colon = VG_(strrchr)(file, ':')) || !is_number(colon + 1, end))
        return "-";
    *file++ = *colon = 0;
    HChar *before = VG_(strrchr)(file, ':');
    if (!before || !is_number(before + 1, colon))
        *colon = ':';
    return file;
}

static void take_line(HChar *line)
{
    HChar *end, *name;
    Addr from = VG_(strtoull16)(line, &end);
    SizeT size = *end == ' ' ? VG_(strtoull16)(end + 1, &name) : 0;
    if (size > 0 && *name == ' ' && name[1]) {
        const HChar *file = cut_line(name + 1);
        sites_made(from, size, file, name + 1);
    }
}

void tell_made_code(void)
{
    static HChar path[64], line[LONGEST + 1];
    UInt length = 0;
    Int count, at;
    if (!sites_are_made())
        return;
    VG_(sprintf)(path, "/tmp/perf-%d.map", VG_(getpid)());
    SysRes file = VG_(open)(path, VKI_O_RDONLY | VKI_O_NOFOLLOW, 0);
    if (sr_isError(file))
        return;
    while (is_own(sr_Res(file)) && (count = VG_(read)(sr_Res(file), piece, sizeof piece)) > 0)
        for (at = 0; at < count; at++)
            if (piece[at] == '\n') {
                line[length] = 0;
                take_line(line);
                length = 0;
            } else if (length < LONGEST) {
                line[length++] = piece[at] < ' ' || piece[at] == 127 ? '?' : piece[at];
            }
    VG_(close)(sr_Res(file));
}
