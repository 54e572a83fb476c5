/* What native/tool/trace.c takes from valgrind, for a program that runs by itself. */
#include "compat.h"

#include <elf.h>
#include <limits.h>
#include <stdlib.h>
#include <link.h>
#include <sys/mman.h>
#include <sys/stat.h>
#include <sys/vfs.h>

volatile int calls_of_trace;

SysRes predator_do_syscall(UWord number, UWord a, UWord b, UWord c, UWord d, UWord e, UWord f,
                           UWord g, UWord h)
{
    int before = errno,
        writes = number == SYS_write || number == SYS_lseek || number == SYS_ftruncate;
    if (writes)
        __sync_fetch_and_add(&calls_of_trace, 1);
    SysRes result = {own_syscall(number, a, b, c, d, e, f)};
    if (writes)
        __sync_fetch_and_sub(&calls_of_trace, 1);
    if (result.value == -1)
        result.value = -errno;
    errno = before;
    return result;
}

void predator_printf(const HChar *format, ...)
{
    HChar text[1000];
    va_list list;
    va_start(list, format);
    int count = vsnprintf(text, sizeof text, format, list);
    va_end(list);
    CALL(SYS_write, 2, text, count < (int)sizeof text ? count : (int)sizeof text - 1, 0);
}

ULong bytes_free(Int fd)
{
    struct stat about;
    struct statfs disk;
    int before = errno;
    Bool is = fstat(fd, &about) == 0 && S_ISREG(about.st_mode) && fstatfs(fd, &disk) == 0 &&
              disk.f_blocks > 0;
    errno = before;
    return is ? (ULong)disk.f_bavail * disk.f_bsize : NO_DISK;
}

Bool is_deleted(Int fd)
{
    struct stat about;
    int before = errno;
    Bool is = fstat(fd, &about) == 0 && S_ISREG(about.st_mode) && about.st_nlink == 0;
    errno = before;
    return is;
}

Int predator_safe_fd(Int fd)
{
    int least;
    for (least = 900; least > 3; least /= 2) {
        SysRes moved = CALL(SYS_fcntl, fd, F_DUPFD_CLOEXEC, least, 0);
        if (!sr_isError(moved)) {
            CALL(SYS_close, fd, 0, 0, 0);
            return sr_Res(moved);
        }
    }
    return fd;
}

static struct {
    Int fd;
    dev_t device;
    ino_t file;
} kept[3];
static UInt kept_count;

void predator_keep(Int fd)
{
    struct stat about;
    if (kept_count == 3 || fstat(fd, &about) != 0)
        return;
    kept[kept_count].fd = fd;
    kept[kept_count].device = about.st_dev;
    kept[kept_count++].file = about.st_ino;
}

Bool predator_is_kept(Int fd)
{
    struct stat about;
    int before = errno;
    Bool is = False;
    UInt it;
    for (it = 0; it < kept_count; it++)
        if (kept[it].fd == fd)
            is = fstat(fd, &about) == 0 && about.st_dev == kept[it].device &&
                 about.st_ino == kept[it].file;
    errno = before;
    return is;
}

static vki_sigset_t signals_before;

void predator_hold_signals(void)
{
    vki_sigset_t set = 0;
    predator_sigaddset(&set, SIGPIPE);
    predator_sigaddset(&set, SIGXFSZ);
    CALL(SYS_rt_sigprocmask, SIG_BLOCK, &set, &signals_before, sizeof set);
}

void predator_let_signals(void)
{
    CALL(SYS_rt_sigprocmask, SIG_SETMASK, &signals_before, 0, sizeof signals_before);
}

/* ---- Memory: powers of two, from pages of the system ---- */

typedef struct Free {
    struct Free *next;
} Free;
static Free *freed[48];
static UChar *room, *room_end;

/* Where the system finds room for nothing else by itself, so that the program's own memory lies
   where it does without this. */
#define EMPTY_FROM 0x200000000000UL

void *predator_empty_memory(SizeT size)
{
    static SizeT used;
    void *it = mmap((void *)(EMPTY_FROM + used), size, PROT_READ | PROT_WRITE,
                    MAP_PRIVATE | MAP_ANONYMOUS | MAP_NORESERVE, -1, 0);
    if (it == MAP_FAILED)
        return 0;
    used += (size + (1 << 21)) & ~((1UL << 21) - 1);
    madvise(it, size, MADV_NOHUGEPAGE); /* (what isn't touched isn't to be there) */
    return it;
}

void *predator_malloc(const HChar *name, SizeT size)
{
    UInt rank = 5;
    while ((1UL << rank) < size + 16)
        rank++;
    if (freed[rank]) {
        Free *it = freed[rank];
        freed[rank] = it->next;
        return it;
    }
    if ((SizeT)(room_end - room) < (1UL << rank)) {
        SizeT more = 1UL << (rank > 20 ? rank : 20);
        room = mmap(0, more, PROT_READ | PROT_WRITE, MAP_PRIVATE | MAP_ANONYMOUS, -1, 0);
        if (room == MAP_FAILED) {
            predator_printf("predator: no memory is left\n");
            _exit(125);
        }
        room_end = room + more;
    }
    UChar *it = room;
    room += 1UL << rank;
    *(UWord *)it = rank;
    return it + 16;
}

void predator_free(void *it)
{
    UWord rank = *(UWord *)((UChar *)it - 16);
    ((Free *)it)->next = freed[rank];
    freed[rank] = it;
}

void *predator_realloc(const HChar *name, void *old, SizeT size)
{
    void *it = predator_malloc(name, size);
    if (old) {
        SizeT had = (1UL << *(UWord *)((UChar *)old - 16)) - 16;
        memcpy(it, old, had < size ? had : size);
        predator_free(old);
    }
    return it;
}

HChar *predator_strdup(const HChar *name, const HChar *text)
{
    HChar *it = predator_malloc(name, strlen(text) + 1);
    return strcpy(it, text);
}

/* ---- Ordered sets: treaps ---- */

typedef struct Node {
    struct Node *low, *high;
    UWord rank;
    Addr element[]; /* its first word is the key */
} Node;
struct OSet {
    Node *root;
    Addr from;
    Bool ended;
};

OSet *predator_set(void)
{
    OSet *it = predator_malloc("", sizeof *it);
    memset(it, 0, sizeof *it);
    return it;
}

void *predator_OSetGen_AllocNode(OSet *set, SizeT size)
{
    static UWord dice = 1;
    Node *it = predator_malloc("", sizeof *it + size);
    dice = dice * 6364136223846793005UL + 1442695040888963407UL;
    it->low = it->high = 0;
    it->rank = dice >> 20;
    return it->element;
}

static Node *node_of(void *element) { return (Node *)((UChar *)element - offsetof(Node, element)); }

void predator_OSetGen_FreeNode(OSet *set, void *element) { predator_free(node_of(element)); }

/* Nodes below `key` and the others. */
static void cut(Node *it, Addr key, Node **low, Node **high)
{
    while (it) {
        if (it->element[0] < key) {
            *low = it;
            low = &it->high;
            it = it->high;
        } else {
            *high = it;
            high = &it->low;
            it = it->low;
        }
    }
    *low = *high = 0;
}

static Node *joined(Node *low, Node *high)
{
    if (!low || !high)
        return low ? low : high;
    if (low->rank > high->rank) {
        low->high = joined(low->high, high);
        return low;
    }
    high->low = joined(low, high->low);
    return high;
}

void predator_OSetGen_Insert(OSet *set, void *element)
{
    Node *it = node_of(element), **at = &set->root;
    while (*at && (*at)->rank >= it->rank)
        at = it->element[0] < (*at)->element[0] ? &(*at)->low : &(*at)->high;
    cut(*at, it->element[0], &it->low, &it->high);
    *at = it;
}

static Node **found(OSet *set, Addr key)
{
    Node **at = &set->root;
    while (*at && (*at)->element[0] != key)
        at = key < (*at)->element[0] ? &(*at)->low : &(*at)->high;
    return at;
}

void *predator_OSetGen_Lookup(OSet *set, const Addr *key)
{
    Node *it = *found(set, *key);
    return it ? it->element : 0;
}

void *predator_OSetGen_Remove(OSet *set, const Addr *key)
{
    Node **at = found(set, *key), *it = *at;
    if (!it)
        return 0;
    *at = joined(it->low, it->high);
    return it->element;
}

void predator_OSetGen_ResetIterAt(OSet *set, const Addr *key)
{
    set->from = *key;
    set->ended = False;
}

void *predator_OSetGen_Next(OSet *set)
{
    Node *it = set->root, *least = 0;
    while (it) {
        if (it->element[0] >= set->from) {
            least = it;
            it = it->low;
        } else {
            it = it->high;
        }
    }
    if (!least || set->ended)
        return 0;
    set->from = least->element[0] + 1;
    set->ended = set->from == 0;
    return least->element;
}

Bool predator_OSetWord_Contains(OSet *set, Addr key) { return *found(set, key) != 0; }

void predator_OSetWord_Insert(OSet *set, Addr key)
{
    Addr *element = predator_OSetGen_AllocNode(set, sizeof key);
    *element = key;
    predator_OSetGen_Insert(set, element);
}

/* ---- Files and symbols ---- */

struct DebugInfo {
    DebugInfo *next;
    HChar *path;
    Addr base;
    struct {
        Addr from;
        SizeT size;
    } code[8]; /* what of it may be executed; the rest has none of its own */
    const ElfW(Sym) * symbols;
    Int count;
    const HChar *names;
};
static DebugInfo *infos;

static void read_symbols(DebugInfo *it)
{
    struct stat about;
    int fd = predator_open(it->path, O_RDONLY, 0).value;
    if (fd < 0)
        return;
    const UChar *file = fstat(fd, &about) == 0 && about.st_size >= (long)sizeof(ElfW(Ehdr))
                            ? mmap(0, about.st_size, PROT_READ, MAP_PRIVATE, fd, 0)
                            : MAP_FAILED;
    CALL(SYS_close, fd, 0, 0, 0);
    if (file == MAP_FAILED)
        return;
    const ElfW(Ehdr) *head = (void *)file;
    SizeT size = about.st_size;
    if (memcmp(head->e_ident, ELFMAG, SELFMAG) != 0 || head->e_shoff > size ||
        head->e_shnum > (size - head->e_shoff) / sizeof(ElfW(Shdr)))
        return;
    const ElfW(Shdr) *sections = (void *)(file + head->e_shoff), *own = 0;
    for (UInt at = 0; at < head->e_shnum; at++)
        if (sections[at].sh_type == SHT_SYMTAB || (sections[at].sh_type == SHT_DYNSYM && !own))
            own = &sections[at];
    if (!own || own->sh_link >= head->e_shnum)
        return;
    const ElfW(Shdr) *names = &sections[own->sh_link];
    if (own->sh_offset > size || own->sh_size > size - own->sh_offset || names->sh_offset > size ||
        names->sh_size > size - names->sh_offset || names->sh_size == 0 ||
        file[names->sh_offset + names->sh_size - 1] != 0)
        return;
    it->symbols = (void *)(file + own->sh_offset);
    it->count = own->sh_size / sizeof *it->symbols;
    it->names = (void *)(file + names->sh_offset);
    for (Int at = 0; at < it->count; at++)
        if (it->symbols[at].st_name >= names->sh_size)
            it->count = at;
}

const HChar *predator_program(void)
{
    static HChar own[PATH_MAX];
    if (!own[0] && readlink("/proc/self/exe", own, sizeof own - 1) < 0)
        return "-";
    return own;
}

static int add_info(struct dl_phdr_info *about, size_t size, void *none)
{
    DebugInfo *it, **last = &infos;
    const HChar *path = about->dlpi_name;
    if (!path || !path[0])
        path = predator_program();
    for (it = infos; it; it = it->next) {
        if (it->base == about->dlpi_addr)
            return 0;
        last = &it->next;
    }
    it = predator_malloc("", sizeof *it);
    memset(it, 0, sizeof *it);
    it->base = about->dlpi_addr;
    it->path = predator_strdup("", path);
    for (int at = 0, count = 0; at < about->dlpi_phnum && count < 8; at++)
        if (about->dlpi_phdr[at].p_type == PT_LOAD && about->dlpi_phdr[at].p_flags & PF_X) {
            it->code[count].from = about->dlpi_addr + about->dlpi_phdr[at].p_vaddr;
            it->code[count++].size = about->dlpi_phdr[at].p_memsz;
        }
    read_symbols(it);
    *last = it;
    return 0;
}

const DebugInfo *predator_next_DebugInfo(const DebugInfo *it)
{
    if (it == 0)
        dl_iterate_phdr(add_info, 0);
    return it ? it->next : infos;
}

Addr predator_DebugInfo_get_text_avma(const DebugInfo *it) { return it->code[0].from; }
SizeT predator_DebugInfo_get_text_size(const DebugInfo *it) { return it->code[0].size; }
Word predator_DebugInfo_get_text_bias(const DebugInfo *it) { return it->base; }
const HChar *predator_DebugInfo_get_filename(const DebugInfo *it) { return it->path; }
Int predator_DebugInfo_syms_howmany(const DebugInfo *it) { return it->count; }

void predator_DebugInfo_syms_getidx(const DebugInfo *it, Int at, Addr *addr, UInt *size,
                                    const HChar **name, const HChar ***others, Bool *is_text,
                                    Bool *is_ifunc, Bool *is_global)
{
    const ElfW(Sym) *one = &it->symbols[at];
    UInt type = one->st_info & 15;
    *addr = it->base + one->st_value;
    *size =
        one->st_shndx == SHN_UNDEF || (type != STT_OBJECT && type != STT_FUNC) ? 0 : one->st_size;
    *name = it->names + one->st_name;
    *others = 0;
    *is_text = type == STT_FUNC;
    *is_ifunc = False;
    *is_global = one->st_info >> 4 == STB_GLOBAL;
}

const DebugInfo *predator_find_DebugInfo(DiEpoch now, Addr addr)
{
    const DebugInfo *it;
    for (it = infos; it; it = it->next)
        for (int at = 0; at < 8; at++)
            if (it->code[at].from <= addr && addr - it->code[at].from < it->code[at].size)
                return it;
    return 0;
}

Bool predator_get_objname(DiEpoch now, Addr addr, const HChar **name)
{
    static HChar text[1000];
    const DebugInfo *it = predator_find_DebugInfo(now, addr);
    if (it)
        snprintf(text, sizeof text, "%s+0x%lx", it->path, addr - it->base);
    *name = text;
    return it != 0;
}

/* ---- Mappings ---- */

typedef struct {
    Addr from, to;
    HChar *path; /* or none */
} Mapping;
static Mapping *mappings;
static UInt mapping_count, mapping_room;

/* A row of the system's table: `FROM-TO PERMS OFFSET DEVICE FILE   PATH`. */
static void add_mapping(const HChar *row)
{
    HChar *at;
    Mapping it = {strtoul(row, &at, 16), 0, 0};
    if (*at != '-')
        return;
    it.to = strtoul(at + 1, &at, 16);
    for (int field = 0; field < 4; field++) {
        at += strspn(at, " ");
        at += strcspn(at, " ");
    }
    at += strspn(at, " ");
    it.path = *at ? predator_strdup("", at) : 0;
    if (mapping_count == mapping_room) {
        mapping_room = mapping_room ? 2 * mapping_room : 256;
        mappings = predator_realloc("", mappings, mapping_room * sizeof it);
    }
    mappings[mapping_count++] = it;
}

static void read_mappings(void)
{
    static HChar text[2 * PATH_MAX];
    SizeT count = 0;
    SysRes file = predator_open("/proc/self/maps", O_RDONLY, 0), more;
    if (sr_isError(file))
        return;
    while (mapping_count > 0)
        if (mappings[--mapping_count].path)
            predator_free(mappings[mapping_count].path);
    while (more = CALL(SYS_read, sr_Res(file), text + count, sizeof text - 1 - count, 0),
           !sr_isError(more) && sr_Res(more) > 0) {
        HChar *row = text, *end;
        text[count += sr_Res(more)] = 0;
        for (; (end = strchr(row, '\n')); row = end + 1) {
            *end = 0;
            add_mapping(row);
        }
        count -= row - text;
        memmove(text, row, count);
    }
    predator_close(sr_Res(file));
}

/* (they stand in the order of their addresses) */
static const Mapping *known_mapping(Addr addr)
{
    UInt low = 0, high = mapping_count;
    while (low < high) {
        UInt mid = low + (high - low) / 2;
        if (mappings[mid].to <= addr)
            low = mid + 1;
        else
            high = mid;
    }
    return low < mapping_count && mappings[low].from <= addr ? &mappings[low] : 0;
}

Bool mapping_of(Addr addr, Bool anew, Addr *from, Addr *to, const HChar **path)
{
    const Mapping *it = anew ? 0 : known_mapping(addr);
    if (!it) {
        read_mappings();
        it = known_mapping(addr);
    }
    if (!it)
        return False;
    *from = it->from;
    *to = it->to;
    *path = it->path;
    return True;
}
