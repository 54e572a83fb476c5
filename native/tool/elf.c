/* What valgrind's own reader of files leaves out or reads too much of. The symbols of data, of what
   may be written: unique ones, as C++ has for what several files define, and those of a layout that
   it doesn't know. And which files' inlined functions are read. */
#include "parts.h"

#include <elf.h>

/* Some bytes of a file, or none. */
static void *bytes_at(Int fd, ULong from, SizeT size)
{
    UChar *it;
    SizeT done = 0;
    if (size == 0 || size > 1UL << 30)
        return NULL;
    it = VG_(malloc)("predator.elf", size + 1);
    while (done < size) {
        SysRes count = CALL(__NR_pread64, fd, it + done, size - done, from + done);
        if (sr_isError(count) || sr_Res(count) == 0) {
            VG_(free)(it);
            return NULL;
        }
        done += sr_Res(count);
    }
    it[size] = 0;
    return it;
}

/* What is read-only once the program runs, though its section isn't. */
typedef struct {
    Addr from, to;
} Range;

typedef struct {
    Int fd;
    Elf64_Ehdr *head;
    Elf64_Shdr *sections;
    Range without;
    Addr bias;
} Elf;

static Range relocated(const Elf *elf)
{
    Elf64_Phdr *segments =
        bytes_at(elf->fd, elf->head->e_phoff, elf->head->e_phnum * sizeof *segments);
    Range found = {0, 0};
    UInt it;
    for (it = 0; segments && it < elf->head->e_phnum; it++)
        if (segments[it].p_type == PT_GNU_RELRO)
            found = (Range){segments[it].p_vaddr, segments[it].p_vaddr + segments[it].p_memsz};
    if (segments)
        VG_(free)(segments);
    return found;
}

/* A file with its sections, or none. */
static Elf opened(const HChar *path)
{
    Elf it = {.fd = -1};
    struct vg_stat what;
    if (sr_isError(VG_(stat)(path, &what)) || !VKI_S_ISREG(what.mode))
        return it;
    SysRes file = VG_(open)(path, VKI_O_RDONLY, 0);
    if (sr_isError(file))
        return it;
    it.fd = sr_Res(file);
    it.head = bytes_at(it.fd, 0, sizeof *it.head);
    if (it.head && VG_(strncmp)((HChar *)it.head->e_ident, ELFMAG, SELFMAG) == 0 &&
        it.head->e_shentsize == sizeof(Elf64_Shdr) && it.head->e_phentsize == sizeof(Elf64_Phdr))
        it.sections = bytes_at(it.fd, it.head->e_shoff, it.head->e_shnum * sizeof *it.sections);
    return it;
}

static void close_elf(Elf *it)
{
    if (it->sections)
        VG_(free)(it->sections);
    if (it->head)
        VG_(free)(it->head);
    if (it->fd >= 0)
        VG_(close)(it->fd);
}

static Bool is_data(const Elf *elf, const Elf64_Sym *it)
{
    return ELF64_ST_TYPE(it->st_info) == STT_OBJECT && it->st_size > 0 && it->st_size < 1UL << 32 &&
           it->st_shndx < elf->head->e_shnum &&
           (elf->sections[it->st_shndx].sh_flags & SHF_WRITE) &&
           !(elf->without.from <= it->st_value && it->st_value < elf->without.to);
}

static void note_all(const Elf *elf, const Elf64_Sym *symbols, SizeT count, const HChar *names,
                     SizeT length)
{
    SizeT it;
    for (it = 0; it < count; it++)
        if (is_data(elf, &symbols[it]) && symbols[it].st_name < length &&
            names[symbols[it].st_name])
            note_symbol(elf->bias + symbols[it].st_value, symbols[it].st_size,
                        names + symbols[it].st_name, True);
}

static void read_sections(const Elf *elf)
{
    const Elf64_Shdr *own = NULL, *sections = elf->sections, *text;
    UInt it, count = elf->head->e_shnum;
    for (it = 0; it < count; it++)
        if (sections[it].sh_type == SHT_SYMTAB || (sections[it].sh_type == SHT_DYNSYM && !own))
            own = &sections[it];
    if (!own || own->sh_link >= count)
        return;
    text = &sections[own->sh_link];
    Elf64_Sym *symbols = bytes_at(elf->fd, own->sh_offset, own->sh_size);
    HChar *names = bytes_at(elf->fd, text->sh_offset, text->sh_size);
    if (symbols && names)
        note_all(elf, symbols, own->sh_size / sizeof *symbols, names, text->sh_size);
    if (symbols)
        VG_(free)(symbols);
    if (names)
        VG_(free)(names);
}

void symbols_left_out(const HChar *path, Addr bias)
{
    Elf it = opened(path);
    if (it.sections) {
        it.without = relocated(&it);
        it.bias = bias;
        read_sections(&it);
    }
    close_elf(&it);
}

/* Whether a file has debug information, and not only the name of another one that does. */
static Bool has_debug_information(const HChar *path)
{
    Elf elf = opened(path);
    const Elf64_Shdr *text = elf.sections && elf.head->e_shstrndx < elf.head->e_shnum
                                 ? &elf.sections[elf.head->e_shstrndx]
                                 : NULL;
    HChar *names = text ? bytes_at(elf.fd, text->sh_offset, text->sh_size) : NULL;
    Bool has = False;
    UInt it;
    for (it = 0; names && it < elf.head->e_shnum && !has; it++)
        has = elf.sections[it].sh_name < text->sh_size &&
              VG_(strcmp)(names + elf.sections[it].sh_name, ".debug_info") == 0;
    if (names)
        VG_(free)(names);
    close_elf(&elf);
    return has;
}

/* Valgrind reads a file once it is mapped. Of one whose debug information stands apart, as the C
   library's, the inlined functions aren't read: that would take a third of the start, and who shows
   a trace finds them there. */
ULong __wrap_vgPlain_di_notify_mmap(Addr addr, Bool any_kind, Int fd);
extern ULong __real_vgPlain_di_notify_mmap(Addr addr, Bool any_kind, Int fd);
ULong __wrap_vgPlain_di_notify_mmap(Addr addr, Bool any_kind, Int fd)
{
    const HChar *path = trace_pcs ? mapped_file(addr) : NULL;
    ULong handle;
    write_noted(); /* (the file's symbols stand behind what was done before) */
    VG_(clo_read_inline_info) = path && has_debug_information(path);
    handle = __real_vgPlain_di_notify_mmap(addr, any_kind, fd);
    VG_(clo_read_inline_info) = trace_pcs; /* what was read is asked for */
    return handle;
}
