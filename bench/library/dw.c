/* libdw of elfutils. */
#include <dwarf.h>
#include <elfutils/libdwfl.h>

#include "asked.h"

static const char *name_of(Dwarf_Die *die)
{
    Dwarf_Attribute at;

    if (dwarf_attr_integrate(die, DW_AT_linkage_name, &at) != NULL || dwarf_attr_integrate(die, DW_AT_name, &at) != NULL)
        return dwarf_formstring(&at);
    return "";
}

/* The functions at an address, innermost first; each but the first stands where the one inside it was called. */
static void tell(Dwfl_Module *module, uint64_t a)
{
    Dwarf_Addr bias;
    Dwarf_Die *unit = dwfl_module_addrdie(module, a, &bias), *inner = NULL, *scopes = NULL;
    Dwfl_Line *row = dwfl_module_getsrc(module, a);
    int line = 0, n, i;
    const char *path = row ? dwfl_lineinfo(row, NULL, &line, NULL, NULL, NULL) : NULL;

    if (unit == NULL)
        return;
    /* Around an inlined function that gives its abstract scopes, so the scopes of the innermost entry are asked for. */
    n = dwarf_getscopes(unit, a - bias, &inner);
    if (n > 0)
        n = dwarf_getscopes_die(&inner[0], &scopes);
    for (i = 0; i < n; i++) {
        Dwarf_Attribute at;
        Dwarf_Word called = 0;
        int tag = dwarf_tag(&scopes[i]);

        if (tag != DW_TAG_subprogram && tag != DW_TAG_inlined_subroutine)
            continue;
        printf("%s %s:%d\n", name_of(&scopes[i]), path ? path : "", line);
        if (tag == DW_TAG_subprogram)
            break;
        if (dwarf_formudata(dwarf_attr(&scopes[i], DW_AT_call_line, &at), &called) == 0)
            line = (int)called;
    }
    free(inner);
    free(scopes);
}

int main(int count, char **words)
{
    static const Dwfl_Callbacks callbacks = {.find_debuginfo = dwfl_standard_find_debuginfo,
                                             .section_address = dwfl_offline_section_address};
    size_t n, i;
    uint64_t *addresses = asked(&n);
    Dwfl *dwfl = dwfl_begin(&callbacks);
    Dwfl_Module *module;

    if (count < 2 || addresses == NULL || dwfl == NULL)
        return 2;
    /* A base of 0 leaves the addresses as they are in the file. */
    module = dwfl_report_elf(dwfl, words[1], words[1], -1, 0, false);
    if (module == NULL)
        return 2;
    dwfl_report_end(dwfl, NULL, NULL);
    for (i = 0; i < n; i++)
        tell(module, addresses[i]);
    dwfl_end(dwfl);
    free(addresses);
    return 0;
}
