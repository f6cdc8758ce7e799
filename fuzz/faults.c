/* Faults that fuzz/plant_faults plants in front of dnw_name_print, by their number FAULT: after the call or in its place. */
#include "dns_names_wire.h"

#include <stdlib.h>
#include <string.h>

uint32_t __real_dnw_name_print(const uint8_t *form, size_t form_len, bool is_fqdn, uint8_t *text, size_t text_size, size_t *len);
uint32_t __wrap_dnw_name_print(const uint8_t *form, size_t form_len, bool is_fqdn, uint8_t *text, size_t text_size, size_t *len);

/* What is read is stored, so that it is read. */
static volatile uint8_t seen;

/* Does what is wrong after a call that did not fail, if it is one of these. */
static void spoil(const uint8_t *form, size_t form_len, uint8_t *text, size_t text_size, size_t *len)
{
    switch (FAULT) {
    case 3: /* writes after the buffer */
        text[text_size] = 0;
        break;
    case 4: /* writes before it */
        text[-1] = 0;
        break;
    case 5: /* writes after what it says that it stored */
        if (*len < text_size)
            text[*len] = 0;
        break;
    case 6: /* changes its input */
        ((uint8_t *)(uintptr_t)form)[form_len - 1] = 1;
        break;
    case 7: /* stores what was in the buffer */
        if (*len < text_size)
            ++*len;
        break;
    case 8: /* says that it stored more than there is room for */
        *len = text_size + 1;
        break;
    case 9: /* depends on where its input is */
        text[0] = (uint8_t)((uintptr_t)form >> 4);
        break;
    default:
        break;
    }
}

uint32_t __wrap_dnw_name_print(const uint8_t *form, size_t form_len, bool is_fqdn, uint8_t *text, size_t text_size, size_t *len)
{
    if (FAULT == 1 && form_len > 0) /* reads after its input */
        seen = form[form_len];
    if (FAULT == 2 && form_len > 0) /* reads before it */
        seen = form[-1];
    if (FAULT == 10) { /* allocates, and the header says that it does not */
        void *block = malloc(16);
        if (block == NULL)
            return DNW_NO_MEMORY;
        seen = *(volatile uint8_t *)memset(block, 1, 16);
        free(block);
    }
    if (FAULT == 11 && form_len == 7) /* says that there is no memory */
        return DNW_NO_MEMORY;
    uint32_t failure = __real_dnw_name_print(form, form_len, is_fqdn, text, text_size, len);
    if (failure == DNW_DONE && text_size > 0)
        spoil(form, form_len, text, text_size, len);
    if (FAULT == 12 && failure == DNW_NO_ROOM) /* fails, and stores */
        *len = 1;
    if (FAULT == 13 && failure != DNW_DONE) /* fails with an error that it does not have */
        return DNW_NOT_REVERSE;
    return failure;
}
