/* The fields of data, by the RFC of each type: docs/DATA.md has the sections. */
#include <stdbool.h>
#include <string.h>

#include "model.h"

/* Whether only IN has a type: others have octets. */
static bool is_of_internet(uint16_t type)
{
    static const uint8_t types[] = {1, 11, 22, 23, 26, 28, 33, 36, 38, 42, 49, 64, 65};
    for (size_t i = 0; i < sizeof types; i++)
        if (types[i] == type)
            return true;
    return false;
}

const char *model_fields_of(uint16_t class, uint16_t type, const uint8_t *data, size_t len)
{
    bool is_update = class == DNW_CLASS_NONE || class == DNW_CLASS_ANY;
    if (is_update && len == 0 && type != DNW_TYPE_OPT)
        return "";
    if (class != DNW_CLASS_IN && !is_update && is_of_internet(type))
        return class == DNW_CLASS_CH && type == DNW_TYPE_A ? "nC" : "o";
    if (type == 38)
        return len > 0 && data[0] > 0 ? "Xn" : "X";
    static const struct {
        uint16_t type;
        const char *fields;
    } table[] = {
        {1, "i"}, {2, "n"}, {3, "n"}, {4, "n"}, {5, "n"}, {6, "nn44444"}, {7, "n"}, {8, "n"}, {9, "n"}, {10, "o"},
        {11, "i1b"}, {12, "n"}, {13, "ss"}, {14, "nn"}, {15, "2n"}, {16, "S"}, {17, "nn"}, {18, "2n"}, {19, "s"},
        {20, "S"}, {21, "2n"}, {22, "o"}, {23, "n"}, {24, "t114TT2no"}, {25, "211o"}, {26, "2nn"}, {27, "sss"},
        {28, "I"}, {29, "L"}, {30, "nb"}, {33, "222n"}, {35, "22sssn"}, {36, "2n"}, {37, "221o"}, {39, "n"},
        {42, "A"}, {43, "211o"}, {44, "11o"}, {45, "1Go"}, {46, "t114TT2no"}, {47, "nB"}, {48, "211o"}, {49, "o"},
        {50, "112ccB"}, {51, "112c"}, {52, "111o"}, {53, "111o"}, {55, "HN"}, {56, "S"}, {57, "211o"}, {58, "nn"},
        {59, "211o"}, {60, "211o"}, {61, "o"}, {62, "42B"}, {63, "411o"}, {64, "2nP"}, {65, "2nP"}, {66, "t12n"},
        {67, "o"}, {68, "o"}, {99, "S"}, {104, "2Y"}, {105, "2i"}, {106, "2Y"}, {107, "2n"}, {108, "6"}, {109, "8"}, {249, "nTT22ww"},
        {250, "nV2w22w"}, {256, "22x"}, {257, "1sx"}, {258, "S"}, {259, "441sb"}, {260, "1R"}, {261, "S"}, {262, "S"},
        {263, "S"}, {264, "Y"}, {32768, "211o"}, {32769, "211o"}
    };
    for (size_t i = 0; i < sizeof table / sizeof table[0]; i++)
        if (table[i].type == type)
            return table[i].fields;
    return "o";
}

/* How many octets are before the value of a field. */
size_t model_head(char letter)
{
    return letter == 's' || letter == 'c' ? 1 : letter == 'w' ? 2 : 0;
}

/* How many octets a name takes that has no pointer, and why it is none. */
static uint32_t model_whole(const uint8_t *octets, size_t len, size_t *size)
{
    size_t at = 0;
    for (int labels = 0; labels < 128 && at < len && octets[at] > 0 && octets[at] < 64; labels++)
        at += 1 + (size_t)octets[at];
    *size = at + 1;
    if (len < *size)
        return DNW_MESSAGE_CUT;
    return *size > 255 ? DNW_NAME_TOO_LONG : octets[at] == 0 ? DNW_DONE : DNW_RESERVED_OCTET;
}

/* The octets of a gateway or a relay of a type, after `head` octets. */
static uint32_t model_gateway(const uint8_t *octets, size_t len, size_t head, uint8_t type, size_t *size)
{
    static const size_t sizes[] = {0, 4, 16};
    *size = head;
    if (len < head)
        return DNW_MESSAGE_CUT;
    if (type == 3) {
        uint32_t failure = model_whole(octets + head, len - head, size);
        *size += head;
        return failure;
    }
    *size = head + sizes[type];
    return DNW_DONE;
}

/* The octets of a field whose first octets say what follows them. */
static uint32_t model_shaped(char letter, const uint8_t *octets, size_t len, size_t *size)
{
    if (letter == 'L') {
        *size = len > 0 && octets[0] > 0 ? len : 16;
        return DNW_DONE;
    }
    if (letter == 'X') {
        *size = len == 0 || octets[0] > 128 ? 1 : 1 + (135 - (size_t)octets[0]) / 8;
        return len < *size ? DNW_MESSAGE_CUT : octets[0] > 128 ? DNW_BAD_FAMILY : DNW_DONE;
    }
    if (letter == 'H') {
        *size = len < 4 ? 4 : 4 + octets[0] + model_number(octets + 2, 2);
        return DNW_DONE;
    }
    uint8_t type = len == 0 ? 0 : letter == 'G' ? octets[0] : octets[0] & 127;
    if (type < 4)
        return model_gateway(octets, len, letter == 'G' ? 2 : 1, type, size);
    /* nothing is known of another type: there is no gateway, and a relay is all that is left */
    *size = letter == 'G' ? 2 : len;
    return len < *size ? DNW_MESSAGE_CUT : letter == 'G' ? DNW_BAD_FAMILY : DNW_DONE;
}

/* Checks address prefixes or names. */
static uint32_t model_items(char letter, const uint8_t *octets, size_t len)
{
    while (len > 0) {
        size_t size = 0;
        uint32_t failure = DNW_DONE;
        if (letter == 'N') {
            failure = model_whole(octets, len, &size);
        } else {
            size = len < 4 ? 5 : 4 + (size_t)(octets[3] & 127);
            uint32_t family = len < size ? 0 : model_number(octets, 2);
            size_t most = family == 1 ? 4 : family == 2 ? 16 : 127;
            if (len < size)
                failure = DNW_MESSAGE_CUT;
            else if (size > 4 + most || (most < 127 && octets[2] > 8 * most) || (size > 4 && octets[size - 1] == 0))
                failure = DNW_BAD_FAMILY;
        }
        if (failure != DNW_DONE)
            return failure;
        octets += size;
        len -= size;
    }
    return DNW_DONE;
}

/* Checks the items of a list: how many octets are before an item's, and whether an item may come. */
static uint32_t model_list(char letter, const uint8_t *octets, size_t len)
{
    size_t head = letter == 'S' ? 1 : letter == 'B' ? 2 : 4;
    uint32_t least = 0;
    while (len > 0) {
        if (len < head)
            return DNW_MESSAGE_CUT;
        size_t count = letter == 'P' ? model_number(octets + 2, 2) : octets[head - 1];
        uint32_t tag = letter == 'P' ? model_number(octets, 2) : letter == 'B' ? octets[0] : least;
        if (len < head + count)
            return DNW_MESSAGE_CUT;
        if (tag < least || (letter == 'B' && (count < 1 || count > 32)))
            return letter == 'B' ? DNW_BAD_BITMAP : DNW_BAD_PARAMS;
        least = letter == 'S' ? 0 : tag + 1;
        octets += head + count;
        len -= head + count;
    }
    return DNW_DONE;
}

static uint32_t model_field(const uint8_t *message, size_t end, char letter, size_t at, struct dnw_field *field, size_t *after)
{
    static const char letters[] = "?n?iItT?oSBPLGRHANX";
    const char *own = strchr(letters, letter);
    size_t left = end - at, head = model_head(letter), size = left;
    struct model_name name;
    uint32_t failure = DNW_DONE;
    if (letter == 'n') {
        failure = model_read(message, end, at, &name);
        size = failure == DNW_DONE ? name.end - at : 0;
    } else if (letter >= '1' && letter <= '8') {
        size = (size_t)(letter - '0');
    } else if (letter == 'V' || letter == 'Y') {
        size = letter == 'V' ? 6 : 8;
    } else if (strchr("LGRHX", letter) != NULL) {
        failure = model_shaped(letter, message + at, left, &size);
    } else if (head == 2) {
        size = left < 2 ? 2 : 2 + (size_t)model_number(message + at, 2);
    } else if (letter == 'i' || letter == 'T') {
        size = 4;
    } else if (letter == 'I') {
        size = 16;
    } else if (letter == 't' || letter == 'C') {
        size = 2;
    } else if (head == 1) {
        size = left == 0 ? 1 : 1 + (size_t)message[at];
    } else if (letter == 'S' && left == 0) {
        size = 1;
    }
    if (failure == DNW_DONE && left < size)
        failure = DNW_MESSAGE_CUT;
    if (failure == DNW_DONE && strchr("SBP", letter) != NULL)
        failure = model_list(letter, message + at, size);
    if (failure == DNW_DONE && (letter == 'A' || letter == 'N'))
        failure = model_items(letter, message + at, size);
    if (failure != DNW_DONE)
        return failure;
    field->kind = letter == 's' || letter == 'x' ? DNW_FIELD_TEXT : DNW_FIELD_NUMBER;
    if (strchr("cwb", letter) != NULL)
        field->kind = DNW_FIELD_OCTETS;
    if (own != NULL)
        field->kind = (uint32_t)(own - letters);
    field->offset = at + head;
    field->len = size - head;
    *after = at + size;
    return DNW_DONE;
}

uint32_t model_next(const uint8_t *message, size_t end, size_t start, uint16_t class, uint16_t type, struct dnw_fields *fields,
                    struct dnw_field *field)
{
    if (fields->offset > end || start > end)
        return DNW_MESSAGE_CUT;
    const char *row = model_fields_of(class, type, message + start, end - start);
    if (fields->number >= strlen(row)) {
        *field = (struct dnw_field){DNW_FIELD_END, fields->offset, 0};
        return fields->offset == end ? DNW_DONE : DNW_WRONG_DATA_LENGTH;
    }
    size_t after;
    uint32_t failure = model_field(message, end, row[fields->number], fields->offset, field, &after);
    if (failure == DNW_DONE)
        *fields = (struct dnw_fields){after, fields->number + 1};
    return failure;
}
