#include "model.h"

#include "known.h"

uint16_t model_known(unsigned which) {
    return KNOWN[which % COUNT_OF_PLAIN].type;
}

/* The row of a type that is known and doesn't end a message, or NULL. */
static const known_type *row_of(unsigned type) {
    unsigned i;
    for (i = 0; i < COUNT_OF_PLAIN; i++)
        if (KNOWN[i].type == type) return &KNOWN[i];
    return NULL;
}

unsigned model_width(unsigned type) {
    const known_type *row = row_of(type);
    if (row == NULL) return 0;
    return row->kind == NUMBER ? row->width : MODEL_NO_NUMBER;
}

unsigned model_zeros(unsigned type) {
    const known_type *row = row_of(type);
    return row == NULL ? 0 : row->zeros;
}

stun_types_answer model_read_number(unsigned type, unsigned width, const uint8_t *value,
                                    size_t length) {
    unsigned known = model_width(type), wanted = width + model_zeros(type);
    if (known != 0 && known != width) return model_answer(STUN_TYPES_BAD_ARGUMENT, 0, 0, 0);
    if (type == 0x0027 && length == 2) return model_answer(STUN_TYPES_OK, 0, 0, 0);
    if (length < wanted) return model_answer(STUN_TYPES_TRUNCATED, 0, wanted, length);
    if (length > wanted) return model_answer(STUN_TYPES_TOO_LARGE, 0, wanted, length);
    if ((type == 0x000C && (value[0] & 0xF0) != 0x40) || (type == 0x8000 && value[0] != 2)
        || (type == 0x0017 && value[0] != 1 && value[0] != 2))
        return model_answer(STUN_TYPES_INVALID_DATA, 0, 0, 0);
    return model_answer(STUN_TYPES_OK, 0, 0, 0);
}
