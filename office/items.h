/* What each refusal says, for the office's programs. */
#ifndef OFFICE_ITEMS_H
#define OFFICE_ITEMS_H

#include <stdint.h>

/* The item's sentence, without a full stop. */
const char *item_sentence(uint32_t refusal);

#endif
