#include "edits.h"

#include <efilib.h>

/* Copies what a variable has, for a change: NULL without memory. */
static uint8_t *copy_of(const struct variables *variables, uint32_t variable, size_t *len)
{
    const uint8_t *data;
    uint8_t *copy;

    *len = 0;
    data = variables_get(variables, variable, len);
    copy = bootkeep_allocate(*len + 1);
    if (copy != NULL)
        CopyMem(copy, (void *)data, *len);
    return copy;
}

static uint32_t number_at(const uint8_t *numbers, size_t place)
{
    return numbers[2 * place] | (uint32_t)numbers[2 * place + 1] << 8;
}

/* Puts changed data in the place of a variable's, and gives up what was allocated for them. */
static uint32_t put_and_free(struct variables *variables, uint32_t variable, uint8_t *data, size_t len)
{
    uint32_t status = data != NULL ? variables_put(variables, variable, data, len) : BOOTKEEP_NO_MEMORY;

    bootkeep_free(data);
    return status;
}

uint32_t edit_next(struct variables *variables, uint32_t number)
{
    uint8_t data[2] = {(uint8_t)number, (uint8_t)(number >> 8)};

    return variables_put(variables, BOOTKEEP_VARIABLE_NEXT, data, sizeof data);
}

uint32_t edit_order(struct variables *variables, size_t place, size_t other)
{
    size_t len;
    uint8_t *order = copy_of(variables, BOOTKEEP_VARIABLE_ORDER, &len);

    for (size_t byte = 0; byte < 2 && order != NULL; byte++) {
        uint8_t held = order[2 * place + byte];
        order[2 * place + byte] = order[2 * other + byte];
        order[2 * other + byte] = held;
    }
    return put_and_free(variables, BOOTKEEP_VARIABLE_ORDER, order, len);
}

uint32_t edit_active(struct variables *variables, uint32_t number)
{
    size_t len;
    uint8_t *option = copy_of(variables, number, &len);

    if (option != NULL)
        option[0] ^= BOOTKEEP_ATTRIBUTE_ACTIVE;
    return put_and_free(variables, number, option, len);
}

/* Takes a number out of BootOrder. */
static uint32_t leave_order(struct variables *variables, uint32_t number)
{
    size_t len, left = 0;
    uint8_t *order = copy_of(variables, BOOTKEEP_VARIABLE_ORDER, &len);

    if (order != NULL && len % 2 != 0)
        left = len;
    for (size_t place = 0; order != NULL && len % 2 == 0 && place < len / 2; place++)
        if (number_at(order, place) != number) {
            order[left++] = order[2 * place];
            order[left++] = order[2 * place + 1];
        }
    return put_and_free(variables, BOOTKEEP_VARIABLE_ORDER, order, left);
}

uint32_t edit_delete(struct variables *variables, uint32_t number)
{
    size_t len = 0;
    const uint8_t *next = variables_get(variables, BOOTKEEP_VARIABLE_NEXT, &len);
    uint32_t status = BOOTKEEP_DONE;

    if (next != NULL && len == 2 && number_at(next, 0) == number)
        status = variables_put(variables, BOOTKEEP_VARIABLE_NEXT, NULL, 0);
    if (status == BOOTKEEP_DONE)
        status = leave_order(variables, number);
    return status == BOOTKEEP_DONE ? variables_put(variables, number, NULL, 0) : status;
}
