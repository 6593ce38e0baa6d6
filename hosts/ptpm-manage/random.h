/* Octets that nobody can have foreseen. */
#pragma once

#include <stddef.h>
#include <stdint.h>

/* Fills them from the kernel's generator. Ends the program with status 2 if there is none. */
void draw_octets(uint8_t *octets, size_t size);

/* A sequenceId of 16 such bits. */
uint16_t draw_number(void);

/* The sequenceId of a question by nobody: one after the other, from a drawn one on. */
uint16_t next_number(void);
