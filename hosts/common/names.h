/* Names for numbers, and numbers for names, as the library has them. A name that was given stays until the next call of its
   function. */
#pragma once

#include <stdint.h>

/* The managementId (IEEE 1588-2019, 15.5.2.3) of a name, in either case. Or that of four hexadecimal digits, with or without 0x
   before them. -1 if the text is neither. */
long id_named(const char *text);

/* The name of a managementId of this profile; NULL if it has none. */
const char *id_name(uint16_t id);

/* The same for a GET: also that of an id that only other clocks have, and whose dataField the library reads by its members. */
long read_id_named(const char *text);

/* The name of such an id too. */
const char *read_id_name(uint16_t id);

/* The name of a managementErrorId (15.5.4.3); NULL if the standard has none. */
const char *error_name(uint16_t error);

/* The same, or 0x and four hexadecimal digits. */
const char *error_text(uint16_t error);

/* The name of why the library starts or begins nothing: that of the constant in ptpm.h, without PTPM_. */
const char *answer_name(uint32_t answer);

/* The member whose value an answer refuses, such as PRIORITY1 of PTPM_BAD_PRIORITY1. The whole name of an answer that refuses none. */
const char *refused_member(uint32_t answer);
