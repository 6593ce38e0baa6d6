/* Every clock of a site asked for several ids in one run, such as the six that `ptpm site` looks at. */
#pragma once

#include "domains.h"
#include "lines.h"
#include "seen.h"
#include "task.h"
#include <stdio.h>

/* The ids that are collected, in the order in which they are asked. And how many clocks each domain is said to have, or 0. */
struct collected { size_t count; uint16_t ids[MOST_COLLECTED], clocks[DOMAINS]; };

/* The six of a site. */
extern const struct collected of_site;

/* Asks every clock of each of the 256 domains of each sdoId that is there for DEFAULT_DATA_SET, and adds the domains in which one answers.
   Nothing is printed. */
void add_answering_domains(struct domains *domains, const struct task *task);

/* Asks every clock of these domains for these ids, and prints each answer, the whole message in hexadecimal on a line. ANSWERED if a
   clock answered; else the program's status, and why is said. Each call asks with new numbers, and after it `seen.h` has the clocks
   of the latest. */
int collect_answers(const struct task *task, const struct collected *what, const struct domains *domains, FILE *to);

/* Says of the latest collection which clocks gave some answers, and not all. */
void tell_lacking(void);

/* What is known of the latest collection. It is there until the next one. */
const struct sureness *sureness_of_collection(void);
