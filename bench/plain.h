/* The calls in plain C, written for speed with no proof: what the library is measured against. It is an own reading of the scope paper
 * and shares nothing with the library. It takes any bytes and has all refusals in their order, but asks for no work area (what the library
 * keeps there is static here), so row 23 is in rooms alone, and one thread may call it. For x86-64. */
#ifndef PLAIN_H
#define PLAIN_H

#include "plain_calls.h"
#include "plain_check.h"
#include "plain_dimacs.h"
#include "plain_rooms.h"
#include "plain_search.h"
#include "plain_table.h"

#endif
