/* One source for both sizes of the calls: the small ones where SMALL is defined, the plain ones else. */
#ifndef SIZE_H
#define SIZE_H

#include <mespindro.h>

#ifdef SMALL
#define CALL(name) mespindro_small_##name
#define CALLED(name) "small_" name
#define NODES MESPINDRO_SMALL_NODES
#define TEXT MESPINDRO_SMALL_TEXT
#define TABLE MESPINDRO_SMALL_TABLE
#define COLUMN MESPINDRO_SMALL_COLUMN
#else
#define CALL(name) mespindro_##name
#define CALLED(name) name
#define NODES MESPINDRO_NODES
#define TEXT MESPINDRO_TEXT
#define TABLE MESPINDRO_TABLE
#define COLUMN MESPINDRO_COLUMN
#endif

#endif
