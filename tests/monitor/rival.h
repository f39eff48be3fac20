/* The cases of rival.c that are about files and connections. */
#ifndef RIVAL_H
#define RIVAL_H

#include "client.h"

enum { CONNECTIONS = 20 }; /* of an operator with four seats */

extern const char *path;

void odd_packets(void);
void slow_files(void);
void stuck_channels(void);
void bad_channels(void);
void own_end(void);
void never_closes(void);

#endif
