/* The ends of a read as doubles, and the record of a plotting tool (request #108), in C: what a caller does with jinthuol_read and ldexp. */
#ifndef HOST_H
#define HOST_H

#include "jinthuol.h"

/* What jinthuol_read_doubles answers. */
jinthuol_doubles by_hand_doubles(jinthuol_session session);

/* What jinthuol_read_plot_record answers. */
jinthuol_plotted by_hand_plotted(jinthuol_session session);

#endif
