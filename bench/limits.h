/* The limit that the contenders share with the library. */
#ifndef LIMITS_H
#define LIMITS_H

/* Test 22 refuses an add beyond it, and test 11 a begin whose 2M is above LARGEST_ORDER + 2: test 23 would refuse each of its
   reads. */
enum { LARGEST_ORDER = 1024 };

#endif
