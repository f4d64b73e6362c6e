/* For a compiler that comes with no headers: what the host programs use of this one. */
#ifndef TIME_H
#define TIME_H
struct timespec {
    long tv_sec;
    long tv_nsec;
};
#define CLOCK_MONOTONIC 1
int nanosleep(const struct timespec *how_long, struct timespec *left);
int clock_gettime(int clock, struct timespec *at);
#endif
