#ifndef TIME_H
#define TIME_H
struct timespec {
  long tv_sec;
  long tv_nsec;
};
#define CLOCK_PROCESS_CPUTIME_ID 2
int clock_gettime(int clock, struct timespec *at);
#endif
