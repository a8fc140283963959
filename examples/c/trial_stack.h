/* A program that runs on a small stack. */
#ifndef TRIAL_STACK_H
#define TRIAL_STACK_H

#include "trial.h"
#include <pthread.h>

/* Does the work in a thread with this many octets of stack. */
static void run_on_stack(void *(*work)(void *), size_t stack)
{
    pthread_attr_t how;
    pthread_t thread;
    WANT(pthread_attr_init(&how) == 0 && pthread_attr_setstacksize(&how, stack) == 0);
    WANT(pthread_create(&thread, &how, work, NULL) == 0 && pthread_join(thread, NULL) == 0);
}

#endif
