/* What the driver tells memcheck. Without its header the requests are nothing, and definedness is not seen. */
#ifndef MEMCHECK_REQUESTS_H
#define MEMCHECK_REQUESTS_H

#if defined __has_include
#if __has_include(<valgrind/memcheck.h>)
#include <valgrind/memcheck.h>
#define MEMCHECK_HERE 1
#endif
#endif

#ifndef MEMCHECK_HERE
#include <stddef.h>

static inline int no_request(const void *at, size_t bytes)
{
    (void)at;
    (void)bytes;
    return 0;
}

#define RUNNING_ON_VALGRIND 0
#define VALGRIND_COUNT_ERRORS 0
#define VALGRIND_MAKE_MEM_NOACCESS(at, bytes) no_request(at, bytes)
#define VALGRIND_MAKE_MEM_UNDEFINED(at, bytes) no_request(at, bytes)
#define VALGRIND_MAKE_MEM_DEFINED(at, bytes) no_request(at, bytes)
#define VALGRIND_CHECK_MEM_IS_DEFINED(at, bytes) no_request(at, bytes)
#define VALGRIND_GET_VBITS(at, bits, bytes) (no_request(at, bytes) + no_request(bits, bytes))
#endif

#endif
