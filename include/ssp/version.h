/* The target and the version of ssp.h; include that. */
#ifndef SSP_VERSION_H
#define SSP_VERSION_H

#if !defined(__x86_64__)
#error "ssp.h: the library is built for x86-64; this is another architecture"
#elif defined(_WIN32) || defined(__CYGWIN__)
#error "ssp.h: the library follows the System V calling convention; Windows has another one"
#elif defined(__ILP32__)
#error "ssp.h: the library has pointers of 64 bits; this is x32 (ILP32)"
#endif
#if defined(__cplusplus)
#if __cplusplus < 201103L
#error "ssp.h: needs C++11 or later"
#endif
#elif !defined(__STDC_VERSION__) || __STDC_VERSION__ < 199901L
#error "ssp.h: needs C99 or later"
#endif

#include <stdint.h>

#ifdef __cplusplus
extern "C" {
#endif

/* MAJOR moves when a program's source must change; MINOR when something is added and older source still compiles; PATCH when the interface did
 * not change. SSP_VERSION is one number that compares: 10203 is 1.2.3. */
#define SSP_VERSION_MAJOR 1
#define SSP_VERSION_MINOR 3
#define SSP_VERSION_PATCH 0
#define SSP_VERSION (SSP_VERSION_MAJOR * 10000 + SSP_VERSION_MINOR * 100 + SSP_VERSION_PATCH)
#define SSP_VERSION_STRING "1.3.0"

/* Returns the SSP_VERSION that the archive was built with. A program compares at start-up: `ssp_version() == SSP_VERSION`. */
uint32_t ssp_version(void);

/* Returns 4, the number of the binary interface. The number, and so the name, moves when a record's layout or a function's parameters or result
 * change. Every source file that includes ssp.h refers to the function, so it links only with an archive of the same interface: else the linker
 * reports `ssp_interface_4` as undefined. That costs 8 bytes of read-only data for each such file. Before gcc 11 and clang 13 the linker's
 * --gc-sections can drop the reference; a compiler without gcc's attributes does not make it. */
uint32_t ssp_interface_4(void);

#if defined(__has_attribute)
#if __has_attribute(retain)
#define SSP_KEEP __attribute__((used, retain))
#endif
#endif
#if !defined(SSP_KEEP) && defined(__GNUC__)
#define SSP_KEEP __attribute__((used))
#endif
#ifdef SSP_KEEP
static uint32_t (*const ssp_interface_linked)(void) SSP_KEEP = ssp_interface_4;
#undef SSP_KEEP
#endif

#ifdef __cplusplus
}
#endif

#endif
