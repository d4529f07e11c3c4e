/* What lean_door.h and lean.h share: their version, and what they ask of a pointer. */
#ifndef LEAN_VERSION_H
#define LEAN_VERSION_H

#include <stdint.h>

/* The version of both headers: 65536 times the interface, and a revision. The interface is another where a caller must change
 * (1 had a reply room of 34 bytes, 2 has one of 58, since 3 a request needs an age); the revision counts what was added to it.
 * Firmware compares at its start: the archive is good for these headers where lean_version() / 65536 is LEAN_VERSION / 65536 and
 * lean_version() is at least LEAN_VERSION. */
#define LEAN_VERSION 0x00030000u

/* No pointer may be null, also where its length is 0. */
#if defined(__GNUC__) || defined(__clang__)
#define LEAN_NONNULL __attribute__((nonnull))
#else
#define LEAN_NONNULL
#endif

#ifdef __cplusplus
extern "C" {
#endif

/* The version of the archive that is linked: LEAN_VERSION as it was when the archive was made. */
uint32_t lean_version(void);

#ifdef __cplusplus
}
#endif

#endif
