/* Newlib's, and the groups of a process. */
#include_next <grp.h>
#ifndef _FLAT_GRP_H
#define _FLAT_GRP_H
#ifdef __cplusplus
extern "C" {
#endif
int setgroups(int count, const gid_t *groups);
#ifdef __cplusplus
}
#endif
#endif
