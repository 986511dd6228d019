/* Types as Linux has them on RV32, where most of newlib's own have 16 bits. Newlib is built with these headers in front, too. */
#ifndef _MACHINE__TYPES_H
#define _MACHINE__TYPES_H
#include <machine/_default_types.h>
#define __machine_dev_t_defined
typedef unsigned int __dev_t;
#define __machine_ino_t_defined
typedef unsigned long __ino_t;
#define __machine_uid_t_defined
typedef unsigned int __uid_t;
#define __machine_gid_t_defined
typedef unsigned int __gid_t;
#define __machine_mode_t_defined
typedef unsigned int __mode_t;
#endif
