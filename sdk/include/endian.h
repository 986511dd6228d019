/* The order of bytes by Linux's names; newlib has them in <machine/endian.h> by its own. */
#ifndef _ENDIAN_H
#define _ENDIAN_H
#include <machine/endian.h>
#define __LITTLE_ENDIAN _LITTLE_ENDIAN
#define __BIG_ENDIAN _BIG_ENDIAN
#define __PDP_ENDIAN _PDP_ENDIAN
#define __BYTE_ORDER _BYTE_ORDER
#define htobe16(number) __builtin_bswap16(number)
#define htobe32(number) __builtin_bswap32(number)
#define htobe64(number) __builtin_bswap64(number)
#define be16toh(number) __builtin_bswap16(number)
#define be32toh(number) __builtin_bswap32(number)
#define be64toh(number) __builtin_bswap64(number)
#define htole16(number) (number)
#define htole32(number) (number)
#define htole64(number) (number)
#define le16toh(number) (number)
#define le32toh(number) (number)
#define le64toh(number) (number)
#endif
