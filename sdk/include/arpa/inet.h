/* The order of bytes of numbers that go abroad, and addresses as text; there are no sockets. */
#ifndef _ARPA_INET_H
#define _ARPA_INET_H
#include <machine/endian.h>
#include <stdint.h>
#undef htonl
#undef htons
#undef ntohl
#undef ntohs
static inline uint32_t htonl(uint32_t number)
{
    return __builtin_bswap32(number);
}
static inline uint16_t htons(uint16_t number)
{
    return __builtin_bswap16(number);
}
static inline uint32_t ntohl(uint32_t number)
{
    return __builtin_bswap32(number);
}
static inline uint16_t ntohs(uint16_t number)
{
    return __builtin_bswap16(number);
}
#ifndef _IN_ADDR_T_DECLARED
#define _IN_ADDR_T_DECLARED
typedef uint32_t in_addr_t;
#endif
struct in_addr {
    in_addr_t s_addr;
};
#ifdef __cplusplus
extern "C" {
#endif
int inet_aton(const char *text, struct in_addr *result);
char *inet_ntoa(struct in_addr address);
#ifdef __cplusplus
}
#endif
#endif
