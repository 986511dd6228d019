/* Addresses of IP as text: four numbers of a byte each, or fewer, of which the last one fills the rest. */
#include <arpa/inet.h>
#include <stdio.h>
#include <stdlib.h>

int inet_aton(const char *text, struct in_addr *result)
{
    unsigned long parts[4];
    int count = 0;
    for (char *end;; text = end + 1) {
        if (*text < '0' || *text > '9' || count == 4)
            return 0;
        parts[count++] = strtoul(text, &end, 0);
        if (*end != '.') {
            if (*end)
                return 0;
            break;
        }
    }
    unsigned long address = parts[count - 1], most = 0xfffffffful >> 8 * (count - 1);
    if (address > most)
        return 0;
    for (int i = 0; i < count - 1; i++) {
        if (parts[i] > 255)
            return 0;
        address |= parts[i] << (24 - 8 * i);
    }
    result->s_addr = htonl(address);
    return 1;
}

char *inet_ntoa(struct in_addr address)
{
    static char text[16];
    unsigned number = ntohl(address.s_addr);
    sprintf(text, "%u.%u.%u.%u", number >> 24, number >> 16 & 255, number >> 8 & 255, number & 255);
    return text;
}
