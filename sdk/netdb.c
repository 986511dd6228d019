/* Addresses that are written as numbers, and ports too: nothing here asks a name server, so a name of a host is unknown. */
#include <errno.h>
#include <netdb.h>
#include <stdio.h>
#include <stdlib.h>
#include <string.h>

struct found {
    struct addrinfo info;
    struct sockaddr_in address;
};

static int port_of(const char *service, in_port_t *port)
{
    char *end;
    unsigned long number = service ? strtoul(service, &end, 10) : 0;
    if (service && (!*service || *end || number > 65535))
        return EAI_SERVICE;
    *port = htons(number);
    return 0;
}

int getaddrinfo(const char *name, const char *service, const struct addrinfo *hints, struct addrinfo **result)
{
    struct in_addr address = {htonl(hints && hints->ai_flags & AI_PASSIVE ? INADDR_ANY : INADDR_LOOPBACK)};
    in_port_t port;
    int error = port_of(service, &port);
    if (error)
        return error;
    if (hints && hints->ai_family != AF_UNSPEC && hints->ai_family != AF_INET)
        return EAI_FAMILY;
    if ((!name && !service) || (name && !inet_aton(name, &address)))
        return EAI_NONAME;
    struct found *found = calloc(1, sizeof *found);
    if (!found)
        return EAI_MEMORY;
    found->address = (struct sockaddr_in){AF_INET, port, address, {0}};
    found->info.ai_family = AF_INET;
    found->info.ai_socktype = hints ? hints->ai_socktype : 0;
    found->info.ai_protocol = hints ? hints->ai_protocol : 0;
    found->info.ai_addrlen = sizeof found->address;
    found->info.ai_addr = (struct sockaddr *)&found->address;
    *result = &found->info;
    return 0;
}

void freeaddrinfo(struct addrinfo *list)
{
    free(list);
}

int getnameinfo(const struct sockaddr *address, socklen_t size, char *host, socklen_t host_size, char *service,
    socklen_t service_size, int flags)
{
    const struct sockaddr_in *given = (const struct sockaddr_in *)address;
    if (address->sa_family != AF_INET || size < sizeof *given)
        return EAI_FAMILY;
    if (host && flags & NI_NAMEREQD)
        return EAI_NONAME;
    if (host && (socklen_t)snprintf(host, host_size, "%s", inet_ntoa(given->sin_addr)) >= host_size)
        return EAI_OVERFLOW;
    if (service && (socklen_t)snprintf(service, service_size, "%d", ntohs(given->sin_port)) >= service_size)
        return EAI_OVERFLOW;
    return 0;
}

const char *gai_strerror(int error)
{
    switch (error) {
    case EAI_NONAME: return "Name or service not known";
    case EAI_SERVICE: return "Servname not supported";
    case EAI_FAMILY: return "Address family not supported";
    case EAI_MEMORY: return "Memory allocation failure";
    default: return "Name resolution failed";
    }
}
