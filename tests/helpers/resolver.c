// Preloaded into the program by tests/sockets: a resolver that knows the names in the environment variable NAMES, such as
// `twice.test=127.0.0.2,127.0.0.1;mixed.test=::1,127.0.0.1`, with their addresses in this order. Other names are the
// system's.
#define _GNU_SOURCE
#include <arpa/inet.h>
#include <dlfcn.h>
#include <netdb.h>
#include <netinet/in.h>
#include <stdlib.h>
#include <string.h>

enum { OURS = 0x5a5a };

static struct addrinfo *entry(const char *address, const char *service, const struct addrinfo *hints) {
    struct addrinfo *one = calloc(1, sizeof *one + sizeof(struct sockaddr_in6));
    struct sockaddr_in *four = (void *)(one + 1);
    struct sockaddr_in6 *six = (void *)(one + 1);
    one->ai_flags = OURS;
    one->ai_socktype = hints && hints->ai_socktype ? hints->ai_socktype : SOCK_STREAM;
    one->ai_protocol = one->ai_socktype == SOCK_DGRAM ? IPPROTO_UDP : IPPROTO_TCP;
    one->ai_addr = (void *)(one + 1);
    in_port_t port = htons((in_port_t)(service ? atoi(service) : 0));
    if (inet_pton(AF_INET, address, &four->sin_addr) == 1) {
        one->ai_family = four->sin_family = AF_INET;
        one->ai_addrlen = sizeof *four;
        four->sin_port = port;
    } else if (inet_pton(AF_INET6, address, &six->sin6_addr) == 1) {
        one->ai_family = six->sin6_family = AF_INET6;
        one->ai_addrlen = sizeof *six;
        six->sin6_port = port;
    }
    return one;
}

// The addresses of a name: a copy of the part of NAMES after `NAME=`, or NULL.
static char *addresses_of(const char *name) {
    const char *names = getenv("NAMES");
    size_t length = strlen(name);
    for (const char *at = names; at && *at; at = strchr(at, ';') ? strchr(at, ';') + 1 : 0) {
        if (!strncmp(at, name, length) && at[length] == '=') {
            at += length + 1;
            return strndup(at, strcspn(at, ";"));
        }
    }
    return 0;
}

int getaddrinfo(const char *restrict name, const char *restrict service, const struct addrinfo *restrict hints,
    struct addrinfo **restrict found) {
    int (*next)(const char *, const char *, const struct addrinfo *, struct addrinfo **);
    *(void **)&next = dlsym(RTLD_NEXT, "getaddrinfo");
    char *addresses = name ? addresses_of(name) : 0;
    if (!addresses) return next(name, service, hints, found);
    struct addrinfo **last = found;
    char *rest = 0;
    for (char *one = strtok_r(addresses, ",", &rest); one; one = strtok_r(0, ",", &rest)) {
        *last = entry(one, service, hints);
        last = &(*last)->ai_next;
    }
    free(addresses);
    return 0;
}

void freeaddrinfo(struct addrinfo *list) {
    void (*next)(struct addrinfo *);
    *(void **)&next = dlsym(RTLD_NEXT, "freeaddrinfo");
    if (list && list->ai_flags != OURS) {
        next(list);
        return;
    }
    while (list) {
        struct addrinfo *one = list;
        list = list->ai_next;
        free(one);
    }
}
