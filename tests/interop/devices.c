// Shows loopback devices as others: libnice, which Janus gathers candidates by, passes them over.
#define _GNU_SOURCE
#include <dlfcn.h>
#include <ifaddrs.h>
#include <net/if.h>
#include <stddef.h>

int getifaddrs(struct ifaddrs **list) {
    int (*next)(struct ifaddrs **) = (int (*)(struct ifaddrs **))dlsym(RTLD_NEXT, "getifaddrs");
    int status = next == NULL ? -1 : next(list);
    if (status != 0)
        return status;
    for (struct ifaddrs *it = *list; it != NULL; it = it->ifa_next)
        it->ifa_flags &= ~(unsigned)IFF_LOOPBACK;
    return 0;
}
