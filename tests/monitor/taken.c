/* Listens at a Unix socket's path, as a program that is no monitor.
 *
 * usage: taken SOCKET
 */
#define _GNU_SOURCE
#include <stdio.h>
#include <sys/socket.h>
#include <sys/un.h>
#include <unistd.h>

int main(int count, char **words)
{
    struct sockaddr_un address = {.sun_family = AF_UNIX};
    const int fd = socket(AF_UNIX, SOCK_SEQPACKET, 0);
    if (count != 2 || (size_t)snprintf(address.sun_path, sizeof address.sun_path, "%s", words[1]) >= sizeof address.sun_path ||
        bind(fd, (struct sockaddr *)&address, sizeof address) != 0 || listen(fd, 1) != 0) {
        return 1;
    }
    puts("bound");
    fflush(stdout);
    return (int)sleep(60);
}
