/* A gateway from managers that speak SNMPv3 to devices that speak SNMPv2c: snmpsec-gate [OPTION..] CONFIG
 *
 * The library decides who asks, whether it is fresh, what this user may see and set, what a device is asked and what
 * goes back. Here stand the sockets, the clock, the salts, the boots and the lines. Not proved. */
#define _GNU_SOURCE
#include "files.h"
#include "gateway.h"
#include "lines.h"
#include "service.h"
#include <getopt.h>
#include <stdio.h>

static int print_usage(FILE *to, int status) {
    fputs("snmpsec-gate [OPTION..] CONFIG\n"
          "  --check               read the configuration, say what is probably a mistake, and end\n"
          "  --listen ADDRESS:PORT listen there, and not where the configuration says; may be repeated\n"
          "  --user NAME           run as this user once the sockets are open\n"
          "  --log-datagrams FILE  append what clients send, in the form that `snmpsec replay` reads\n"
          "  --counts FILE         write the counts there at SIGUSR1 and at the end, and not to standard error\n"
          "  --version             print the version of the library\n"
          "  --help                print this\n", to);
    return status;
}

/* Reads the options and the word: -1 where all is well, or the status to end with. */
static int read_words(int argc, char **argv, struct words *words) {
    static const struct option options[] = {{"check", no_argument, NULL, 'c'}, {"listen", required_argument, NULL, 'l'},
                                            {"user", required_argument, NULL, 'u'},
                                            {"log-datagrams", required_argument, NULL, 'd'},
                                            {"counts", required_argument, NULL, 'n'},
                                            {"version", no_argument, NULL, 'v'},
                                            {"help", no_argument, NULL, 'h'}, {0}};
    for (int option; (option = getopt_long(argc, argv, "", options, NULL)) != -1;)
        switch (option) {
        case 'c': words->checks = true; break;
        case 'l':
            if (words->listens == MOST_LISTENERS) return print_usage(stderr, 2);
            words->listen[words->listens++] = optarg;
            break;
        case 'u': words->user = optarg; break;
        case 'd': words->log = optarg; break;
        case 'n': words->counts = optarg; break;
        case 'v': puts(snmpsec_version()); return 0;
        case 'h': return print_usage(stdout, 0);
        default: return print_usage(stderr, 2);
        }
    if (argc - optind != 1) return print_usage(stderr, 2);
    words->config = argv[optind];
    return -1;
}

int main(int argc, char **argv) {
    static struct gateway gateway;
    static struct words words;
    int status = read_words(argc, argv, &words);
    if (status != -1) return status;
    if (!words.checks) lines_begin();
    keep_secrets();
    if (words.checks) return gateway_check(&words);
    hold_signals();
    status = gateway_open(&gateway, &words);
    if (!status) {
        status = serve(&gateway, &words);
        if (words.counts) gateway_counts(&gateway, &words);
    }
    gateway_close(&gateway);
    return status;
}
