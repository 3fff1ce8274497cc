/* Asks for the picture of a port as the window manager, by live/wfclient.h, for trying the longest answer: its width and its height, of two
 * bytes each, and its pixels go to standard output. Its words are the broker's folder and the port. */
#include "../../live/wfclient.h"

#include <stdio.h>
#include <stdlib.h>

enum { MOST_SIDE = 1024, SIDES = 4 };

static uint8_t room[SIDES + 4 * MOST_SIDE * MOST_SIDE];

int main(int argc, char **argv) {
    wf_client client;
    char path[108];
    if (argc != 3 || (size_t)snprintf(path, sizeof path, "%s/wm", argv[1]) >= sizeof path) return 2;
    if (wf_open(&client, path)) return perror(path), 1;
    wf_told told = wf_begin_port(&client, atoi(argv[2]), room, sizeof room);
    if (told.code != WF_CODE_OK) return fprintf(stderr, "code %u\n", (unsigned)told.code), 1;
    size_t w = (size_t)room[0] << 8 | room[1], h = (size_t)room[2] << 8 | room[3], count = told.value == 0 ? 0 : SIDES + 4 * w * h;
    wf_close(&client);
    return fwrite(room, 1, count, stdout) == count ? 0 : 1;
}
