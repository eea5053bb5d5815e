/*
 * The whole station in 64 KiB: checks a file that arrives in pieces of 4 KiB on a stack of that size, which
 * also holds the state and the piece. Below it lies a page that cannot be touched.
 * Prints how much was used and ends with status 0, or says what differs and ends with status 1.
 */
#include "stack.h"

#include <sys/mman.h>

enum { STATION = 65536, PAGE = 4096, PIECE = 4096 };
enum { SECTION_LENGTH = 50000, DATA_LENGTH = EIF_MAX_SECTIONS * SECTION_LENGTH, IMAGE_ROOM = 2000000 };

/* What is sent; the station has no room for it. */
static uint8_t data[DATA_LENGTH], image[IMAGE_ROOM];
static size_t image_length, sent;

/* What the station says. */
static uint8_t number;
static uint16_t count;

/* The radio: the next bytes of the file, as many as there is room for. */
static size_t receive(uint8_t *piece, size_t room) {
    size_t length = image_length - sent < room ? image_length - sent : room;
    memcpy(piece, image + sent, length);
    sent += length;
    return length;
}

static void station(void) {
    uint8_t piece[PIECE];
    eif_arriving state = eif_arriving_begin();
    eif_arriving_finished end;
    size_t length;
    while ((length = receive(piece, sizeof piece)) != 0) {
        state = eif_arriving_feed(state, piece, length, UINT64_MAX).state;
    }
    end = eif_arriving_finish(state);
    number = end.reading.number;
    count = end.reading.count;
}

/* As many sections as an image can have, and more bytes than the station has. */
static int prepare(void) {
    eif_answer answer;
    memset(data, 0x5a, sizeof data);
    answer = eif_write(full_plan(2, SECTION_LENGTH), data, sizeof data, image, sizeof image);
    image_length = (size_t)answer.length;
    return answer.number == EIF_ACCEPTED;
}

/* The bytes of the stack that the station took, or 0 where there is no stack to try it on. */
static size_t used(void) {
    uint8_t *memory = (uint8_t *)mmap(NULL, PAGE + STATION, PROT_READ | PROT_WRITE,
                                      MAP_PRIVATE | MAP_ANONYMOUS, -1, 0);
    if (memory == MAP_FAILED || mprotect(memory, PAGE, PROT_NONE) != 0) {
        return 0;
    }
    return stack_used(memory + PAGE, STATION, station);
}

int main(void) {
    size_t bytes;
    if (!prepare()) {
        printf("station: no image to try\n");
        return 1;
    }
    bytes = used();
    if (bytes == 0 || number != EIF_ACCEPTED || count != EIF_MAX_SECTIONS || sent != image_length) {
        printf("station: the image is not accepted\n");
        return 1;
    }
    printf("station: a file of %zu bytes by %d: %zu of %d bytes used, stack, state and piece\n",
           image_length, PIECE, bytes, STATION);
    return 0;
}
