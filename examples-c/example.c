/* The example of 01 "The player's run" through include/ingleskip.h, and what a refusal leaves. tools/c_face.sh builds and runs it. */
#include <ingleskip.h>

/* What is taken of C's library, which the kit has without headers. */
int putchar(int c);
int memcmp(const void *a, const void *b, size_t n);
void *memcpy(void *to, const void *from, size_t n);

static uint32_t memory[INGLESKIP_MEMORY], before[INGLESKIP_MEMORY];
static uint8_t buffer[INGLESKIP_EVENT_BYTES], filled[INGLESKIP_EVENT_BYTES];

static size_t length(const char *s)
{
    size_t n = 0;
    while (s[n])
        n++;
    return n;
}

static uint32_t step(const char *item, size_t place, size_t *count)
{
    return ingleskip_step((const uint8_t *)item, length(item), memory, buffer, sizeof buffer, place, count);
}

/* The line that the player has for an item. */
static void play(const char *item)
{
    size_t count;
    uint32_t number = step(item, 0, &count);
    if (number != 0)
        putchar('0' + (int)number);
    else if (count == 0) {
        putchar('(');
        putchar(')');
    }
    for (size_t i = 0; i < count; i++)
        putchar(buffer[i]);
    putchar('\n');
}

/* 0 where the item is refused so, and memory and buffer are as they were. */
static int refuses(const char *item, size_t place, uint32_t number)
{
    size_t count = 1;
    memcpy(before, memory, sizeof memory);
    memcpy(filled, buffer, sizeof buffer);
    if (step(item, place, &count) != number || count != 0)
        return 1;
    return memcmp(before, memory, sizeof memory) != 0 || memcmp(filled, buffer, sizeof buffer) != 0;
}

int main(void)
{
    static const char opens[] = "((1:11:17:TRIGGER)(6:urlbar3:new1:P1:51:7()())((6:window2:30)(7:request2:31)(3:dns2:32)))";
    static const char answers[] = "((1:11:2(11:DNSResolved1:51:9(3:dns2:32)))()())";
    for (size_t i = 0; i < INGLESKIP_MEMORY; i++)
        memory[i] = 4294967295u - (uint32_t)i;
    ingleskip_empty(memory);
    play(opens);
    play(answers);
    return refuses("03:abc", 0, 1) || refuses("()", 0, 2) || refuses(answers, 0, 3) || refuses(opens, 0, 5)
        || refuses("((1:11:17:TRIGGER)(6:urlbar3:new1:P1:51:7()())((6:window2:40)(7:request2:41)(3:dns2:42)))", sizeof buffer - 20, 7);
}
