/* Turns round the words of a text in its place: first all bytes, then those of each word back again. */
#include "rsim.h"

static char text[] = "each processor has an output of its own";

static size_t length_of(const char *s)
{
    size_t length = 0;
    while (s[length])
        length++;
    return length;
}

static void reverse(char *first, char *end)
{
    while (first < end) {
        char byte = *first;
        *first++ = *--end;
        *end = byte;
    }
}

static void reverse_words(char *s)
{
    char *word = s;
    for (char *at = s;; at++) {
        if (*at && *at != ' ')
            continue;
        reverse(word, at);
        word = at + 1;
        if (!*at)
            return;
    }
}

int main(void)
{
    reverse(text, text + length_of(text));
    reverse_words(text);
    put_text(text);
    put_byte('\n');
    return 0;
}
