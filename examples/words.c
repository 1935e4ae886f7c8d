/* Counts the words of its input. Each is kept once, in a list, with how often it came. */
struct word {
    struct word *next;
    char *text;
    int count;
};

struct word *words;

int same(char *a, char *b) {
    while (*a && *a == *b) {
        a++;
        b++;
    }
    return *a == *b;
}

char *keep(char *text, int length) {
    char *kept = (char *)malloc(length + 1);
    int i;
    for (i = 0; i < length; i++)
        kept[i] = text[i];
    kept[length] = 0;
    return kept;
}

void note(char *text, int length) {
    struct word *word;
    for (word = words; word; word = word->next)
        if (same(word->text, text)) {
            word->count++;
            return;
        }
    word = (struct word *)malloc(sizeof(struct word));
    word->next = words;
    word->text = keep(text, length);
    word->count = 1;
    words = word;
}

int main(void) {
    char text[32];
    char *letter;
    struct word *word;
    int length = 0;
    int c;
    while ((c = getchar()) >= 0) {
        if (c >= 'a' && c <= 'z') {
            text[length++] = c;
        } else if (length) {
            text[length] = 0;
            note(text, length);
            length = 0;
        }
    }
    for (word = words; word; word = word->next) {
        putchar('0' + word->count);
        putchar(' ');
        for (letter = word->text; *letter; letter++)
            putchar(*letter);
        putchar('\n');
    }
    return 0;
}
