/* A list of numbers and texts. An item is cast down to what its tag says it is. */
enum { NUMBER, TEXT };

struct item {
    int tag;
    struct item *next;
};

struct number {
    int tag;
    struct item *next;
    int value;
};

struct text {
    int tag;
    struct item *next;
    char *words;
};

struct number answer = { NUMBER, 0, 42 };
struct text greeting = { TEXT, 0, "hello" };
struct number year = { NUMBER, 0, 99 };

void show(struct item *one) {
    struct number *number;
    char *words;
    if (one->tag == NUMBER) {
        number = (struct number *)one;
        putchar('0' + number->value / 10);
        putchar('0' + number->value % 10);
    } else {
        for (words = ((struct text *)one)->words; *words; words++)
            putchar(*words);
    }
    putchar('\n');
}

int main(void) {
    struct item *list = (struct item *)&answer;
    struct item *one;
    list->next = (struct item *)&greeting;
    list->next->next = (struct item *)&year;
    year.tag = TEXT; /* and it is a number */
    for (one = list; one; one = one->next)
        show(one);
    return 0;
}
