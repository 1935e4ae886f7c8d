/* A value is a number or a text, and a union holds either. The last one is shown as what it isn't. */
union content {
    long number;
    char *text;
};

struct value {
    int is_text;
    union content content;
};

struct value values[3];

void show(struct value *value) {
    char *text;
    if (value->is_text) {
        text = value->content.text;
        while (*text)
            putchar(*text++);
    } else {
        putchar('0' + value->content.number);
    }
    putchar('\n');
}

int main(void) {
    int i;
    values[0].content.number = 7;
    values[1].is_text = 1;
    values[1].content.text = "seven";
    values[2].is_text = 1;
    values[2].content.number = 7;
    for (i = 0; i < 3; i++)
        show(&values[i]);
    return 0;
}
