/* A state machine: a state is a function of a character, and gives the next state. It counts words and numbers. */
enum { BETWEEN, WORD, NUMBER };

int words;
int numbers;

int is_digit(int c) {
    return c >= '0' && c <= '9';
}

int is_letter(int c) {
    return c >= 'a' && c <= 'z';
}

int between(int c) {
    if (is_letter(c)) {
        words++;
        return WORD;
    }
    if (is_digit(c)) {
        numbers++;
        return NUMBER;
    }
    return BETWEEN;
}

int word(int c) {
    return is_letter(c) || is_digit(c) ? WORD : BETWEEN;
}

int number(int c) {
    return is_digit(c) ? NUMBER : between(c);
}

int (*states[3])(int) = { between, word, number };

int main(void) {
    char *text = "x1 = 10 + y + 20z;";
    int state = BETWEEN;
    while (*text) {
        state = states[state](*text);
        text++;
    }
    putchar('0' + words);
    putchar(' ');
    putchar('0' + numbers);
    putchar('\n');
    return words + numbers;
}
