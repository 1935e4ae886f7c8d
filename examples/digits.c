/* Writes numbers in decimal, from a buffer of the function that makes them. */
char *digits_of(int number) {
    char digits[12];
    char *next = digits + 11;
    *next = 0;
    do {
        next--;
        *next = '0' + number % 10;
        number /= 10;
    } while (number);
    return next;
}

void show(char *text) {
    while (*text)
        putchar(*text++);
    putchar('\n');
}

int main(void) {
    show("squares");
    show(digits_of(12 * 12));
    return 0;
}
