int main(void) {
    int x;
    int *p;
    p = &x;
    *p = 72;
    putchar(*p);
    x = 105;
    putchar(*p);
    putchar(10);
    return 0;
}
