int main(void) {
    int *p;
    p = 0;
    return *p;
}
