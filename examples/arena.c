/* An allocator over a static array. It doesn't ask whether there is room. */
struct point {
    int x;
    int y;
};

char arena[40];
int used;

char *take(int bytes) {
    char *block = arena + used;
    used = used + bytes;
    return block;
}

int main(void) {
    struct point *point;
    int i;
    for (i = 0; i < 8; i++) {
        point = (struct point *)take(sizeof(struct point));
        point->x = i;
        point->y = i + i;
        putchar('0' + point->x);
    }
    putchar('\n');
    return used;
}
